//! The command line: see README.md.

use std::env;
use std::fs;
use std::io::{self, Read, Write};
use std::process::ExitCode;

use desk::beside::{self, Beside};
use desk::binary;
use desk::names::Names;
use desk::print;
use desk::run::{run, Ran};
use desk::text::{self, Text};

const USAGE: &str = "desk write [FILE]         a sheet as text to its bytes
desk read [FILE]          a sheet's bytes to text
desk play PROGRAM [FILE]  PROGRAM's answers to a sheet, text or bytes, in words
Without FILE, standard input is read.";

fn main() -> ExitCode {
    let arguments: Vec<String> = env::args().skip(1).collect();
    let arguments: Vec<&str> = arguments.iter().map(String::as_str).collect();
    let result = match arguments[..] {
        ["write"] => write(None),
        ["write", file] => write(Some(file)),
        ["read"] => read(None),
        ["read", file] => read(Some(file)),
        ["play", program] => play(program, None),
        ["play", program, file] => play(program, Some(file)),
        _ => Err(USAGE.to_string()),
    };
    match result {
        Ok(()) => ExitCode::SUCCESS,
        Err(message) => {
            eprintln!("{message}");
            ExitCode::FAILURE
        }
    }
}

struct Input {
    name: String,
    bytes: Vec<u8>,
}

impl Input {
    fn read(file: Option<&str>) -> Result<Input, String> {
        let name = file.unwrap_or("standard input").to_string();
        let mut bytes = Vec::new();
        let read = match file {
            Some(file) => fs::read(file).map(|content| bytes = content),
            None => io::stdin().read_to_end(&mut bytes).map(|_| ()),
        };
        match read {
            Ok(()) => Ok(Input { name, bytes }),
            Err(error) => Err(format!("cannot read {name}: {error}")),
        }
    }

    fn text(&self) -> Result<Text, String> {
        let name = &self.name;
        let content = text::as_text(&self.bytes)
            .ok_or_else(|| format!("{name}: this is not text; a binary sheet is for desk read"))?;
        text::read(content).map_err(|wrong| format!("{name}:{}: {}", wrong.line, wrong.why))
    }
}

fn write(file: Option<&str>) -> Result<(), String> {
    print_out(&Input::read(file)?.text()?.bytes())
}

fn read(file: Option<&str>) -> Result<(), String> {
    let input = Input::read(file)?;
    match binary::read(&input.bytes) {
        Ok(sheet) => print_out(print::sheet(&sheet).as_bytes()),
        Err(refused) => {
            let mut message = format!(
                "{}: sheet {} {}: {}",
                input.name, refused.number, refused.place, refused.why
            );
            if text::looks_like_text(&input.bytes) {
                message += "\nthis looks like text, which is for desk write";
            }
            Err(message)
        }
    }
}

fn play(program: &str, file: Option<&str>) -> Result<(), String> {
    let input = Input::read(file)?;
    let text = if text::looks_like_text(&input.bytes) {
        input.text()?
    } else {
        Text::Bytes(input.bytes)
    };
    let bytes = text.bytes();
    let sheet = match text {
        Text::Sheet(sheet, names) => Ok((sheet, names)),
        Text::Bytes(ref bytes) => binary::read(bytes).map(|sheet| {
            let names = Names::numbered(&sheet);
            (sheet, names)
        }),
    };
    let Ran { output, failure } = run(program, bytes)?;
    let Beside { text, misfit } = match sheet {
        Ok((sheet, names)) => beside::of_sheet(&sheet, &names, &output),
        Err(refused) => beside::of_refused(&refused, &output),
    };
    print_out(text.as_bytes())?;
    let misfit = misfit.map(|why| format!("the output of {program} does not fit the sheet: {why}"));
    let faults: Vec<_> = [misfit, failure].into_iter().flatten().collect();
    if faults.is_empty() {
        Ok(())
    } else {
        Err(faults.join("\n"))
    }
}

fn print_out(bytes: &[u8]) -> Result<(), String> {
    let mut out = io::stdout().lock();
    out.write_all(bytes)
        .and_then(|()| out.flush())
        .map_err(|error| format!("cannot write: {error}"))
}
