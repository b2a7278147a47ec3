//! A program's output lines, each beside its event in words.

use crate::answer::Answer;
use crate::binary::Refused;
use crate::explain::Teller;
use crate::names::Names;
use crate::print;
use crate::sheet::Sheet;

/// The words start in one column, unless a line is longer than this.
const WIDEST: usize = 24;

#[derive(Clone, Debug, PartialEq, Eq)]
pub struct Beside {
    pub text: String,
    /// What is wrong with the first line that does not fit, after which the
    /// text ends.
    pub misfit: Option<String>,
}

/// The output for a good sheet.
pub fn of_sheet(sheet: &Sheet, names: &Names, output: &str) -> Beside {
    let mut lines = output.split_terminator('\n');
    let mut said = Vec::new();
    let misfit = sheet_lines(sheet, names, &mut lines, &mut said)
        .and_then(|()| ending(output, lines))
        .err();
    Beside {
        text: in_columns(&said),
        misfit,
    }
}

/// The output for a sheet that has to be refused.
pub fn of_refused(refused: &Refused, output: &str) -> Beside {
    let Refused { number, place, why } = refused;
    let expected = format!("sheet {number} {place}");
    let mut lines = output.split_terminator('\n');
    let mut said = Vec::new();
    let first = match lines.next() {
        Some(line) if line == expected => {
            said.push((
                line,
                format!("refused at byte {place}, counted from 0: {why}"),
            ));
            Ok(())
        }
        first => Err(format!(
            "this sheet gets the line '{expected}' ({why}), but {}",
            instead(1, first)
        )),
    };
    Beside {
        text: in_columns(&said),
        misfit: first.and_then(|()| ending(output, lines)).err(),
    }
}

type Said<'a> = (&'a str, String);

fn sheet_lines<'a>(
    sheet: &Sheet,
    names: &Names,
    lines: &mut impl Iterator<Item = &'a str>,
    said: &mut Vec<Said<'a>>,
) -> Result<(), String> {
    let mut teller = Teller::new(names);
    for (position, event) in (1..).zip(&sheet.events) {
        let line = lines.next();
        let answer = line.and_then(|line| Answer::read(line, position, event));
        let words = answer.and_then(|answer| teller.tell(event, &answer));
        let (Some(line), Some(words)) = (line, words) else {
            return Err(format!(
                "line {position} should answer event {position}, {}, but {}",
                print::event(names, event),
                instead(position, line)
            ));
        };
        said.push((line, words));
    }
    match lines.next() {
        Some("end") => {
            said.push(("end", String::new()));
            Ok(())
        }
        line => Err(format!(
            "after the last event comes the line 'end', but {}",
            instead(sheet.events.len() + 1, line)
        )),
    }
}

/// Nothing follows, and the last line has its end.
fn ending<'a>(output: &str, mut lines: impl Iterator<Item = &'a str>) -> Result<(), String> {
    match lines.next() {
        Some(line) => Err(format!("a line follows that has no place here: '{line}'")),
        None if output.ends_with('\n') => Ok(()),
        None => Err("the last line has no line end".to_string()),
    }
}

fn instead(number: usize, line: Option<&str>) -> String {
    match line {
        Some(line) => format!("line {number} is '{line}'"),
        None => format!("the output ends before line {number}"),
    }
}

fn in_columns(said: &[Said]) -> String {
    let widths = said.iter().map(|(line, _)| line.len());
    let width = widths.filter(|width| *width <= WIDEST).max().unwrap_or(0);
    said.iter()
        .map(|(line, words)| match &words[..] {
            "" => format!("{line}\n"),
            words => format!("{line:width$}   {words}\n"),
        })
        .collect()
}
