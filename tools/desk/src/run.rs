//! A program run on a sheet.

use std::io::{self, Write};
use std::process::{Command, Stdio};
use std::thread;

pub struct Ran {
    pub output: String,
    /// How it ended, if not well. Its output may be good all the same.
    pub failure: Option<String>,
}

/// The program's standard error stays the desk's own.
pub fn run(program: &str, sheet: Vec<u8>) -> Result<Ran, String> {
    let cannot = |error: io::Error| format!("cannot run {program}: {error}");
    let mut child = Command::new(program)
        .stdin(Stdio::piped())
        .stdout(Stdio::piped())
        .spawn()
        .map_err(cannot)?;
    let input = child.stdin.take();
    // From a thread of its own, so that neither side waits for the other. A
    // program need not read a sheet that is too long to its end, so a closed
    // pipe is no fault.
    let writer = thread::spawn(move || {
        if let Some(mut input) = input {
            let _ = input.write_all(&sheet);
        }
    });
    let ended = child.wait_with_output().map_err(cannot)?;
    let _ = writer.join();
    let output = String::from_utf8(ended.stdout)
        .map_err(|_| format!("the output of {program} is not text"))?;
    let failure =
        (!ended.status.success()).then(|| format!("{program} ended with {}", ended.status));
    Ok(Ran { output, failure })
}
