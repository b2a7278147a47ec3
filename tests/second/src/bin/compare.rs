//! `compare PROGRAM COUNT SEED` runs PROGRAM on generated sheets and compares
//! what it prints, byte for byte, with what this reading of the document
//! prints. It also checks that the sheets reached what they are there for.

use std::io::{self, Read, Write};
use std::process::{Child, Command, ExitCode, Stdio};
use std::sync::mpsc;
use std::time::{Duration, Instant};
use std::{env, fs, thread};

use second::demand3::History;
use second::generator;
use second::play::{self, BUFFER_BYTES};
use second::sheet::Sheet;
use second::tally::Tally;

/// A program that takes longer over one sheet is taken to hang.
const LONGEST_RUN: Duration = Duration::from_secs(30);
/// Demand 3 is checked on the first sheets, as many as fit into the time.
const DEMAND3_SHEETS: u64 = 400;
const DEMAND3_TIME: Duration = Duration::from_secs(8);
/// Longer histories would take up all that time.
const DEMAND3_EVENTS: usize = 1_000;
const DIFFERENCES_PRINTED: usize = 10;

fn main() -> ExitCode {
    let arguments: Vec<String> = env::args().skip(1).collect();
    let [program, count, seed] = arguments.as_slice() else {
        return usage();
    };
    let (Ok(count), Ok(seed)) = (count.parse(), seed.parse()) else {
        return usage();
    };
    match compare(program, count, seed) {
        Ok(0) => ExitCode::SUCCESS,
        Ok(_) => ExitCode::FAILURE,
        Err(error) => {
            println!("{program}: {error}");
            println!("0 passed, 1 failed");
            ExitCode::FAILURE
        }
    }
}

fn usage() -> ExitCode {
    eprintln!("usage: compare PROGRAM COUNT SEED");
    ExitCode::FAILURE
}

/// Returns how much failed; an error means that PROGRAM could not be run.
fn compare(program: &str, count: u64, seed: u64) -> io::Result<usize> {
    let mut tally = Tally::default();
    let mut differing = 0;
    for index in 0..count {
        let sheet = generator::sheet(seed, index);
        let mut expected = Vec::new();
        play::play(&sheet, &mut expected)?;
        tally.count(&String::from_utf8_lossy(&expected));
        let printed = run(program, &sheet)?;
        if printed.as_deref() != Some(&expected[..]) {
            differing += 1;
            if differing <= DIFFERENCES_PRINTED {
                report_difference(seed, index, &sheet, printed.as_deref(), &expected)?;
            }
        }
    }
    let agreeing = count as usize - differing;
    println!("{count} sheets of seed {seed}: {agreeing} agree, {differing} differ");
    println!("{tally}");

    let broken = check_demand3(count, seed);
    let missing = tally.missing();
    missing.iter().for_each(|what| println!("never: {what}"));
    let failed = differing + broken + missing.len();
    let passed = agreeing + Tally::CHECKS - missing.len();
    println!("{passed} passed, {failed} failed");
    Ok(failed)
}

/// What the program prints on this sheet; `None` if it crashes or hangs.
fn run(program: &str, sheet: &[u8]) -> io::Result<Option<Vec<u8>>> {
    let mut child = Command::new(program)
        .stdin(Stdio::piped())
        .stdout(Stdio::piped())
        .spawn()?;
    let printed = talk(&mut child, sheet);
    if printed.is_none() {
        child.kill()?;
    }
    // A signal, as after a crash, leaves no code. The document says nothing
    // of the code itself, so any is as good.
    let ended = child.wait()?.code().is_some();
    Ok(printed.filter(|_| ended))
}

/// Writes and reads at once, so that neither side waits on a full pipe.
fn talk(child: &mut Child, sheet: &[u8]) -> Option<Vec<u8>> {
    let mut input = child.stdin.take()?;
    let mut output = child.stdout.take()?;
    let sheet = sheet.to_vec();
    thread::spawn(move || {
        // A program may well stop reading a sheet that is too long.
        let _ = input.write_all(&sheet);
    });
    let (sender, receiver) = mpsc::channel();
    thread::spawn(move || {
        let mut printed = Vec::new();
        let read = output.read_to_end(&mut printed);
        // Nobody listens any more if the program took too long.
        let _ = sender.send(read.map(|_| printed));
    });
    receiver.recv_timeout(LONGEST_RUN).ok()?.ok()
}

fn report_difference(
    seed: u64,
    index: u64,
    sheet: &[u8],
    printed: Option<&[u8]>,
    expected: &[u8],
) -> io::Result<()> {
    let file = env::temp_dir().join(format!("second-{seed}-{index}.sheet"));
    fs::write(&file, sheet)?;
    println!("seed {seed}, sheet {index} ({}):", file.display());
    let Some(printed) = printed else {
        println!("  the program crashed or did not end");
        return Ok(());
    };
    let lines = |text: &[u8]| -> Vec<String> {
        text.split_inclusive(|&byte| byte == b'\n')
            .map(|line| String::from_utf8_lossy(line).into_owned())
            .collect()
    };
    let (printed, expected) = (lines(printed), lines(expected));
    let same = printed.iter().zip(&expected).take_while(|(a, b)| a == b);
    let line = same.count();
    println!("  line {}", line + 1);
    println!("  expected {:?}", expected.get(line));
    println!("  printed  {:?}", printed.get(line));
    Ok(())
}

/// Checks this reading itself; returns on how many sheets it fails.
fn check_demand3(count: u64, seed: u64) -> usize {
    let start = Instant::now();
    let (mut checked, mut events, mut broken) = (0, 0, 0);
    for index in 0..count.min(DEMAND3_SHEETS) {
        if start.elapsed() > DEMAND3_TIME {
            break;
        }
        let Ok(sheet) = Sheet::read(&generator::sheet(seed, index)) else {
            continue;
        };
        if sheet.events.len() > DEMAND3_EVENTS {
            continue;
        }
        checked += 1;
        events += sheet.events.len();
        if let Err(what) = demand3_on(&sheet) {
            broken += 1;
            println!("demand 3, seed {seed}, sheet {index}: {what}");
        }
    }
    println!("demand 3 checked on {checked} sheets, {events} events: {broken} broken");
    broken
}

fn demand3_on(sheet: &Sheet) -> Result<(), String> {
    let mut book = play::open(sheet);
    let mut history = History::of_opened(&book);
    let mut buffer = vec![0; BUFFER_BYTES];
    for (at, event) in sheet.events.iter().enumerate() {
        history
            .apply_checked(&mut book, event, &mut buffer)
            .map_err(|what| format!("event {}: {what}", at + 1))?;
    }
    Ok(())
}
