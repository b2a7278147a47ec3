//! `generate OUTDIR COUNT SEED` writes OUTDIR/0000.sheet and so on.

use std::path::Path;
use std::process::ExitCode;
use std::{env, fs, io};

use second::generator;

fn main() -> ExitCode {
    let arguments: Vec<String> = env::args().skip(1).collect();
    let [directory, count, seed] = arguments.as_slice() else {
        return usage();
    };
    let (Ok(count), Ok(seed)) = (count.parse(), seed.parse()) else {
        return usage();
    };
    match write_sheets(Path::new(directory), count, seed) {
        Ok(()) => ExitCode::SUCCESS,
        Err(error) => {
            eprintln!("generate: {directory}: {error}");
            ExitCode::FAILURE
        }
    }
}

fn usage() -> ExitCode {
    eprintln!("usage: generate OUTDIR COUNT SEED");
    ExitCode::FAILURE
}

fn write_sheets(directory: &Path, count: u64, seed: u64) -> io::Result<()> {
    fs::create_dir_all(directory)?;
    for index in 0..count {
        let file = directory.join(format!("{index:04}.sheet"));
        fs::write(file, generator::sheet(seed, index))?;
    }
    Ok(())
}
