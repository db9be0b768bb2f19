//! Behaves as `tables`.

use std::io::{Read, Write};
use std::process::ExitCode;
use tables_bench::program::{print_table, read_arguments, Asked, USAGE};

fn main() -> ExitCode {
    let (out, status) = match run() {
        Ok(out) => (out, ExitCode::SUCCESS),
        Err(message) => {
            eprintln!("tables: {message}");
            (String::new(), ExitCode::FAILURE)
        }
    };
    match std::io::stdout().write_all(out.as_bytes()) {
        Ok(()) => status,
        Err(_) => ExitCode::FAILURE,
    }
}

fn run() -> Result<String, String> {
    let arguments: Vec<String> = std::env::args_os()
        .skip(1)
        .map(|word| word.to_string_lossy().into_owned())
        .collect();
    match read_arguments(&arguments)? {
        Asked::Help => Ok(USAGE.to_string()),
        Asked::Table { bytes, file } => {
            let input = read_input(file.as_deref())?;
            print_table(bytes, &input).map_err(|fault| fault.message())
        }
    }
}

fn read_input(file: Option<&str>) -> Result<Vec<u8>, String> {
    let mut input = vec![];
    let done = match file {
        Some(name) => std::fs::File::open(name).and_then(|mut file| file.read_to_end(&mut input)),
        None => std::io::stdin().read_to_end(&mut input),
    };
    match done {
        Ok(_) => Ok(input),
        Err(error) => Err(format!("{}: {error}", file.unwrap_or("standard input"))),
    }
}
