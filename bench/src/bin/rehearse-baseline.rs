//! Behaves as `rehearse`.

use std::io::{BufRead, BufReader};
use std::process::ExitCode;
use tables_bench::rehearse::play::play;

const USAGE: &str = "\
usage: rehearse [FILE]
Plays the script in FILE or on standard input, a step to a line, and prints what happens.
  --help    prints this
";

fn main() -> ExitCode {
    match run() {
        Ok(()) => ExitCode::SUCCESS,
        Err(message) => {
            eprintln!("rehearse: {message}");
            ExitCode::FAILURE
        }
    }
}

fn run() -> Result<(), String> {
    let arguments: Vec<String> = std::env::args_os()
        .skip(1)
        .map(|word| word.to_string_lossy().into_owned())
        .collect();
    let mut input: Box<dyn BufRead> = match &arguments[..] {
        [] => Box::new(std::io::stdin().lock()),
        [help, ..] if help == "--help" => {
            print!("{USAGE}");
            return Ok(());
        }
        [option, ..] if option.starts_with('-') => return Err(format!("unknown option {option}")),
        [name] => match std::fs::File::open(name) {
            Ok(file) => Box::new(BufReader::with_capacity(1 << 16, file)),
            Err(error) => return Err(format!("{name}: {error}")),
        },
        _ => return Err("more than one file".to_string()),
    };
    play(&mut *input, &mut std::io::stdout().lock())
        .map_err(|error| error.to_string())?
        .map_err(|fault| fault.message())
}
