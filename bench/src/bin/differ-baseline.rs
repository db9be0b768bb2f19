//! Behaves as `differ`.

use std::io::Write;
use std::process::ExitCode;
use tables_bench::program::print_difference;
use tables_bench::program::table_of;

const USAGE: &str = "usage: differ [--bytes] FILE FILE\n";

fn main() -> ExitCode {
    let (out, status) = match run() {
        Ok(out) => (out, ExitCode::SUCCESS),
        Err(message) => {
            eprintln!("differ: {message}");
            (String::new(), ExitCode::FAILURE)
        }
    };
    match std::io::stdout().write_all(out.as_bytes()) {
        Ok(()) => status,
        Err(_) => ExitCode::FAILURE,
    }
}

fn run() -> Result<String, String> {
    let words: Vec<String> = std::env::args().skip(1).collect();
    if words.first().is_some_and(|word| word == "--help") {
        return Ok(USAGE.to_string());
    }
    let bytes = words.first().is_some_and(|word| word == "--bytes");
    let [first, second] = &words[usize::from(bytes)..] else {
        return Err(format!("bad arguments; {USAGE}"));
    };
    if first.starts_with('-') || second.starts_with('-') {
        return Err(format!("bad arguments; {USAGE}"));
    }
    let one = std::fs::read(first).map_err(|_| format!("{first}: can't be read"))?;
    let Ok(two) = std::fs::read(second) else {
        table_of(bytes, &one).map_err(|fault| fault.message())?;
        return Err(format!("{second}: can't be read"));
    };
    print_difference(bytes, &one, &two).map_err(|fault| fault.message())
}
