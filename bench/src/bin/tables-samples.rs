//! Writes random cases into a folder: NUMBER.text or NUMBER.bytes.

use std::process::ExitCode;
use tables_bench::sample::sample;

fn main() -> ExitCode {
    let words: Vec<String> = std::env::args().skip(1).collect();
    let [folder, count, seed] = &words[..] else {
        eprintln!("usage: tables-samples FOLDER COUNT SEED");
        return ExitCode::FAILURE;
    };
    let (Ok(count), Ok(seed)) = (count.parse::<u64>(), seed.parse::<u64>()) else {
        eprintln!("tables-samples: COUNT and SEED are numbers");
        return ExitCode::FAILURE;
    };
    for number in 0..count {
        let sample = sample(seed, number);
        let ending = if sample.in_bytes { "bytes" } else { "text" };
        if let Err(error) = std::fs::write(format!("{folder}/{number}.{ending}"), &sample.input) {
            eprintln!("tables-samples: {folder}: {error}");
            return ExitCode::FAILURE;
        }
    }
    ExitCode::SUCCESS
}
