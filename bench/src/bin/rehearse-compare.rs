//! Plays random scripts with a program `rehearse` and compares it with the baseline.

use std::process::ExitCode;
use tables_bench::answer::{read_arguments, run, show};
use tables_bench::rehearse::answered::{answer, Tally};
use tables_bench::rehearse::sample::sample;

/// How many differences are shown.
const SHOWN: u64 = 5;

fn main() -> ExitCode {
    match compare() {
        Ok(true) => ExitCode::SUCCESS,
        Ok(false) => ExitCode::FAILURE,
        Err(message) => {
            eprintln!("{message}");
            ExitCode::FAILURE
        }
    }
}

/// Whether all scripts are played the same.
fn compare() -> Result<bool, String> {
    let (folder, count, seed) = read_arguments("rehearse-compare", "BIN_DIR")?;
    let program = format!("{folder}/rehearse");
    let mut different = 0;
    let mut tally = Tally::default();
    for number in 0..count {
        let script = sample(seed, number);
        let wanted = answer(&script);
        tally.add(&wanted);
        let got = run(&program, &[], &script)
            .map_err(|error| format!("rehearse-compare: {program}: {error}"))?;
        if got != wanted {
            different += 1;
            if different <= SHOWN {
                let file = std::env::temp_dir().join(format!("rehearse-{seed}-{number}.script"));
                std::fs::write(&file, &script).map_err(|error| error.to_string())?;
                println!("case {number}, kept as {}:", file.display());
                show(&wanted, &got);
            }
        }
    }
    tally.print();
    println!("{count} cases, {different} differ");
    Ok(different == 0 && count > 0)
}
