//! Runs a program `tables` on random cases and compares it with the baseline.

use std::process::ExitCode;
use tables_bench::answer::{read_arguments, run, show, Answer};
use tables_bench::program::print_table;
use tables_bench::sample::{sample, Sample};

/// How many differences are shown.
const SHOWN: u64 = 5;

fn main() -> ExitCode {
    match compare() {
        Ok(true) => ExitCode::SUCCESS,
        Ok(false) => ExitCode::FAILURE,
        Err(message) => {
            eprintln!("{message}");
            ExitCode::FAILURE
        }
    }
}

/// Whether all cases are the same.
fn compare() -> Result<bool, String> {
    let (folder, count, seed) = read_arguments("tables-compare", "BIN_DIR")?;
    let program = format!("{folder}/tables");
    let mut different = 0;
    let mut refused = [0u64; 8];
    for number in 0..count {
        let sample = sample(seed, number);
        let (wanted, fault) = baseline(&sample);
        refused[fault] += 1;
        let arguments: &[&str] = if sample.in_bytes { &["--bytes"] } else { &[] };
        let got = run(&program, arguments, &sample.input)
            .map_err(|error| format!("tables-compare: {program}: {error}"))?;
        if got != wanted {
            different += 1;
            if different <= SHOWN {
                let form = if sample.in_bytes { "bytes" } else { "notation" };
                println!("case {number}, {form}: {}", readable(&sample));
                show(&wanted, &got);
            }
        }
    }
    let [good, one, two, three, _, five, six, seven] = refused;
    println!(
        "good {good}, refused 1: {one}, 2: {two}, 3: {three}, 5: {five}, 6: {six}, 7: {seven}"
    );
    println!("{count} cases, {different} differ");
    Ok(different == 0 && count > 0)
}

/// The baseline's answer, and the number of its refusal or 0.
fn baseline(sample: &Sample) -> (Answer, usize) {
    match print_table(sample.in_bytes, &sample.input) {
        Ok(table) => (
            Answer {
                status: Some(0),
                out: table.into_bytes(),
                err: vec![],
            },
            0,
        ),
        Err(fault) => {
            let err = format!("tables: {}\n", fault.message()).into_bytes();
            (
                Answer {
                    status: Some(1),
                    out: vec![],
                    err,
                },
                usize::from(fault.number),
            )
        }
    }
}

fn readable(sample: &Sample) -> String {
    if sample.in_bytes {
        sample
            .input
            .iter()
            .map(|byte| format!("{byte:02x}"))
            .collect::<Vec<_>>()
            .join(" ")
    } else {
        sample.input.escape_ascii().to_string()
    }
}
