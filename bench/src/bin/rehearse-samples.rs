//! Writes random scripts with the baseline's answers into a folder, as cases that tests/run takes.

use std::path::Path;
use std::process::ExitCode;
use tables_bench::answer::read_arguments;
use tables_bench::rehearse::answered::{answer, Tally};
use tables_bench::rehearse::sample::sample;

fn main() -> ExitCode {
    match write_all() {
        Ok(()) => ExitCode::SUCCESS,
        Err(message) => {
            eprintln!("{message}");
            ExitCode::FAILURE
        }
    }
}

fn write_all() -> Result<(), String> {
    let (folder, count, seed) = read_arguments("rehearse-samples", "FOLDER")?;
    let mut tally = Tally::default();
    for number in 0..count {
        let script = sample(seed, number);
        let case = Path::new(&folder).join(format!("random-{seed}-{number}"));
        let answer = answer(&script);
        tally.add(&answer);
        write_case(&case, &script, &answer)
            .map_err(|error| format!("rehearse-samples: {folder}: {error}"))?;
    }
    tally.print();
    Ok(())
}

fn write_case(
    case: &Path,
    script: &[u8],
    answer: &tables_bench::answer::Answer,
) -> std::io::Result<()> {
    std::fs::create_dir_all(case)?;
    std::fs::write(case.join("stdin"), script)?;
    std::fs::write(case.join("stdout"), &answer.out)?;
    std::fs::write(
        case.join("status"),
        format!("{}\n", answer.status.unwrap_or(0)),
    )?;
    if !answer.err.is_empty() {
        std::fs::write(case.join("stderr"), &answer.err)?;
    }
    Ok(())
}
