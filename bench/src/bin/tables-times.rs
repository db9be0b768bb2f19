//! Times a program `tables` and the baseline on the same large texts, and prints a table of ratios.

use std::io::Write;
use std::path::Path;
use std::process::{Command, ExitCode, Stdio};
use std::time::{Duration, Instant};
use tables_bench::large::large;

/// How often each is run; the median counts.
const RUNS: usize = 5;

fn main() -> ExitCode {
    let words: Vec<String> = std::env::args().skip(1).collect();
    let [folder] = &words[..] else {
        eprintln!("usage: tables-times BIN_DIR");
        return ExitCode::FAILURE;
    };
    let Ok(own) = std::env::current_exe() else {
        eprintln!("tables-times: it isn't known where the baseline is");
        return ExitCode::FAILURE;
    };
    let baseline = own.with_file_name("tables-baseline");
    let program = Path::new(folder).join("tables");
    println!("| text | tables, s | baseline, s | ratio |\n|---|---|---|---|");
    for one in large() {
        let (Ok(ours), Ok(theirs)) = (median(&program, &one.text), median(&baseline, &one.text))
        else {
            eprintln!("tables-times: a program can't be run");
            return ExitCode::FAILURE;
        };
        let (ours, theirs) = (ours.as_secs_f64(), theirs.as_secs_f64());
        println!(
            "| {} | {ours:.4} | {theirs:.4} | {:.2} |",
            one.name,
            ours / theirs
        );
    }
    ExitCode::SUCCESS
}

fn median(program: &Path, text: &str) -> std::io::Result<Duration> {
    let mut times = Vec::new();
    for _ in 0..RUNS {
        let begin = Instant::now();
        let mut child = Command::new(program)
            .stdin(Stdio::piped())
            .stdout(Stdio::null())
            .spawn()?;
        if let Some(mut input) = child.stdin.take() {
            input.write_all(text.as_bytes())?;
        }
        child.wait()?;
        times.push(begin.elapsed());
    }
    times.sort();
    Ok(times[RUNS / 2])
}
