//! Times a program `differ` and the baseline on the same pairs of large texts, and prints a table of ratios.

use std::path::Path;
use std::process::{Command, ExitCode, Stdio};
use std::time::{Duration, Instant};
use tables_bench::large::pairs;

/// How often each is run; the median counts.
const RUNS: usize = 5;

fn main() -> ExitCode {
    let words: Vec<String> = std::env::args().skip(1).collect();
    let [folder] = &words[..] else {
        eprintln!("usage: differ-times BIN_DIR");
        return ExitCode::FAILURE;
    };
    match times(folder) {
        Ok(()) => ExitCode::SUCCESS,
        Err(error) => {
            eprintln!("differ-times: {error}");
            ExitCode::FAILURE
        }
    }
}

fn times(folder: &str) -> std::io::Result<()> {
    let baseline = std::env::current_exe()?.with_file_name("differ-baseline");
    let program = Path::new(folder).join("differ");
    let place = std::env::temp_dir().join(format!("differ-times-{}", std::process::id()));
    std::fs::create_dir_all(&place)?;
    let (first, second) = (place.join("first"), place.join("second"));
    println!("| texts | differ, s | baseline, s | ratio |\n|---|---|---|---|");
    for pair in pairs() {
        std::fs::write(&first, &pair.first)?;
        std::fs::write(&second, &pair.second)?;
        let ours = median(&program, &first, &second)?.as_secs_f64();
        let theirs = median(&baseline, &first, &second)?.as_secs_f64();
        println!("| {} | {ours:.4} | {theirs:.4} | {:.2} |", pair.name, ours / theirs);
    }
    std::fs::remove_dir_all(&place)
}

fn median(program: &Path, first: &Path, second: &Path) -> std::io::Result<Duration> {
    let mut times = Vec::new();
    for _ in 0..RUNS {
        let begin = Instant::now();
        Command::new(program).arg(first).arg(second).stdout(Stdio::null()).status()?;
        times.push(begin.elapsed());
    }
    times.sort();
    Ok(times[RUNS / 2])
}
