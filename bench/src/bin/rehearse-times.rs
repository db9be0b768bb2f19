//! Times a program `rehearse` and the baseline on the same long scripts. Without the program the baseline alone is timed.

use std::fs::File;
use std::io::{BufWriter, Result, Write};
use std::path::{Path, PathBuf};
use std::process::ExitCode;
use tables_bench::measure::{median, Measured};
use tables_bench::rehearse::long::{changes, ring};

/// How often each is run; the median counts.
const RUNS: usize = 5;

/// A long script in a file.
struct Long {
    name: &'static str,
    lines: usize,
    file: PathBuf,
}

fn main() -> ExitCode {
    let words: Vec<String> = std::env::args().skip(1).collect();
    let [folder] = &words[..] else {
        eprintln!("usage: rehearse-times BIN_DIR");
        return ExitCode::FAILURE;
    };
    match times(folder) {
        Ok(()) => ExitCode::SUCCESS,
        Err(error) => {
            eprintln!("rehearse-times: {error}");
            ExitCode::FAILURE
        }
    }
}

fn times(folder: &str) -> Result<()> {
    let baseline = std::env::current_exe()?.with_file_name("rehearse-baseline");
    let program = Path::new(folder).join("rehearse");
    let temporary = std::env::temp_dir().join(format!("rehearse-times-{}", std::process::id()));
    std::fs::create_dir(&temporary)?;
    let done = scripts(&temporary).and_then(|scripts| print(&scripts, &program, &baseline));
    std::fs::remove_dir_all(&temporary)?;
    done
}

/// The scripts; the second of each kind is ten times as long as the first.
fn scripts(folder: &Path) -> Result<Vec<Long>> {
    Ok(vec![
        long(folder, "24 switches, 5 changes", |out| ring(out, 5, 240))?,
        long(folder, "24 switches, 50 changes", |out| ring(out, 50, 240))?,
        long(folder, "6,553 changes", |out| changes(out, 6_553))?,
        long(folder, "65,535 changes", |out| changes(out, 65_535))?,
    ])
}

fn long(
    folder: &Path,
    name: &'static str,
    write: impl Fn(&mut dyn Write) -> Result<usize>,
) -> Result<Long> {
    let file = folder.join(name.replace([' ', ','], "-"));
    let mut out = BufWriter::new(File::create(&file)?);
    let lines = write(&mut out)?;
    out.flush()?;
    Ok(Long { name, lines, file })
}

fn print(scripts: &[Long], program: &Path, baseline: &Path) -> Result<()> {
    println!(
        "| script | lines | rehearse, s | baseline, s | ratio | rehearse, lines/s | baseline, lines/s \
         | rehearse, peak KB | baseline, peak KB |\n|---|---|---|---|---|---|---|---|---|"
    );
    for script in scripts {
        let theirs = median(baseline, &script.file, RUNS)?;
        let ours = if program.exists() {
            Some(median(program, &script.file, RUNS)?)
        } else {
            None
        };
        println!("{}", row(script, ours.as_ref(), &theirs));
    }
    Ok(())
}

fn row(script: &Long, ours: Option<&Measured>, theirs: &Measured) -> String {
    let seconds = |one: &Measured| format!("{:.3}", one.time.as_secs_f64());
    let speed = |one: &Measured| format!("{:.0}", script.lines as f64 / one.time.as_secs_f64());
    let peak = |one: &Measured| one.peak.to_string();
    let ratio = |one: &Measured| {
        let ratio = one.time.as_secs_f64() / theirs.time.as_secs_f64();
        format!("{ratio:.2}")
    };
    let missing = || "-".to_string();
    let cells = [
        script.name.to_string(),
        script.lines.to_string(),
        ours.map_or_else(missing, seconds),
        seconds(theirs),
        ours.map_or_else(missing, ratio),
        ours.map_or_else(missing, speed),
        speed(theirs),
        ours.map_or_else(missing, peak),
        peak(theirs),
    ];
    format!("| {} |", cells.join(" | "))
}
