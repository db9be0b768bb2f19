//! What a program answers to an input, and how two answers are shown.

use std::io::Write;
use std::process::{Command, Stdio};

#[derive(PartialEq, Eq)]
pub struct Answer {
    pub status: Option<i32>,
    pub out: Vec<u8>,
    pub err: Vec<u8>,
}

/// Runs a program on an input.
pub fn run(program: &str, arguments: &[&str], input: &[u8]) -> std::io::Result<Answer> {
    let mut child = Command::new(program)
        .args(arguments)
        .stdin(Stdio::piped())
        .stdout(Stdio::piped())
        .stderr(Stdio::piped())
        .spawn()?;
    let stdin = child.stdin.take();
    // Written beside the reading, since both pipes may be full.
    let output = std::thread::scope(|scope| {
        scope.spawn(move || {
            if let Some(mut stdin) = stdin {
                // A program that stops early doesn't take all of it.
                let _ = stdin.write_all(input);
            }
        });
        child.wait_with_output()
    })?;
    Ok(Answer {
        status: output.status.code(),
        out: output.stdout,
        err: output.stderr,
    })
}

/// Shows both answers from the first line on in which they differ.
pub fn show(wanted: &Answer, got: &Answer) {
    let same = lines(&wanted.out)
        .iter()
        .zip(lines(&got.out))
        .take_while(|(wanted, got)| **wanted == *got)
        .count();
    if same > 0 {
        println!("  the first {same} lines are the same");
    }
    for (name, answer) in [("baseline", wanted), ("program ", got)] {
        println!("  {name}: status {:?}", answer.status);
        for line in lines(&answer.out).iter().skip(same).take(8) {
            println!("    {}", line.escape_ascii());
        }
        for line in lines(&answer.err).iter().take(8) {
            println!("    {}", line.escape_ascii());
        }
    }
}

fn lines(output: &[u8]) -> Vec<&[u8]> {
    output
        .split(|&byte| byte == b'\n')
        .filter(|line| !line.is_empty())
        .collect()
}

/// The arguments BIN_DIR COUNT SEED.
pub fn read_arguments(name: &str, first: &str) -> Result<(String, u64, u64), String> {
    let words: Vec<String> = std::env::args().skip(1).collect();
    let [folder, count, seed] = &words[..] else {
        return Err(format!("usage: {name} {first} COUNT SEED"));
    };
    let (Ok(count), Ok(seed)) = (count.parse(), seed.parse()) else {
        return Err(format!("{name}: COUNT and SEED are numbers"));
    };
    Ok((folder.clone(), count, seed))
}
