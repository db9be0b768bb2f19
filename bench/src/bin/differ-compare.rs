//! Runs a program `differ` on random pairs of texts and compares it with the baseline.

use std::path::Path;
use std::process::{Command, ExitCode};
use tables_bench::program::print_difference;
use tables_bench::random::Random;
use tables_bench::{texts, write};

/// How many differences are shown.
const SHOWN: u64 = 5;

fn main() -> ExitCode {
    let words: Vec<String> = std::env::args().skip(1).collect();
    let [folder, count, seed] = &words[..] else {
        eprintln!("usage: differ-compare BIN_DIR COUNT SEED");
        return ExitCode::FAILURE;
    };
    let (Ok(count), Ok(seed)) = (count.parse::<u64>(), seed.parse::<u64>()) else {
        eprintln!("differ-compare: COUNT and SEED are numbers");
        return ExitCode::FAILURE;
    };
    match compare(folder, count, seed) {
        Ok(0) if count > 0 => ExitCode::SUCCESS,
        Ok(_) => ExitCode::FAILURE,
        Err(error) => {
            eprintln!("differ-compare: {error}");
            ExitCode::FAILURE
        }
    }
}

fn compare(folder: &str, count: u64, seed: u64) -> std::io::Result<u64> {
    let program = Path::new(folder).join("differ");
    let place = std::env::temp_dir().join(format!("differ-compare-{}", std::process::id()));
    std::fs::create_dir_all(&place)?;
    let (first, second) = (place.join("first"), place.join("second"));
    let (mut different, mut same, mut refused) = (0, 0, 0);
    for number in 0..count {
        let (one, two) = pair(seed, number);
        std::fs::write(&first, &one)?;
        std::fs::write(&second, &two)?;
        let output = Command::new(&program).arg(&first).arg(&second).output()?;
        let (out, err) = match print_difference(false, &one, &two) {
            Ok(out) => (out, String::new()),
            Err(fault) => (String::new(), format!("differ: {}\n", fault.message())),
        };
        same += u64::from(out == "same\n");
        refused += u64::from(!err.is_empty());
        if output.stdout != out.as_bytes() || output.stderr != err.as_bytes() {
            different += 1;
            if different <= SHOWN {
                println!("case {number}\n  {}\n  {}", one.escape_ascii(), two.escape_ascii());
                println!("  baseline: {out}{err}");
                println!("  program: {}", String::from_utf8_lossy(&output.stdout));
            }
        }
    }
    std::fs::remove_dir_all(&place)?;
    println!("same {same}, refused {refused}\n{count} cases, {different} differ");
    Ok(different)
}

/// Two texts: of their own, or the second like the first but for one node's value, or the same nodes written otherwise.
fn pair(seed: u64, number: u64) -> (Vec<u8>, Vec<u8>) {
    let mut random = Random::new(Random::new(seed).word() ^ number);
    let random = &mut random;
    let first = texts::text(random);
    let mut second = if random.once_in(3) { texts::text(random) } else { first.clone() };
    if random.once_in(2) {
        let at = random.below(second.len());
        second[at] = changed(&second[at]);
    }
    (write::notation(random, &first), write::notation(random, &second))
}

fn changed(node: &tables_bench::node::Node) -> tables_bench::node::Node {
    use tables_bench::node::Node;
    match node {
        Node::Is(field, value) => Node::Is(*field, value ^ 1),
        Node::Put(field, value) => Node::Put(*field, value ^ 1),
        Node::Both(a, b) => Node::Either(*a, *b),
        Node::Either(a, b) => Node::Both(*a, *b),
        Node::And(a, b) => Node::Then(*a, *b),
        Node::Then(a, b) => Node::And(*a, *b),
        other => *other,
    }
}
