//! Long scripts, for timing. Each is written as it is made, so that it needn't be held in memory.

use std::io::{Result, Write};

const SWITCHES: usize = 24;
const HOPS: usize = 8;

/// A ring of 24 switches, in which each also has a cable to the one opposite. Port 0 is outside, 1 and 2 lead to the next switch and
/// to the one before it, 3 leads across. Packets enter at all switches at once, so that all cables of a kind are in use; after each
/// `between` rounds of packets the plan changes. Says how many lines it has.
pub fn ring(out: &mut dyn Write, changes: usize, between: usize) -> Result<usize> {
    let mut lines = 0;
    writeln!(out, "net {SWITCHES} 4 {HOPS}")?;
    for switch in 0..SWITCHES {
        writeln!(out, "outside {switch} 0")?;
        writeln!(out, "cable {switch} 1 {} 2", (switch + 1) % SWITCHES)?;
        if switch < SWITCHES / 2 {
            writeln!(out, "cable {switch} 3 {} 3", switch + SWITCHES / 2)?;
        }
    }
    lines += 1 + 2 * SWITCHES + SWITCHES / 2;
    lines += texts(out, 0)?;
    writeln!(out, "start")?;
    lines += 1;
    for version in 1..=changes {
        lines += packets(out, between)?;
        lines += texts(out, version)?;
        lines += change(out, version)?;
    }
    lines += packets(out, between)?;
    Ok(lines)
}

/// The port towards the switch that is so many further on.
fn port(further: usize) -> usize {
    match further {
        0 => 0,
        1..=6 => 1,
        18..=23 => 2,
        _ => 3,
    }
}

/// How many further on it is after a hop.
fn after(further: usize) -> usize {
    match port(further) {
        1 => further - 1,
        2 => (further + 1) % SWITCHES,
        _ => (further + SWITCHES / 2) % SWITCHES,
    }
}

/// A text for each switch: by field 1, the port to send to; the version goes into field 2.
fn texts(out: &mut dyn Write, version: usize) -> Result<usize> {
    for switch in 0..SWITCHES {
        write!(out, "text {switch} ")?;
        for to in 0..SWITCHES {
            let port = port((to + SWITCHES - switch) % SWITCHES);
            write!(out, "is 1 {to}; keep; put 0 {port}; then; ")?;
            if to > 0 {
                write!(out, "and; ")?;
            }
        }
        writeln!(out, "put 2 {version}; then")?;
    }
    Ok(SWITCHES)
}

/// Rounds of packets: from each switch one to the switch that is so many further on.
fn packets(out: &mut dyn Write, rounds: usize) -> Result<usize> {
    let mut lines = 0;
    for round in 0..rounds {
        let mut further = round % SWITCHES;
        for switch in 0..SWITCHES {
            let to = (switch + further) % SWITCHES;
            writeln!(out, "enter {switch} 0 {to} 0 {round} 0 0 0 0")?;
        }
        lines += SWITCHES;
        while further != 0 {
            lines += arrive(out, port(further))?;
            further = after(further);
        }
    }
    Ok(lines)
}

/// What is on the cables from one port of every switch comes in.
fn arrive(out: &mut dyn Write, port: usize) -> Result<usize> {
    for switch in 0..SWITCHES {
        writeln!(out, "arrive {switch} {port}")?;
    }
    Ok(SWITCHES)
}

fn to_all(out: &mut dyn Write, order: &str) -> Result<usize> {
    for switch in 0..SWITCHES {
        writeln!(out, "{order} {switch}")?;
    }
    Ok(SWITCHES)
}

/// Orders, answers and marks of a whole change.
fn change(out: &mut dyn Write, version: usize) -> Result<usize> {
    writeln!(out, "change")?;
    let mut lines = 1;
    let given = |word: &str, version: usize| format!("{word} {version}");
    for stage in ["install", "stamp"] {
        for word in ["order", "answer"] {
            lines += to_all(out, &format!("{word} {}", given(stage, version)))?;
        }
    }
    for round in 1..=HOPS {
        // The order comes twice: the first time no marks have come in yet.
        for _ in 0..2 {
            lines += to_all(out, &format!("order round {version} {round}"))?;
            for port in 1..=3 {
                lines += arrive(out, port)?;
            }
        }
        lines += to_all(out, &format!("answer round {version} {round}"))?;
    }
    for word in ["order", "answer"] {
        lines += to_all(out, &format!("{word} remove {}", version - 1))?;
    }
    Ok(lines)
}

/// One switch and so many changes, with a packet before each.
pub fn changes(out: &mut dyn Write, count: usize) -> Result<usize> {
    writeln!(out, "net 1 2 0\noutside 0 0\noutside 0 1")?;
    writeln!(out, "text 0 put 0 0\nstart")?;
    for version in 1..=count {
        writeln!(out, "enter 0 1 {} 0 0 0 0 0 0", version % 65_536)?;
        writeln!(out, "text 0 put 0 {}\nchange", version % 2)?;
        for stage in ["install", "stamp"] {
            writeln!(out, "order {stage} {version} 0\nanswer {stage} {version} 0")?;
        }
        let old = version - 1;
        writeln!(out, "order remove {old} 0\nanswer remove {old} 0")?;
    }
    Ok(5 + 9 * count)
}
