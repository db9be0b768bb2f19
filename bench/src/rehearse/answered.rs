//! The baseline's answer to a script, and a count of what is in it.

use crate::answer::Answer;
use crate::rehearse::play::play;
use std::collections::BTreeMap;

pub fn answer(script: &[u8]) -> Answer {
    let mut out = vec![];
    let mut input = script;
    let end = match play(&mut input, &mut out) {
        Ok(end) => end,
        Err(error) => unreachable!("reading and writing in memory: {error}"),
    };
    match end {
        Ok(()) => Answer {
            status: Some(0),
            out,
            err: vec![],
        },
        Err(fault) => Answer {
            status: Some(1),
            out,
            err: format!("rehearse: {}\n", fault.message()).into_bytes(),
        },
    }
}

/// How often each kind of line was printed.
#[derive(Default)]
pub struct Tally {
    counts: BTreeMap<String, u64>,
}

impl Tally {
    pub fn add(&mut self, answer: &Answer) {
        for line in String::from_utf8_lossy(&answer.out).lines() {
            let words: Vec<&str> = line.split(' ').collect();
            let kind = match words[..] {
                ["refused" | "stage", second, ..] => format!("{} {second}", words[0]),
                ["lost", _, _, what, ..] => format!("lost {what}"),
                _ => words[0].to_string(),
            };
            *self.counts.entry(kind).or_default() += 1;
        }
        let end = match answer.err.iter().position(|&byte| byte == b'd') {
            // `refused N` in the line of standard error.
            Some(at) => {
                let number = String::from_utf8_lossy(&answer.err[at + 2..at + 3]).into_owned();
                format!("ended by {number}")
            }
            None => "ended well".to_string(),
        };
        *self.counts.entry(end).or_default() += 1;
    }

    pub fn print(&self) {
        let counts: Vec<String> = self
            .counts
            .iter()
            .map(|(kind, count)| format!("{kind}: {count}"))
            .collect();
        println!("{}", counts.join(", "));
    }
}
