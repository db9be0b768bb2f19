//! A random script.

use crate::damage;
use crate::random::Random;
use crate::rehearse::play::Play;
use crate::rehearse::random_net::{description, plan, text_line};
use crate::rehearse::random_step::{self, Tempo};

/// The script with this number under a seed.
pub fn sample(seed: u64, number: u64) -> Vec<u8> {
    let mut random = Random::new(Random::new(seed).word() ^ number);
    let random = &mut random;
    let mut script = Script::new();
    for line in head(random) {
        script.add(random, line);
    }
    let tempo = random.pick(&[
        Tempo { odd: 4, onward: 4 },
        Tempo { odd: 12, onward: 5 },
        Tempo { odd: 25, onward: 8 },
    ]);
    let count = random.pick(&[10, 40, 100, 100, 300]);
    let bad = random.once_in(12).then(|| random.below(count));
    for at in 0..count {
        let Some(net) = script.play.net() else {
            break;
        };
        let mut lines = random_step::lines(random, net, tempo);
        if bad == Some(at) {
            let last = lines.pop().unwrap_or_default();
            lines.push(damage::notation(random, last));
        }
        for line in lines {
            script.add(random, line);
        }
        // Some lines may stand behind the one that ends a play.
        if script.ended && random.once_in(3) {
            break;
        }
    }
    script.bytes
}

/// The lines up to `start`; in one script of ten a line is damaged or something is missing.
fn head(random: &mut Random) -> Vec<Vec<u8>> {
    let mut lines = description(random);
    let size = size(&lines[0]);
    for (switch, nodes) in plan(random, size.0, size.1) {
        let line = text_line(random, switch, &nodes);
        let at = if random.once_in(3) {
            random.range(1, lines.len())
        } else {
            lines.len()
        };
        lines.insert(at, line);
    }
    lines.push(b"start".to_vec());
    if random.once_in(10) {
        spoil(random, &mut lines);
    }
    lines
}

/// The numbers of switches and ports of a `net` line.
fn size(line: &[u8]) -> (u8, u8) {
    let line = String::from_utf8_lossy(line);
    let mut numbers = line.split(' ').filter_map(|word| word.parse().ok());
    let switches = numbers.next().unwrap_or(1);
    (switches, numbers.next().unwrap_or(1))
}

fn spoil(random: &mut Random, lines: &mut Vec<Vec<u8>>) {
    let at = random.below(lines.len());
    match random.below(6) {
        0 => {
            lines.remove(at);
        }
        1 => {
            let line = random.pick(lines);
            lines.insert(at, line);
        }
        2 => {
            let other = random.below(lines.len());
            lines.swap(at, other);
        }
        3 => {
            let ports = [
                random.below(7),
                random.below(6),
                random.below(7),
                random.below(6),
            ];
            let [a, b, c, d] = ports;
            lines.insert(at, format!("cable {a} {b} {c} {d}").into_bytes());
        }
        _ => {
            let line = std::mem::take(&mut lines[at]);
            lines[at] = damage::notation(random, line);
        }
    }
}

/// A script so far, and the play of it.
struct Script {
    bytes: Vec<u8>,
    play: Play,
    lines: usize,
    ended: bool,
}

impl Script {
    fn new() -> Script {
        Script {
            bytes: vec![],
            play: Play::new(),
            lines: 0,
            ended: false,
        }
    }

    /// Adds a line, with a comment or an empty line now and then, and plays it.
    fn add(&mut self, random: &mut Random, mut line: Vec<u8>) {
        match random.below(60) {
            0 => line.extend_from_slice(b" # \xff;# said"),
            1 => line.push(b'\r'),
            2 => line.insert(0, b'\t'),
            3 => line.extend_from_slice(b"\n\n#"),
            _ => {}
        }
        // A damaged line may have become two.
        for part in line.split(|&byte| byte == b'\n') {
            self.lines += 1;
            if !self.ended {
                self.ended = self.play.line(self.lines, part).is_err();
            }
        }
        self.bytes.extend_from_slice(&line);
        self.bytes.push(b'\n');
    }
}
