//! A random case: the form, and the input.

use crate::random::Random;
use crate::{bytes, damage, limits, texts, write};

pub struct Sample {
    pub in_bytes: bool,
    pub input: Vec<u8>,
}

/// The case with this number under a seed.
pub fn sample(seed: u64, number: u64) -> Sample {
    let mut random = Random::new(Random::new(seed).word() ^ number);
    let random = &mut random;
    let nodes = match random.below(300) {
        0 => limits::product(random),
        1..=4 => limits::rules(random),
        5..=9 => limits::nodes(random),
        10..=29 => limits::copies(random),
        _ => texts::text(random),
    };
    let in_bytes = random.once_in(2);
    let damaged = random.once_in(3);
    let mut input = if in_bytes {
        bytes::write(random.below(24) as u8, &nodes)
    } else {
        write::notation(random, &nodes)
    };
    if damaged {
        input = if in_bytes {
            damage::bytes(random, input)
        } else {
            damage::notation(random, input)
        };
    }
    Sample { in_bytes, input }
}
