//! Damage to a text in either form.

use crate::random::Random;

/// Cuts, adds, or changes a byte or several.
pub fn bytes(random: &mut Random, mut input: Vec<u8>) -> Vec<u8> {
    for _ in 0..random.range(1, 2) {
        match random.below(6) {
            0 => input.truncate(random.below(input.len() + 1)),
            1 => input.push(any_byte(random)),
            2 => {
                let at = random.below(input.len() + 1);
                input.insert(at, any_byte(random));
            }
            3 if !input.is_empty() => {
                input.remove(random.below(input.len()));
            }
            _ if !input.is_empty() => {
                let at = random.below(input.len());
                input[at] = any_byte(random);
            }
            _ => {}
        }
    }
    input
}

/// A small byte, one at an edge, or any.
fn any_byte(random: &mut Random) -> u8 {
    match random.below(3) {
        0 => random.below(11) as u8,
        1 => random.pick(&[7, 8, 9, 10, 23, 24, 127, 128, 255]),
        _ => random.below(256) as u8,
    }
}

/// Changes words, or bytes as above.
pub fn notation(random: &mut Random, input: Vec<u8>) -> Vec<u8> {
    if random.once_in(4) {
        return bytes(random, input);
    }
    let mut words = split(&input);
    let at = random.below(words.len());
    match random.below(4) {
        0 => {
            words.remove(at);
        }
        1 => words.insert(at, [b" ", &any_word(random)[..], b" "].concat()),
        _ => words[at] = any_word(random),
    }
    words.concat()
}

/// Words and what is between them, in turn.
fn split(input: &[u8]) -> Vec<Vec<u8>> {
    let mut parts: Vec<Vec<u8>> = vec![vec![]];
    let mut inside = true;
    for &byte in input {
        let is_word = byte.is_ascii_alphanumeric();
        if is_word != inside {
            parts.push(vec![]);
            inside = is_word;
        }
        if let Some(part) = parts.last_mut() {
            part.push(byte);
        }
    }
    parts
}

fn any_word(random: &mut Random) -> Vec<u8> {
    let words: [&[u8]; 37] = [
        b"always",
        b"is",
        b"both",
        b"either",
        b"not",
        b"keep",
        b"put",
        b"and",
        b"then",
        b"Always",
        b"IS",
        b"or",
        b"isx",
        b"0",
        b"1",
        b"2",
        b"3",
        b"5",
        b"7",
        b"8",
        b"9",
        b"512",
        b"513",
        b"65535",
        b"65536",
        b"00007",
        b"18446744073709551616",
        b"4294967296",
        b"340282366920938463463374607431768211456",
        b"+1",
        b"-1",
        b"1x",
        b"0x1",
        b"1.0",
        b";",
        b"\n",
        b"\x00",
    ];
    random.pick(&words).to_vec()
}
