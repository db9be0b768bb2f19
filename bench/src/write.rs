//! Writes a text in the notation, in any of the ways in which it may stand.

use crate::node::Node;
use crate::random::Random;

pub fn notation(random: &mut Random, nodes: &[Node]) -> Vec<u8> {
    let plain = random.once_in(3);
    let mut out = written(random, plain, nodes, separate);
    if !random.once_in(3) {
        out.push(b'\n');
    }
    out
}

/// A text in one line.
pub fn line(random: &mut Random, nodes: &[Node]) -> Vec<u8> {
    let plain = !random.once_in(4);
    written(random, plain, nodes, |random, plain, out| {
        let between: &[u8] = if plain {
            b"; "
        } else {
            random.pick(&[&b";"[..], b" ; ", b";;", b"\t; ", b"; ;"])
        };
        out.extend_from_slice(between);
    })
}

/// The nodes with something between them.
fn written(
    random: &mut Random,
    plain: bool,
    nodes: &[Node],
    separate: impl Fn(&mut Random, bool, &mut Vec<u8>),
) -> Vec<u8> {
    let mut out = vec![];
    let mut used = vec![false; nodes.len()];
    for (at, node) in nodes.iter().enumerate() {
        if at > 0 {
            separate(random, plain, &mut out);
        }
        let operands = node.operands();
        let mut words = vec![node.kind().word().to_string()];
        if let Node::Is(field, value) | Node::Put(field, value) = *node {
            words.push(number(random, plain, usize::from(field)));
            words.push(number(random, plain, usize::from(value)));
        }
        if !(may_leave_out(&used[..at], &operands) && random.once_in(2)) {
            words.extend(
                operands
                    .iter()
                    .map(|&operand| number(random, plain, operand)),
            );
        }
        for operand in operands {
            used[operand] = true;
        }
        for (index, word) in words.iter().enumerate() {
            if index > 0 {
                blank(random, plain, &mut out);
            }
            out.extend_from_slice(word.as_bytes());
        }
    }
    out
}

/// Whether these are the operands that the node would have without any.
fn may_leave_out(used: &[bool], operands: &[usize]) -> bool {
    let free: Vec<usize> = (0..used.len()).filter(|&at| !used[at]).collect();
    free.ends_with(operands)
}

fn number(random: &mut Random, plain: bool, number: usize) -> String {
    if plain || !random.once_in(6) {
        return number.to_string();
    }
    format!("{}{number}", "0".repeat(random.range(1, 30)))
}

fn blank(random: &mut Random, plain: bool, out: &mut Vec<u8>) {
    if plain {
        out.push(b' ');
        return;
    }
    for _ in 0..random.range(1, 2) {
        out.push(random.pick(b"    \t\r"));
    }
}

fn separate(random: &mut Random, plain: bool, out: &mut Vec<u8>) {
    if plain {
        out.push(random.pick(b";\n"));
        return;
    }
    match random.below(8) {
        0 => out.extend_from_slice(b" ;; "),
        1 => out.extend_from_slice(b"\r\n"),
        2 => comment(random, out),
        3 => out.extend_from_slice(b"\n\n \t\n"),
        4 => out.push(b'\n'),
        5 => out.extend_from_slice(b"; "),
        _ => out.push(b';'),
    }
}

/// A comment with any bytes, and the end of its line.
fn comment(random: &mut Random, out: &mut Vec<u8>) {
    out.push(b'#');
    for _ in 0..random.below(12) {
        let byte = random.below(256) as u8;
        if byte != b'\n' {
            out.push(byte);
        }
    }
    out.push(b'\n');
}
