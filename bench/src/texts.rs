//! Random texts that read well. Most of them fit.

use crate::node::{Kind, Node, Pair, Shape, Sort};
use crate::random::Random;

/// Nodes over a few fields and values, most of them under the last one.
pub fn text(random: &mut Random) -> Vec<Node> {
    let pairs = pool(random);
    let count = random.range(1, 30);
    let mut nodes: Vec<Node> = vec![];
    let mut used: Vec<bool> = vec![];
    while nodes.len() < count {
        if let Some(node) = random_node(random, &pairs, &nodes, &used) {
            add(&mut nodes, &mut used, node);
        }
    }
    if !random.once_in(5) {
        join(random, &mut nodes, &mut used);
    }
    nodes
}

/// The pairs that a text is about.
fn pool(random: &mut Random) -> Vec<Pair> {
    let edges = [0, 1, 2, 5, 255, 256, 65_534, 65_535];
    let mut pairs = vec![];
    for _ in 0..random.range(1, 4) {
        let field = random.below(8) as u8;
        for _ in 0..random.range(1, 3) {
            pairs.push((field, random.pick(&edges)));
        }
    }
    pairs
}

fn add(nodes: &mut Vec<Node>, used: &mut Vec<bool>, node: Node) {
    for operand in node.operands() {
        used[operand] = true;
    }
    nodes.push(node);
    used.push(false);
}

fn random_node(random: &mut Random, pairs: &[Pair], nodes: &[Node], used: &[bool]) -> Option<Node> {
    use Kind::*;
    let kind = random.pick(&[
        Always, Is, Is, Is, Is, Both, Either, Not, Keep, Keep, Keep, Put, Put, Put, And, And, Then,
        Then, Then,
    ]);
    match kind.shape() {
        Shape::Nothing => Some(Node::Always),
        Shape::Pair => {
            let (field, value) = random.pick(pairs);
            Some(kind.of_pair(field, value))
        }
        Shape::One(sort) => Some(kind.of_operands(operand(random, nodes, used, sort)?, 0)),
        Shape::Two(sort) => {
            let a = operand(random, nodes, used, sort)?;
            let b = operand(random, nodes, used, sort)?;
            let (a, b) = if random.once_in(3) {
                (a, b)
            } else {
                (a.min(b), a.max(b))
            };
            Some(kind.of_operands(a, b))
        }
    }
}

/// An earlier node of the sort, rather one that isn't used yet.
fn operand(random: &mut Random, nodes: &[Node], used: &[bool], sort: Sort) -> Option<usize> {
    let all: Vec<usize> = (0..nodes.len())
        .filter(|&at| nodes[at].sort() == sort)
        .collect();
    let free: Vec<usize> = all.iter().copied().filter(|&at| !used[at]).collect();
    if all.is_empty() {
        None
    } else if free.is_empty() || random.once_in(4) {
        Some(random.pick(&all))
    } else {
        Some(random.pick(&free))
    }
}

/// Joins what isn't used yet, tests by keeping them.
fn join(random: &mut Random, nodes: &mut Vec<Node>, used: &mut Vec<bool>) {
    let tests: Vec<usize> = (0..nodes.len())
        .filter(|&at| !used[at] && nodes[at].sort() == Sort::Test)
        .collect();
    for test in tests {
        add(nodes, used, Node::Keep(test));
    }
    loop {
        let free: Vec<usize> = (0..nodes.len()).filter(|&at| !used[at]).collect();
        let [.., a, b] = free[..] else {
            return;
        };
        let kind = random.pick(&[Kind::And, Kind::Then]);
        let node = if random.once_in(4) {
            kind.of_operands(b, a)
        } else {
            kind.of_operands(a, b)
        };
        add(nodes, used, node);
    }
}
