//! Texts at both sides of the limits.

use crate::node::{Kind, Node};
use crate::random::Random;

/// Nodes that are built one on the other.
#[derive(Default)]
pub struct Builder {
    pub nodes: Vec<Node>,
}

impl Builder {
    pub fn add(&mut self, node: Node) -> usize {
        self.nodes.push(node);
        self.nodes.len() - 1
    }

    /// Joins nodes from the left with this kind.
    pub fn join(&mut self, kind: Kind, parts: &[usize]) -> usize {
        let mut all = parts[0];
        for &part in &parts[1..] {
            all = self.add(kind.of_operands(all, part));
        }
        all
    }

    /// Exactly one of two tests passes.
    fn one_of(&mut self, a: usize, b: usize) -> usize {
        let either = self.add(Node::Either(a, b));
        let both = self.add(Node::Both(a, b));
        let not = self.add(Node::Not(both));
        self.add(Node::Both(either, not))
    }

    /// A test node for each value from 1 to the field's count.
    fn tests(&mut self, counts: &[usize]) -> Vec<usize> {
        let mut tests = vec![];
        for (field, &count) in counts.iter().enumerate() {
            for value in 1..=count {
                tests.push(self.add(Node::Is(field as u8, value as u16)));
            }
        }
        tests
    }

    /// A number of puts of different values into a field, joined by `and`.
    fn puts(&mut self, field: u8, count: usize) -> usize {
        let puts: Vec<usize> = (0..count)
            .map(|value| self.add(Node::Put(field, value as u16)))
            .collect();
        self.join(Kind::And, &puts)
    }
}

/// 15 to 18 copies, perhaps behind a test, perhaps thrown away.
pub fn copies(random: &mut Random) -> Vec<Node> {
    let mut b = Builder::default();
    let count = random.range(15, 18);
    let mut all = b.puts(random.below(8) as u8, count);
    if random.once_in(2) {
        let always = b.add(Node::Always);
        let same = b.add(Node::Keep(always));
        all = b.add(Node::And(all, same));
    }
    if random.once_in(2) {
        let test = b.add(Node::Is(random.below(8) as u8, random.below(18) as u16));
        let keep = b.add(Node::Keep(test));
        all = b.add(if random.once_in(2) {
            Node::Then(all, keep)
        } else {
            Node::Then(keep, all)
        });
    }
    if random.once_in(2) {
        let put = b.add(Node::Put(random.below(8) as u8, 5));
        b.add(if random.once_in(2) {
            Node::Then(all, put)
        } else {
            Node::Then(put, all)
        });
    }
    b.nodes
}

/// A product near 65,536.
pub fn product(random: &mut Random) -> Vec<Node> {
    let counts: &[usize] = random.pick(&[
        &[15, 15, 15, 15][..],
        &[15, 16, 15, 15],
        &[3, 3, 3, 3, 3, 3, 3, 3],
        &[3, 3, 3, 3, 3, 3, 3, 4],
        &[112, 28, 4, 1, 1],
        &[63, 31, 31],
        &[64, 31, 31],
    ]);
    let mut b = Builder::default();
    let tests = b.tests(counts);
    let kind = random.pick(&[Kind::Both, Kind::Either]);
    let all = b.join(kind, &tests);
    if random.once_in(2) {
        b.add(Node::Not(all));
    }
    b.nodes
}

/// About 2,048 rules: a test of each leaf's parity, so that none is the same as its neighbour.
pub fn rules(random: &mut Random) -> Vec<Node> {
    let counts: &[usize] = random.pick(&[
        &[0, 3, 3, 3, 3, 1, 1, 1][..],
        &[0, 2, 3, 3, 3, 1, 1, 1],
        &[0, 3, 4, 3, 3, 1, 1, 1],
        &[0, 7, 7, 7, 3],
        &[0, 12, 12, 11],
        &[0, 63, 31],
    ]);
    let mut b = Builder::default();
    let tests = b.tests(counts);
    let mut all = tests[0];
    for &test in &tests[1..] {
        all = b.one_of(all, test);
    }
    if random.once_in(2) {
        all = b.add(Node::Not(all));
    }
    if random.once_in(2) {
        let port = b.add(Node::Is(0, 7));
        all = b.add(if random.once_in(2) {
            Node::Either(port, all)
        } else {
            Node::Both(port, all)
        });
    }
    if random.once_in(2) {
        let keep = b.add(Node::Keep(all));
        let count = random.range(1, 17);
        let puts = b.puts(0, count);
        b.add(Node::Then(keep, puts));
    }
    b.nodes
}

/// 511 to 514 nodes, in which each of a chain is built twice from the one before it.
pub fn nodes(random: &mut Random) -> Vec<Node> {
    let count = random.range(511, 514);
    let mut b = Builder::default();
    let test = b.add(Node::Is(1, 5));
    let kinds = if random.once_in(2) {
        vec![Kind::Both, Kind::Either]
    } else {
        let keep = b.add(Node::Keep(test));
        let put = b.add(Node::Put(1, 6));
        b.add(Node::And(keep, put));
        vec![Kind::And, Kind::Then]
    };
    while b.nodes.len() < count {
        let last = b.nodes.len() - 1;
        let kind = random.pick(&kinds);
        b.add(kind.of_operands(last, last));
    }
    b.nodes
}
