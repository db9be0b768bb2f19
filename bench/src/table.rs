//! The prescribed table of a text, by the recursion over the pairs as it is stated.

use crate::fault::Fault;
use crate::meaning::{Meaning, Packet};
use crate::node::{Node, Pair, Sort, FIELDS};
use crate::pairs::{product, tested, MOST_PRODUCT};
use std::collections::BTreeSet;

pub const MOST_RULES: usize = 2_048;
pub const MOST_ON_THE_WAY: usize = 8_192;

#[derive(Clone, Debug, PartialEq, Eq, Hash)]
pub struct Rule {
    pub wants: Vec<Pair>,
    pub outs: Vec<Vec<Pair>>,
}

/// The table of a text with at least one node: 5 first, then 6 over all leaves, then 7.
pub fn make(nodes: &[Node]) -> Result<Vec<Rule>, Fault> {
    let nodes = kept(nodes);
    let pairs = tested(&nodes);
    if product(&pairs) > MOST_PRODUCT {
        return Err(Fault::new(5));
    }
    let mut maker = Maker {
        meaning: Meaning::new(&nodes),
        last: nodes.len() - 1,
        too_many: false,
    };
    let mut table = maker.table(&pairs, &[None; FIELDS])?;
    while table.last().is_some_and(|rule| rule.outs.is_empty()) {
        table.pop();
    }
    if maker.too_many || table.len() > MOST_RULES {
        return Err(Fault::new(7));
    }
    Ok(table)
}

/// The nodes, with a last one that keeps the test where the last one is a test.
fn kept(nodes: &[Node]) -> Vec<Node> {
    let mut nodes = nodes.to_vec();
    let last = nodes.len() - 1;
    if nodes[last].sort() == Sort::Test {
        nodes.push(Node::Keep(last));
    }
    nodes
}

struct Maker<'a> {
    meaning: Meaning<'a>,
    last: usize,
    /// Whether a table on the way had more than 8,192 rules.
    too_many: bool,
}

impl Maker<'_> {
    /// The table from these pairs on. The known fields are those that have a value.
    fn table(&mut self, pairs: &[Pair], known: &Packet) -> Result<Vec<Rule>, Fault> {
        let Some((&(field, value), rest)) = pairs.split_first() else {
            return Ok(vec![self.leaf(known)?]);
        };
        if known[usize::from(field)].is_some() {
            return self.table(rest, known);
        }
        let mut with = *known;
        with[usize::from(field)] = Some(value);
        let yes = self.table(rest, &with)?;
        let no = self.table(rest, known)?;
        let answer = if without(&yes, field) == no {
            no
        } else {
            [yes, no].concat()
        };
        if answer.len() > MOST_ON_THE_WAY {
            self.too_many = true;
        }
        Ok(answer)
    }

    /// The rule of what is known.
    fn leaf(&mut self, known: &Packet) -> Result<Rule, Fault> {
        self.meaning.clear();
        let copies = self.meaning.copies(self.last, known)?;
        let outs: BTreeSet<Vec<Pair>> = copies.iter().map(|copy| settings(known, copy)).collect();
        Ok(Rule {
            wants: settings(&[None; FIELDS], known),
            outs: outs.into_iter().collect(),
        })
    }
}

/// The fields in which the second packet differs from the first, with its values.
fn settings(first: &Packet, second: &Packet) -> Vec<Pair> {
    let mut pairs = vec![];
    for (field, (old, new)) in first.iter().zip(second).enumerate() {
        match new {
            Some(value) if old != new => pairs.push((field as u8, *value)),
            _ => {}
        }
    }
    pairs
}

/// The rules without their wants of a field.
fn without(table: &[Rule], field: u8) -> Vec<Rule> {
    let mut table = table.to_vec();
    for rule in &mut table {
        rule.wants.retain(|want| want.0 != field);
    }
    table
}
