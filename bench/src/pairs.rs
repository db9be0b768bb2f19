//! The pairs that are tested under a text's last node, and their product.

use crate::node::{Node, Pair, FIELDS};
use std::collections::BTreeSet;

pub const MOST_PRODUCT: u64 = 65_536;

/// Which nodes are under the last one, itself included.
fn under_last(nodes: &[Node]) -> Vec<bool> {
    let mut under = vec![false; nodes.len()];
    if let Some(last) = under.last_mut() {
        *last = true;
    }
    for at in (0..nodes.len()).rev() {
        if under[at] {
            for operand in nodes[at].operands() {
                under[operand] = true;
            }
        }
    }
    under
}

/// The pairs of the test nodes under the last node, in rising order, each once.
pub fn tested(nodes: &[Node]) -> Vec<Pair> {
    let under = under_last(nodes);
    let mut pairs = BTreeSet::new();
    for (node, under) in nodes.iter().zip(under) {
        if let (Node::Is(field, value), true) = (node, under) {
            pairs.insert((*field, *value));
        }
    }
    pairs.into_iter().collect()
}

/// The product over the fields of one more than the number of values.
pub fn product(pairs: &[Pair]) -> u64 {
    let mut factors = [1u64; FIELDS];
    for (field, _) in pairs {
        factors[usize::from(*field)] += 1;
    }
    factors.iter().product()
}
