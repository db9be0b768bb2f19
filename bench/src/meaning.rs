//! What nodes do with a packet. Each node is worked out once for each packet that it is given.

use crate::fault::Fault;
use crate::hash::QuickMap;
use crate::node::{Node, FIELDS};
use std::collections::BTreeSet;
use std::rc::Rc;

pub const MOST_COPIES: usize = 16;

/// A packet. A field without a value has one that no node of the text names.
pub type Packet = [Option<u16>; FIELDS];

pub type Copies = Rc<BTreeSet<Packet>>;

/// The nodes of a text with what is worked out already.
pub struct Meaning<'a> {
    nodes: &'a [Node],
    passes: QuickMap<(usize, Packet), bool>,
    copies: QuickMap<(usize, Packet), Copies>,
}

impl<'a> Meaning<'a> {
    pub fn new(nodes: &'a [Node]) -> Meaning<'a> {
        Meaning {
            nodes,
            passes: QuickMap::default(),
            copies: QuickMap::default(),
        }
    }

    /// Forgets what is worked out.
    pub fn clear(&mut self) {
        self.passes.clear();
        self.copies.clear();
    }

    /// Whether the packet passes a test node.
    pub fn passes(&mut self, at: usize, packet: &Packet) -> bool {
        if let Some(&known) = self.passes.get(&(at, *packet)) {
            return known;
        }
        let answer = match self.nodes[at] {
            Node::Always => true,
            Node::Is(field, value) => packet[usize::from(field)] == Some(value),
            Node::Both(a, b) => self.passes(a, packet) && self.passes(b, packet),
            Node::Either(a, b) => self.passes(a, packet) || self.passes(b, packet),
            Node::Not(a) => !self.passes(a, packet),
            _ => unreachable!("node {at} is no test"),
        };
        self.passes.insert((at, *packet), answer);
        answer
    }

    /// The copies that a policy node has of the packet. More than 16 at any node: 6.
    pub fn copies(&mut self, at: usize, packet: &Packet) -> Result<Copies, Fault> {
        if let Some(known) = self.copies.get(&(at, *packet)) {
            return Ok(known.clone());
        }
        let mut answer = BTreeSet::new();
        match self.nodes[at] {
            Node::Keep(a) => {
                if self.passes(a, packet) {
                    answer.insert(*packet);
                }
            }
            Node::Put(field, value) => {
                let mut copy = *packet;
                copy[usize::from(field)] = Some(value);
                answer.insert(copy);
            }
            Node::And(a, b) => {
                answer.extend(self.copies(a, packet)?.iter());
                answer.extend(self.copies(b, packet)?.iter());
            }
            Node::Then(a, b) => {
                for copy in self.copies(a, packet)?.iter() {
                    answer.extend(self.copies(b, copy)?.iter());
                }
            }
            _ => unreachable!("node {at} is no policy"),
        }
        if answer.len() > MOST_COPIES {
            return Err(Fault::new(6));
        }
        let answer = Rc::new(answer);
        self.copies.insert((at, *packet), answer.clone());
        Ok(answer)
    }
}
