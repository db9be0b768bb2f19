//! The smallest packet of which two tables give different copies, over their lists of rules.

use crate::node::FIELDS;
use crate::table::Rule;
use std::collections::{BTreeSet, HashSet};

pub type Fields = [u16; FIELDS];

/// What is left of a table: rules over the fields that have no value yet.
type Part = Vec<Rule>;

/// The packet and what each table makes of it, or nothing where they do the same.
pub type Difference = Option<(Fields, BTreeSet<Fields>, BTreeSet<Fields>)>;

pub fn difference(first: &[Rule], second: &[Rule]) -> Difference {
    let mut search = Search {
        packet: [0; FIELDS],
        settled: HashSet::new(),
    };
    if search.differ(0, first.to_vec(), second.to_vec()) {
        let packet = search.packet;
        Some((packet, copies(first, &packet), copies(second, &packet)))
    } else {
        None
    }
}

struct Search {
    packet: Fields,
    /// Pairs of parts that do the same.
    settled: HashSet<(usize, Part, Part)>,
}

impl Search {
    /// Whether the parts differ; then the packet is the smallest such.
    fn differ(&mut self, field: usize, first: Part, second: Part) -> bool {
        if first == second {
            return false;
        }
        if field == FIELDS {
            return true;
        }
        let key = (field, first, second);
        if self.settled.contains(&key) {
            return false;
        }
        for value in values(field as u8, &key.1, &key.2) {
            self.packet[field] = value;
            let first = given(&key.1, field as u8, value);
            let second = given(&key.2, field as u8, value);
            if self.differ(field + 1, first, second) {
                return true;
            }
        }
        self.settled.insert(key);
        false
    }
}

/// The values that are named, and the smallest that isn't.
fn values(field: u8, first: &[Rule], second: &[Rule]) -> BTreeSet<u16> {
    let mut named = BTreeSet::new();
    for rule in first.iter().chain(second) {
        for &(f, x) in rule.wants.iter().chain(rule.outs.iter().flatten()) {
            if f == field {
                named.insert(x);
            }
        }
    }
    if let Some(free) = (0..=u16::MAX).find(|x| !named.contains(x)) {
        named.insert(free);
    }
    named
}

/// The rules where the field has the value.
fn given(part: &[Rule], field: u8, value: u16) -> Part {
    let mut left: Part = vec![];
    let mut seen = HashSet::new();
    for rule in part {
        if rule.wants.iter().any(|&(f, x)| f == field && x != value) {
            continue;
        }
        let mut wants = rule.wants.clone();
        wants.retain(|want| want.0 != field);
        let mut outs = rule.outs.clone();
        for out in &mut outs {
            out.retain(|&setting| setting != (field, value));
        }
        outs.sort();
        outs.dedup();
        let last = wants.is_empty();
        if seen.insert(wants.clone()) {
            left.push(Rule { wants, outs });
        }
        if last {
            break;
        }
    }
    while left.last().is_some_and(|rule| rule.outs.is_empty()) {
        left.pop();
    }
    left
}

/// The copies that the first rule gives whose wants the packet meets.
fn copies(table: &[Rule], packet: &Fields) -> BTreeSet<Fields> {
    let meets = |rule: &&Rule| rule.wants.iter().all(|&(f, x)| packet[usize::from(f)] == x);
    let mut all = BTreeSet::new();
    for out in table.iter().find(meets).into_iter().flat_map(|rule| &rule.outs) {
        let mut copy = *packet;
        for &(f, x) in out {
            copy[usize::from(f)] = x;
        }
        all.insert(copy);
    }
    all
}

pub fn print(difference: &Difference) -> String {
    let Some((packet, first, second)) = difference else {
        return "same\n".to_string();
    };
    format!("packet {}\nfirst {}\nsecond {}\n", fields(packet), set(first), set(second))
}

fn fields(packet: &Fields) -> String {
    packet.map(|x| x.to_string()).join(" ")
}

fn set(packets: &BTreeSet<Fields>) -> String {
    if packets.is_empty() {
        return "none".to_string();
    }
    packets.iter().map(fields).collect::<Vec<_>>().join(" | ")
}
