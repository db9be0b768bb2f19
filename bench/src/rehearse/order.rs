//! Orders and answers: their words and their bytes.

use crate::bytes::{read_switch, Places};
use crate::table::{Rule, MOST_RULES};
use crate::words::Words;

/// An order; an answer names the order that it is about.
#[derive(Clone, Copy, Debug, PartialEq, Eq)]
pub enum Order {
    Install(u16),
    Stamp(u16),
    Round(u16, u8),
    Remove(u16),
}

/// The first byte of an order; that of its answer is 32 higher.
const INSTALL: u8 = 16;
const STAMP: u8 = 17;
const ROUND: u8 = 18;
const REMOVE: u8 = 19;
const ANSWER: u8 = 32;

/// An order as it is typed, with the switch's number. The numbers may be of any size.
#[derive(Clone, Copy, Debug)]
pub struct Typed {
    pub kind: Kind,
    pub version: u64,
    pub round: u64,
    pub switch: u64,
}

#[derive(Clone, Copy, Debug, PartialEq, Eq)]
pub enum Kind {
    Install,
    Stamp,
    Round,
    Remove,
}

impl Typed {
    /// `install V S`, `stamp V S`, `round V R S` or `remove V S`.
    pub fn read(words: &mut Words) -> Result<Typed, u8> {
        let kind = match words.next() {
            Some(b"install") => Kind::Install,
            Some(b"stamp") => Kind::Stamp,
            Some(b"round") => Kind::Round,
            Some(b"remove") => Kind::Remove,
            _ => return Err(1),
        };
        let version = words.number()?;
        let round = if kind == Kind::Round {
            words.number()?
        } else {
            0
        };
        let switch = words.number()?;
        Ok(Typed {
            kind,
            version,
            round,
            switch,
        })
    }

    /// The order and the switch, if the numbers can be those of one.
    pub fn order(&self, switches: u8) -> Option<(Order, u8)> {
        let version = u16::try_from(self.version).ok()?;
        let round = u8::try_from(self.round).ok()?;
        let switch = u8::try_from(self.switch).ok()?;
        if switch >= switches {
            return None;
        }
        let order = match self.kind {
            Kind::Install => Order::Install(version),
            Kind::Stamp => Order::Stamp(version),
            Kind::Round => Order::Round(version, round),
            Kind::Remove => Order::Remove(version),
        };
        Some((order, switch))
    }
}

/// Who reads: a switch takes orders alone, and a desk answers alone.
#[derive(Clone, Copy, Debug, PartialEq, Eq)]
pub enum Reader {
    Switch,
    Desk,
}

/// The kind, version, round and switch of an order or an answer, in a net with so many switches and hops.
pub fn read(
    places: &mut Places,
    reader: Reader,
    switches: u8,
    hops: u8,
) -> Result<(Order, u8), u8> {
    let first = match reader {
        Reader::Switch => 0,
        Reader::Desk => ANSWER,
    };
    let kind = places.one()?.checked_sub(first).ok_or(1)?;
    if !(INSTALL..=REMOVE).contains(&kind) {
        return Err(1);
    }
    let version = places.two()?;
    let round = places.one()?;
    let good = if kind == ROUND {
        (1..=hops).contains(&round)
    } else {
        round == 0
    };
    if !good {
        return Err(2);
    }
    let switch = read_switch(places, switches)?;
    let order = match kind {
        INSTALL => Order::Install(version),
        STAMP => Order::Stamp(version),
        ROUND => Order::Round(version, round),
        _ => Order::Remove(version),
    };
    Ok((order, switch))
}

/// The table that follows an install.
pub fn read_table(places: &mut Places) -> Result<Vec<Rule>, u8> {
    let count = usize::from(places.two()?);
    if count > MOST_RULES {
        return Err(7);
    }
    let mut rules = vec![];
    for _ in 0..count {
        let wants = read_pairs(places)?;
        let copies = places.one()?;
        if copies > 16 {
            return Err(6);
        }
        let mut outs = vec![];
        for _ in 0..copies {
            outs.push(read_pairs(places)?);
        }
        rules.push(Rule { wants, outs });
    }
    Ok(rules)
}

/// A number of pairs, at most 8, and the pairs.
fn read_pairs(places: &mut Places) -> Result<Vec<(u8, u16)>, u8> {
    let count = places.one()?;
    if count > 8 {
        return Err(2);
    }
    let mut pairs = vec![];
    for _ in 0..count {
        let field = places.one()?;
        if field > 7 {
            return Err(2);
        }
        pairs.push((field, places.two()?));
    }
    Ok(pairs)
}

/// The bytes of an order or of an answer.
pub fn write(order: Order, switch: u8, reader: Reader) -> Vec<u8> {
    let (kind, version, round) = match order {
        Order::Install(version) => (INSTALL, version, 0),
        Order::Stamp(version) => (STAMP, version, 0),
        Order::Round(version, round) => (ROUND, version, round),
        Order::Remove(version) => (REMOVE, version, 0),
    };
    let kind = match reader {
        Reader::Switch => kind,
        Reader::Desk => kind + ANSWER,
    };
    let [high, low] = version.to_be_bytes();
    vec![kind, high, low, round, switch]
}

/// The bytes of a table.
pub fn write_table(rules: &[Rule]) -> Vec<u8> {
    let mut out = (rules.len() as u16).to_be_bytes().to_vec();
    for rule in rules {
        write_pairs(&mut out, &rule.wants);
        out.push(rule.outs.len() as u8);
        for settings in &rule.outs {
            write_pairs(&mut out, settings);
        }
    }
    out
}

fn write_pairs(out: &mut Vec<u8>, pairs: &[(u8, u16)]) {
    out.push(pairs.len() as u8);
    for &(field, value) in pairs {
        out.push(field);
        out.extend_from_slice(&value.to_be_bytes());
    }
}
