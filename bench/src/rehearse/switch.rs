//! A switch: its tables, stamp, floor and marks, and what orders do to them.

use crate::node::Pair;
use crate::rehearse::cables::{Cables, MOST_PORTS};
use crate::rehearse::item::{Fields, Mark};
use crate::rehearse::order::Order;
use crate::table::Rule;
use std::rc::Rc;

pub type Table = Rc<Vec<Rule>>;

pub struct Switch {
    /// The tables by version, in rising order.
    tables: Vec<(u16, Table)>,
    pub stamp: u16,
    pub floor: u32,
    /// The latest mark by the port at which it came in.
    marks: [Option<Mark>; MOST_PORTS as usize],
}

impl Switch {
    pub fn new(table: Table) -> Switch {
        Switch {
            tables: vec![(0, table)],
            stamp: 0,
            floor: 0,
            marks: [None; MOST_PORTS as usize],
        }
    }

    pub fn versions(&self) -> impl Iterator<Item = u16> + '_ {
        self.tables.iter().map(|(version, _)| *version)
    }

    pub fn table(&self, version: u16) -> Option<&Table> {
        self.tables
            .iter()
            .find(|(held, _)| *held == version)
            .map(|(_, table)| table)
    }

    fn has(&self, version: u16) -> bool {
        self.table(version).is_some()
    }

    /// Whether an install of this version would be taken in.
    pub fn wants(&self, version: u16) -> bool {
        u32::from(version) >= self.floor && !self.has(version)
    }

    pub fn install(&mut self, version: u16, table: Table) {
        if self.wants(version) {
            let at = self.tables.partition_point(|(held, _)| *held < version);
            self.tables.insert(at, (version, table));
        }
    }

    pub fn set_stamp(&mut self, version: u16) {
        if version > self.stamp && self.has(version) {
            self.stamp = version;
        }
    }

    pub fn remove(&mut self, version: u16) {
        if version < self.stamp {
            self.tables.retain(|(held, _)| *held != version);
            self.floor = self.floor.max(u32::from(version) + 1);
        }
    }

    /// A mark comes in, and is kept if it is later than the latest.
    pub fn take_mark(&mut self, port: u8, mark: Mark) {
        let latest = &mut self.marks[usize::from(port)];
        if latest.is_none_or(|latest| mark > latest) {
            *latest = Some(mark);
        }
    }

    /// Whether the order is done at this switch.
    pub fn has_done(&self, order: Order, me: u8, cables: &Cables) -> bool {
        match order {
            Order::Install(version) => self.has(version),
            Order::Stamp(version) => self.stamp == version,
            Order::Round(version, round) => cables.cabled(me).all(|port| {
                self.marks[usize::from(port)]
                    .is_some_and(|mark| mark.version == version && mark.round >= round)
            }),
            Order::Remove(version) => !self.has(version),
        }
    }
}

/// The settings of the first rule whose wants the packet meets.
pub fn outs<'a>(table: &'a [Rule], packet: &Fields) -> &'a [Vec<Pair>] {
    let meets = |rule: &&Rule| {
        rule.wants
            .iter()
            .all(|&(field, value)| packet[usize::from(field)] == value)
    };
    table.iter().find(meets).map_or(&[], |rule| &rule.outs)
}

/// The packet with these settings.
pub fn with(packet: &Fields, settings: &[Pair]) -> Fields {
    let mut copy = *packet;
    for &(field, value) in settings {
        copy[usize::from(field)] = value;
    }
    copy
}
