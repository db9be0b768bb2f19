//! A whole net in memory: switches, desk, and what is on the cables.

use crate::bytes::Places;
use crate::rehearse::cables::{Cables, End};
use crate::rehearse::change;
use crate::rehearse::desk::{Desk, Stage};
use crate::rehearse::item::{Entrance, Fields, Frame, Item, Mark};
use crate::rehearse::order::{self, Order, Reader, Typed};
use crate::rehearse::printer::Printer;
use crate::rehearse::switch::{outs, with, Switch, Table};
use std::collections::VecDeque;
use std::rc::Rc;

/// The first byte of a change.
const CHANGE: u8 = 66;

/// Why a step isn't taken.
pub enum Not {
    Refused(u8),
    Impossible,
}

impl From<u8> for Not {
    fn from(number: u8) -> Not {
        Not::Refused(number)
    }
}

pub struct Net {
    pub cables: Cables,
    pub switches: Vec<Switch>,
    pub desk: Desk,
    /// What is on the cable that goes out of a port, by the port's place; the first comes in first.
    queues: Vec<VecDeque<Item>>,
    /// The tables of the change under way.
    tables: Vec<Table>,
    /// A bit for each switch that has sent its answer to the stage's order.
    sent: u32,
}

impl Net {
    /// A net with a table for each switch as version 0.
    pub fn new(cables: Cables, tables: Vec<Table>) -> Net {
        let ports = usize::from(cables.switches) * usize::from(cables.ports);
        Net {
            desk: Desk::new(cables.switches, cables.hops),
            switches: tables.into_iter().map(Switch::new).collect(),
            queues: vec![VecDeque::new(); ports],
            tables: vec![],
            sent: 0,
            cables,
        }
    }

    /// A packet comes in from outside.
    pub fn enter(&mut self, switch: u64, fields: &[u64; 8], out: &mut Printer) -> Result<(), Not> {
        let switch = self.switch(switch).ok_or(2)?;
        let mut packet: Fields = [0; 8];
        for (field, &typed) in packet.iter_mut().zip(fields) {
            *field = u16::try_from(typed).map_err(|_| 2)?;
        }
        if self.cables.sent_to(switch, packet[0]) != End::Outside {
            return Err(Not::Refused(2));
        }
        let entrance = Entrance {
            switch,
            fields: packet,
        };
        let frame = Frame {
            version: self.switches[usize::from(switch)].stamp,
            hops: self.cables.hops,
            fields: packet,
        };
        self.pass(switch, &entrance, &frame, out);
        Ok(())
    }

    /// The first item on the cable that goes out of a port comes in at the other end.
    pub fn arrive(&mut self, switch: u64, port: u64, out: &mut Printer) -> Result<(), Not> {
        let (switch, port) = self.port(switch, port).ok_or(Not::Impossible)?;
        let End::Cable(to, at) = self.cables.at(switch, port) else {
            return Err(Not::Impossible);
        };
        match self.take(switch, port)? {
            Item::Frame(entrance, frame) => self.pass(to, &entrance, &frame, out),
            Item::Mark(mark) => self.switches[usize::from(to)].take_mark(at, mark),
        }
        Ok(())
    }

    /// The first item on the cable that goes out of a port is lost.
    pub fn lose(&mut self, switch: u64, port: u64, out: &mut Printer) -> Result<(), Not> {
        let (switch, port) = self.port(switch, port).ok_or(Not::Impossible)?;
        let item = self.take(switch, port)?;
        out.lost(switch, port, &item);
        Ok(())
    }

    /// An order that was given reaches its switch.
    pub fn order(&mut self, typed: &Typed) -> Result<(), Not> {
        let (order, switch) = typed.order(self.cables.switches).ok_or(Not::Impossible)?;
        self.obey(order, switch)
    }

    /// An answer that was sent reaches the desk.
    pub fn answer(&mut self, typed: &Typed, out: &mut Printer) -> Result<(), Not> {
        let (order, switch) = typed.order(self.cables.switches).ok_or(Not::Impossible)?;
        self.accept(order, switch, out)
    }

    /// A change with a table for each switch.
    pub fn change(&mut self, tables: Vec<Table>, out: &mut Printer) -> Result<(), Not> {
        self.desk.may_change()?;
        self.tables = tables;
        self.sent = 0;
        self.desk.begin();
        out.stage(&self.desk);
        Ok(())
    }

    /// Bytes reach a switch as an order.
    pub fn raw_switch(&mut self, me: u64, bytes: &[u8]) -> Result<(), Not> {
        let me = self.switch(me).ok_or(2)?;
        let places = &mut Places::new(bytes);
        let Cables { switches, hops, .. } = self.cables;
        let (order, switch) = order::read(places, Reader::Switch, switches, hops)?;
        if switch != me {
            return Err(Not::Refused(8));
        }
        let mut other = false;
        if let Order::Install(version) = order {
            let rules = order::read_table(places)?;
            other = self.is_under_way(version) && rules != *self.tables[usize::from(me)];
        }
        places.end()?;
        if other {
            return Err(Not::Impossible);
        }
        self.obey(order, me)
    }

    /// Bytes reach the desk, as a change or an answer.
    pub fn raw_desk(&mut self, bytes: &[u8], out: &mut Printer) -> Result<(), Not> {
        let Cables { switches, hops, .. } = self.cables;
        if bytes.first() == Some(&CHANGE) {
            let tables = change::read_bytes(&mut Places::new(&bytes[1..]), switches)?;
            return self.change(tables, out);
        }
        let places = &mut Places::new(bytes);
        let (order, switch) = order::read(places, Reader::Desk, switches, hops)?;
        places.end()?;
        self.accept(order, switch, out)
    }

    /// A line for each switch.
    pub fn show(&self, out: &mut Printer) {
        for (number, switch) in self.switches.iter().enumerate() {
            out.switch(number as u8, switch);
        }
    }

    /// Whether a switch has sent an answer about this order.
    pub fn has_sent(&self, order: Order, switch: u8) -> bool {
        if self.desk.order() == Some(order) {
            self.sent & (1 << switch) != 0
        } else {
            // The desk went on from the order's stage, so that all have answered it.
            self.desk.has_given(order)
        }
    }

    /// What is on the cable that goes out of a port.
    pub fn queue(&self, switch: u8, port: u8) -> &VecDeque<Item> {
        &self.queues[self.cables.place(switch, port)]
    }

    /// The table that an install of this version carries to a switch. Of an earlier change none is kept: the switch ignores it.
    pub fn given_table(&self, version: u16, switch: u8) -> Table {
        if self.is_under_way(version) {
            self.tables[usize::from(switch)].clone()
        } else {
            Rc::new(vec![])
        }
    }

    /// Whether a change to this version is under way.
    fn is_under_way(&self, version: u16) -> bool {
        self.desk.stage != Stage::Idle && version == self.desk.version + 1
    }

    fn switch(&self, number: u64) -> Option<u8> {
        let number = u8::try_from(number).ok()?;
        (number < self.cables.switches).then_some(number)
    }

    fn port(&self, switch: u64, port: u64) -> Option<(u8, u8)> {
        let switch = self.switch(switch)?;
        let port = u8::try_from(port).ok()?;
        (port < self.cables.ports).then_some((switch, port))
    }

    /// Takes the first item off the cable that goes out of a port.
    fn take(&mut self, switch: u8, port: u8) -> Result<Item, Not> {
        let place = self.cables.place(switch, port);
        self.queues[place].pop_front().ok_or(Not::Impossible)
    }

    fn obey(&mut self, order: Order, switch: u8) -> Result<(), Not> {
        if !self.desk.has_given(order) {
            return Err(Not::Impossible);
        }
        let me = usize::from(switch);
        match order {
            Order::Install(version) => {
                if self.switches[me].wants(version) {
                    assert!(self.is_under_way(version), "an old version is taken in");
                    let table = self.given_table(version, switch);
                    self.switches[me].install(version, table);
                }
            }
            Order::Stamp(version) => self.switches[me].set_stamp(version),
            Order::Round(version, round) => self.put_marks(switch, Mark { version, round }),
            Order::Remove(version) => self.switches[me].remove(version),
        }
        let done = self.switches[me].has_done(order, switch, &self.cables);
        if done && self.desk.order() == Some(order) {
            self.sent |= 1 << switch;
        }
        Ok(())
    }

    /// Puts a mark on every cable that goes out.
    fn put_marks(&mut self, switch: u8, mark: Mark) {
        for port in self.cables.cabled(switch) {
            self.queues[self.cables.place(switch, port)].push_back(Item::Mark(mark));
        }
    }

    fn accept(&mut self, order: Order, switch: u8, out: &mut Printer) -> Result<(), Not> {
        if !self.has_sent(order, switch) {
            return Err(Not::Impossible);
        }
        if self.desk.take_answer(order, switch)? {
            self.sent = 0;
            out.stage(&self.desk);
        }
        Ok(())
    }

    /// Sends the copies that a switch's table has of a frame.
    fn pass(&mut self, switch: u8, entrance: &Entrance, frame: &Frame, out: &mut Printer) {
        let Some(table) = self.switches[usize::from(switch)].table(frame.version) else {
            return;
        };
        let outs = outs(table, &frame.fields);
        let mut copies: [Fields; 16] = [[0; 8]; 16];
        let mut count = 0;
        for settings in outs {
            let copy = with(&frame.fields, settings);
            if copies[..count].contains(&copy) {
                continue;
            }
            copies[count] = copy;
            count += 1;
        }
        for copy in &copies[..count] {
            match self.cables.sent_to(switch, copy[0]) {
                End::Nothing => {}
                End::Outside => out.left(entrance, frame.version, switch, copy),
                End::Cable(_, port) => {
                    if frame.hops > 0 {
                        let mut onward = Frame {
                            version: frame.version,
                            hops: frame.hops - 1,
                            fields: *copy,
                        };
                        let place = self.cables.place(switch, copy[0] as u8);
                        onward.fields[0] = u16::from(port);
                        self.queues[place].push_back(Item::Frame(*entrance, onward));
                    }
                }
            }
        }
    }
}
