//! The lines that are printed of what happens.

use crate::rehearse::desk::{Desk, Stage};
use crate::rehearse::item::{Entrance, Fields, Frame, Item};
use crate::rehearse::switch::Switch;

/// Lines that wait to be written out.
#[derive(Default)]
pub struct Printer {
    pub lines: Vec<u8>,
}

impl Printer {
    fn word(&mut self, word: &str) {
        self.lines.extend_from_slice(word.as_bytes());
    }

    fn number(&mut self, number: u32) {
        let mut digits = [0; 10];
        let mut first = digits.len();
        let mut rest = number;
        loop {
            first -= 1;
            digits[first] = b'0' + (rest % 10) as u8;
            rest /= 10;
            if rest == 0 {
                break;
            }
        }
        self.lines.extend_from_slice(&digits[first..]);
    }

    /// Some words and a number behind them.
    fn named(&mut self, word: &str, number: u32) {
        self.word(word);
        self.number(number);
    }

    fn fields(&mut self, fields: &Fields) {
        for (at, field) in fields.iter().enumerate() {
            self.named(if at == 0 { " " } else { "," }, u32::from(*field));
        }
    }

    fn end(&mut self) {
        self.lines.push(b'\n');
    }

    pub fn left(&mut self, entrance: &Entrance, version: u16, at: u8, fields: &Fields) {
        self.named("left from ", u32::from(entrance.switch));
        self.fields(&entrance.fields);
        self.named(" version ", u32::from(version));
        self.named(" at ", u32::from(at));
        self.fields(fields);
        self.end();
    }

    pub fn lost(&mut self, switch: u8, port: u8, item: &Item) {
        self.named("lost ", u32::from(switch));
        self.named(" ", u32::from(port));
        match item {
            Item::Frame(_, frame) => self.frame(frame),
            Item::Mark(mark) => {
                self.named(" mark ", u32::from(mark.version));
                self.named(" ", u32::from(mark.round));
            }
        }
        self.end();
    }

    fn frame(&mut self, frame: &Frame) {
        self.named(" frame ", u32::from(frame.version));
        self.named(" ", u32::from(frame.hops));
        self.fields(&frame.fields);
    }

    /// The stage that the desk is in.
    pub fn stage(&mut self, desk: &Desk) {
        let old = u32::from(desk.version);
        match desk.stage {
            Stage::Idle => self.named("stage idle ", old),
            Stage::Installing => self.named("stage installing ", old + 1),
            Stage::Stamping => self.named("stage stamping ", old + 1),
            Stage::Flushing(round) => {
                self.named("stage flushing ", old + 1);
                self.named(" ", u32::from(round));
            }
            Stage::Removing => self.named("stage removing ", old),
        }
        self.end();
    }

    pub fn switch(&mut self, number: u8, switch: &Switch) {
        self.named("switch ", u32::from(number));
        self.word(" versions");
        for version in switch.versions() {
            self.named(" ", u32::from(version));
        }
        self.named(" stamp ", u32::from(switch.stamp));
        self.named(" floor ", switch.floor);
        self.end();
    }

    pub fn refused(&mut self, number: u8) {
        self.named("refused ", u32::from(number));
        self.end();
    }

    pub fn impossible(&mut self) {
        self.word("impossible\n");
    }
}
