//! What lies on a cable.

use crate::node::FIELDS;

pub type Fields = [u16; FIELDS];

/// Where a packet came in from outside, and as what.
#[derive(Clone, Copy, Debug)]
pub struct Entrance {
    pub switch: u8,
    pub fields: Fields,
}

#[derive(Clone, Copy, Debug)]
pub struct Frame {
    pub version: u16,
    pub hops: u8,
    pub fields: Fields,
}

/// Marks are compared by their versions first, then by their rounds.
#[derive(Clone, Copy, Debug, PartialEq, Eq, PartialOrd, Ord)]
pub struct Mark {
    pub version: u16,
    pub round: u8,
}

#[derive(Clone, Copy, Debug)]
pub enum Item {
    Frame(Entrance, Frame),
    Mark(Mark),
}
