//! The texts of a change, typed or in bytes, made into a table for each switch.

use crate::bytes::{read_nodes, read_switch, Places};
use crate::fault::Fault;
use crate::notation;
use crate::rehearse::switch::Table;
use crate::table::make;
use std::rc::Rc;

/// A `text` line: its switch as typed, and its nodes in the notation.
pub struct Text {
    pub line: usize,
    pub switch: u64,
    pub nodes: Vec<u8>,
}

/// The tables made so far, by switch.
struct Plan {
    tables: Vec<Option<Table>>,
}

impl Plan {
    fn new(switches: u8) -> Plan {
        Plan {
            tables: vec![None; usize::from(switches)],
        }
    }

    /// A switch that isn't there, or comes a second time: 2.
    fn place(&mut self, switch: u64) -> Result<&mut Option<Table>, u8> {
        let place = usize::try_from(switch)
            .ok()
            .and_then(|switch| self.tables.get_mut(switch));
        match place {
            Some(place) if place.is_none() => Ok(place),
            _ => Err(2),
        }
    }

    /// A switch without a text: 2.
    fn whole(self) -> Result<Vec<Table>, u8> {
        self.tables.into_iter().collect::<Option<_>>().ok_or(2)
    }
}

/// Typed texts, one after the other. A fault has the line of its text; one of no text has none.
pub fn read_typed(texts: &[Text], switches: u8) -> Result<Vec<Table>, Fault> {
    let mut plan = Plan::new(switches);
    for text in texts {
        let at = |number| Fault::at(number, text.line);
        let place = plan.place(text.switch).map_err(at)?;
        let nodes = notation::read(&text.nodes).map_err(|fault| at(fault.number))?;
        let table = make(&nodes).map_err(|fault| at(fault.number))?;
        *place = Some(Rc::new(table));
    }
    plan.whole().map_err(Fault::new)
}

/// What follows the first byte of a change: texts until the bytes end.
pub fn read_bytes(places: &mut Places, switches: u8) -> Result<Vec<Table>, u8> {
    let mut plan = Plan::new(switches);
    while !places.is_empty() {
        let switch = read_switch(places, switches)?;
        let place = plan.place(u64::from(switch))?;
        let nodes = read_nodes(places)?;
        let table = make(&nodes).map_err(|fault| fault.number)?;
        *place = Some(Rc::new(table));
    }
    plan.whole()
}
