//! What hangs on each port of each switch, and the lines that say so.

use crate::notation::read_number;
use crate::words::Words;

pub const MOST_SWITCHES: u8 = 24;
pub const MOST_PORTS: u8 = 32;
pub const MOST_HOPS: u8 = 16;

#[derive(Clone, Copy, Debug, PartialEq, Eq)]
pub enum End {
    Nothing,
    Outside,
    /// The switch and the port at the other end of a cable.
    Cable(u8, u8),
}

pub struct Cables {
    pub switches: u8,
    pub ports: u8,
    pub hops: u8,
    ends: Vec<End>,
}

impl Cables {
    pub fn new(switches: u8, ports: u8, hops: u8) -> Cables {
        let count = usize::from(switches) * usize::from(ports);
        Cables {
            switches,
            ports,
            hops,
            ends: vec![End::Nothing; count],
        }
    }

    /// The place of a port among all ports of the net.
    pub fn place(&self, switch: u8, port: u8) -> usize {
        usize::from(switch) * usize::from(self.ports) + usize::from(port)
    }

    pub fn at(&self, switch: u8, port: u8) -> End {
        self.ends[self.place(switch, port)]
    }

    pub fn set(&mut self, switch: u8, port: u8, end: End) {
        let place = self.place(switch, port);
        self.ends[place] = end;
    }

    /// What hangs at a switch's port, which may be above the highest.
    pub fn sent_to(&self, switch: u8, port: u16) -> End {
        if port < u16::from(self.ports) {
            self.at(switch, port as u8)
        } else {
            End::Nothing
        }
    }

    /// The ports of a switch that have a cable.
    pub fn cabled(&self, switch: u8) -> impl Iterator<Item = u8> + '_ {
        (0..self.ports).filter(move |&port| matches!(self.at(switch, port), End::Cable(..)))
    }

    /// `net N PORTS H`, without its first word. Numbers are tested from left to right.
    pub fn read_net(mut words: Words) -> Result<Cables, u8> {
        let switches = read_between(words.next(), 1, MOST_SWITCHES)?;
        let ports = read_between(words.next(), 1, MOST_PORTS)?;
        let hops = read_between(words.next(), 0, MOST_HOPS)?;
        words.end()?;
        Ok(Cables::new(switches, ports, hops))
    }

    /// `cable S P S P`, without its first word.
    pub fn read_cable(&mut self, mut words: Words) -> Result<(), u8> {
        let one = self.read_port(&mut words)?;
        if self.at(one.0, one.1) != End::Nothing {
            return Err(4);
        }
        let other = self.read_port(&mut words)?;
        if self.at(other.0, other.1) != End::Nothing || one == other {
            return Err(4);
        }
        words.end()?;
        self.set(one.0, one.1, End::Cable(other.0, other.1));
        self.set(other.0, other.1, End::Cable(one.0, one.1));
        Ok(())
    }

    /// `outside S P`, without its first word. The same port twice is fine.
    pub fn read_outside(&mut self, mut words: Words) -> Result<(), u8> {
        let (switch, port) = self.read_port(&mut words)?;
        if matches!(self.at(switch, port), End::Cable(..)) {
            return Err(4);
        }
        words.end()?;
        self.set(switch, port, End::Outside);
        Ok(())
    }

    fn read_port(&self, words: &mut Words) -> Result<(u8, u8), u8> {
        let switch = read_between(words.next(), 0, self.switches - 1)?;
        let port = read_between(words.next(), 0, self.ports - 1)?;
        Ok((switch, port))
    }
}

fn read_between(word: Option<&[u8]>, first: u8, last: u8) -> Result<u8, u8> {
    let number = read_number(word, u64::from(last))? as u8;
    if number < first {
        return Err(2);
    }
    Ok(number)
}
