//! The desk: its stages, the orders that it has given, the answers that it takes.

use crate::rehearse::order::Order;

#[derive(Clone, Copy, Debug, PartialEq, Eq)]
pub enum Stage {
    Idle,
    Installing,
    Stamping,
    Flushing(u8),
    Removing,
}

pub struct Desk {
    /// The version that a change starts from.
    pub version: u16,
    pub stage: Stage,
    switches: u8,
    hops: u8,
    /// A bit for each switch that has answered the stage's order.
    answered: u32,
}

impl Desk {
    pub fn new(switches: u8, hops: u8) -> Desk {
        Desk {
            version: 0,
            stage: Stage::Idle,
            switches,
            hops,
            answered: 0,
        }
    }

    /// The stage's order.
    pub fn order(&self) -> Option<Order> {
        match self.stage {
            Stage::Idle => None,
            Stage::Installing => Some(Order::Install(self.version + 1)),
            Stage::Stamping => Some(Order::Stamp(self.version + 1)),
            Stage::Flushing(round) => Some(Order::Round(self.version + 1, round)),
            Stage::Removing => Some(Order::Remove(self.version)),
        }
    }

    pub fn has_answered(&self, switch: u8) -> bool {
        self.answered & (1 << switch) != 0
    }

    /// Whether the order was given, now or earlier.
    pub fn has_given(&self, order: Order) -> bool {
        // The version that the order's change leads to, and how far the change is with it.
        let (to, far) = match order {
            Order::Install(version) => (u32::from(version), 1),
            Order::Stamp(version) => (u32::from(version), 2),
            Order::Round(version, round) => {
                if round == 0 || round > self.hops {
                    return false;
                }
                (u32::from(version), 2 + u32::from(round))
            }
            Order::Remove(version) => (u32::from(version) + 1, 100),
        };
        let version = u32::from(self.version);
        to > 0 && (to <= version || to == version + 1 && far <= self.far())
    }

    /// How far a change is.
    fn far(&self) -> u32 {
        match self.stage {
            Stage::Idle => 0,
            Stage::Installing => 1,
            Stage::Stamping => 2,
            Stage::Flushing(round) => 2 + u32::from(round),
            Stage::Removing => 100,
        }
    }

    /// Whether a change may begin: 9, then 10.
    pub fn may_change(&self) -> Result<(), u8> {
        if self.stage != Stage::Idle {
            Err(9)
        } else if self.version == u16::MAX {
            Err(10)
        } else {
            Ok(())
        }
    }

    pub fn begin(&mut self) {
        self.stage = Stage::Installing;
        self.answered = 0;
    }

    /// Takes an answer about an order, and says whether the desk went on: 11 if the order isn't the stage's.
    pub fn take_answer(&mut self, order: Order, switch: u8) -> Result<bool, u8> {
        if self.order() != Some(order) {
            return Err(11);
        }
        self.answered |= 1 << switch;
        if self.answered.count_ones() < u32::from(self.switches) {
            return Ok(false);
        }
        self.answered = 0;
        self.stage = match self.stage {
            Stage::Installing => Stage::Stamping,
            Stage::Stamping if self.hops > 0 => Stage::Flushing(1),
            Stage::Flushing(round) if round < self.hops => Stage::Flushing(round + 1),
            Stage::Stamping | Stage::Flushing(_) => Stage::Removing,
            Stage::Removing | Stage::Idle => {
                self.version += 1;
                Stage::Idle
            }
        };
        Ok(true)
    }
}
