//! The steps offered singly and the drain: each takes the switch as a value and
//! hands the next one back. A refusal hands the switch back exactly as it came.

use crate::limits::*;
use crate::switch::Switch;
use crate::Refusal;

/// What taking one arrival answers.
#[derive(Clone, Copy, Debug, PartialEq, Eq)]
pub enum Arrival {
    Accepted,
    Dropped,
    Refused(Refusal),
}

/// What closing the slot answers.
#[derive(Clone, Copy, Debug, PartialEq, Eq)]
pub enum Closing {
    Closed,
    Refused(Refusal),
}

/// What a drain answers, with the count of quiet slots.
#[derive(Clone, Copy, Debug, PartialEq, Eq)]
pub enum Drain {
    Empty(u32),
    NotEmpty(u32),
    Refused(Refusal),
}

impl Switch {
    /// Takes one arrival ("Arrival: 13, 11, 14").
    pub fn arrival(self, input: u32, output: u32) -> (Switch, Arrival) {
        if !self.allowed() {
            return (self, Arrival::Refused(13));
        }
        if input >= self.ports || output >= self.ports {
            return (self, Arrival::Refused(11));
        }
        if self.arrived >= MOST_ARRIVALS {
            return (self, Arrival::Refused(14));
        }
        let mut next = self;
        let mut events = Vec::new();
        if next.take_arrival(input as usize, output as usize, &mut events) {
            (next, Arrival::Accepted)
        } else {
            (next, Arrival::Dropped)
        }
    }

    /// Closes the slot ("Closing: 13, 15").
    pub fn close(self) -> (Switch, Closing) {
        if !self.allowed() {
            return (self, Closing::Refused(13));
        }
        if self.slot + 1 > MOST_SLOT_NUMBER {
            return (self, Closing::Refused(15));
        }
        let mut next = self;
        let mut events = Vec::new();
        next.finish_slot(&mut events);
        (next, Closing::Closed)
    }

    /// Drains ("Drain: 13, 16, 15"): closes slots without arrivals until the switch
    /// is empty or the limit is reached. The count is the least number of closings
    /// after which nothing is held, or the limit and "not empty". No log.
    pub fn drain(self, limit: u32) -> (Switch, Drain) {
        if !self.allowed() {
            return (self, Drain::Refused(13));
        }
        if limit > MOST_DRAIN {
            return (self, Drain::Refused(16));
        }
        if self.slot + limit > MOST_SLOT_NUMBER {
            return (self, Drain::Refused(15));
        }
        let mut next = self;
        let mut quiet = 0;
        while next.held() > 0 && quiet < limit {
            let mut events = Vec::new();
            next.finish_slot(&mut events);
            quiet += 1;
        }
        if next.held() == 0 {
            (next, Drain::Empty(quiet))
        } else {
            (next, Drain::NotEmpty(quiet))
        }
    }
}
