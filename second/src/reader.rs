//! The reader (document 01, "The trace file"): "A reader stands on the lent trace
//! and remembers its slot; it hands out the arrivals of one slot after another."

use crate::trace;
use crate::Refusal;

/// A lent trace and the slot whose arrivals come next. Any slot may stand here.
#[derive(Clone, Copy, Debug, PartialEq, Eq)]
pub struct Reader<'a> {
    pub bytes: &'a [u8],
    pub slot: usize,
}

/// What a request to the reader is answered.
#[derive(Clone, Debug, PartialEq, Eq)]
pub enum Handed {
    /// The arrivals of the slot, (input port, output port) in order of arrival.
    Arrivals(Vec<(usize, usize)>),
    /// The slot remembered is not below the number of slots.
    NoMore,
    /// The trace is bad: 1 to 11.
    Refused(Refusal),
}

impl<'a> Reader<'a> {
    /// A reader at the beginning of the lent trace, which may be a bad one.
    pub fn new(bytes: &'a [u8]) -> Reader<'a> {
        Reader { bytes, slot: 0 }
    }

    /// Hands out one slot's arrivals and goes on to the next slot. Over a bad
    /// trace, and where there is no more, the reader stays as it is.
    pub fn next_slot(&mut self) -> Handed {
        let trace = match trace::read(self.bytes) {
            Ok(trace) => trace,
            Err(refusal) => return Handed::Refused(refusal),
        };
        if self.slot >= trace.slots as usize {
            return Handed::NoMore;
        }
        let arrivals = trace::arrivals_of_slots(&trace)[self.slot].clone();
        self.slot += 1;
        Handed::Arrivals(arrivals)
    }
}
