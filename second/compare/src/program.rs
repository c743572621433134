//! The seven functions that both programs are asked through, and the second program
//! behind them.

use second::run;
use second::steps::{Arrival, Closing, Drain};
use second::switch::{Switch, WORDS};
use second::trace::{self, Trace};

/// A lent run of the wrong length gets this number, before anything else.
pub const LENT_LENGTH: u32 = 30;

/// The library's functions; each answers 0 or a refusal's number.
pub trait Program {
    fn examine(&self, trace: &[u8]) -> u32;
    fn run(&self, trace: &[u8], log: &mut [u32], counts: &mut [u32]) -> u32;
    fn write(
        &self,
        header: &[u32],
        capacities: &[u16],
        slot_counts: &[u16],
        arrivals: &[u8],
        out: &mut [u8],
    ) -> u32;
    fn new_switch(&self, trace: &[u8], state: &mut [u32]) -> u32;
    fn arrive(&self, state: &mut [u32], input: u32, output: u32, answer: &mut [u32]) -> u32;
    fn close(&self, state: &mut [u32]) -> u32;
    fn drain(&self, state: &mut [u32], limit: u32, answer: &mut [u32]) -> u32;
}

/// The second program.
pub struct Second;

impl Program for Second {
    fn examine(&self, trace: &[u8]) -> u32 {
        trace::read(trace).err().unwrap_or(0)
    }

    fn run(&self, trace: &[u8], log: &mut [u32], counts: &mut [u32]) -> u32 {
        if counts.len() != 6 {
            return LENT_LENGTH;
        }
        match run::run(trace, log) {
            Ok(found) => {
                counts[0] = found.arrived;
                counts[1] = found.dropped;
                counts[2] = found.crossed;
                counts[3] = found.outmoved;
                counts[4] = found.sent;
                counts[5] = found.held;
                0
            }
            Err(refusal) => refusal,
        }
    }

    fn write(
        &self,
        header: &[u32],
        capacities: &[u16],
        slot_counts: &[u16],
        arrivals: &[u8],
        out: &mut [u8],
    ) -> u32 {
        if header.len() != 6 {
            return LENT_LENGTH;
        }
        let tables = Trace {
            model: header[0],
            order: header[1],
            ports: header[2],
            speedup: header[3],
            slots: header[4],
            arrivals: header[5],
            capacities: capacities.to_vec(),
            slot_counts: slot_counts.to_vec(),
            arrival_ports: arrivals.to_vec(),
        };
        trace::write(&tables, out).err().unwrap_or(0)
    }

    fn new_switch(&self, trace: &[u8], state: &mut [u32]) -> u32 {
        if state.len() != WORDS {
            return LENT_LENGTH;
        }
        match Switch::new(trace) {
            (switch, None) => {
                state.copy_from_slice(&switch.to_words());
                0
            }
            (_, Some(refusal)) => refusal,
        }
    }

    fn arrive(&self, state: &mut [u32], input: u32, output: u32, answer: &mut [u32]) -> u32 {
        if state.len() != WORDS || answer.len() != 1 {
            return LENT_LENGTH;
        }
        let (next, taken) = switch_of(state).arrival(input, output);
        state.copy_from_slice(&next.to_words());
        match taken {
            Arrival::Accepted => answer[0] = 1,
            Arrival::Dropped => answer[0] = 2,
            Arrival::Refused(refusal) => return refusal,
        }
        0
    }

    fn close(&self, state: &mut [u32]) -> u32 {
        if state.len() != WORDS {
            return LENT_LENGTH;
        }
        let (next, closing) = switch_of(state).close();
        state.copy_from_slice(&next.to_words());
        match closing {
            Closing::Closed => 0,
            Closing::Refused(refusal) => refusal,
        }
    }

    fn drain(&self, state: &mut [u32], limit: u32, answer: &mut [u32]) -> u32 {
        if state.len() != WORDS || answer.len() != 2 {
            return LENT_LENGTH;
        }
        let (next, drain) = switch_of(state).drain(limit);
        state.copy_from_slice(&next.to_words());
        match drain {
            Drain::Empty(quiet) => answer.copy_from_slice(&[1, quiet]),
            Drain::NotEmpty(quiet) => answer.copy_from_slice(&[0, quiet]),
            Drain::Refused(refusal) => return refusal,
        }
        0
    }
}

/// The switch of 1,066 lent words.
fn switch_of(state: &[u32]) -> Switch {
    let mut words = [0; WORDS];
    words.copy_from_slice(state);
    Switch::from_words(&words)
}
