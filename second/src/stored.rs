//! The file of stored answers: some hundred traces, each with this program's answer, for
//! a program of the gate that runs them. It is the same file every time.
//!
//! Records stand one after another; every number is 32 bits, least significant byte
//! first: the trace's length; the trace's bytes; the refusal, 0 for none; arrived,
//! dropped, crossed, outmoved, sent, held; the quiet slots of a drain with limit 4,096;
//! the number of log words; the log words. A refused trace has 0 for all but the first.

use crate::damage::damaged_bytes;
use crate::event;
use crate::generate::{self, trace_of_kind, Kind};
use crate::limits::*;
use crate::run::{counts, play};
use crate::steps::Drain;
use crate::trace::{self, Trace};
use std::collections::BTreeMap;

/// Seeds are tried from this one on.
const FIRST_SEED: u64 = 2026;
/// Accepted traces for each model with each number of ports and with each speedup.
const OF_EACH_PORTS: u32 = 3;
const OF_EACH_SPEEDUP: u32 = 4;
/// Damaged traces for each refusal, 1 to 11.
const OF_EACH_REFUSAL: u32 = 12;
/// A small accepted trace has so many arrivals.
const LEAST_ARRIVALS: u32 = 4;
/// Most bytes of a small record beyond the header and the capacities.
const SMALL: usize = 420;

/// The stored file, and how many of each kind it has.
#[derive(Default)]
pub struct Stored {
    pub bytes: Vec<u8>,
    pub kinds: BTreeMap<&'static str, BTreeMap<u32, u32>>,
    pub traces: u32,
}

/// Makes the file.
pub fn stored() -> Stored {
    let mut stored = Stored::default();
    stored.put(&[]);
    stored.without_arrivals();
    stored.small_accepted();
    stored.small_refused();
    stored.large();
    stored
}

impl Stored {
    /// A trace without arrivals for each model and order.
    fn without_arrivals(&mut self) {
        for model in [CIOQ, CROSSBAR] {
            for order in [HOUSE_ORDER, LOWEST_FIRST, ROTATING] {
                let trace = first_of(Kind::Empty, |trace| {
                    (trace.model, trace.order) == (model, order) && trace.slots < 300
                });
                self.put(&generate::bytes(&trace));
            }
        }
    }

    /// Accepted traces until each number of ports and each speedup has enough.
    fn small_accepted(&mut self) {
        let mut seed = FIRST_SEED;
        while !self.enough_accepted() {
            let trace = generate::trace(seed);
            seed += 1;
            let few = self.number(ports_of(trace.model), trace.ports) < OF_EACH_PORTS
                || self.number(speedups_of(trace.model), trace.speedup) < OF_EACH_SPEEDUP;
            let wanted = few && trace.arrivals >= LEAST_ARRIVALS;
            let most = SMALL + 40 + 2 * trace.capacities.len();
            let bytes = generate::bytes(&trace);
            if wanted && bytes.len() <= most && record(&bytes).len() <= most {
                self.put(&bytes);
            }
        }
    }

    fn enough_accepted(&self) -> bool {
        [CIOQ, CROSSBAR].into_iter().all(|model| {
            (1..=16).all(|number| {
                self.number(ports_of(model), number) >= OF_EACH_PORTS
                    && self.number(speedups_of(model), number) >= OF_EACH_SPEEDUP
            })
        })
    }

    /// Damaged traces until each refusal has enough.
    fn small_refused(&mut self) {
        let mut seed = FIRST_SEED;
        while !(1..=11).all(|refusal| self.number("refused by", refusal) >= OF_EACH_REFUSAL) {
            let bytes = damaged_bytes(seed);
            seed += 1;
            if let Err(refusal) = trace::read(&bytes) {
                let wanted = self.number("refused by", refusal) < OF_EACH_REFUSAL;
                if wanted && bytes.len() <= SMALL {
                    self.put(&bytes);
                }
            }
        }
    }

    /// The longest file there is, the same with a bad last port, the same with one byte
    /// more, and one with 4,096 slots without arrivals.
    fn large(&mut self) {
        let mut longest = first_of(Kind::Full, |trace| {
            (trace.model, trace.order, trace.ports) == (CROSSBAR, ROTATING, 16)
                && trace.slots == 4096
        });
        // its arrivals all come in the last four slots, which keeps the log short
        longest.slot_counts.fill(0);
        longest.slot_counts[4092..].fill(1024);
        let longest = generate::bytes(&longest);
        self.put(&longest);
        let mut bad_port = longest.clone();
        bad_port[17479] = 16;
        self.put(&bad_port);
        let mut longer = longest;
        longer.push(0);
        self.put(&longer);
        let quiet = first_of(Kind::Empty, |trace| trace.slots == 4096 && trace.ports < 4);
        self.put(&generate::bytes(&quiet));
    }

    /// Adds one trace with its answer.
    fn put(&mut self, bytes: &[u8]) {
        self.bytes.extend(record(bytes));
        self.traces += 1;
        match trace::read(bytes) {
            Ok(trace) => {
                let orders = ["", "model 1, order", "model 2, order"];
                self.note(orders[trace.model as usize], trace.order);
                self.note(ports_of(trace.model), trace.ports);
                self.note(speedups_of(trace.model), trace.speedup);
            }
            Err(refusal) => self.note("refused by", refusal),
        }
    }

    fn note(&mut self, kind: &'static str, number: u32) {
        let numbers = self.kinds.entry(kind).or_default();
        *numbers.entry(number).or_default() += 1;
    }

    /// How many of a kind there are.
    fn number(&self, kind: &'static str, number: u32) -> u32 {
        let times = self
            .kinds
            .get(kind)
            .and_then(|numbers| numbers.get(&number));
        times.copied().unwrap_or(0)
    }
}

fn ports_of(model: u32) -> &'static str {
    ["", "model 1, ports", "model 2, ports"][model as usize]
}

fn speedups_of(model: u32) -> &'static str {
    ["", "model 1, speedup", "model 2, speedup"][model as usize]
}

/// The first trace of a kind that is as wanted.
fn first_of(kind: Kind, wanted: impl Fn(&Trace) -> bool) -> Trace {
    let mut seed = FIRST_SEED;
    loop {
        let trace = trace_of_kind(seed, kind);
        if wanted(&trace) {
            return trace;
        }
        seed += 1;
    }
}

/// One record.
fn record(bytes: &[u8]) -> Vec<u8> {
    let mut record = Vec::new();
    put_number(&mut record, bytes.len() as u32);
    record.extend(bytes);
    match trace::read(bytes) {
        Ok(trace) => {
            let (switch, events) = play(&trace);
            let counts = counts(&switch);
            let quiet = match switch.drain(MOST_DRAIN).1 {
                Drain::Empty(quiet) => quiet,
                other => panic!("a drain after a run answers {other:?}"),
            };
            put_number(&mut record, 0);
            put_number(&mut record, counts.arrived);
            put_number(&mut record, counts.dropped);
            put_number(&mut record, counts.crossed);
            put_number(&mut record, counts.outmoved);
            put_number(&mut record, counts.sent);
            put_number(&mut record, counts.held);
            put_number(&mut record, quiet);
            put_number(&mut record, events.len() as u32);
            for event in &events {
                put_number(&mut record, event::word(event));
            }
        }
        Err(refusal) => {
            put_number(&mut record, refusal);
            for _ in 0..8 {
                put_number(&mut record, 0);
            }
        }
    }
    record
}

fn put_number(record: &mut Vec<u8>, number: u32) {
    record.extend(number.to_le_bytes());
}
