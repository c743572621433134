//! Cases one after the other. Each has a seed of its own; what differs is printed with
//! it.

use crate::call::{self, Call, Lent};
use crate::program::Program;
use crate::tally::Tally;
use crate::{lengths, rivals, runs, steps, walks, writing};
use second::random::Random;
use std::panic::{self, AssertUnwindSafe};

/// The comparison stops at so many differences.
const MOST_DIFFERENCES: u64 = 5;

/// One case of a part; what differs is the error.
type Case = fn(&mut Comparison, u64) -> Result<(), String>;

/// The parts: name, one case, and one case for so many traces.
pub const PARTS: [(&str, Case, u64); 6] = [
    ("runs", runs::case, 1),
    ("writing", writing::case, 4),
    ("steps", steps::case, 2),
    ("walks", walks::case, 40),
    ("lengths", lengths::case, 100),
    ("rivals", rivals::case, 20),
];

/// The two programs, and what was found.
pub struct Comparison<'a> {
    library: &'a dyn Program,
    second: &'a dyn Program,
    pub tally: Tally,
    pub rivals: rivals::Shares,
    pub compared: u64,
    pub different: u64,
}

impl<'a> Comparison<'a> {
    pub fn new(library: &'a dyn Program, second: &'a dyn Program) -> Comparison<'a> {
        Comparison {
            library,
            second,
            tally: Tally::default(),
            rivals: rivals::Shares::default(),
            compared: 0,
            different: 0,
        }
    }

    /// One call to both programs, counted.
    pub fn call(&mut self, call: Call, lent: &Lent) -> Result<(u32, Lent), String> {
        self.compared += 1;
        let (answer, after) = call::compare(self.library, self.second, call, lent)?;
        let group = match call {
            Call::Examine => "examine answers",
            Call::Run => "run answers",
            Call::Write => "write answers",
            Call::New => "new answers",
            Call::Arrive(_, _) => "arrive answers",
            Call::Close => "close answers",
            Call::Drain(_) => "drain answers",
        };
        self.tally.number(group, answer);
        match (call, answer, after.answer.seen()) {
            (Call::Arrive(_, _), 0, [1]) => self.tally.word("an arrival was", "accepted"),
            (Call::Arrive(_, _), 0, [2]) => self.tally.word("an arrival was", "dropped"),
            (Call::Drain(_), 0, [1, _]) => self.tally.word("a drain ended", "empty"),
            (Call::Drain(_), 0, [0, _]) => self.tally.word("a drain ended", "not empty"),
            _ => {}
        }
        Ok((answer, after))
    }

    /// All parts, for so many traces. False where something differed or never came up.
    pub fn all(&mut self, seed: u64, traces: u64) -> bool {
        let mut total = Tally::default();
        for (place, (name, case, share)) in PARTS.iter().enumerate() {
            let first = Random::new(seed ^ (place as u64) << 56).draw();
            let cases = (traces / share).max(1);
            let before = self.compared;
            println!("{name}: {cases} cases from seed {first}");
            for number in 0..cases {
                if self.different >= MOST_DIFFERENCES {
                    println!("stopped at {MOST_DIFFERENCES} differences");
                    return false;
                }
                let case_seed = first.wrapping_add(number);
                if let Err(what) = self.one(*case, case_seed) {
                    println!("DIFFERENT in {name}, case {number}, seed {case_seed}: {what}");
                    println!("  once more: compare --case {name} {case_seed}");
                }
            }
            self.tally.print();
            println!("  {} calls compared", self.compared - before);
            total.add(&self.tally);
            self.tally = Tally::default();
        }
        self.rivals.print();
        let missing = total.missing();
        for what in &missing {
            println!("NEVER DRAWN: {what}");
        }
        self.different == 0 && missing.is_empty()
    }

    /// One case. A program that stops is a difference too.
    pub fn one(&mut self, case: Case, seed: u64) -> Result<(), String> {
        let found = panic::catch_unwind(AssertUnwindSafe(|| case(self, seed)))
            .unwrap_or_else(|_| Err("a program stopped; its message stands above".into()));
        self.different += u64::from(found.is_err());
        found
    }
}
