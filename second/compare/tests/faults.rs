//! The comparison can fail: the library with one fault, and each fault is told.

use compare::comparison::{Comparison, PARTS};
use compare::library::Library;
use compare::program::{Program, Second};
use std::cell::Cell;

/// One fault. "Refused" faults touch what was lent to a refused call.
#[derive(Clone, Copy, Debug, PartialEq, Eq)]
enum Fault {
    None,
    Examine,
    Run,
    LogFirst,
    LogLast,
    Count(usize),
    Idle,
    RunRefusedLog,
    RunRefusedCounts,
    Write,
    OutFirst,
    OutLast,
    WriteRefused,
    New,
    NewState(usize),
    NewRefused,
    Arrive,
    ArriveState(usize),
    ArriveAnswer,
    ArriveRefusedState,
    ArriveRefusedAnswer,
    Close,
    CloseState(usize),
    CloseRefused,
    Drain,
    DrainState(usize),
    DrainAnswer(usize),
    DrainRefusedState,
    DrainRefusedAnswer,
}

/// The library, at fault in one call of those to which the fault can be done, or in all.
struct Faulty {
    fault: Fault,
    calls_before: Cell<i32>,
    always: bool,
}

impl Faulty {
    fn once(fault: Fault) -> Faulty {
        Faulty {
            fault,
            calls_before: Cell::new(9),
            always: false,
        }
    }

    fn always(fault: Fault) -> Faulty {
        Faulty {
            fault,
            calls_before: Cell::new(0),
            always: true,
        }
    }

    /// Is it this fault's moment?
    fn now(&self, fault: Fault) -> bool {
        if self.fault != fault {
            return false;
        }
        let before = self.calls_before.get();
        self.calls_before.set(before - 1);
        before == 0 || self.always
    }

    fn number(&self, fault: Fault, answer: u32) -> u32 {
        answer + u32::from(self.now(fault))
    }

    fn word(&self, fault: Fault, words: &mut [u32], place: usize) {
        if place < words.len() && self.now(fault) {
            words[place] ^= 1;
        }
    }

    fn byte(&self, fault: Fault, bytes: &mut [u8], place: usize) {
        if place < bytes.len() && self.now(fault) {
            bytes[place] ^= 1;
        }
    }
}

impl Program for Faulty {
    fn examine(&self, trace: &[u8]) -> u32 {
        self.number(Fault::Examine, Library.examine(trace))
    }

    fn run(&self, trace: &[u8], log: &mut [u32], counts: &mut [u32]) -> u32 {
        let answer = Library.run(trace, log, counts);
        if answer == 0 {
            let last = log.len().wrapping_sub(1);
            self.word(Fault::LogFirst, log, 0);
            self.word(Fault::LogLast, log, last);
            for place in 0..6 {
                self.word(Fault::Count(place), counts, place);
            }
            if self.now(Fault::Idle) {
                counts[2..].fill(0);
            }
        } else {
            self.word(Fault::RunRefusedLog, log, 0);
            self.word(Fault::RunRefusedCounts, counts, 0);
        }
        self.number(Fault::Run, answer)
    }

    fn write(
        &self,
        header: &[u32],
        capacities: &[u16],
        slot_counts: &[u16],
        arrivals: &[u8],
        out: &mut [u8],
    ) -> u32 {
        let answer = Library.write(header, capacities, slot_counts, arrivals, out);
        let last = out.len().wrapping_sub(1);
        if answer == 0 {
            self.byte(Fault::OutFirst, out, 0);
            self.byte(Fault::OutLast, out, last);
        } else {
            self.byte(Fault::WriteRefused, out, last);
        }
        self.number(Fault::Write, answer)
    }

    fn new_switch(&self, trace: &[u8], state: &mut [u32]) -> u32 {
        let answer = Library.new_switch(trace, state);
        for place in [0, 5, 10, 1065] {
            if answer == 0 {
                self.word(Fault::NewState(place), state, place);
            }
        }
        if answer != 0 {
            self.word(Fault::NewRefused, state, 0);
        }
        self.number(Fault::New, answer)
    }

    fn arrive(&self, state: &mut [u32], input: u32, output: u32, answer: &mut [u32]) -> u32 {
        let refusal = Library.arrive(state, input, output, answer);
        if refusal == 0 {
            self.word(Fault::ArriveState(6), state, 6);
            self.word(Fault::ArriveState(538), state, 538);
            self.word(Fault::ArriveAnswer, answer, 0);
        } else {
            self.word(Fault::ArriveRefusedState, state, 5);
            self.word(Fault::ArriveRefusedAnswer, answer, 0);
        }
        self.number(Fault::Arrive, refusal)
    }

    fn close(&self, state: &mut [u32]) -> u32 {
        let answer = Library.close(state);
        if answer == 0 {
            self.word(Fault::CloseState(4), state, 4);
            self.word(Fault::CloseState(794), state, 794);
        } else {
            self.word(Fault::CloseRefused, state, 4);
        }
        self.number(Fault::Close, answer)
    }

    fn drain(&self, state: &mut [u32], limit: u32, answer: &mut [u32]) -> u32 {
        let refusal = Library.drain(state, limit, answer);
        if refusal == 0 {
            self.word(Fault::DrainState(4), state, 4);
            self.word(Fault::DrainAnswer(0), answer, 0);
            self.word(Fault::DrainAnswer(1), answer, 1);
        } else {
            self.word(Fault::DrainRefusedState, state, 1065);
            self.word(Fault::DrainRefusedAnswer, answer, 1);
        }
        self.number(Fault::Drain, refusal)
    }
}

/// How many differences a short comparison tells.
fn told(library: &dyn Program, second: &dyn Program) -> u64 {
    let mut comparison = Comparison::new(library, second);
    let fine = comparison.all(5, 200);
    assert!(!fine || comparison.different == 0);
    comparison.different
}

#[test]
fn without_a_fault_nothing_is_told() {
    assert_eq!(told(&Faulty::always(Fault::None), &Second), 0);
}

/// A fault in a single call of the whole comparison is told once.
#[test]
fn each_fault_is_told() {
    use Fault::*;
    let mut faults = vec![
        Examine,
        Run,
        LogFirst,
        LogLast,
        RunRefusedLog,
        RunRefusedCounts,
    ];
    faults.extend([0, 1, 2, 3, 4, 5].map(Count));
    faults.extend([Write, OutFirst, OutLast, WriteRefused]);
    faults.extend([New, NewRefused]);
    faults.extend([0, 5, 10, 1065].map(NewState));
    faults.extend([
        Arrive,
        ArriveAnswer,
        ArriveRefusedState,
        ArriveRefusedAnswer,
    ]);
    faults.extend([6, 538].map(ArriveState));
    faults.extend([Close, CloseRefused]);
    faults.extend([4, 794].map(CloseState));
    faults.extend([Drain, DrainRefusedState, DrainRefusedAnswer, DrainState(4)]);
    faults.extend([0, 1].map(DrainAnswer));
    for fault in faults {
        assert_eq!(told(&Faulty::once(fault), &Second), 1, "{fault:?}");
    }
}

/// Faults that both programs have alike, found by what is expected of either.
#[test]
fn faults_of_both_are_told() {
    use Fault::*;
    let expected = [
        (RunRefusedLog, "runs", "refused: log at 0"),
        (OutLast, "runs", "written differently"),
        (WriteRefused, "writing", "refused: out at"),
        (OutFirst, "writing", "does not read back"),
        (NewRefused, "steps", "refused: state at 0"),
        (Count(0), "walks", "steps in file order end with"),
        (Arrive, "lengths", "answers 31 to a wrong length"),
        (Idle, "rivals", "sent 0, a rival"),
    ];
    for (fault, part, told) in expected {
        let faulty = Faulty::always(fault);
        let mut comparison = Comparison::new(&faulty, &faulty);
        let (_, case, _) = PARTS
            .into_iter()
            .find(|(name, _, _)| *name == part)
            .unwrap();
        let what = (0..100).find_map(|seed| comparison.one(case, seed).err());
        let what = what.unwrap_or_default();
        assert!(what.contains(told), "{fault:?}: {what}");
    }
}
