//! One call with all that is lent to it, made to both programs and compared.

use crate::program::Program;
use second::random::Random;
use second::switch::WORDS;
use second::trace::Trace;
use std::fmt::Debug;

/// Entries that stand before and after each run that may be written, and must stay.
const FENCE: usize = 3;

/// A run of numbers to be written to, between two fences.
#[derive(Clone, PartialEq, Eq)]
pub struct Run<T> {
    all: Vec<T>,
}

impl<T: Copy> Run<T> {
    /// A run of this length, it and its fences filled by `draw`.
    pub fn drawn(length: usize, mut draw: impl FnMut() -> T) -> Run<T> {
        let all = (0..length + 2 * FENCE).map(|_| draw()).collect();
        Run { all }
    }

    /// What is lent.
    pub fn lent(&mut self) -> &mut [T] {
        let end = self.all.len() - FENCE;
        &mut self.all[FENCE..end]
    }

    /// What is lent, to look at.
    pub fn seen(&self) -> &[T] {
        &self.all[FENCE..self.all.len() - FENCE]
    }
}

/// A run of drawn words.
pub fn words(random: &mut Random, length: usize) -> Run<u32> {
    Run::drawn(length, || random.draw() as u32)
}

/// A run of drawn bytes.
pub fn bytes(random: &mut Random, length: usize) -> Run<u8> {
    Run::drawn(length, || random.draw() as u8)
}

/// All that can be lent. A call takes the runs it needs; the others stay.
#[derive(Clone)]
pub struct Lent {
    pub trace: Vec<u8>,
    pub log: Run<u32>,
    pub counts: Run<u32>,
    pub header: Vec<u32>,
    pub capacities: Vec<u16>,
    pub slot_counts: Vec<u16>,
    pub arrivals: Vec<u8>,
    pub out: Run<u8>,
    pub state: Run<u32>,
    pub answer: Run<u32>,
}

impl Lent {
    /// Nothing but six drawn counts.
    fn nothing(random: &mut Random) -> Lent {
        Lent {
            trace: Vec::new(),
            log: words(random, 0),
            counts: words(random, 6),
            header: Vec::new(),
            capacities: Vec::new(),
            slot_counts: Vec::new(),
            arrivals: Vec::new(),
            out: bytes(random, 0),
            state: words(random, 0),
            answer: words(random, 0),
        }
    }

    /// A trace, and a drawn log of this length.
    pub fn trace(random: &mut Random, trace: Vec<u8>, log_length: usize) -> Lent {
        let log = words(random, log_length);
        let nothing = Lent::nothing(random);
        Lent {
            trace,
            log,
            ..nothing
        }
    }

    /// The writer's words and tables, and a drawn output of this length.
    pub fn tables(random: &mut Random, trace: &Trace, out_length: usize) -> Lent {
        let out = bytes(random, out_length);
        let nothing = Lent::nothing(random);
        Lent {
            header: vec![
                trace.model,
                trace.order,
                trace.ports,
                trace.speedup,
                trace.slots,
                trace.arrivals,
            ],
            capacities: trace.capacities.clone(),
            slot_counts: trace.slot_counts.clone(),
            arrivals: trace.arrival_ports.clone(),
            out,
            ..nothing
        }
    }

    /// A switch, and drawn words for an answer of this length.
    pub fn switch(random: &mut Random, image: &[u32; WORDS], answer_length: usize) -> Lent {
        let mut state = words(random, WORDS);
        state.lent().copy_from_slice(image);
        let answer = words(random, answer_length);
        let nothing = Lent::nothing(random);
        Lent {
            state,
            answer,
            ..nothing
        }
    }
}

/// One of the seven functions with the numbers that it takes.
#[derive(Clone, Copy, Debug, PartialEq, Eq)]
pub enum Call {
    Examine,
    Run,
    Write,
    New,
    Arrive(u32, u32),
    Close,
    Drain(u32),
}

impl Call {
    /// Makes the call.
    fn make(self, program: &dyn Program, lent: &mut Lent) -> u32 {
        match self {
            Call::Examine => program.examine(&lent.trace),
            Call::Run => program.run(&lent.trace, lent.log.lent(), lent.counts.lent()),
            Call::Write => program.write(
                &lent.header,
                &lent.capacities,
                &lent.slot_counts,
                &lent.arrivals,
                lent.out.lent(),
            ),
            Call::New => program.new_switch(&lent.trace, lent.state.lent()),
            Call::Arrive(input, output) => {
                program.arrive(lent.state.lent(), input, output, lent.answer.lent())
            }
            Call::Close => program.close(lent.state.lent()),
            Call::Drain(limit) => program.drain(lent.state.lent(), limit, lent.answer.lent()),
        }
    }
}

/// Makes the call to both programs, each with its own copy of what is lent. Where all
/// is the same, hands back the answer and what the library left. What was lent must be
/// as before after a refusal.
pub fn compare(
    library: &dyn Program,
    second: &dyn Program,
    call: Call,
    lent: &Lent,
) -> Result<(u32, Lent), String> {
    let mut by_library = lent.clone();
    let mut by_second = lent.clone();
    let answer = call.make(library, &mut by_library);
    let expected = call.make(second, &mut by_second);
    if answer != expected {
        return Err(format!(
            "{call:?}: the library answers {answer}, the second program {expected}"
        ));
    }
    same(&by_library, &by_second)
        .map_err(|what| format!("{call:?}: {what} of the second program"))?;
    if answer != 0 {
        same(&by_library, lent).map_err(|what| format!("{call:?}, refused: {what} before"))?;
    }
    Ok((answer, by_library))
}

/// The first place where two lots of lent runs differ, fences included.
fn same(left: &Lent, right: &Lent) -> Result<(), String> {
    run("trace", &left.trace, &right.trace, 0)?;
    run("log", &left.log.all, &right.log.all, FENCE)?;
    run("counts", &left.counts.all, &right.counts.all, FENCE)?;
    run("header", &left.header, &right.header, 0)?;
    run("capacities", &left.capacities, &right.capacities, 0)?;
    run("slot counts", &left.slot_counts, &right.slot_counts, 0)?;
    run("arrivals", &left.arrivals, &right.arrivals, 0)?;
    run("out", &left.out.all, &right.out.all, FENCE)?;
    run("state", &left.state.all, &right.state.all, FENCE)?;
    run("answer", &left.answer.all, &right.answer.all, FENCE)
}

/// The first place where two runs differ; places count from the fence's end.
fn run<T: PartialEq + Debug>(
    name: &str,
    left: &[T],
    right: &[T],
    fence: usize,
) -> Result<(), String> {
    assert_eq!(left.len(), right.len(), "copies of one run");
    match left.iter().zip(right).position(|(one, other)| one != other) {
        None => Ok(()),
        Some(place) => Err(format!(
            "{name} at {} holds {:x?}, not {:x?} as",
            place as isize - fence as isize,
            left[place],
            right[place]
        )),
    }
}

#[cfg(test)]
mod tests {
    use super::*;

    /// A change of one entry is told wherever it stands, in the fences too.
    #[test]
    fn every_entry_counts() {
        let mut random = Random::new(1);
        let lent = Lent {
            trace: vec![1],
            header: vec![1],
            capacities: vec![1],
            slot_counts: vec![1],
            arrivals: vec![1],
            log: words(&mut random, 4),
            out: bytes(&mut random, 4),
            state: words(&mut random, 4),
            answer: words(&mut random, 1),
            ..Lent::nothing(&mut random)
        };
        assert_eq!(same(&lent, &lent), Ok(()));
        let tell = |change: &dyn Fn(&mut Lent), told: &str| {
            let mut changed = lent.clone();
            change(&mut changed);
            let what = same(&changed, &lent).expect_err(told);
            assert!(what.starts_with(told), "{what}");
        };
        tell(&|l| l.trace[0] ^= 1, "trace at 0");
        tell(&|l| l.header[0] ^= 1, "header at 0");
        tell(&|l| l.capacities[0] ^= 1, "capacities at 0");
        tell(&|l| l.slot_counts[0] ^= 1, "slot counts at 0");
        tell(&|l| l.arrivals[0] ^= 1, "arrivals at 0");
        for place in 0..10 {
            let at = place as isize - 3;
            tell(&|l| l.log.all[place] ^= 1, &format!("log at {at} "));
            tell(&|l| l.out.all[place] ^= 1, &format!("out at {at} "));
            tell(&|l| l.state.all[place] ^= 1, &format!("state at {at} "));
        }
        for place in 0..12 {
            let at = place as isize - 3;
            tell(&|l| l.counts.all[place] ^= 1, &format!("counts at {at} "));
        }
        for place in 0..7 {
            let at = place as isize - 3;
            tell(&|l| l.answer.all[place] ^= 1, &format!("answer at {at} "));
        }
    }
}
