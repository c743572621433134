//! Whole walks: a new switch, many steps and drains, compared after every one of them.

use crate::call::{Call, Lent};
use crate::comparison::Comparison;
use crate::steps::draw_port;
use second::generate::{self, trace_of_kind, Kind};
use second::random::Random;
use second::switch::WORDS;
use second::trace::{arrivals_of_slots, Trace};

pub fn case(comparison: &mut Comparison, seed: u64) -> Result<(), String> {
    let mut random = Random::new(seed);
    let kind = match random.between(0, 99) {
        0 => Kind::Full,
        1..=5 => Kind::Empty,
        6..=40 => Kind::Even,
        41..=60 => Kind::Bursty,
        _ => Kind::Skewed,
    };
    let trace = trace_of_kind(random.draw(), kind);
    let mut lent = Lent::switch(&mut random, &[0xa5a5_a5a5; WORDS], 1);
    lent.trace = generate::bytes(&trace);
    let (_, lent) = comparison.call(Call::New, &lent)?;
    let lent = if kind == Kind::Full || random.once_in(2) {
        comparison.tally.word("walks", "file order");
        in_file_order(comparison, &mut random, &trace, lent)?
    } else {
        comparison.tally.word("walks", "drawn steps");
        drawn_steps(comparison, &mut random, &trace, lent)?
    };
    ending(comparison, &mut random, lent)
}

/// The trace's own steps. At the end the switch has the counts of the whole run.
fn in_file_order(
    comparison: &mut Comparison,
    random: &mut Random,
    trace: &Trace,
    mut lent: Lent,
) -> Result<Lent, String> {
    for arrivals in arrivals_of_slots(trace) {
        for (input, output) in arrivals {
            lent = comparison
                .call(Call::Arrive(input as u32, output as u32), &lent)?
                .1;
        }
        lent = comparison.call(Call::Close, &lent)?.1;
    }
    let run = Lent::trace(random, lent.trace.clone(), 16384);
    let (answer, run) = comparison.call(Call::Run, &run)?;
    let state = lent.state.seen();
    let held: u32 = state[538..].iter().sum();
    let counts = [state[5], state[6], state[7], state[8], state[9], held];
    if answer != 0 || run.counts.seen() != counts {
        return Err(format!(
            "steps in file order end with the counts {counts:?}, the run with {:?} ({answer})",
            run.counts.seen()
        ));
    }
    Ok(lent)
}

/// Drawn arrivals, some of them refused, and closings.
fn drawn_steps(
    comparison: &mut Comparison,
    random: &mut Random,
    trace: &Trace,
    mut lent: Lent,
) -> Result<Lent, String> {
    let arrivals_for_one_closing = random.one_of(&[1, 2, 6, 30]);
    for _ in 0..random.between(0, 200) {
        let call = if random.once_in(1 + arrivals_for_one_closing) {
            Call::Close
        } else {
            let input = draw_port(random, trace.ports);
            Call::Arrive(input, draw_port(random, trace.ports))
        };
        lent = comparison.call(call, &lent)?.1;
    }
    Ok(lent)
}

/// A drain cut short, the rest of it, a closing and an arrival.
fn ending(comparison: &mut Comparison, random: &mut Random, lent: Lent) -> Result<(), String> {
    let mut image = [0; WORDS];
    image.copy_from_slice(lent.state.seen());
    let mut lent = Lent::switch(random, &image, 2);
    for limit in [random.between(0, 5), 4096] {
        lent = comparison.call(Call::Drain(limit), &lent)?.1;
    }
    image.copy_from_slice(lent.state.seen());
    lent = Lent::switch(random, &image, 1);
    lent = comparison.call(Call::Close, &lent)?.1;
    comparison.call(Call::Arrive(0, 0), &lent)?;
    Ok(())
}
