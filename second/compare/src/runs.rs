//! Traces, good and damaged: the verdict, the run with its whole log and its counts, and
//! every accepted trace written once more to the same bytes.

use crate::call::{Call, Lent};
use crate::comparison::Comparison;
use crate::writing;
use second::damage::damaged_bytes;
use second::generate::{self, trace_of_kind, Kind};
use second::random::Random;
use second::run::needed_room;
use second::trace;

pub fn case(comparison: &mut Comparison, seed: u64) -> Result<(), String> {
    let mut random = Random::new(seed);
    let (kind, bytes) = draw_trace(&mut random);
    comparison.tally.word("traces", kind);
    let read = trace::read(&bytes);
    let (lent, log_length) = match &read {
        Ok(trace) => draw_log(&mut random, needed_room(trace.model, trace.arrivals)),
        Err(_) => ("refused", random.one_of(&[0, 1, 60, 16384]) as usize),
    };
    let mut lending = Lent::trace(&mut random, bytes.clone(), log_length);
    comparison.call(Call::Examine, &lending)?;
    let (answer, _) = comparison.call(Call::Run, &lending)?;

    if let Ok(trace) = read {
        comparison.tally.word("log lent", lent);
        if answer == 0 {
            let order = ["", "model 1, order", "model 2, order"][trace.model as usize];
            comparison.tally.number(order, trace.order);
            comparison.tally.number("ports", trace.ports);
            comparison.tally.number("speedup", trace.speedup);
        }
        lending = Lent::tables(&mut random, &trace, bytes.len());
        writing::written(comparison, &lending, &bytes)?;
    }
    Ok(())
}

/// The bytes of a trace, and what kind it is. Full ones are rare because they take long.
fn draw_trace(random: &mut Random) -> (&'static str, Vec<u8>) {
    let good = |kind, seed| generate::bytes(&trace_of_kind(seed, kind));
    let seed = random.draw();
    match random.between(1, 200) {
        1 => ("full", good(Kind::Full, seed)),
        2..=10 => ("empty", good(Kind::Empty, seed)),
        11..=50 => ("even", good(Kind::Even, seed)),
        51..=80 => ("bursty", good(Kind::Bursty, seed)),
        81..=125 => ("skewed", good(Kind::Skewed, seed)),
        126..=196 => ("damaged", damaged_bytes(seed)),
        197 | 198 => ("overlong", overlong(random, seed)),
        _ => ("drawn bytes", drawn_bytes(random)),
    }
}

/// A trace with so many bytes more that it is longer than any, in half of the cases
/// with its total word raised to match.
fn overlong(random: &mut Random, seed: u64) -> Vec<u8> {
    let mut bytes = generate::bytes(&generate::trace(seed));
    let length = 17480 + random.one_of(&[1, 2, 40, 3000, 48056]) as usize;
    while bytes.len() < length {
        bytes.push(random.draw() as u8);
    }
    if random.once_in(2) {
        bytes[36..40].copy_from_slice(&(length as u32).to_le_bytes());
    }
    bytes
}

/// Any bytes at all, up to a few times the header.
fn drawn_bytes(random: &mut Random) -> Vec<u8> {
    let length = random.between(0, 130);
    let most = random.one_of(&[0, 1, 3, 255]);
    (0..length).map(|_| random.between(0, most) as u8).collect()
}

/// The length of a log for a run that needs so much room, and what it is.
fn draw_log(random: &mut Random, room: usize) -> (&'static str, usize) {
    match random.between(0, 6) {
        0 | 1 => ("exact", room),
        2 if room > 0 => ("shorter", room - 1),
        3 if room > 0 => ("shorter", random.place(room)),
        4 => ("longer", room + 16384),
        _ => ("longer", room + 1 + random.place(40)),
    }
}
