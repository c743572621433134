//! Demand 3 on tiny switches: whatever a rival does, at the end of every slot it has sent
//! at most 3 x sent + 2 x (outmoved - sent), with the counts of the library's run.

use crate::call::{Call, Lent};
use crate::comparison::Comparison;
use second::generate::{self, tiny_cioq};
use second::random::Random;
use second::rival::{limit, most_sent, Freedoms};
use second::run::needed_room;
use second::trace::Trace;

/// How near the rivals came.
#[derive(Default)]
pub struct Shares {
    ends: u64,
    reached: u64,
    /// The most sent and the limit where the share was greatest.
    greatest: (u32, u32),
}

impl Shares {
    /// Notes one end of a slot.
    fn note(&mut self, most: u32, limit: u32) {
        self.ends += 1;
        self.reached += u64::from(most > 0 && most == limit);
        let (greatest, at_limit) = self.greatest;
        if at_limit == 0
            || u64::from(most) * u64::from(at_limit) > u64::from(greatest) * u64::from(limit)
        {
            self.greatest = (most, limit);
        }
    }

    pub fn print(&self) {
        let (most, limit) = self.greatest;
        println!(
            "  rivals at {} ends of slots: the limit reached exactly {} times, the greatest \
             share {most} of {limit}",
            self.ends, self.reached
        );
    }
}

pub fn case(comparison: &mut Comparison, seed: u64) -> Result<(), String> {
    let mut random = Random::new(seed);
    let trace = if random.once_in(20) {
        c7()
    } else {
        tiny_cioq(random.draw(), 4, 12)
    };
    let most = most_sent(&trace, Freedoms::Moves);
    for slots in 1..=trace.slots {
        let part = first_slots(&trace, slots);
        let room = needed_room(part.model, part.arrivals);
        let lent = Lent::trace(&mut random, generate::bytes(&part), room);
        let (answer, after) = comparison.call(Call::Run, &lent)?;
        let counts = after.counts.seen();
        let (outmoved, sent) = (counts[3], counts[4]);
        let most = most[slots as usize - 1];
        let limit = limit(sent, outmoved - sent);
        if answer != 0 || most > limit || most < sent {
            return Err(format!(
                "after {slots} slots: answer {answer}, sent {sent}, a rival {most}, limit {limit}"
            ));
        }
        if most > sent {
            comparison.tally.word("rival", "ahead of greedy");
        }
        if most > 3 * sent {
            comparison.tally.word("rival", "past 3 x sent");
        }
        if limit > 0 {
            comparison.rivals.note(most, limit);
        }
    }
    Ok(())
}

/// Case C7 of document 01: a rival sends four where greedy sends one.
fn c7() -> Trace {
    Trace {
        model: 1,
        order: 1,
        ports: 4,
        speedup: 4,
        slots: 1,
        arrivals: 7,
        capacities: vec![4; 20],
        slot_counts: vec![7],
        arrival_ports: vec![0, 0, 0, 0, 0, 0, 0, 0, 0, 1, 0, 2, 0, 3],
    }
}

/// The trace's first slots with their arrivals.
fn first_slots(trace: &Trace, slots: u32) -> Trace {
    let slot_counts = trace.slot_counts[..slots as usize].to_vec();
    let arrivals = slot_counts.iter().map(|count| u32::from(*count)).sum();
    Trace {
        slots,
        arrivals,
        slot_counts,
        arrival_ports: trace.arrival_ports[..2 * arrivals as usize].to_vec(),
        ..trace.clone()
    }
}
