//! Seeded traces and switch values. One seed always gives the same one.

use crate::limits::*;
use crate::random::Random;
use crate::switch::Switch;
use crate::trace::{self, Trace};

/// The kinds of trace that are drawn.
#[derive(Clone, Copy, Debug, PartialEq, Eq)]
pub enum Kind {
    /// No arrivals, and sometimes no slots.
    Empty,
    /// Up to twice N arrivals in each slot, all ports alike.
    Even,
    /// Mostly none in a slot, then many at once.
    Bursty,
    /// Most arrivals for one output, from one input, or both.
    Skewed,
    /// 4,096 arrivals, mostly with 4,096 slots, 16 ports and speedup 16.
    Full,
}

/// A good trace of any kind.
pub fn trace(seed: u64) -> Trace {
    any_trace(&mut Random::new(seed))
}

/// A good trace of one kind.
pub fn trace_of_kind(seed: u64, kind: Kind) -> Trace {
    draw_trace(&mut Random::new(seed), kind)
}

/// A good trace of model 1, tiny enough for the rival's search. One in three is
/// after C7: one input floods output 0 and could serve all outputs instead.
pub fn tiny_cioq(seed: u64, most_ports: u32, most_arrivals: u32) -> Trace {
    let mut random = Random::new(seed);
    let after_c7 = random.once_in(3);
    let mut ports = random.between(1, most_ports);
    let mut speedup = random.between(1, 4);
    let mut slots = random.between(1, 4);
    let mut least_capacity = 1;
    let mut style = Style::draw(&mut random, ports, &[0, 1, 2, 2, 3, 4, 4]);
    if after_c7 {
        ports = most_ports;
        speedup = ports;
        slots = random.between(1, 2);
        least_capacity = 4;
        style = Style::draw(&mut random, ports, &[4]);
        style.one_output = 0;
    }
    let arrivals = random.between(0, most_arrivals);
    let mut trace = Trace {
        model: CIOQ,
        order: random.between(0, 2),
        ports,
        speedup,
        slots,
        arrivals,
        capacities: Vec::new(),
        slot_counts: vec![0; slots as usize],
        arrival_ports: Vec::new(),
    };
    for _ in 0..trace::capacity_count(CIOQ, ports) {
        trace
            .capacities
            .push(random.between(least_capacity, 4) as u16);
    }
    for _ in 0..arrivals {
        trace.slot_counts[random.place(slots as usize)] += 1;
        let (input, output) = style.ports(&mut random);
        trace.arrival_ports.push(input);
        trace.arrival_ports.push(output);
    }
    trace
}

/// The bytes of a good trace.
pub fn bytes(trace: &Trace) -> Vec<u8> {
    let mut bytes = vec![0; trace::offsets(trace).total as usize];
    trace::write(trace, &mut bytes).expect("a good trace is written");
    bytes
}

/// An allowed switch: reached by steps from a new one, and in some cases then with
/// the slot number or the arrivals raised to the edges of refusals 14 and 15.
pub fn switch(seed: u64) -> Switch {
    let mut random = Random::new(seed);
    let trace = any_trace(&mut random);
    let mut switch = Switch::of_trace(&trace);
    let style = Style::draw(&mut random, trace.ports, &[0, 1, 2, 3, 4]);
    for _ in 0..random.between(0, 80) {
        if random.once_in(6) {
            switch = switch.close().0;
        } else {
            let (input, output) = style.ports(&mut random);
            switch = switch.arrival(u32::from(input), u32::from(output)).0;
        }
    }
    if random.once_in(4) {
        switch.slot = random.one_of(&[4095, 4096, 4097, 8190, 8191, 8192]);
    }
    if random.once_in(6) {
        let arrived = random.one_of(&[4094, 4095, 4096]);
        switch.dropped += arrived - switch.arrived;
        switch.arrived = arrived;
    }
    switch
}

/// A good trace of any kind; the full ones are rarer because they take longer.
pub(crate) fn any_trace(random: &mut Random) -> Trace {
    let kind = match random.between(0, 31) {
        0 => Kind::Full,
        1..=3 => Kind::Empty,
        4..=13 => Kind::Even,
        14..=20 => Kind::Bursty,
        _ => Kind::Skewed,
    };
    draw_trace(random, kind)
}

/// A good trace of one kind.
fn draw_trace(random: &mut Random, kind: Kind) -> Trace {
    let model = random.between(CIOQ, CROSSBAR);
    let any_ports = random.between(1, 16);
    let ports = match kind {
        Kind::Full => random.one_of(&[16, 16, 16, any_ports]),
        _ => random.one_of(&[1, 2, 2, 3, 4, any_ports, any_ports, 16]),
    };
    let any_speedup = random.between(1, 16);
    let speedup = match kind {
        Kind::Full => random.one_of(&[16, 16, any_speedup]),
        _ => random.one_of(&[1, 1, 1, 2, 2, 3, any_speedup, 16]),
    };
    let slot_counts = draw_slot_counts(random, kind, ports);
    let style = match kind {
        Kind::Even => Style::draw(random, ports, &[0]),
        Kind::Skewed => Style::draw(random, ports, &[1, 2, 3, 4]),
        _ => Style::draw(random, ports, &[0, 1, 2, 3, 4]),
    };
    let mut arrivals = 0;
    let mut arrival_ports = Vec::new();
    for count in &slot_counts {
        for _ in 0..*count {
            let (input, output) = style.ports(random);
            arrival_ports.push(input);
            arrival_ports.push(output);
            arrivals += 1;
        }
    }
    Trace {
        model,
        order: random.between(0, 2),
        ports,
        speedup,
        slots: slot_counts.len() as u32,
        arrivals,
        capacities: draw_capacities(random, trace::capacity_count(model, ports)),
        slot_counts,
        arrival_ports,
    }
}

/// Capacities: all 1, or up to a few, or anything allowed, or at the edges.
fn draw_capacities(random: &mut Random, count: u32) -> Vec<u16> {
    let style = random.between(0, 5);
    let mut capacities = Vec::new();
    for _ in 0..count {
        let capacity = match style {
            0 => 1,
            1 | 2 => random.between(1, 2),
            3 => random.between(1, 4),
            4 => random.between(1, MOST_CAPACITY),
            _ => random.one_of(&[1, 2, 1023, 1024]),
        };
        capacities.push(capacity as u16);
    }
    capacities
}

/// The arrival count of each slot; never more than 4,096 together.
fn draw_slot_counts(random: &mut Random, kind: Kind, ports: u32) -> Vec<u16> {
    let slots = match kind {
        Kind::Empty => random.one_of(&[0, 0, 1, 2, 7, 300, 4096]),
        Kind::Even | Kind::Skewed => random.between(1, 40),
        Kind::Bursty => random.between(1, 60),
        Kind::Full => random.one_of(&[4096, 4096, 4096, 4095, 1, 64]),
    };
    let mut counts = vec![0; slots as usize];
    if kind == Kind::Full {
        for _ in 0..MOST_ARRIVALS {
            counts[random.place(slots as usize)] += 1;
        }
        return counts;
    }
    let mut left = MOST_ARRIVALS;
    for count in &mut counts {
        let wanted = match kind {
            Kind::Even | Kind::Skewed => random.between(0, 2 * ports),
            Kind::Bursty if random.once_in(6) => random.between(5, 120),
            _ => 0,
        };
        *count = wanted.min(left) as u16;
        left -= u32::from(*count);
    }
    counts
}

/// How the ports of arrivals are drawn.
struct Style {
    /// 0 all ports alike, 1 mostly one output, 2 mostly one input, 3 mostly one
    /// pair, 4 mostly one input and from there mostly one output.
    number: u32,
    last_port: u32,
    one_input: u32,
    one_output: u32,
}

impl Style {
    /// One of these styles, with the one input and the one output it prefers.
    fn draw(random: &mut Random, ports: u32, numbers: &[u32]) -> Style {
        Style {
            number: random.one_of(numbers),
            last_port: ports - 1,
            one_input: random.between(0, ports - 1),
            one_output: random.between(0, ports - 1),
        }
    }

    /// The ports of one arrival.
    fn ports(&self, random: &mut Random) -> (u8, u8) {
        let mut input = random.between(0, self.last_port);
        let mut output = random.between(0, self.last_port);
        let prefer_input = !random.once_in(4);
        let prefer_output = !random.once_in(4);
        match self.number {
            1 if prefer_output => output = self.one_output,
            2 if prefer_input => input = self.one_input,
            3 if prefer_input => (input, output) = (self.one_input, self.one_output),
            4 if prefer_input => {
                input = self.one_input;
                if random.once_in(2) {
                    output = self.one_output;
                }
            }
            _ => {}
        }
        (input as u8, output as u8)
    }
}
