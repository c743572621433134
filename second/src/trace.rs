//! The trace file (document 01, "The trace file"): reading and writing it.

use crate::limits::*;
use crate::Refusal;

/// A trace taken apart: the first six header words and the three tables, all in
/// file order. The reading gives only allowed ones; the writing takes any.
#[derive(Clone, Debug, PartialEq, Eq)]
pub struct Trace {
    pub model: u32,
    pub order: u32,
    pub ports: u32,
    pub speedup: u32,
    pub slots: u32,
    pub arrivals: u32,
    /// N x N input queues, N output queues, for model 2 also N x N crosspoints.
    pub capacities: Vec<u16>,
    /// One arrival count for each slot.
    pub slot_counts: Vec<u16>,
    /// Two bytes for each arrival: input port, output port.
    pub arrival_ports: Vec<u8>,
}

/// Where the tables begin and where the file ends: header words at bytes 24 to 36.
#[derive(Clone, Copy, Debug, PartialEq, Eq)]
pub struct Offsets {
    pub capacities: u32,
    pub slot_counts: u32,
    pub arrivals: u32,
    pub total: u32,
}

/// Reads a trace ("Reading: 1 to 11"): the first refusal that applies decides.
pub fn read(bytes: &[u8]) -> Result<Trace, Refusal> {
    if bytes.len() < 40 {
        return Err(1);
    }
    let mut trace = Trace {
        model: word_at(bytes, 0),
        order: word_at(bytes, 4),
        ports: word_at(bytes, 8),
        speedup: word_at(bytes, 12),
        slots: word_at(bytes, 16),
        arrivals: word_at(bytes, 20),
        capacities: Vec::new(),
        slot_counts: Vec::new(),
        arrival_ports: Vec::new(),
    };
    check_header(&trace)?;
    let offsets = offsets(&trace);
    if word_at(bytes, 24) != offsets.capacities
        || word_at(bytes, 28) != offsets.slot_counts
        || word_at(bytes, 32) != offsets.arrivals
        || word_at(bytes, 36) != offsets.total
        || bytes.len() != offsets.total as usize
    {
        return Err(8);
    }
    for at in (offsets.capacities..offsets.slot_counts).step_by(2) {
        trace.capacities.push(half_at(bytes, at as usize));
    }
    for at in (offsets.slot_counts..offsets.arrivals).step_by(2) {
        trace.slot_counts.push(half_at(bytes, at as usize));
    }
    for at in offsets.arrivals..offsets.total {
        trace.arrival_ports.push(bytes[at as usize]);
    }
    check_tables(&trace)?;
    Ok(trace)
}

/// Writes a trace ("Writing: 2 to 7, 17, 9, 10, 11, 18") and answers the total.
/// Fills exactly the total; bytes beyond stay, and on a refusal all bytes stay.
pub fn write(trace: &Trace, output: &mut [u8]) -> Result<u32, Refusal> {
    check_header(trace)?;
    if trace.capacities.len() != capacity_count(trace.model, trace.ports) as usize
        || trace.slot_counts.len() != trace.slots as usize
        || trace.arrival_ports.len() != 2 * trace.arrivals as usize
    {
        return Err(17);
    }
    check_tables(trace)?;
    let offsets = offsets(trace);
    if output.len() < offsets.total as usize {
        return Err(18);
    }
    let header = [
        trace.model,
        trace.order,
        trace.ports,
        trace.speedup,
        trace.slots,
        trace.arrivals,
        offsets.capacities,
        offsets.slot_counts,
        offsets.arrivals,
        offsets.total,
    ];
    let mut at = 0;
    for word in header {
        output[at] = (word % 256) as u8;
        output[at + 1] = (word / 256 % 256) as u8;
        output[at + 2] = (word / 65536 % 256) as u8;
        output[at + 3] = (word / 16777216) as u8;
        at += 4;
    }
    for half in trace.capacities.iter().chain(&trace.slot_counts) {
        output[at] = (half % 256) as u8;
        output[at + 1] = (half / 256) as u8;
        at += 2;
    }
    for port in &trace.arrival_ports {
        output[at] = *port;
        at += 1;
    }
    Ok(offsets.total)
}

/// How many capacities the file has: N x N input queues, N output queues, and
/// for model 2 only N x N crosspoint queues.
pub fn capacity_count(model: u32, ports: u32) -> u32 {
    if model == CROSSBAR {
        ports * ports + ports + ports * ports
    } else {
        ports * ports + ports
    }
}

/// What the counts make of the offsets and the total (the header's table, bytes
/// 24 to 36). For header words that `check_header` lets through.
pub fn offsets(trace: &Trace) -> Offsets {
    let capacities = 40;
    let slot_counts = capacities + 2 * capacity_count(trace.model, trace.ports);
    let arrivals = slot_counts + 2 * trace.slots;
    let total = arrivals + 2 * trace.arrivals;
    Offsets {
        capacities,
        slot_counts,
        arrivals,
        total,
    }
}

/// The arrivals of each slot as (input port, output port), in order of arrival.
/// For traces that have been read.
pub fn arrivals_of_slots(trace: &Trace) -> Vec<Vec<(usize, usize)>> {
    let mut slots = Vec::new();
    let mut at = 0;
    for count in &trace.slot_counts {
        let mut arrivals = Vec::new();
        for _ in 0..*count {
            let input = trace.arrival_ports[at] as usize;
            let output = trace.arrival_ports[at + 1] as usize;
            arrivals.push((input, output));
            at += 2;
        }
        slots.push(arrivals);
    }
    slots
}

/// Refusals 2 to 7: the header words one after the other.
fn check_header(trace: &Trace) -> Result<(), Refusal> {
    if !model_allowed(trace.model) {
        return Err(2);
    }
    if !order_allowed(trace.order) {
        return Err(3);
    }
    if !ports_allowed(trace.ports) {
        return Err(4);
    }
    if !speedup_allowed(trace.speedup) {
        return Err(5);
    }
    if trace.slots > MOST_SLOTS {
        return Err(6);
    }
    if trace.arrivals > MOST_ARRIVALS {
        return Err(7);
    }
    Ok(())
}

/// Refusals 9, 10 and 11: the three tables one after the other.
fn check_tables(trace: &Trace) -> Result<(), Refusal> {
    for capacity in &trace.capacities {
        if !capacity_allowed(u32::from(*capacity)) {
            return Err(9);
        }
    }
    let mut sum = 0;
    for count in &trace.slot_counts {
        sum += u32::from(*count);
    }
    if sum != trace.arrivals {
        return Err(10);
    }
    for port in &trace.arrival_ports {
        if u32::from(*port) >= trace.ports {
            return Err(11);
        }
    }
    Ok(())
}

/// The 32-bit word at a byte, least significant byte first.
fn word_at(bytes: &[u8], at: usize) -> u32 {
    u32::from(bytes[at])
        + 256 * u32::from(bytes[at + 1])
        + 65536 * u32::from(bytes[at + 2])
        + 16777216 * u32::from(bytes[at + 3])
}

/// The 16-bit number at a byte, low byte first.
fn half_at(bytes: &[u8], at: usize) -> u16 {
    u16::from(bytes[at]) + 256 * u16::from(bytes[at + 1])
}
