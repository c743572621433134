//! Damaged traces, tables and switch values, from seeds. What comes out may by
//! chance still be a good one.

use crate::generate;
use crate::random::Random;
use crate::switch::{Switch, WORDS};
use crate::trace::Trace;

/// Numbers at the edges of what is allowed anywhere.
const EDGES: [u32; 22] = [
    0,
    1,
    2,
    3,
    15,
    16,
    17,
    39,
    40,
    41,
    1023,
    1024,
    1025,
    4095,
    4096,
    4097,
    8191,
    8192,
    8193,
    0x7fff_ffff,
    0x8000_0000,
    0xffff_ffff,
];

/// A trace's bytes with one to three damages.
pub fn damaged_bytes(seed: u64) -> Vec<u8> {
    let mut random = Random::new(seed);
    let trace = generate::any_trace(&mut random);
    let mut bytes = generate::bytes(&trace);
    for _ in 0..random.between(1, 3) {
        damage_bytes(&mut bytes, &trace, &mut random);
    }
    bytes
}

/// A trace's words and tables for the writer with one to three damages.
pub fn damaged_tables(seed: u64) -> Trace {
    let mut random = Random::new(seed);
    let mut trace = generate::any_trace(&mut random);
    for _ in 0..random.between(1, 3) {
        damage_tables(&mut trace, &mut random);
    }
    trace
}

/// A switch with one to three damages to its image.
pub fn damaged_switch(seed: u64) -> Switch {
    let mut random = Random::new(seed);
    let mut words = generate::switch(random.draw()).to_words();
    for _ in 0..random.between(1, 3) {
        damage_words(&mut words, &mut random);
    }
    Switch::from_words(&words)
}

/// An old number at an edge, one beside it, or far from it.
fn changed(random: &mut Random, old: u32) -> u32 {
    match random.between(0, 5) {
        0 => old.wrapping_add(1),
        1 => old.wrapping_sub(1),
        2 => old.wrapping_add(0x8000_0000),
        _ => random.one_of(&EDGES),
    }
}

/// One damage to a trace's bytes.
fn damage_bytes(bytes: &mut Vec<u8>, trace: &Trace, random: &mut Random) {
    if bytes.is_empty() {
        return;
    }
    let length = bytes.len();
    let capacities = 2 * trace.capacities.len();
    let slot_counts = 2 * trace.slot_counts.len();
    match random.between(0, 12) {
        // cut short anywhere, or at the header's end, or by one byte
        0 => {
            let anywhere = random.place(length) as u32;
            let left = random.one_of(&[anywhere, anywhere, 0, 39, 40, length as u32 - 1]);
            bytes.truncate(left as usize);
        }
        // grown, with or without the total word
        1 => {
            for _ in 0..random.between(1, 40) {
                bytes.push(random.draw() as u8);
            }
            if random.once_in(2) {
                let total = bytes.len() as u32;
                put_word(bytes, 9, total);
            }
        }
        // bits flipped anywhere
        2 => {
            for _ in 0..random.between(1, 8) {
                let place = random.place(length);
                bytes[place] ^= 1 << random.between(0, 7);
            }
        }
        // bits flipped in the header
        3 => {
            for _ in 0..random.between(1, 2) {
                let place = random.place(length.min(40));
                bytes[place] ^= 1 << random.between(0, 7);
            }
        }
        // a header word at its edges
        4 | 5 => {
            let words = [
                trace.model,
                trace.order,
                trace.ports,
                trace.speedup,
                trace.slots,
                trace.arrivals,
                40,
                40 + capacities as u32,
                40 + (capacities + slot_counts) as u32,
                length as u32,
            ];
            let place = random.place(10);
            let word = changed(random, words[place]);
            put_word(bytes, place, word);
        }
        // a capacity at its edges
        6 => {
            let at = 40 + 2 * random.place(trace.capacities.len());
            put_half(bytes, at, random.one_of(&[0, 1, 1024, 1025, 65535]));
        }
        // a slot count changed
        7 if slot_counts > 0 => {
            let place = random.place(trace.slot_counts.len());
            let old = u32::from(trace.slot_counts[place]);
            let new = random.one_of(&[0, old + 1, old + 2, 4096, 65535]);
            put_half(bytes, 40 + capacities + 2 * place, new);
        }
        // one arrival counted in another slot: still a good trace
        8 if trace.arrivals > 0 => {
            let from = random.place(trace.slot_counts.len());
            let to = random.place(trace.slot_counts.len());
            let mut counts = trace.slot_counts.clone();
            if counts[from] > 0 {
                counts[from] -= 1;
                counts[to] += 1;
            }
            for place in [from, to] {
                let count = u32::from(counts[place]);
                put_half(bytes, 40 + capacities + 2 * place, count);
            }
        }
        // a port at its edges
        9 if trace.arrivals > 0 => {
            let place = 40 + capacities + slot_counts + random.place(trace.arrival_ports.len());
            if place < length {
                let edges = [0, trace.ports - 1, trace.ports, 16, 255];
                bytes[place] = random.one_of(&edges) as u8;
            }
        }
        // bytes put in before a table, with the offsets behind them raised to match
        10 => {
            let more = random.between(1, 4);
            let table = random.place(4);
            let ends = [0, capacities, capacities + slot_counts, length];
            put_in(bytes, 40 + ends[table], more);
            for place in 6 + table..10 {
                add_to_word(bytes, place, more);
            }
        }
        // more slots, all without arrivals, and all else to match
        11 => {
            let more = random.one_of(&[1, 2, 4096 - trace.slots, 4097 - trace.slots]);
            put_in(bytes, 40 + capacities + slot_counts, 2 * more);
            add_to_word(bytes, 4, more);
            add_to_word(bytes, 8, 2 * more);
            add_to_word(bytes, 9, 2 * more);
        }
        // more arrivals in the last slot, and all else to match
        12 if slot_counts > 0 => {
            let arrivals = trace.arrivals;
            let more = random.one_of(&[1, 2, 4096 - arrivals, 4097 - arrivals]);
            let last = u32::from(trace.slot_counts[trace.slot_counts.len() - 1]);
            put_half(bytes, 40 + capacities + slot_counts - 2, last + more);
            put_in(bytes, length, 2 * more);
            add_to_word(bytes, 5, more);
            add_to_word(bytes, 9, 2 * more);
        }
        // all of it drawn anew
        _ => {
            for byte in bytes.iter_mut() {
                *byte = random.draw() as u8;
            }
        }
    }
}

/// One damage to the words and tables for the writer.
fn damage_tables(trace: &mut Trace, random: &mut Random) {
    match random.between(0, 11) {
        0 => trace.model = changed(random, trace.model),
        1 => trace.order = changed(random, trace.order),
        2 => trace.ports = changed(random, trace.ports),
        3 => trace.speedup = changed(random, trace.speedup),
        4 => trace.slots = changed(random, trace.slots),
        5 => trace.arrivals = changed(random, trace.arrivals),
        6 => {
            let length = trace.capacities.len() as u32;
            let new = random.one_of(&[0, length + 1, length + 256, length.saturating_sub(1)]);
            trace.capacities.resize(new as usize, 1);
        }
        7 => {
            let length = trace.slot_counts.len() as u32;
            let new = random.one_of(&[0, length + 1, length.saturating_sub(1)]);
            trace.slot_counts.resize(new as usize, 0);
        }
        8 => {
            let length = trace.arrival_ports.len() as u32;
            let shorter = length.saturating_sub(1);
            let new = random.one_of(&[0, length + 1, length + 2, shorter]);
            trace.arrival_ports.resize(new as usize, 0);
        }
        9 if !trace.capacities.is_empty() => {
            let place = random.place(trace.capacities.len());
            trace.capacities[place] = random.one_of(&[0, 1, 1024, 1025, 65535]) as u16;
        }
        10 if !trace.slot_counts.is_empty() => {
            let place = random.place(trace.slot_counts.len());
            let old = u32::from(trace.slot_counts[place]);
            trace.slot_counts[place] = random.one_of(&[0, old + 1, 4096, 65535]) as u16;
        }
        _ if !trace.arrival_ports.is_empty() => {
            let place = random.place(trace.arrival_ports.len());
            let edges = [0, trace.ports.wrapping_sub(1), trace.ports, 16, 255];
            trace.arrival_ports[place] = random.one_of(&edges) as u8;
        }
        _ => trace.arrivals = 1,
    }
}

/// One damage to a switch's image.
fn damage_words(words: &mut [u32; WORDS], random: &mut Random) {
    let switch = Switch::from_words(words);
    match random.between(0, 9) {
        // a head word changed
        0 | 1 => {
            let place = random.place(10);
            words[place] = changed(random, words[place]);
        }
        // any word changed
        2 | 3 => {
            let place = random.place(WORDS);
            words[place] = changed(random, words[place]);
        }
        // a bit flipped
        4 => {
            let place = random.place(WORDS);
            words[place] ^= 1 << random.between(0, 31);
        }
        // counts that agree only where sums are cut to 32 bits
        5 => {
            let outputs = switch.held_in_outputs() as u32;
            let crosspoints = switch.held_in_crosspoints() as u32;
            let sent = random.draw() as u32;
            let held = switch.held() as u32;
            words[6] = words[5].wrapping_sub(sent).wrapping_sub(held);
            words[7] = sent.wrapping_add(outputs).wrapping_add(crosspoints);
            words[8] = sent.wrapping_add(outputs);
            words[9] = sent;
        }
        // counts raised alike: without dropped they still agree, perhaps above 4,096
        6 => {
            let more = random.one_of(&[1, 4, 4000, 4096]);
            words[5] = words[5].wrapping_add(more);
            for place in random.one_of(&[6, 7])..10 {
                words[place as usize] = words[place as usize].wrapping_add(more);
            }
        }
        // one dropped packet counted as sent: still agreeing
        7 if words[6] > 0 => {
            words[6] -= 1;
            for place in 7..10 {
                words[place] = words[place].wrapping_add(1);
            }
        }
        // one packet more in an input queue, counted as arrived
        8 => {
            let place = 538 + random.place(256);
            words[place] = words[place].wrapping_add(1);
            words[5] = words[5].wrapping_add(1);
        }
        // every word drawn anew
        _ => {
            for word in words.iter_mut() {
                *word = random.draw() as u32;
            }
        }
    }
}

/// Puts a 32-bit word into the header, if the bytes reach so far.
fn put_word(bytes: &mut [u8], place: usize, word: u32) {
    if 4 * place + 4 <= bytes.len() {
        bytes[4 * place..4 * place + 4].copy_from_slice(&word.to_le_bytes());
    }
}

/// Puts a 16-bit number into the bytes, if they reach so far.
fn put_half(bytes: &mut [u8], at: usize, half: u32) {
    if at + 2 <= bytes.len() {
        bytes[at..at + 2].copy_from_slice(&(half as u16).to_le_bytes());
    }
}

/// Adds to a 32-bit word of the header, if the bytes reach so far.
fn add_to_word(bytes: &mut [u8], place: usize, more: u32) {
    if 4 * place + 4 <= bytes.len() {
        let mut word = [0; 4];
        word.copy_from_slice(&bytes[4 * place..4 * place + 4]);
        put_word(bytes, place, u32::from_le_bytes(word).wrapping_add(more));
    }
}

/// Puts so many bytes 0 in before a byte, or at the end if it lies beyond.
fn put_in(bytes: &mut Vec<u8>, at: usize, more: u32) {
    for _ in 0..more {
        bytes.insert(at.min(bytes.len()), 0);
    }
}
