//! What the tests share: laying out trace files byte by byte, without the writer.
#![allow(dead_code)]

/// The bytes of a trace file from its ten header words and its tables.
pub fn lay_out(
    words: [u32; 10],
    capacities: &[u16],
    slot_counts: &[u16],
    arrivals: &[(u8, u8)],
) -> Vec<u8> {
    let mut bytes = Vec::new();
    for word in words {
        bytes.extend(word.to_le_bytes());
    }
    for half in capacities.iter().chain(slot_counts) {
        bytes.extend(half.to_le_bytes());
    }
    for (input, output) in arrivals {
        bytes.extend([*input, *output]);
    }
    bytes
}

/// A trace file with every capacity alike.
pub fn file(
    model: u32,
    order: u32,
    ports: u32,
    speedup: u32,
    capacity: u16,
    slots: &[&[(u8, u8)]],
) -> Vec<u8> {
    let n = ports as usize;
    let queues = if model == 2 {
        n * n + n + n * n
    } else {
        n * n + n
    };
    let arrivals = slots.concat();
    let mut slot_counts = Vec::new();
    for slot in slots {
        slot_counts.push(slot.len() as u16);
    }
    let end_of_capacities = 40 + 2 * queues;
    let end_of_counts = end_of_capacities + 2 * slots.len();
    let end_of_arrivals = end_of_counts + 2 * arrivals.len();
    let words = [
        model,
        order,
        ports,
        speedup,
        slots.len() as u32,
        arrivals.len() as u32,
        40,
        end_of_capacities as u32,
        end_of_counts as u32,
        end_of_arrivals as u32,
    ];
    lay_out(words, &vec![capacity; queues], &slot_counts, &arrivals)
}

/// The file with one header word changed.
pub fn with_word(bytes: &[u8], place: usize, word: u32) -> Vec<u8> {
    let mut changed = bytes.to_vec();
    changed[4 * place..4 * place + 4].copy_from_slice(&word.to_le_bytes());
    changed
}

/// C1's file, byte for byte after document 01.
#[rustfmt::skip]
pub const C1: [u8; 66] = [
    1, 0, 0, 0, // model 1
    1, 0, 0, 0, // order 1
    2, 0, 0, 0, // N 2
    1, 0, 0, 0, // speedup 1
    2, 0, 0, 0, // two slots
    5, 0, 0, 0, // five arrivals
    40, 0, 0, 0, 52, 0, 0, 0, 56, 0, 0, 0, 66, 0, 0, 0, // offsets and total
    1, 0, 1, 0, 1, 0, 1, 0, 1, 0, 1, 0, // every capacity 1
    4, 0, 1, 0, // four arrivals, one arrival
    0, 0, 0, 0, 0, 1, 1, 0, // slot 0: (0,0) (0,0) (0,1) (1,0)
    1, 1, // slot 1: (1,1)
];

/// C1's log after document 01.
pub const C1_LOG: [u32; 11] = [
    0x10000000, 0x20000000, 0x10000001, 0x10000010, 0x30000000, 0x50000000, 0x10010011, 0x30010001,
    0x30010010, 0x50010000, 0x50010001,
];
