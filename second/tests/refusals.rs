//! The refusal numbers of document 01: the edges of every word, the orders in which
//! they decide, and that a refusal changes nothing lent.

mod common;

use common::{file, lay_out, with_word, C1};
use second::reader::{Handed, Reader};
use second::run::{play, run};
use second::steps::{Arrival, Closing, Drain};
use second::switch::{Switch, ZERO};
use second::trace::{read, write, Trace};

/// The switch at the end of C1, with one packet held in input queue (1, 1).
fn c1_end() -> Switch {
    play(&read(&C1).unwrap()).0
}

#[test]
fn every_length_below_the_whole_file() {
    for length in 0..C1.len() {
        let refusal = if length < 40 { 1 } else { 8 };
        assert_eq!(read(&C1[..length]), Err(refusal));
    }
    let mut longer = C1.to_vec();
    longer.push(0);
    assert_eq!(read(&longer), Err(8));
}

/// Each header word at its edges, in a file that is otherwise as it was.
#[test]
fn edges_of_header_words() {
    let top = u32::MAX;
    let rows: [(usize, &[u32], u32); 10] = [
        (0, &[0, 3, 257, top], 2),
        (1, &[3, 4, 256, top], 3),
        (2, &[0, 17, 258, top], 4),
        (3, &[0, 17, 257, top], 5),
        (4, &[4097, 65538, top], 6),
        (5, &[4097, 65541, top], 7),
        (6, &[0, 39, 41, top], 8),
        (7, &[0, 51, 53, 40, top], 8),
        (8, &[0, 55, 57, 52, top], 8),
        (9, &[0, 65, 67, 56, top], 8),
    ];
    for (place, words, refusal) in rows {
        for word in words {
            assert_eq!(read(&with_word(&C1, place, *word)), Err(refusal));
        }
    }
    // allowed words that do not fit the file's length
    for (place, word) in [(0, 2), (2, 1), (2, 3), (4, 0), (4, 4096), (5, 0), (5, 4096)] {
        assert_eq!(read(&with_word(&C1, place, word)), Err(8));
    }
    // words that may change freely
    for (place, word) in [(1, 0), (1, 2), (3, 2), (3, 16)] {
        assert!(read(&with_word(&C1, place, word)).is_ok());
    }
}

/// The limits themselves are allowed, in files made for them.
#[test]
fn limits_are_allowed() {
    let longest: Vec<&[(u8, u8)]> = vec![&[(15, 15)]; 4096];
    let bytes = file(2, 2, 16, 16, 1024, &longest);
    assert_eq!(bytes.len(), 17480);
    let mut log = vec![0; 4 * 4096];
    let counts = run(&bytes, &mut log).unwrap();
    assert_eq!((counts.arrived, counts.sent, counts.held), (4096, 4096, 0));
    assert_eq!(log[4 * 4096 - 1], 0x5fff000f);

    let mut too_many = longest.clone();
    too_many.push(&[]);
    assert_eq!(read(&file(2, 2, 16, 16, 1024, &too_many)), Err(6));
    too_many.pop();
    too_many[0] = &[(0, 0), (0, 0)];
    assert_eq!(read(&file(2, 2, 16, 16, 1024, &too_many)), Err(7));
    // all arrivals in one slot
    let all: &[(u8, u8)] = &[(0, 0); 4096];
    assert!(read(&file(1, 1, 1, 1, 1, &[all])).is_ok());
}

/// Every capacity of a model 2 file at its edges.
#[test]
fn edges_of_capacities() {
    let bytes = file(2, 1, 3, 1, 5, &[&[(2, 2)]]);
    for queue in 0..21 {
        for (capacity, allowed) in [(0, false), (1, true), (1024, true), (1025, false)] {
            let mut changed = bytes.clone();
            let capacity: u16 = capacity;
            changed[40 + 2 * queue..42 + 2 * queue].copy_from_slice(&capacity.to_le_bytes());
            let found = read(&changed);
            if allowed {
                assert_eq!(found.unwrap().capacities[queue], capacity);
            } else {
                assert_eq!(found, Err(9));
            }
        }
    }
}

#[test]
fn slot_counts_and_ports() {
    let words = [1, 1, 2, 1, 2, 2, 40, 52, 56, 60];
    let arrivals = [(0, 1), (1, 0)];
    for (slot_counts, allowed) in [
        ([0, 2], true),
        ([1, 1], true),
        ([2, 0], true),
        ([1, 0], false),
        ([2, 1], false),
        ([65535, 3], false), // 65,538, which is 2 in 16 bits
    ] {
        let found = read(&lay_out(words, &[1; 6], &slot_counts, &arrivals));
        assert_eq!(found.err(), if allowed { None } else { Some(10) });
    }
    for arrivals in [[(2, 1), (1, 0)], [(0, 1), (1, 2)], [(0, 255), (1, 0)]] {
        let found = read(&lay_out(words, &[1; 6], &[1, 1], &arrivals));
        assert_eq!(found, Err(11));
    }
}

/// Everything is wrong at once; repaired one by one the numbers come in order.
#[test]
fn order_of_reading() {
    let words = [9, 9, 99, 99, 9999, 9999, 1, 2, 3, 4];
    let mut bytes = lay_out(words, &[0, 9999], &[7], &[(9, 9)]);
    let repairs: [(usize, u32, u32); 6] = [
        (0, 1, 2),
        (1, 0, 3),
        (2, 1, 4),
        (3, 1, 5),
        (4, 1, 6),
        (5, 1, 7),
    ];
    assert_eq!(read(&bytes[..39]), Err(1));
    for (place, word, refusal) in repairs {
        assert_eq!(read(&bytes), Err(refusal));
        bytes = with_word(&bytes, place, word);
    }
    for (place, word) in [(6, 40), (7, 44), (8, 46), (9, 48)] {
        assert_eq!(read(&bytes), Err(8));
        bytes = with_word(&bytes, place, word);
    }
    assert_eq!(read(&bytes), Err(9));
    bytes[40..44].copy_from_slice(&[1, 0, 1, 0]);
    assert_eq!(read(&bytes), Err(10));
    bytes[44] = 1;
    assert_eq!(read(&bytes), Err(11));
    bytes[46] = 0;
    assert_eq!(read(&bytes), Err(11));
    bytes[47] = 0;
    assert!(read(&bytes).is_ok());
    assert_eq!(run(&bytes, &mut [0; 2]), Err(12));
    assert!(run(&bytes, &mut [0; 3]).is_ok());
}

/// The same for the writer: 2 to 7, 17, 9, 10, 11, 18.
#[test]
fn order_of_writing() {
    let mut trace = Trace {
        model: 9,
        order: 9,
        ports: 99,
        speedup: 99,
        slots: 9999,
        arrivals: 9999,
        capacities: vec![0, 9999, 1],
        slot_counts: vec![7, 7],
        arrival_ports: vec![9, 9, 9],
    };
    let mut output = [0x77; 50];
    let refused = |trace: &Trace, length: usize| {
        let mut output = [0x77; 50];
        let answer = write(trace, &mut output[..length]);
        assert_eq!(output, [0x77; 50]);
        answer.unwrap_err()
    };
    assert_eq!(refused(&trace, 0), 2);
    trace.model = 1;
    assert_eq!(refused(&trace, 0), 3);
    trace.order = 0;
    assert_eq!(refused(&trace, 0), 4);
    trace.ports = 1;
    assert_eq!(refused(&trace, 0), 5);
    trace.speedup = 1;
    assert_eq!(refused(&trace, 0), 6);
    trace.slots = 1;
    assert_eq!(refused(&trace, 0), 7);
    trace.arrivals = 1;
    assert_eq!(refused(&trace, 0), 17);
    trace.capacities.pop();
    assert_eq!(refused(&trace, 0), 17);
    trace.slot_counts.pop();
    assert_eq!(refused(&trace, 0), 17);
    trace.arrival_ports.pop();
    assert_eq!(refused(&trace, 0), 9);
    trace.capacities = vec![1, 1024];
    assert_eq!(refused(&trace, 0), 10);
    trace.slot_counts = vec![1];
    assert_eq!(refused(&trace, 0), 11);
    trace.arrival_ports = vec![0, 0];
    assert_eq!(refused(&trace, 0), 18);
    assert_eq!(refused(&trace, 47), 18);
    assert_eq!(write(&trace, &mut output), Ok(48));
    let words = [1, 0, 1, 1, 1, 1, 40, 44, 46, 48];
    let expected = lay_out(words, &[1, 1024], &[1], &[(0, 0)]);
    assert_eq!(output[..48], expected);
    assert_eq!(output[48..], [0x77; 2]);
    // shorter tables too
    trace.capacities.pop();
    assert_eq!(refused(&trace, 50), 17);
    trace.capacities.push(1);
    trace.slot_counts.pop();
    assert_eq!(refused(&trace, 50), 17);
    trace.slot_counts.push(1);
    trace.arrival_ports.pop();
    assert_eq!(refused(&trace, 50), 17);
}

#[test]
fn a_refused_new_switch_is_all_zero() {
    assert_eq!(Switch::new(&C1[..50]), (ZERO, Some(8)));
    assert_eq!(Switch::new(&with_word(&C1, 0, 7)), (ZERO, Some(2)));
    assert_eq!(ZERO.to_words(), [0; 1066]);
    assert_eq!(ZERO.arrival(0, 0), (ZERO, Arrival::Refused(13)));
}

#[test]
fn reader_hands_out_slots() {
    let mut reader = Reader::new(&C1);
    let slot_0 = vec![(0, 0), (0, 0), (0, 1), (1, 0)];
    assert_eq!(reader.next_slot(), Handed::Arrivals(slot_0));
    assert_eq!(reader.slot, 1);
    assert_eq!(reader.next_slot(), Handed::Arrivals(vec![(1, 1)]));
    for slot in [2, 3, 4097, usize::MAX] {
        let mut reader = Reader { bytes: &C1, slot };
        assert_eq!(reader.next_slot(), Handed::NoMore);
        assert_eq!(reader, Reader { bytes: &C1, slot });
    }
    for slot in [0, 1, 2, usize::MAX] {
        let bytes = &C1[..60];
        let mut reader = Reader { bytes, slot };
        assert_eq!(reader.next_slot(), Handed::Refused(8));
        assert_eq!(reader, Reader { bytes, slot });
    }
}

/// Each word of C1's last switch raised by one: refusal 13 but for the few words
/// that may change freely.
#[test]
fn refusal_13_word_by_word() {
    let words = c1_end().to_words();
    // order, speedup, slot number, four input capacities, two output capacities
    let free = [1, 3, 4, 10, 11, 26, 27, 266, 267];
    for place in 0..1066 {
        let mut changed = words;
        changed[place] += 1;
        let switch = Switch::from_words(&changed);
        assert_eq!(switch.to_words(), changed);
        assert_eq!(switch.allowed(), free.contains(&place), "word {place}");
        if !switch.allowed() {
            assert_eq!(switch.arrival(9, 9), (switch, Arrival::Refused(13)));
            assert_eq!(switch.close(), (switch, Closing::Refused(13)));
            assert_eq!(switch.drain(9999), (switch, Drain::Refused(13)));
        }
    }
}

#[test]
fn refusal_13_edges() {
    let end = c1_end();
    let top = u32::MAX;
    let rows: [(usize, &[u32], &[u32]); 7] = [
        (0, &[1], &[0, 2, 3, top]),
        (1, &[0, 1, 2], &[3, top]),
        (2, &[2], &[0, 1, 3, 17, top]),
        (3, &[1, 16], &[0, 17, top]),
        (4, &[0, 8192], &[8193, top]),
        (10, &[1, 1024], &[0, 1025, top]),
        (267, &[1, 1024], &[0, 1025, top]),
    ];
    for (place, allowed, refused) in rows {
        for word in allowed.iter().chain(refused) {
            let mut words = end.to_words();
            words[place] = *word;
            let expected = allowed.contains(word);
            assert_eq!(Switch::from_words(&words).allowed(), expected);
        }
    }
    // arrived 4,096 and 4,097 with the drops to match
    let mut switch = end;
    switch.arrived = 4096;
    switch.dropped = 4096 - 4;
    assert!(switch.allowed());
    switch.arrived = 4097;
    switch.dropped = 4097 - 4;
    assert!(!switch.allowed());
    // sums that agree only in 32 bits
    let mut switch = end;
    switch.dropped = top;
    switch.sent = 5;
    switch.crossed = 5;
    switch.outmoved = 5;
    assert_eq!(switch.dropped.wrapping_add(5 + 1), switch.arrived);
    assert!(!switch.allowed());
    // a crossbar's crosspoints count as crossed and not as outmoved
    let bytes = file(2, 1, 2, 1, 1, &[&[(0, 0), (1, 0)]]);
    let switch = play(&read(&bytes).unwrap()).0;
    assert_eq!((switch.crossed, switch.outmoved, switch.sent), (2, 1, 1));
    assert_eq!(switch.held_in_crosspoints(), 1);
    assert!(switch.allowed());
    let mut no_longer = switch;
    no_longer.outmoved = 2;
    assert!(!no_longer.allowed());
    let mut no_longer = switch;
    no_longer.crossed = 1;
    assert!(!no_longer.allowed());
}

/// Arrival: 13, 11, 14.
#[test]
fn order_of_arrival() {
    let mut switch = c1_end();
    switch.arrived = 4096;
    switch.dropped = 4096 - 4;
    for (input, output) in [(2, 0), (0, 2), (u32::MAX, 0), (0, u32::MAX)] {
        let answer = switch.arrival(input, output);
        assert_eq!(answer, (switch, Arrival::Refused(11)));
    }
    assert_eq!(switch.arrival(1, 1), (switch, Arrival::Refused(14)));
    switch.arrived = 4095;
    switch.dropped = 4095 - 4;
    let (after, answer) = switch.arrival(0, 0);
    assert_eq!(answer, Arrival::Accepted);
    assert_eq!((after.arrived, after.dropped), (4096, 4095 - 4));
    assert_eq!(after.input_length[0][0], switch.input_length[0][0] + 1);
    switch.arrived = 4094;
    assert_eq!(switch.arrival(9, 9), (switch, Arrival::Refused(13)));
}

/// Closing: 13, 15.
#[test]
fn order_of_closing() {
    let mut switch = c1_end();
    switch.slot = 8191;
    let (after, answer) = switch.close();
    assert_eq!((answer, after.slot), (Closing::Closed, 8192));
    assert_eq!(after.close(), (after, Closing::Refused(15)));
    let mut broken = after;
    broken.sent += 1;
    assert_eq!(broken.close(), (broken, Closing::Refused(13)));
}

/// Drain: 13, 16, 15.
#[test]
fn order_of_drain() {
    let mut switch = c1_end();
    switch.slot = 4096;
    assert_eq!(switch.drain(4096).1, Drain::Empty(1));
    assert_eq!(switch.drain(4097), (switch, Drain::Refused(16)));
    assert_eq!(switch.drain(u32::MAX), (switch, Drain::Refused(16)));
    switch.slot = 4097;
    assert_eq!(switch.drain(4097), (switch, Drain::Refused(16)));
    assert_eq!(switch.drain(4096), (switch, Drain::Refused(15)));
    assert_eq!(switch.drain(4095).1, Drain::Empty(1));
    switch.slot = 8192;
    assert_eq!(switch.drain(1), (switch, Drain::Refused(15)));
    assert_eq!(switch.drain(0), (switch, Drain::NotEmpty(0)));
    switch.slot = 8193;
    assert_eq!(switch.drain(4097), (switch, Drain::Refused(13)));
    // an empty switch is refused by its limit all the same
    let (mut empty, _) = Switch::new(&C1);
    empty.slot = 8192;
    assert_eq!(empty.drain(0), (empty, Drain::Empty(0)));
    assert_eq!(empty.drain(1), (empty, Drain::Refused(15)));
}
