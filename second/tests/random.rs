//! Facts that hold of every trace and every switch, tried on many drawn ones. Every
//! failure names its seed; `SECOND_SEED` gives another first seed.

mod common;

use second::damage::{damaged_bytes, damaged_switch, damaged_tables};
use second::generate::{bytes, switch, tiny_cioq, trace, trace_of_kind, Kind};
use second::random::first_seed;
use second::reader::{Handed, Reader};
use second::rival::{limit, most_sent, Freedoms};
use second::run::{counts, needed_room, play, run, words_filled, Counts};
use second::steps::{Arrival, Closing, Drain};
use second::switch::{Switch, ZERO};
use second::trace::{arrivals_of_slots, offsets, read, write, Trace};

/// The limits of document 01 on every queue, and its sums.
fn check_switch(switch: &Switch, seed: u64) {
    let n = switch.ports as usize;
    for i in 0..n {
        for j in 0..n {
            assert!(switch.input_length[i][j] <= switch.input_capacity[i][j]);
            assert!(switch.crosspoint_length[i][j] <= switch.crosspoint_capacity[i][j]);
        }
        assert!(switch.output_length[i] <= switch.output_capacity[i]);
    }
    let arrived = u64::from(switch.dropped + switch.sent) + switch.held();
    assert_eq!(u64::from(switch.arrived), arrived, "seed {seed}");
    assert!(switch.allowed(), "seed {seed}");
}

/// A run of a good trace: its counts, its log, and the same by steps.
fn check_trace(trace: &Trace, seed: u64) {
    let bytes = bytes(trace);
    assert_eq!(read(&bytes).as_ref(), Ok(trace), "seed {seed}");

    let room = needed_room(trace.model, trace.arrivals);
    let mut log = vec![0xffff_ffff; room + 3];
    let found = run(&bytes, &mut log).unwrap();
    let filled = words_filled(trace.model, &found);
    assert!(filled <= room);
    assert!(log[filled..].iter().all(|word| *word == 0xffff_ffff));
    // exactly the needed room is enough, one word less is not
    let mut just = vec![0; room];
    assert_eq!(run(&bytes, &mut just), Ok(found));
    assert_eq!(just[..filled], log[..filled]);
    if room > 0 {
        assert_eq!(run(&bytes, &mut just[1..]), Err(12));
    }

    // the counts are the numbers of events
    let mut kinds = [0; 16];
    for word in &log[..filled] {
        kinds[(word >> 28) as usize] += 1;
    }
    let outmoved = if trace.model == 2 { kinds[4] } else { kinds[3] };
    let counted = Counts {
        arrived: kinds[1] + kinds[2],
        dropped: kinds[2],
        crossed: kinds[3],
        outmoved,
        sent: kinds[5],
        held: kinds[1] - kinds[5],
    };
    assert_eq!(found, counted, "seed {seed}");

    // the same by steps, each slot's arrivals out of the reader
    let mut reader = Reader::new(&bytes);
    let (mut switch, refusal) = Switch::new(&bytes);
    assert_eq!(refusal, None);
    let mut place = 0;
    // the reader checks the whole file at each request: for short traces only
    let short = trace.slots <= 100;
    for arrivals in arrivals_of_slots(trace) {
        if short {
            assert_eq!(reader.next_slot(), Handed::Arrivals(arrivals.clone()));
        }
        for (input, output) in arrivals {
            let (next, answer) = switch.arrival(input as u32, output as u32);
            switch = next;
            let kind = if answer == Arrival::Accepted { 1 } else { 2 };
            let ports = (input * 16 + output) as u32;
            let word = kind * 0x1000_0000 + switch.slot * 0x1_0000 + ports;
            assert_eq!(log[place], word, "seed {seed}");
            place += 1;
        }
        let (next, answer) = switch.close();
        assert_eq!(answer, Closing::Closed);
        assert_eq!(next.slot, switch.slot + 1);
        place += (next.crossed - switch.crossed + next.sent - switch.sent) as usize;
        if trace.model == 2 {
            place += (next.outmoved - switch.outmoved) as usize;
        }
        switch = next;
        check_switch(&switch, seed);
    }
    if short {
        assert_eq!(reader.next_slot(), Handed::NoMore);
    }
    assert_eq!(place, filled);
    assert_eq!(switch, play(trace).0, "seed {seed}");
    assert_eq!(counts(&switch), found, "seed {seed}");
}

#[test]
fn runs() {
    let first = first_seed(1);
    for seed in first..first + 4000 {
        check_trace(&trace(seed), seed);
    }
}

#[test]
fn runs_full_to_the_limits() {
    let first = first_seed(100_000);
    for seed in first..first + 12 {
        let trace = trace_of_kind(seed, Kind::Full);
        assert_eq!(trace.arrivals, 4096);
        check_trace(&trace, seed);
    }
}

/// The kinds, models, orders, ports and speedups all come up.
#[test]
fn the_generator_covers_everything() {
    let mut ports = [0; 17];
    let mut speedups = [0; 17];
    let mut pairs = [[0; 3]; 3];
    let (mut longest, mut empty, mut dropped, mut held) = (0, 0, 0, 0);
    for seed in 0..2000 {
        let trace = trace(seed);
        ports[trace.ports as usize] += 1;
        speedups[trace.speedup as usize] += 1;
        pairs[trace.model as usize][trace.order as usize] += 1;
        longest += u32::from(trace.slots == 4096 && trace.arrivals == 4096);
        empty += u32::from(trace.slots == 0);
        if trace.slots <= 100 {
            let (end, _) = play(&trace);
            dropped += u32::from(end.dropped > 0);
            held += u32::from(end.held() > 0);
        }
    }
    assert!(ports[1..].iter().all(|times| *times > 10));
    assert!(speedups[1..].iter().all(|times| *times > 10));
    assert!(pairs[1..].concat().iter().all(|times| *times > 100));
    assert!(longest > 10 && empty > 10 && dropped > 500 && held > 500);
}

/// Damaged bytes: all readings give the same number and nothing lent is changed.
#[test]
fn damaged_traces() {
    let first = first_seed(200_000);
    let mut refusals = [0; 12];
    for seed in first..first + 6000 {
        let bytes = damaged_bytes(seed);
        let mut log = vec![0x1234_5678; 4 * 4096];
        match read(&bytes) {
            Ok(trace) => {
                refusals[0] += 1;
                let mut written = vec![0x55; bytes.len() + 5];
                let total = write(&trace, &mut written);
                assert_eq!(total, Ok(bytes.len() as u32), "seed {seed}");
                assert_eq!(written[..bytes.len()], bytes, "seed {seed}");
                assert_eq!(written[bytes.len()..], [0x55; 5]);
                check_trace(&trace, seed);
            }
            Err(refusal) => {
                refusals[refusal as usize] += 1;
                assert_eq!(run(&bytes, &mut log), Err(refusal), "seed {seed}");
                assert_eq!(log, vec![0x1234_5678; 4 * 4096]);
                assert_eq!(run(&bytes, &mut []), Err(refusal));
                assert_eq!(Switch::new(&bytes), (ZERO, Some(refusal)));
                let mut reader = Reader {
                    bytes: &bytes,
                    slot: 5,
                };
                assert_eq!(reader.next_slot(), Handed::Refused(refusal));
                assert_eq!(reader.slot, 5);
            }
        }
    }
    println!("accepted, then refused by 1 to 11: {refusals:?}");
    assert!(refusals.iter().all(|times| *times > 20), "{refusals:?}");
}

/// Damaged tables: what is written can be read; what is refused leaves no mark.
#[test]
fn damaged_writing() {
    let first = first_seed(300_000);
    let mut refusals = [0; 19];
    for seed in first..first + 6000 {
        let trace = damaged_tables(seed);
        let mut output = vec![0x55; 17480 + 5];
        match write(&trace, &mut output) {
            Ok(total) => {
                refusals[0] += 1;
                let total = total as usize;
                assert_eq!(read(&output[..total]).as_ref(), Ok(&trace), "seed {seed}");
                assert!(output[total..].iter().all(|byte| *byte == 0x55));
                assert_eq!(offsets(&trace).total as usize, total);
                let mut short = vec![0x55; total - 1];
                assert_eq!(write(&trace, &mut short), Err(18));
                assert!(short.iter().all(|byte| *byte == 0x55));
            }
            Err(refusal) => {
                refusals[refusal as usize] += 1;
                assert!(output.iter().all(|byte| *byte == 0x55), "seed {seed}");
            }
        }
    }
    println!("written, then refused by number: {refusals:?}");
    for refusal in [0, 2, 3, 4, 5, 6, 7, 9, 10, 11, 17] {
        assert!(refusals[refusal] > 20, "{refusals:?}");
    }
}

/// A drain's count is the least after which nothing is held.
#[test]
fn drains() {
    let first = first_seed(400_000);
    for seed in first..first + 2000 {
        let start = switch(seed);
        check_switch(&start, seed);
        for limit in [0, 1, 3, 50, 4096] {
            let (after, answer) = start.drain(limit);
            if start.slot + limit > 8192 {
                assert_eq!((after, answer), (start, Drain::Refused(15)));
                continue;
            }
            // close one slot after the other and look at every switch on the way
            let mut closed = start;
            let mut least = None;
            for count in 0..=limit {
                if closed.held() == 0 {
                    least = Some(count);
                    break;
                }
                if count < limit {
                    let before = closed.held();
                    let (next, closing) = closed.close();
                    assert_eq!(closing, Closing::Closed);
                    // every closing sends at least one while something is held
                    assert!(next.held() < before, "seed {seed}");
                    closed = next;
                }
            }
            assert_eq!(after, closed, "seed {seed}");
            match least {
                Some(count) => {
                    assert_eq!(answer, Drain::Empty(count), "seed {seed}");
                    assert!(u64::from(count) <= start.held());
                }
                None => assert_eq!(answer, Drain::NotEmpty(limit), "seed {seed}"),
            }
        }
    }
}

/// Refusal 13 told from the image alone, place by place, for comparison.
fn allowed_by_words(words: &[u32; 1066]) -> bool {
    let (model, n) = (words[0], words[2]);
    if ![1, 2].contains(&model) || ![0, 1, 2].contains(&words[1]) {
        return false;
    }
    if n == 0 || n > 16 || words[3] == 0 || words[3] > 16 {
        return false;
    }
    let (mut inputs, mut outputs, mut crosspoints) = (0, 0, 0);
    for place in 0..528 {
        let capacity = words[10 + place];
        let length = words[10 + 528 + place];
        let (used, held) = if place < 256 {
            let pair = place as u32;
            (pair / 16 < n && pair % 16 < n, &mut inputs)
        } else if place < 272 {
            ((place as u32 - 256) < n, &mut outputs)
        } else {
            let pair = place as u32 - 272;
            let both = pair / 16 < n && pair % 16 < n;
            (both && model == 2, &mut crosspoints)
        };
        if used && (capacity == 0 || capacity > 1024 || length > capacity) {
            return false;
        }
        if !used && (capacity, length) != (0, 0) {
            return false;
        }
        *held += i64::from(length);
    }
    let [arrived, dropped, crossed, outmoved, sent] =
        [words[5], words[6], words[7], words[8], words[9]].map(i64::from);
    words[4] <= 8192
        && arrived <= 4096
        && arrived == dropped + sent + inputs + outputs + crosspoints
        && crossed == sent + outputs + crosspoints
        && outmoved == sent + outputs
}

/// Damaged switch values: refusal 13 changes nothing, the rest go on as allowed ones.
#[test]
fn damaged_switches() {
    let first = first_seed(500_000);
    let mut allowed = 0;
    let tries = 20_000;
    for seed in first..first + tries {
        let switch = damaged_switch(seed);
        let words = switch.to_words();
        assert_eq!(Switch::from_words(&words), switch);
        assert_eq!(switch.allowed(), allowed_by_words(&words), "seed {seed}");
        if switch.allowed() {
            allowed += 1;
            let (after, closing) = switch.close();
            if closing == Closing::Closed {
                check_switch(&after, seed);
            }
            let (after, arrival) = switch.arrival(0, 0);
            match arrival {
                Arrival::Refused(refusal) => {
                    assert_eq!((after, refusal), (switch, 14), "seed {seed}")
                }
                _ => check_switch(&after, seed),
            }
        } else {
            assert_eq!(switch.arrival(0, 0), (switch, Arrival::Refused(13)));
            assert_eq!(switch.close(), (switch, Closing::Refused(13)));
            assert_eq!(switch.drain(0), (switch, Drain::Refused(13)));
        }
    }
    println!("allowed {allowed} of {tries}");
    assert!(allowed > 500 && allowed < tries - 500);
}

/// Demand 3: at the end of every slot the rival has sent at most three times what
/// greedy has sent and twice what greedy holds in its output queues.
#[test]
fn rival_within_the_limit() {
    let first = first_seed(600_000);
    let (mut ahead, mut past_three_times, mut at_limit) = (0, 0, 0);
    for seed in first..first + 1200 {
        let trace = tiny_cioq(seed, 4, 12);
        let most = most_sent(&trace, Freedoms::Moves);
        let (mut switch, _) = Switch::new(&bytes(&trace));
        for (slot, arrivals) in arrivals_of_slots(&trace).into_iter().enumerate() {
            for (input, output) in arrivals {
                switch = switch.arrival(input as u32, output as u32).0;
            }
            switch = switch.close().0;
            let limit = limit(switch.sent, switch.held_in_outputs() as u32);
            assert!(most[slot] <= limit, "seed {seed}, slot {slot}");
            // greedy is itself a schedule that the rival could follow
            assert!(most[slot] >= switch.sent, "seed {seed}, slot {slot}");
            ahead += u32::from(most[slot] > switch.sent);
            past_three_times += u32::from(most[slot] > 3 * switch.sent);
            at_limit += u32::from(most[slot] == limit);
        }
    }
    println!("rival ahead {ahead}, past 3 x sent {past_three_times}, at limit {at_limit}");
    assert!(ahead > 20);
}

/// The freedoms left out of the search do not change the most sent.
#[test]
fn rival_with_every_freedom() {
    let first = first_seed(700_000);
    for seed in first..first + 200 {
        let trace = tiny_cioq(seed, 2, 8);
        let all = most_sent(&trace, Freedoms::All);
        assert_eq!(most_sent(&trace, Freedoms::Moves), all, "seed {seed}");
    }
}
