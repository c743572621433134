//! The bench cases C1 to C12 of document 01 with that document's own values, and
//! rows that catch the five "errors seen in models like this".

mod common;

use common::{file, lay_out, with_word, C1, C1_LOG};
use second::report::{events, report};
use second::rival::{limit, most_sent, Freedoms};
use second::run::{loss_per_thousand, play, run, Counts};
use second::steps::{Arrival, Closing, Drain};
use second::switch::Switch;
use second::trace::read;

/// The counts in the order of document 01.
fn counts(arrived: u32, dropped: u32, crossed: u32, outmoved: u32, sent: u32, held: u32) -> Counts {
    Counts {
        arrived,
        dropped,
        crossed,
        outmoved,
        sent,
        held,
    }
}

/// The new switch of a good trace.
fn new_switch(bytes: &[u8]) -> Switch {
    let (switch, refusal) = Switch::new(bytes);
    assert_eq!(refusal, None);
    switch
}

/// The switch at the end of a good trace.
fn end(bytes: &[u8]) -> Switch {
    play(&read(bytes).unwrap()).0
}

/// Runs a good trace and compares the whole log with the words expected. The log is
/// longer than needed, and the words after the last event keep what they held.
fn expect_log(bytes: &[u8], expected: &[u32]) -> Counts {
    let mut log = [0xa5a5_a5a5; 80];
    let counts = run(bytes, &mut log).unwrap();
    let shown: Vec<String> = log.iter().map(|w| format!("{w:08x}")).collect();
    assert_eq!(&log[..expected.len()], expected, "{shown:?}");
    assert!(log[expected.len()..].iter().all(|w| *w == 0xa5a5_a5a5));
    counts
}

#[test]
fn c1() {
    assert_eq!(C1.len(), 66);
    let words = [1, 1, 2, 1, 2, 5, 40, 52, 56, 66];
    let arrivals = [(0, 0), (0, 0), (0, 1), (1, 0), (1, 1)];
    assert_eq!(lay_out(words, &[1; 6], &[4, 1], &arrivals), C1);
    let found = expect_log(&C1, &C1_LOG);
    assert_eq!(found, counts(5, 1, 3, 3, 3, 1));
    let printed = "10000000\n20000000\n10000001\n10000010\n30000000\n50000000\n\
                   10010011\n30010001\n30010010\n50010000\n50010001\n";
    assert_eq!(events(&C1), printed);
}

#[test]
fn c1_report() {
    let printed = "name value\narrived 5\ndropped 1\ncrossed 3\noutmoved 3\nsent 3\n\
                   held 1\nper-thousand 200\nquiet 1\n";
    assert_eq!(report(&C1), printed);
    assert_eq!(report(&C1[..39]), "name value\nrefused 1\n");
    assert_eq!(report(&C1[..65]), "name value\nrefused 8\n");
    assert_eq!(events(&C1[..65]), "refused 8\n");
}

#[test]
fn c2_and_c3() {
    for order in 0..3 {
        let words = [1, order, 1, 1, 0, 0, 40, 44, 44, 44];
        let c2 = lay_out(words, &[1, 1], &[], &[]);
        assert_eq!(c2.len(), 44);
        assert_eq!(run(&c2, &mut []), Ok(counts(0, 0, 0, 0, 0, 0)));
        let (after, drain) = new_switch(&c2).drain(4096);
        assert_eq!(drain, Drain::Empty(0));
        assert_eq!(after, new_switch(&c2));

        let mut c3 = with_word(&c2, 9, 45);
        c3.push(0);
        assert_eq!(read(&c3), Err(8));
        assert_eq!(run(&c3, &mut []), Err(8));
    }
}

#[test]
fn c4() {
    let sixteen = file(1, 1, 16, 1, 1, &[]);
    assert_eq!(sixteen.len(), 584);
    assert!(read(&sixteen).is_ok());
    assert_eq!(read(&with_word(&sixteen, 2, 17)), Err(4));
    assert_eq!(read(&file(1, 1, 17, 1, 1, &[])), Err(4));
}

#[test]
fn c5() {
    let words = [1, 1, 0, 0, 0, 0, 40, 40, 40, 40];
    assert_eq!(read(&lay_out(words, &[], &[], &[])), Err(4));
}

#[test]
fn c6() {
    for model in 1..3 {
        let alike: &[(u8, u8)] = &[(0, 0), (0, 0)];
        let one = file(model, 1, 1, 1, 1, &[alike]);
        assert_eq!(end(&one).dropped, 1);
        let two = file(model, 1, 1, 1, 2, &[alike]);
        assert_eq!(end(&two).dropped, 0);
    }
}

/// C7: also the error "Three times the sent packets claimed at every slot".
#[test]
fn c7() {
    let arrivals: &[(u8, u8)] = &[(0, 0), (0, 0), (0, 0), (0, 0), (0, 1), (0, 2), (0, 3)];
    let c7 = file(1, 1, 4, 4, 4, &[arrivals]);
    let switch = end(&c7);
    assert_eq!(switch.sent, 1);
    assert_eq!(switch.output_length[..4], [3, 0, 0, 0]);
    assert_eq!(most_sent(&read(&c7).unwrap(), Freedoms::Moves), [4]);
    assert_eq!(most_sent(&read(&c7).unwrap(), Freedoms::All), [4]);
    assert_eq!(limit(1, 3), 9);
    // three times the sent packets is not enough
    assert!(3 * switch.sent < 4);
    assert_eq!(switch.drain(4096).1, Drain::Empty(3));
}

#[test]
fn c8() {
    let c8 = file(2, 1, 1, 1, 1, &[&[(0, 0)]]);
    let found = expect_log(&c8, &[0x10000000, 0x30000000, 0x40000000, 0x50000000]);
    assert_eq!(found, counts(1, 0, 1, 1, 1, 0));
}

#[test]
fn c9() {
    let slots: [&[(u8, u8)]; 2] = [&[], &[(0, 0), (1, 0)]];
    let rotating = file(1, 2, 2, 1, 1, &slots);
    expect_log(&rotating, &[0x10010000, 0x10010010, 0x30010010, 0x50010000]);
    for order in 0..2 {
        let lowest = file(1, order, 2, 1, 1, &slots);
        expect_log(&lowest, &[0x10010000, 0x10010010, 0x30010000, 0x50010000]);
    }
}

#[test]
fn c10() {
    let mut log = [0xa5a5_a5a5; 14];
    assert_eq!(run(&C1, &mut log), Err(12));
    assert_eq!(log, [0xa5a5_a5a5; 14]);
    let mut log = [0xa5a5_a5a5; 15];
    assert_eq!(run(&C1, &mut log), Ok(counts(5, 1, 3, 3, 3, 1)));
    assert_eq!(log[..11], C1_LOG);
    assert_eq!(log[11..], [0xa5a5_a5a5; 4]);
}

/// C10's like for model 2: four words for each arrival.
#[test]
fn c10_crossbar() {
    let c8 = file(2, 1, 1, 1, 1, &[&[(0, 0)]]);
    let mut log = [7; 3];
    assert_eq!(run(&c8, &mut log), Err(12));
    assert_eq!(log, [7; 3]);
    let mut log = [7; 4];
    assert_eq!(run(&c8, &mut log), Ok(counts(1, 0, 1, 1, 1, 0)));
}

#[test]
fn c11() {
    assert_eq!(loss_per_thousand(3, 1), 333);
    assert_eq!(loss_per_thousand(0, 0), 0);
    assert_eq!(loss_per_thousand(4096, 1), 0);
    assert_eq!(loss_per_thousand(4096, 4096), 1000);
    let third = file(1, 1, 1, 1, 2, &[&[(0, 0), (0, 0), (0, 0)]]);
    assert!(report(&third).contains("\nper-thousand 333\n"));
}

#[test]
fn c12() {
    let switch = end(&C1);
    assert_eq!(switch.held(), 1);
    let (after, drain) = switch.drain(0);
    assert_eq!(drain, Drain::NotEmpty(0));
    assert_eq!(after, switch);
    let (after, drain) = switch.drain(1);
    assert_eq!(drain, Drain::Empty(1));
    assert_eq!(after.held(), 0);
    assert_eq!((after, Closing::Closed), switch.close());
    assert_eq!((after, Drain::Empty(1)), switch.drain(4096));
}

/// Error 1: an input whose lowest eligible output is taken gives up.
#[test]
fn error_gives_up() {
    let bytes = file(1, 1, 2, 1, 1, &[&[(0, 0), (1, 0), (1, 1)]]);
    let expected = [
        0x10000000, 0x10000010, 0x10000011, // accepted
        0x30000000, 0x30000011, // input 1 takes output 1, as 0 is taken
        0x50000000, 0x50000001,
    ];
    expect_log(&bytes, &expected);
}

/// Error 2: a full output queue counted as having room because it will send later.
#[test]
fn error_full_output_counted_as_room() {
    // input capacity 2, output capacity 1, for model 2 crosspoint capacity 1
    let words = [1, 1, 1, 2, 1, 2, 40, 44, 46, 50];
    let bytes = lay_out(words, &[2, 1], &[2], &[(0, 0), (0, 0)]);
    let found = expect_log(&bytes, &[0x10000000, 0x10000000, 0x30000000, 0x50000000]);
    assert_eq!(found, counts(2, 0, 1, 1, 1, 1));

    let words = [2, 1, 1, 2, 1, 2, 40, 46, 48, 52];
    let bytes = lay_out(words, &[2, 1, 1], &[2], &[(0, 0), (0, 0)]);
    let expected = [
        0x10000000, 0x10000000, // accepted
        0x30000000, 0x40000000, // cycle 0
        0x30000100, // cycle 1: to the crosspoint, but the output queue is full
        0x50000000,
    ];
    let found = expect_log(&bytes, &expected);
    assert_eq!(found, counts(2, 0, 2, 1, 1, 1));
}

/// Error 3: the output part looking at crosspoints as before the input part.
#[test]
fn error_output_part_looks_back() {
    let bytes = file(2, 1, 2, 1, 1, &[&[(0, 1), (1, 1), (1, 0)]]);
    let expected = [
        0x10000001, 0x10000011, 0x10000010, // accepted
        0x30000001, 0x30000010, // input 0 to (0,1), input 1 to (1,0)
        0x40000010, 0x40000001, // output 0 takes input 1, output 1 takes input 0
        0x50000000, 0x50000001,
    ];
    let found = expect_log(&bytes, &expected);
    assert_eq!(found, counts(3, 0, 2, 2, 2, 1));
}

/// Error 4: rotation that stops at N-1 and never visits the inputs below its start.
#[test]
fn error_rotation_stops() {
    let bytes = file(1, 2, 2, 1, 1, &[&[], &[(0, 0), (1, 1)]]);
    let expected = [
        0x10010000, 0x10010011, // accepted
        0x30010011, 0x30010000, // input 1 first, then round to input 0
        0x50010000, 0x50010001,
    ];
    expect_log(&bytes, &expected);
    // the same for both parts of the crossbar
    let bytes = file(2, 2, 2, 1, 1, &[&[], &[(0, 0), (1, 1)]]);
    let expected = [
        0x10010000, 0x10010011, // accepted
        0x30010011, 0x30010000, // input 1 first, then round to input 0
        0x40010000, 0x40010011, // outputs ascending; output 0 finds input 0 last
        0x50010000, 0x50010001,
    ];
    expect_log(&bytes, &expected);
}

/// What a rival gains, worked out by hand.
#[test]
fn rival_by_hand() {
    let rows: [(Vec<u8>, &[u32]); 4] = [
        // input 1 first, so that its queue has room again in slot 1
        (
            file(1, 1, 2, 1, 1, &[&[(0, 0), (1, 0)], &[(1, 0)], &[]]),
            &[1, 2, 3],
        ),
        // two outputs from one input need two cycles
        (file(1, 1, 2, 1, 1, &[&[(0, 0), (0, 1)], &[]]), &[1, 2]),
        (file(1, 1, 2, 2, 1, &[&[(0, 0), (0, 1)], &[]]), &[2, 2]),
        // one output sends one in a slot, however many stand before it
        (
            file(1, 1, 2, 2, 2, &[&[(0, 0), (1, 0), (1, 0)], &[], &[], &[]]),
            &[1, 2, 3, 3],
        ),
    ];
    for (bytes, expected) in rows {
        let trace = read(&bytes).unwrap();
        assert_eq!(most_sent(&trace, Freedoms::Moves), expected);
        assert_eq!(most_sent(&trace, Freedoms::All), expected);
    }
    // greedy, lowest first, drops the arrival of slot 1 in the first row
    let greedy = file(1, 1, 2, 1, 1, &[&[(0, 0), (1, 0)], &[(1, 0)], &[]]);
    assert_eq!(end(&greedy).sent, 2);
}

/// The eligible pairs of CIOQ are those at the start of the cycle, and a queue that
/// two inputs want gets one packet in a cycle; the next cycle goes on from there.
#[test]
fn cycles_of_cioq() {
    let bytes = file(1, 0, 2, 3, 2, &[&[(1, 0), (0, 0), (0, 0)]]);
    let expected = [
        0x10000010, 0x10000000, 0x10000000, // accepted
        0x30000000, 0x30000100, // cycles 0 and 1: input 0 both times
        0x50000000, // cycle 2 moves nothing, as output queue 0 is full with 2
    ];
    let found = expect_log(&bytes, &expected);
    assert_eq!(found, counts(3, 0, 2, 2, 1, 1 + 1));
}

/// The crossbar's output part takes the first input in turn, and the input part
/// passes over a full crosspoint to a higher output.
#[test]
fn parts_of_the_crossbar() {
    // slot 0 fills crosspoint (1,0); in slot 1 input 1 passes over it to output 1
    let slots: [&[(u8, u8)]; 2] = [&[(0, 0), (1, 0)], &[(0, 0), (1, 0), (1, 1)]];
    let lowest = file(2, 1, 2, 1, 1, &slots);
    let expected = [
        0x10000000, 0x10000010, // slot 0
        0x30000000, 0x30000010, 0x40000000, 0x50000000, // input 0 goes out
        0x10010000, 0x10010010, 0x10010011, // slot 1
        0x30010000, 0x30010011, // (1,0) is full
        0x40010000, 0x40010011, // output 0 takes input 0 again
        0x50010000, 0x50010001,
    ];
    let found = expect_log(&lowest, &expected);
    assert_eq!(found, counts(5, 0, 4, 3, 3, 2));
    let rotating = file(2, 2, 2, 1, 1, &slots);
    let expected = [
        0x10000000, 0x10000010, // slot 0
        0x30000000, 0x30000010, 0x40000000, 0x50000000, // input 0 goes out
        0x10010000, 0x10010010, 0x10010011, // slot 1
        0x30010011, 0x30010000, // input 1 first
        0x40010010, 0x40010011, // output 0 takes input 1 first
        0x50010000, 0x50010001,
    ];
    let found = expect_log(&rotating, &expected);
    assert_eq!(found, counts(5, 0, 4, 3, 3, 2));
}

/// The steps offered singly answer like C1's log.
#[test]
fn c1_by_steps() {
    let mut switch = new_switch(&C1);
    let mut answers = Vec::new();
    for (input, output) in [(0, 0), (0, 0), (0, 1), (1, 0)] {
        let (next, answer) = switch.arrival(input, output);
        switch = next;
        answers.push(answer);
    }
    use Arrival::{Accepted, Dropped};
    assert_eq!(answers, [Accepted, Dropped, Accepted, Accepted]);
    let (switch, closing) = switch.close();
    assert_eq!(closing, Closing::Closed);
    let (switch, answer) = switch.arrival(1, 1);
    assert_eq!(answer, Accepted);
    let (switch, closing) = switch.close();
    assert_eq!(closing, Closing::Closed);
    assert_eq!(switch, end(&C1));
    assert_eq!(switch.slot, 2);
}
