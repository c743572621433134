//! The file of stored answers, read back as a program of the gate reads it.

use second::run::{run, words_filled, Counts};
use second::stored::stored;
use second::switch::Switch;
use second::trace::read;

/// Takes numbers and bytes from the front of the file.
struct Records<'a> {
    left: &'a [u8],
}

impl<'a> Records<'a> {
    fn bytes(&mut self, length: u32) -> &'a [u8] {
        let (bytes, left) = self.left.split_at(length as usize);
        self.left = left;
        bytes
    }

    fn number(&mut self) -> u32 {
        let bytes = self.bytes(4);
        u32::from_le_bytes([bytes[0], bytes[1], bytes[2], bytes[3]])
    }
}

#[test]
fn stored_answers() {
    let file = stored().bytes;
    assert!(file == stored().bytes, "the same every time");
    assert!(file.len() < 200_000);
    let mut records = Records { left: &file };
    let mut refusals = [0; 12];
    let (mut lengths, mut dropped, mut held, mut quiet_slots) = (Vec::new(), 0, 0, 0);
    while !records.left.is_empty() {
        let length = records.number();
        let trace = records.bytes(length);
        let refusal = records.number();
        let counts = Counts {
            arrived: records.number(),
            dropped: records.number(),
            crossed: records.number(),
            outmoved: records.number(),
            sent: records.number(),
            held: records.number(),
        };
        let quiet = records.number();
        let words = records.number();
        let log: Vec<u32> = (0..words).map(|_| records.number()).collect();

        let mut expected = vec![7; 16384];
        match run(trace, &mut expected) {
            Ok(found) => {
                assert_eq!((refusal, counts), (0, found));
                let model = read(trace).unwrap().model;
                assert_eq!(words as usize, words_filled(model, &found));
                assert_eq!(log, expected[..log.len()]);
                assert!(quiet <= counts.held && (quiet == 0) == (counts.held == 0));
            }
            Err(found) => {
                assert_eq!(refusal, found);
                assert_eq!((counts, quiet, words), (Counts::default(), 0, 0));
                assert_eq!(Switch::new(trace).1, Some(refusal));
            }
        }
        refusals[refusal as usize] += 1;
        lengths.push(length);
        dropped += u32::from(counts.dropped > 0);
        held += u32::from(counts.held > 0);
        quiet_slots += u32::from(quiet > 1);
    }
    println!("{refusals:?}, dropped {dropped}, held {held}, quiet above 1 {quiet_slots}");
    assert!(lengths.len() >= 300);
    assert!(refusals.iter().all(|times| *times >= 10));
    for length in [0, 17480, 17481] {
        assert!(lengths.contains(&length));
    }
    assert!(dropped > 50 && held > 50 && quiet_slots > 50);
}
