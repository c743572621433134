//! Lent runs of the wrong length: always 30, before anything else, and nothing touched.
//! What is expected here is what was asked of the library, not the second program.

use crate::call::{words, Call, Lent};
use crate::comparison::Comparison;
use crate::program::LENT_LENGTH;
use second::damage::{damaged_bytes, damaged_switch, damaged_tables};
use second::generate;
use second::random::Random;
use second::switch::WORDS;

pub fn case(comparison: &mut Comparison, seed: u64) -> Result<(), String> {
    let mut random = Random::new(seed);
    let random = &mut random;
    let good = random.once_in(2);
    let (trace, tables, image) = if good {
        let trace = generate::trace(random.draw());
        let image = generate::switch(random.draw()).to_words();
        (generate::bytes(&trace), trace, image)
    } else {
        let tables = damaged_tables(random.draw());
        let image = damaged_switch(random.draw()).to_words();
        (damaged_bytes(random.draw()), tables, image)
    };
    let arrive = Call::Arrive(random.between(0, 16), random.between(0, 16));
    let drain = Call::Drain(random.one_of(&[0, 1, 4096, 4097]));

    let mut lent = Lent::trace(random, trace, 16384);
    let length = wrong(random, 6);
    lent.counts = words(random, length);
    refused(comparison, Call::Run, &lent)?;

    let mut writing = Lent::tables(random, &tables, 17480);
    writing.header.resize(wrong(random, 6), 1);
    refused(comparison, Call::Write, &writing)?;

    for (call, answer_length) in [(Call::New, 0), (arrive, 1), (Call::Close, 0), (drain, 2)] {
        let length = wrong(random, WORDS);
        lent.state = words(random, length);
        let both = length.min(WORDS);
        lent.state.lent()[..both].copy_from_slice(&image[..both]);
        lent.answer = words(random, answer_length);
        refused(comparison, call, &lent)?;
        if answer_length > 0 {
            let length = wrong(random, answer_length);
            lent.answer = words(random, length);
            refused(comparison, call, &lent)?;
            let mut lent = Lent::switch(random, &image, 0);
            lent.answer = words(random, length);
            refused(comparison, call, &lent)?;
        }
    }
    Ok(())
}

/// A length other than this one.
fn wrong(random: &mut Random, length: usize) -> usize {
    let right = length as u32;
    match random.one_of(&[0, right - 1, right + 1, 2 * right, 6, 2, 1, 1066, 1500]) {
        drawn if drawn == right => length + 2,
        drawn => drawn as usize,
    }
}

/// The call must be refused by 30.
fn refused(comparison: &mut Comparison, call: Call, lent: &Lent) -> Result<(), String> {
    let (answer, _) = comparison.call(call, lent)?;
    if answer != LENT_LENGTH {
        return Err(format!("{call:?} answers {answer} to a wrong length"));
    }
    Ok(())
}
