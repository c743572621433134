//! The writer, on good and damaged tables, and what it wrote read back.

use crate::call::{Call, Lent};
use crate::comparison::Comparison;
use second::damage::damaged_tables;
use second::generate;
use second::random::Random;
use second::trace::{self, Trace};

pub fn case(comparison: &mut Comparison, seed: u64) -> Result<(), String> {
    let mut random = Random::new(seed);
    let tables = if random.once_in(2) {
        comparison.tally.word("tables", "good");
        generate::trace(random.draw())
    } else {
        comparison.tally.word("tables", "damaged");
        damaged_tables(random.draw())
    };
    let mut room = vec![0; 17480];
    let total = trace::write(&tables, &mut room);
    let length = match total {
        Ok(total) => draw_output(comparison, &mut random, total as usize),
        Err(_) => random.one_of(&[0, 39, 66, 17480, 20000]) as usize,
    };
    let lent = Lent::tables(&mut random, &tables, length);
    let (answer, after) = comparison.call(Call::Write, &lent)?;
    if answer == 0 {
        let total = total.expect("both programs have written it") as usize;
        read_back(comparison, &mut random, &tables, &after.out.seen()[..total])?;
    }
    Ok(())
}

/// What the library wrote is a good trace to both, and the second program reads the same
/// words and tables out of it.
fn read_back(
    comparison: &mut Comparison,
    random: &mut Random,
    tables: &Trace,
    bytes: &[u8],
) -> Result<(), String> {
    let lent = Lent::trace(random, bytes.to_vec(), 0);
    let (answer, _) = comparison.call(Call::Examine, &lent)?;
    if answer != 0 || trace::read(bytes).as_ref() != Ok(tables) {
        return Err(format!("the written trace does not read back ({answer})"));
    }
    Ok(())
}

/// Writes the lent tables; exactly these bytes must come out.
pub fn written(comparison: &mut Comparison, lent: &Lent, bytes: &[u8]) -> Result<(), String> {
    let (answer, after) = comparison.call(Call::Write, lent)?;
    if answer != 0 || after.out.seen() != bytes {
        return Err(format!(
            "an accepted trace is written differently ({answer})"
        ));
    }
    Ok(())
}

/// The length of an output for a trace of this total.
fn draw_output(comparison: &mut Comparison, random: &mut Random, total: usize) -> usize {
    let (lent, length) = match random.between(0, 5) {
        0 | 1 => ("exact", total),
        2 => ("shorter", total - 1),
        3 => ("shorter", random.place(total)),
        _ => ("longer", total + 1 + random.place(60)),
    };
    comparison.tally.word("output lent", lent);
    length
}
