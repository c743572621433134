//! Single steps and drains on switch values of every kind, allowed or not, and new
//! switches from traces of every kind.

use crate::call::{Call, Lent};
use crate::comparison::Comparison;
use second::damage::{damaged_bytes, damaged_switch};
use second::generate;
use second::random::Random;
use second::switch::WORDS;

pub fn case(comparison: &mut Comparison, seed: u64) -> Result<(), String> {
    let mut random = Random::new(seed);
    let image = draw_switch(comparison, &mut random);
    let (ports, slot) = (image[2], image[4]);

    let lent = Lent::switch(&mut random, &image, 1);
    for _ in 0..2 {
        let input = draw_port(&mut random, ports);
        let output = draw_port(&mut random, ports);
        comparison.call(Call::Arrive(input, output), &lent)?;
    }
    comparison.call(Call::Close, &lent)?;

    let lent = Lent::switch(&mut random, &image, 2);
    let few = random.between(2, 60);
    let left = 8192_u32.wrapping_sub(slot);
    let edge = [left, left.wrapping_add(1), left.wrapping_sub(1)];
    let edge = random.one_of(&edge);
    let limit = random.one_of(&[0, 1, few, few, 4095, 4096, 4097, u32::MAX, edge]);
    comparison.call(Call::Drain(limit), &lent)?;

    let trace = if random.once_in(2) {
        generate::bytes(&generate::trace(random.draw()))
    } else {
        damaged_bytes(random.draw())
    };
    let lent = Lent { trace, ..lent };
    comparison.call(Call::New, &lent)?;
    Ok(())
}

/// The image of a switch: an allowed one, a damaged one, or any words at all.
fn draw_switch(comparison: &mut Comparison, random: &mut Random) -> [u32; WORDS] {
    match random.between(0, 9) {
        0..=4 => {
            comparison.tally.word("switches", "good");
            generate::switch(random.draw()).to_words()
        }
        5..=8 => {
            comparison.tally.word("switches", "damaged");
            damaged_switch(random.draw()).to_words()
        }
        _ => {
            comparison.tally.word("switches", "drawn words");
            let most = random.one_of(&[0, 1, 2, 16, u32::MAX]);
            [(); WORDS].map(|()| random.between(0, most))
        }
    }
}

/// A port: mostly one of the switch's, else at the edges or huge.
pub fn draw_port(random: &mut Random, ports: u32) -> u32 {
    let last = ports.wrapping_sub(1);
    match random.between(0, 7) {
        0 => random.one_of(&[0, 15, 16, 17, 255, 256, 0x8000_0000, u32::MAX]),
        1 => ports,
        2 => last,
        _ => random.draw() as u32 % ports.clamp(1, 16),
    }
}
