//! Writes a trace to standard output: `generate trace 7` a good one from seed 7,
//! `generate damaged 7` a damaged one. Without a seed one is taken from the clock.
//! The seed is printed on standard error.

use second::{damage, generate};
use std::io::Write;
use std::time::{SystemTime, UNIX_EPOCH};

fn main() {
    let words: Vec<String> = std::env::args().collect();
    let kind = words.get(1).map(String::as_str).unwrap_or("trace");
    let seed = match words.get(2) {
        Some(text) => text.parse().expect("the seed is not a number"),
        None => SystemTime::now()
            .duration_since(UNIX_EPOCH)
            .expect("the clock stands before 1970")
            .as_nanos() as u64,
    };
    eprintln!("{kind} seed {seed}");
    let bytes = match kind {
        "trace" => generate::bytes(&generate::trace(seed)),
        "damaged" => damage::damaged_bytes(seed),
        _ => panic!("generate trace|damaged [seed]"),
    };
    std::io::stdout()
        .write_all(&bytes)
        .expect("standard output cannot be written");
}
