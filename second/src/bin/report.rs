//! Reads a trace from standard input and prints the report of document 01.

use std::io::Read;

fn main() {
    let mut bytes = Vec::new();
    std::io::stdin()
        .read_to_end(&mut bytes)
        .expect("standard input cannot be read");
    print!("{}", second::report::report(&bytes));
}
