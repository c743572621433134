//! Reads a trace from standard input and prints its run's log, one word to a line
//! in eight hexadecimal digits, or `refused` and the number.

use std::io::Read;

fn main() {
    let mut bytes = Vec::new();
    std::io::stdin()
        .read_to_end(&mut bytes)
        .expect("standard input cannot be read");
    print!("{}", second::report::events(&bytes));
}
