//! Writes the file of stored answers (`store FILE`) and prints what it has.

use second::stored::stored;

fn main() {
    let name = std::env::args().nth(1).expect("store FILE");
    let stored = stored();
    std::fs::write(name, &stored.bytes).expect("the file cannot be written");
    println!("{} traces in {} bytes", stored.traces, stored.bytes.len());
    for (kind, numbers) in &stored.kinds {
        print!("{kind:<17}");
        for (number, times) in numbers {
            print!("  {number}: {times}");
        }
        println!();
    }
}
