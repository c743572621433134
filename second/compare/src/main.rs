//! The comparison. Its last line is `N compared, M different`; its status is 0 only if
//! nothing differed and everything that must come up did.

use compare::comparison::{Comparison, PARTS};
use compare::library::Library;
use compare::program::Second;

const USAGE: &str = "\
compare [--seed S] [--traces N]   the whole comparison (seed 1, 200000 traces)
compare --gate                    a small fixed part of it
compare --case PART SEED          one case once more
PART is runs, writing, steps, walks, lengths or rivals";

fn main() {
    let words: Vec<String> = std::env::args().skip(1).collect();
    let words: Vec<&str> = words.iter().map(String::as_str).collect();
    let (mut seed, mut traces) = (1, 200_000);
    let mut comparison = Comparison::new(&Library, &Second);
    let fine = match words[..] {
        ["--case", name, seed] => one_case(&mut comparison, name, number(seed)),
        _ => {
            let mut left = &words[..];
            while let [word, rest @ ..] = left {
                left = match (*word, rest) {
                    ("--gate", _) => {
                        (seed, traces) = (1, 6000);
                        rest
                    }
                    ("--seed", [value, rest @ ..]) => {
                        seed = number(value);
                        rest
                    }
                    ("--traces", [value, rest @ ..]) => {
                        traces = number(value);
                        rest
                    }
                    _ => stop(),
                };
            }
            println!("compare --seed {seed} --traces {traces}");
            comparison.all(seed, traces)
        }
    };
    println!(
        "{} compared, {} different",
        comparison.compared, comparison.different
    );
    std::process::exit(i32::from(!fine));
}

/// One case of a part, by its seed.
fn one_case(comparison: &mut Comparison, name: &str, seed: u64) -> bool {
    for (part, case, _) in PARTS {
        if part == name {
            let found = comparison.one(case, seed);
            comparison.tally.print();
            if let Err(what) = &found {
                println!("DIFFERENT in {name}, seed {seed}: {what}");
            }
            return found.is_ok();
        }
    }
    stop()
}

fn number(text: &str) -> u64 {
    text.parse().unwrap_or_else(|_| stop())
}

fn stop() -> ! {
    eprintln!("{USAGE}");
    std::process::exit(2)
}
