//! Times the proved library and the second program on the same traces in one process.

use compare::library::Library;
use compare::program::{Program, Second};
use second::generate;
use second::random::Random;
use second::trace::{self, Trace};
use std::time::Instant;

/// Each program is timed so often, the two in turn; the best time counts.
const TIMES: u32 = 40;
/// One timing of an examination is so many examinations.
const EXAMINATIONS: u32 = 100;
const SEED: u64 = 1;

/// How the 4,096 arrivals are spread over the 4,096 slots.
const SPREADS: [(&str, &str); 3] = [
    ("sparse", "one arrival in each slot"),
    ("dense", "16 arrivals in each of the first 256 slots"),
    (
        "bursty",
        "256 arrivals at once in every 256th slot, each burst for one output",
    ),
];

fn main() {
    println!("Traces of 16 ports, 4,096 slots and 4,096 arrivals; every capacity 1,024; rotating.");
    for (name, spread) in SPREADS {
        println!("  {name:<7} {spread}");
    }
    println!("Ports are drawn from seed {SEED}, all alike.");
    println!("Best of {TIMES} for each program, in turn, in one process.");
    println!("Times are by the wall clock: on a busy machine the longer ones come out too great,");
    println!("and so do the ratios at speedup 16.");
    println!("The log is lent as it is: no buffer is cleared between runs.");
    println!("The second program has its overflow checks on; both are release builds.");
    println!("A ratio above 1 says that the proved program is the faster one.");
    println!();
    println!("run      model  speedup     proved       second    ratio");
    for (name, _) in SPREADS {
        for model in [1, 2] {
            for speedup in [1, 16] {
                let bytes = generate::bytes(&draw(name, model, speedup));
                let (proved, second) = time_run(&bytes);
                println!(
                    "{name:<8} {model:>5} {speedup:>8} {:>10.3} ms {:>9.3} ms {:>6.2}",
                    proved * 1e3,
                    second * 1e3,
                    second / proved
                );
            }
        }
    }
    println!();
    println!("examine  model    bytes     proved       second    ratio");
    for model in [1, 2] {
        let bytes = generate::bytes(&draw("sparse", model, 1));
        let (proved, second) = time_examine(&bytes);
        println!(
            "         {model:>5} {:>8} {:>8.1} MB/s {:>7.1} MB/s {:>6.2}",
            bytes.len(),
            bytes.len() as f64 / proved / 1e6,
            bytes.len() as f64 / second / 1e6,
            second / proved
        );
    }
    println!("MB/s are millions of bytes a second. The second program's reading also takes");
    println!("the tables apart into lists of its own.");
}

/// A trace of the largest size.
fn draw(spread: &str, model: u32, speedup: u32) -> Trace {
    let mut random = Random::new(SEED);
    let mut slot_counts = vec![0; 4096];
    for (slot, count) in slot_counts.iter_mut().enumerate() {
        *count = match spread {
            "sparse" => 1,
            "dense" if slot < 256 => 16,
            "bursty" if slot % 256 == 0 => 256,
            _ => 0,
        };
    }
    let mut arrival_ports = Vec::new();
    for arrival in 0..4096 {
        let burst = arrival / 256;
        let (input, output) = (random.between(0, 15), random.between(0, 15));
        arrival_ports.push(input as u8);
        arrival_ports.push(if spread == "bursty" { burst } else { output } as u8);
    }
    Trace {
        model,
        order: 2,
        ports: 16,
        speedup,
        slots: 4096,
        arrivals: 4096,
        capacities: vec![1024; trace::capacity_count(model, 16) as usize],
        slot_counts,
        arrival_ports,
    }
}

/// The best times of a run, in seconds: the proved library's and the second program's.
fn time_run(bytes: &[u8]) -> (f64, f64) {
    let mut logs = [vec![0; 16384], vec![0; 16384]];
    let mut counts = [[0; 6]; 2];
    let mut best = [f64::MAX; 2];
    for _ in 0..TIMES {
        for (place, program) in programs().into_iter().enumerate() {
            let start = Instant::now();
            let answer = program.run(bytes, &mut logs[place], &mut counts[place]);
            best[place] = best[place].min(start.elapsed().as_secs_f64());
            assert_eq!(answer, 0);
        }
    }
    assert!(logs[0] == logs[1] && counts[0] == counts[1]);
    (best[0], best[1])
}

/// The same for one examination.
fn time_examine(bytes: &[u8]) -> (f64, f64) {
    let mut best = [f64::MAX; 2];
    for _ in 0..TIMES {
        for (place, program) in programs().into_iter().enumerate() {
            let start = Instant::now();
            for _ in 0..EXAMINATIONS {
                assert_eq!(examine(program, bytes), 0);
            }
            let one = start.elapsed().as_secs_f64() / f64::from(EXAMINATIONS);
            best[place] = best[place].min(one);
        }
    }
    (best[0], best[1])
}

/// One examination, which the compiler cannot take out of the loop.
#[inline(never)]
fn examine(program: &dyn Program, bytes: &[u8]) -> u32 {
    program.examine(bytes)
}

/// The two programs, in the order of the table.
fn programs() -> [&'static dyn Program; 2] {
    [&Library, &Second]
}
