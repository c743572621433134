//! The proved programs `report`, `events` and `limit` against the second program: what
//! they print for good, damaged, empty and over-long traces, handed to them at once or in
//! small pieces. `programs CRATES [SEED]`, where
//! CRATES holds each program as NAME/out/NAME; its last line is `N compared, M different`.

use second::random::Random;
use second::{damage, generate, report};
use std::io::Write;
use std::process::{Command, Stdio};

/// A program, its arguments, and what the second program says that it prints.
type Asked = (&'static str, &'static [&'static str], fn(&[u8]) -> String);

const PROGRAMS: [Asked; 4] = [
    ("report", &[], report::report),
    ("events", &[], report::events),
    ("events", &["words"], report::plain_events),
    ("limit", &[], report::limit),
];

fn main() {
    let words: Vec<String> = std::env::args().collect();
    let crates = words.get(1).expect("programs CRATES [SEED]");
    let seed = words.get(2).map_or(1, |text| text.parse().expect("the seed is a number"));
    println!("programs, seed {seed}");
    let (mut compared, mut different) = (0, 0);
    for (number, trace) in traces(seed).iter().enumerate() {
        for (name, arguments, second) in PROGRAMS {
            compared += 1;
            let expected = second(trace);
            let program = format!("{crates}/{name}/out/{name}");
            let printed = printed(&program, arguments, trace, number % 3 == 1);
            if printed != expected.as_bytes() {
                different += 1;
                println!("DIFFERENT: {name} {arguments:?}, trace {number} of {} bytes", trace.len());
            }
        }
    }
    println!("{compared} compared, {different} different");
    std::process::exit(i32::from(different > 0));
}

/// Good and damaged traces, no bytes at all, and files longer than any trace.
fn traces(seed: u64) -> Vec<Vec<u8>> {
    let mut traces = vec![Vec::new(), vec![0; 39], vec![0; 40], vec![0xff; 100_000]];
    for number in 0..60 {
        traces.push(generate::bytes(&generate::trace(seed + number)));
        traces.push(damage::damaged_bytes(seed + number));
    }
    let mut full = generate::bytes(&generate::trace_of_kind(seed, generate::Kind::Full));
    traces.push(full.clone());
    full.resize(400_000, 0);
    traces.push(full);
    traces
}

/// What a program prints. It may stop reading before the end of an over-long trace.
fn printed(program: &str, arguments: &[&str], trace: &[u8], in_pieces: bool) -> Vec<u8> {
    let mut child = Command::new(program)
        .args(arguments)
        .stdin(Stdio::piped())
        .stdout(Stdio::piped())
        .stderr(Stdio::null())
        .spawn()
        .unwrap_or_else(|error| panic!("{program} cannot be started: {error}"));
    let mut input = child.stdin.take().expect("its input is piped");
    let trace = trace.to_vec();
    let writer = std::thread::spawn(move || {
        let mut random = Random::new(trace.len() as u64);
        let mut left = &trace[..];
        while !left.is_empty() {
            let most = if in_pieces { random.between(1, 400) as usize } else { left.len() };
            let (piece, rest) = left.split_at(most.min(left.len()));
            if input.write_all(piece).and_then(|()| input.flush()).is_err() {
                break;
            }
            left = rest;
        }
    });
    let output = child.wait_with_output().expect("it can be waited for");
    writer.join().expect("the writer ends");
    assert!(output.status.success(), "{program} ended with {}", output.status);
    output.stdout
}
