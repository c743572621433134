//! Runs the trace on standard input and prints its six counts.

use std::io::Read;

extern "C" {
    fn vaz_run(
        trace: *const u8,
        trace_len: usize,
        log: *mut u32,
        log_len: usize,
        counts: *mut u32,
        counts_len: usize,
    ) -> u32;
}

fn run(trace: &[u8], log: &mut [u32], counts: &mut [u32]) -> u32 {
    unsafe {
        vaz_run(
            trace.as_ptr(),
            trace.len(),
            log.as_mut_ptr(),
            log.len(),
            counts.as_mut_ptr(),
            counts.len(),
        )
    }
}

fn main() {
    let mut trace = Vec::new();
    std::io::stdin().read_to_end(&mut trace).expect("standard input cannot be read");
    let mut log = vec![0; 4 * 4096];
    let mut counts = [0; 6];
    let refusal = run(&trace, &mut log, &mut counts);
    if refusal != 0 {
        println!("refused {refusal}");
        std::process::exit(1);
    }
    let [arrived, dropped, crossed, outmoved, sent, held] = counts;
    println!("{arrived} {dropped} {crossed} {outmoved} {sent} {held}");
}
