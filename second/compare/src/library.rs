//! The proved static library (`include/vaznirokh.h`) through safe functions. A slice
//! is lent as its pointer and its length; slices that are lent together never overlap.

use crate::program::Program;

extern "C" {
    fn vaz_examine(trace: *const u8, trace_len: usize) -> u32;
    fn vaz_run(
        trace: *const u8,
        trace_len: usize,
        log: *mut u32,
        log_len: usize,
        counts: *mut u32,
        counts_len: usize,
    ) -> u32;
    fn vaz_write(
        header: *const u32,
        header_len: usize,
        capacities: *const u16,
        capacities_len: usize,
        slot_counts: *const u16,
        slot_counts_len: usize,
        arrivals: *const u8,
        arrivals_len: usize,
        out: *mut u8,
        out_len: usize,
    ) -> u32;
    fn vaz_new(trace: *const u8, trace_len: usize, state: *mut u32, state_len: usize) -> u32;
    fn vaz_arrive(
        state: *mut u32,
        state_len: usize,
        input: u32,
        output: u32,
        answer: *mut u32,
        answer_len: usize,
    ) -> u32;
    fn vaz_close(state: *mut u32, state_len: usize) -> u32;
    fn vaz_drain(
        state: *mut u32,
        state_len: usize,
        limit: u32,
        answer: *mut u32,
        answer_len: usize,
    ) -> u32;
}

/// The proved library.
pub struct Library;

impl Program for Library {
    fn examine(&self, trace: &[u8]) -> u32 {
        unsafe { vaz_examine(trace.as_ptr(), trace.len()) }
    }

    fn run(&self, trace: &[u8], log: &mut [u32], counts: &mut [u32]) -> u32 {
        unsafe {
            vaz_run(
                trace.as_ptr(),
                trace.len(),
                log.as_mut_ptr(),
                log.len(),
                counts.as_mut_ptr(),
                counts.len(),
            )
        }
    }

    fn write(
        &self,
        header: &[u32],
        capacities: &[u16],
        slot_counts: &[u16],
        arrivals: &[u8],
        out: &mut [u8],
    ) -> u32 {
        unsafe {
            vaz_write(
                header.as_ptr(),
                header.len(),
                capacities.as_ptr(),
                capacities.len(),
                slot_counts.as_ptr(),
                slot_counts.len(),
                arrivals.as_ptr(),
                arrivals.len(),
                out.as_mut_ptr(),
                out.len(),
            )
        }
    }

    fn new_switch(&self, trace: &[u8], state: &mut [u32]) -> u32 {
        unsafe { vaz_new(trace.as_ptr(), trace.len(), state.as_mut_ptr(), state.len()) }
    }

    fn arrive(&self, state: &mut [u32], input: u32, output: u32, answer: &mut [u32]) -> u32 {
        unsafe {
            vaz_arrive(
                state.as_mut_ptr(),
                state.len(),
                input,
                output,
                answer.as_mut_ptr(),
                answer.len(),
            )
        }
    }

    fn close(&self, state: &mut [u32]) -> u32 {
        unsafe { vaz_close(state.as_mut_ptr(), state.len()) }
    }

    fn drain(&self, state: &mut [u32], limit: u32, answer: &mut [u32]) -> u32 {
        unsafe {
            vaz_drain(
                state.as_mut_ptr(),
                state.len(),
                limit,
                answer.as_mut_ptr(),
                answer.len(),
            )
        }
    }
}
