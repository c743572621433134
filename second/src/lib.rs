//! Vaznirokh, the independent second program: a bench model of plant Ethernet
//! switches after document 01 ("Precise rules and scope of the build").
//!
//! It is written to be checked by eye with document 01 beside it. Every function
//! names the rule of that document that it follows; "001" is the published paper.
//!
//! - `limits`   the numbers of the tables "allowed" and "Refusal numbers"
//! - `trace`    the trace file, read and written
//! - `reader`   hands out a trace's arrivals slot after slot
//! - `switch`   the switch value, its image in words, and refusal 13
//! - `slot`     one slot: arrivals, cycles, sending
//! - `steps`    the steps offered singly (arrival, close) and the drain
//! - `event`    one event and its word in the log
//! - `run`      a whole run into a lent log, and the counts
//! - `report`   what the two programs print
//! - `rival`    the most any rival scheduler can have sent (tiny switches only)
//! - `random`   a small seeded source of numbers
//! - `generate` seeded traces and switch values
//! - `damage`   the same, damaged
//! - `stored`   the file of traces with this program's answers

#![forbid(unsafe_code)]
// Queues are named [i][j] as in the paper, so loops run over port numbers.
#![allow(clippy::needless_range_loop)]

pub mod damage;
pub mod event;
pub mod generate;
pub mod limits;
pub mod random;
pub mod reader;
pub mod report;
pub mod rival;
pub mod run;
pub mod slot;
pub mod steps;
pub mod stored;
pub mod switch;
pub mod trace;

/// The number of a refusal (document 01, "Refusal numbers").
pub type Refusal = u32;
