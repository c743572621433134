//! The proved library and the second program on the same inputs.
//!
//! - `library`    the proved static library through safe functions
//! - `program`    the seven functions that both are asked through, and the second program
//! - `call`       one call with all that is lent to it, made to both and compared
//! - `tally`      what was drawn, so that nothing is hollow
//! - `comparison` cases one after the other, and what differed
//! - `runs`, `writing`, `steps`, `walks`, `lengths`, `rivals`   the parts: one case each

#![deny(unsafe_code)]

pub mod call;
pub mod comparison;
pub mod lengths;
#[allow(unsafe_code)]
pub mod library;
pub mod program;
pub mod rivals;
pub mod runs;
pub mod steps;
pub mod tally;
pub mod walks;
pub mod writing;
