//! Drives the Rust's drivers through a case and gives the trace.
//!
//! - [`host`] is the bus, select pin and delay that the Rust is built on: it logs and answers by the script.
//! - [`bench`] is the harness: it reads the case, adds the refusals that the Rust does not have, and prints.
//! - [`nor`] and [`nand`] call the Rust's drivers.

pub mod bench;
pub mod host;
pub mod nand;
pub mod nor;
pub mod print;
mod values;

/// The trace of one NOR case.
pub fn nor_trace(text: &[u8]) -> String {
    bench::trace::<nor::Nor>(text)
}

/// The trace of one NAND case.
pub fn nand_trace(text: &[u8]) -> String {
    bench::trace::<nand::Nand>(text)
}
