//! The ported Rust, unchanged: see `build.rs`.
//!
//! Nothing is added to it. What this workspace adds stands in `rust_trace`.

include!(concat!(env!("OUT_DIR"), "/tree.rs"));
