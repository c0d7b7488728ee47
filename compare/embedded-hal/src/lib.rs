//! Stand-in for the part of embedded-hal 1.0 that the flash drivers use.
//!
//! The traits have the shape of the published ones, so that the drivers build unchanged without a registry.
#![no_std]

pub mod delay;
pub mod digital;
pub mod spi;
