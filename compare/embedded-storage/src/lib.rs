//! Stand-in for the part of embedded-storage 0.3 that the flash drivers use.
//!
//! The traits have the shape of the published ones, so that the drivers build unchanged without a registry.
#![no_std]

pub mod nor_flash;
