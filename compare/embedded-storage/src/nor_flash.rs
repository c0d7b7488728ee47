//! NOR flash: written in units, erased in larger ones.

use core::convert::Infallible;
use core::fmt::Debug;

/// What kind of error a NOR flash met.
#[derive(Clone, Copy, Debug, PartialEq, Eq, PartialOrd, Ord, Hash)]
#[non_exhaustive]
pub enum NorFlashErrorKind {
    NotAligned,
    OutOfBounds,
    Other,
}

/// An error of a NOR flash.
pub trait NorFlashError: Debug {
    fn kind(&self) -> NorFlashErrorKind;
}

impl NorFlashError for Infallible {
    fn kind(&self) -> NorFlashErrorKind {
        match *self {}
    }
}

impl NorFlashError for NorFlashErrorKind {
    fn kind(&self) -> NorFlashErrorKind {
        *self
    }
}

/// Names the error of a NOR flash.
pub trait ErrorType {
    type Error: NorFlashError;
}

/// A NOR flash that can be read.
pub trait ReadNorFlash: ErrorType {
    /// A read begins and ends at a multiple of this.
    const READ_SIZE: usize;

    /// Fills `bytes` from `offset` on.
    fn read(&mut self, offset: u32, bytes: &mut [u8]) -> Result<(), Self::Error>;

    /// How many bytes the part holds.
    fn capacity(&self) -> usize;
}

/// A NOR flash that can be erased and written.
pub trait NorFlash: ReadNorFlash {
    /// A write begins and ends at a multiple of this.
    const WRITE_SIZE: usize;

    /// An erase begins and ends at a multiple of this.
    const ERASE_SIZE: usize;

    /// Erases from `from` up to, not including, `to`.
    fn erase(&mut self, from: u32, to: u32) -> Result<(), Self::Error>;

    /// Writes `bytes` from `offset` on.
    fn write(&mut self, offset: u32, bytes: &[u8]) -> Result<(), Self::Error>;
}
