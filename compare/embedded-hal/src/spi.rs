//! The SPI bus with exclusive access.

use core::convert::Infallible;
use core::fmt::Debug;

/// What kind of error a bus met.
#[derive(Clone, Copy, Debug, PartialEq, Eq)]
#[non_exhaustive]
pub enum ErrorKind {
    Overrun,
    ModeFault,
    FrameFormat,
    ChipSelectFault,
    Other,
}

/// An error of a bus.
pub trait Error: Debug {
    fn kind(&self) -> ErrorKind;
}

impl Error for Infallible {
    fn kind(&self) -> ErrorKind {
        match *self {}
    }
}

/// Names the error of a bus.
pub trait ErrorType {
    type Error: Error;
}

impl<T: ErrorType + ?Sized> ErrorType for &mut T {
    type Error = T::Error;
}

/// A bus whose user owns all of it, chip select apart.
pub trait SpiBus<Word: Copy + 'static = u8>: ErrorType {
    /// Fills `words` with what the part sends.
    fn read(&mut self, words: &mut [Word]) -> Result<(), Self::Error>;

    /// Sends `words`; what the part sends meanwhile is dropped.
    fn write(&mut self, words: &[Word]) -> Result<(), Self::Error>;

    /// Sends `write` and fills `read` at the same time.
    fn transfer(&mut self, read: &mut [Word], write: &[Word]) -> Result<(), Self::Error>;

    /// Sends `words` and puts what the part sends in their place.
    fn transfer_in_place(&mut self, words: &mut [Word]) -> Result<(), Self::Error>;

    /// Waits until all that was begun has ended.
    fn flush(&mut self) -> Result<(), Self::Error>;
}
