//! What every driver does on the bus, as far as its replies need it.

use crate::script::{Ended, Flow, Script};

const BUSY: u8 = 0x01;
const WRITE_LATCH: u8 = 0x02;

/// A wait in microseconds: before the first look, between two looks, and its limit.
#[derive(Clone, Copy)]
pub struct Timings {
    pub first_us: usize,
    pub poll_us: usize,
    pub limit_us: usize,
}

impl Timings {
    /// After so many busy looks one more is made, and no other.
    fn busy_before_last(self) -> usize {
        (self.limit_us - self.first_us).div_ceil(self.poll_us)
    }
}

impl Script<'_> {
    pub fn command_then_read(&mut self, length: usize) {
        self.written();
        let bytes = self.rng.bytes(length);
        self.gives(bytes);
    }

    /// Reads a register; the mask's bits are all set or all clear in what it gives.
    pub fn register(&mut self, mask: u8, set: bool) -> u8 {
        self.written();
        let byte = self.byte_with(mask, set);
        self.gives(vec![byte]);
        byte
    }

    pub fn write_enable(&mut self) -> Flow {
        let fails = self.fails();
        self.written();
        self.register(WRITE_LATCH, !fails);
        if fails { Err(Ended) } else { Ok(()) }
    }

    pub fn wait(&mut self, timings: Timings) -> Flow {
        let last = timings.busy_before_last();
        let busy = self.busy_looks(last);
        for _ in 0..busy {
            self.register(BUSY, true);
        }
        if busy > last {
            return Err(Ended);
        }
        self.register(BUSY, false);
        Ok(())
    }

    /// A write-enable, a command, and its wait.
    pub fn command_and_wait(&mut self, timings: Timings) -> Flow {
        self.write_enable()?;
        self.written();
        self.wait(timings)
    }

    /// A command and the bytes read behind it; on four lines both are one action.
    pub fn transfer_in(&mut self, quad: bool, bytes: Vec<u8>) {
        if !quad {
            self.written();
        }
        self.gives(bytes);
    }

    /// A command and the bytes sent behind it.
    pub fn transfer_out(&mut self, quad: bool) {
        self.written();
        if !quad {
            self.written();
        }
    }

    /// Reads back what was written, or other bytes.
    pub fn read_back(&mut self, quad: bool, data: &[u8]) -> Flow {
        let mut bytes = data.to_vec();
        let fails = self.fails();
        if fails {
            let last = bytes.len() - 1;
            let inside = self.rng.below(bytes.len() as u64) as usize;
            let place = self.rng.pick(&[0, last, inside]);
            bytes[place] ^= 1 << self.rng.below(8);
        }
        self.transfer_in(quad, bytes);
        if fails { Err(Ended) } else { Ok(()) }
    }
}
