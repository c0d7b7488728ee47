//! Pauses.

const NS_PER_US: u32 = 1_000;
const US_PER_MS: u32 = 1_000;
const MAX_US_AT_ONCE: u32 = u32::MAX / NS_PER_US;

/// A source of pauses. Only the nanoseconds must be given; the longer units are built on them.
pub trait DelayNs {
    /// Pauses for at least `ns` nanoseconds.
    fn delay_ns(&mut self, ns: u32);

    /// Pauses for at least `us` microseconds.
    fn delay_us(&mut self, us: u32) {
        let mut left = us;
        while left > MAX_US_AT_ONCE {
            self.delay_ns(MAX_US_AT_ONCE * NS_PER_US);
            left -= MAX_US_AT_ONCE;
        }
        self.delay_ns(left * NS_PER_US);
    }

    /// Pauses for at least `ms` milliseconds.
    fn delay_ms(&mut self, ms: u32) {
        for _ in 0..ms {
            self.delay_us(US_PER_MS);
        }
    }
}

impl<T: DelayNs + ?Sized> DelayNs for &mut T {
    fn delay_ns(&mut self, ns: u32) {
        T::delay_ns(self, ns);
    }

    fn delay_us(&mut self, us: u32) {
        T::delay_us(self, us);
    }

    fn delay_ms(&mut self, ms: u32) {
        T::delay_ms(self, ms);
    }
}
