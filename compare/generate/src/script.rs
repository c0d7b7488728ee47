//! The replies of one call, written as the driver's own course asks for them.

use case_text::Reply;

use crate::rng::Rng;

/// A call has ended before its last part.
pub struct Ended;

pub type Flow<T = ()> = Result<T, Ended>;

/// How a call's course is chosen where it divides.
pub enum Forks {
    /// By chance: failures are rare, the rest is even.
    Chance,
    /// One way after the other, until all have been gone.
    Path { taken: Vec<bool>, place: usize },
}

impl Forks {
    pub fn first_path() -> Self {
        Self::path(&[])
    }

    /// These forks first; none behind them is taken.
    pub fn path(taken: &[bool]) -> Self {
        Forks::Path {
            taken: taken.into(),
            place: 0,
        }
    }

    /// Goes back to the beginning of the way.
    pub fn restart(&mut self) {
        if let Forks::Path { place, .. } = self {
            *place = 0;
        }
    }

    /// Turns to the next way: the last fork that was not taken is. False when all have been gone.
    pub fn next_path(&mut self) -> bool {
        let Forks::Path { taken, place } = self else {
            return false;
        };
        *place = 0;
        while taken.pop_if(|fork| *fork).is_some() {}
        match taken.last_mut() {
            Some(fork) => {
                *fork = true;
                true
            }
            None => false,
        }
    }

    fn take(&mut self, chance: impl FnOnce() -> bool) -> bool {
        let Forks::Path { taken, place } = self else {
            return chance();
        };
        if *place == taken.len() {
            taken.push(false);
        }
        *place += 1;
        taken[*place - 1]
    }
}

/// How long the part stays busy.
#[derive(Clone, Copy, PartialEq, Eq)]
pub enum Waits {
    Short,
    /// Mostly short; where few looks reach the limit, at times up to it or beyond.
    Mixed,
    /// So many waits of the call are busy until the last look, which is free; the next is busy then too.
    Full(usize),
}

/// Up to so many looks [`Waits::Mixed`] goes; longer waits make long texts.
const FEW_LOOKS: usize = 1_000;

pub struct Script<'a> {
    pub rng: &'a mut Rng,
    pub forks: &'a mut Forks,
    pub waits: Waits,
    pub replies: Vec<Reply>,
}

impl<'a> Script<'a> {
    pub fn new(rng: &'a mut Rng, forks: &'a mut Forks, waits: Waits) -> Self {
        Self {
            rng,
            forks,
            waits,
            replies: vec![],
        }
    }

    /// Whether the part fails here.
    pub fn fails(&mut self) -> bool {
        let rng = &mut *self.rng;
        self.forks.take(|| rng.percent(8))
    }

    /// Whether the course turns aside here.
    pub fn turns(&mut self) -> bool {
        let rng = &mut *self.rng;
        self.forks.take(|| rng.percent(50))
    }

    /// A write that is taken.
    pub fn written(&mut self) {
        self.replies.push(Reply::Done);
    }

    /// A read that gives these bytes.
    pub fn gives(&mut self, bytes: Vec<u8>) {
        self.replies.push(Reply::Data(bytes));
    }

    /// A byte of chance, but with the mask's bits all set or all clear.
    pub fn byte_with(&mut self, mask: u8, set: bool) -> u8 {
        let byte = self.rng.byte();
        if set { byte | mask } else { byte & !mask }
    }

    /// How many looks find the part busy, when a look beyond `last` ends the wait.
    pub fn busy_looks(&mut self, last: usize) -> usize {
        let short = self.rng.below(3) as usize;
        match &mut self.waits {
            Waits::Full(0) => last + 1,
            Waits::Full(left) => {
                *left -= 1;
                last
            }
            Waits::Mixed if last <= FEW_LOOKS => match self.rng.below(30) {
                0 => last,
                1 => last + 1,
                _ => short,
            },
            _ => short,
        }
    }
}
