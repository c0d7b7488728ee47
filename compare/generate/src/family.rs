//! Cases with an aim, and cases of chance.

use case_text::{Call, Item};

use crate::flash::{Flash, Waiting};
use crate::request::{self, plain, read};
use crate::rng::Rng;
use crate::script::{Forks, Script, Waits};
use crate::sequence::{Sequence, SpoiltAt};
use crate::spoil::Spoil;

/// Several calls of any kind, with failures and new constructions between.
pub fn any_calls<F: Flash>(rng: &mut Rng) -> Vec<Item> {
    let mut sequence = Sequence::<F>::new();
    if rng.percent(10) {
        sequence.any_call(rng);
    }
    sequence.settings(rng);
    sequence.construct(rng);
    for _ in 0..1 + rng.below(6) {
        if rng.percent(10) {
            sequence.settings(rng);
        }
        sequence.any_call(rng);
    }
    sequence.items
}

/// Requests around the edges of one part, most of them refused or short.
pub fn requests<F: Flash>(rng: &mut Rng) -> Vec<Item> {
    let mut sequence = Sequence::<F>::new();
    let own = F::small_own(rng);
    sequence.set_own(rng.percent(70).then_some(own));
    sequence.construct_well(rng);
    for _ in 0..8 {
        let call = F::addressed(rng, &sequence.geometry());
        sequence.fitting(call, F::id(rng), rng);
    }
    sequence.items
}

/// A part at the bounds or outside, and what a construction makes of it.
pub fn bounds<F: Flash>(rng: &mut Rng) -> Vec<Item> {
    let mut sequence = Sequence::<F>::new();
    // A construction that is refused leaves the driver before it.
    if rng.percent(60) {
        sequence.fitting(plain("new_single", &[]), F::id(rng), rng);
    }
    if rng.percent(30) {
        sequence.set_quad(Some(request::quad(rng)));
    }
    let own = if rng.percent(50) {
        rng.pick(F::AT_BOUNDS)
    } else {
        rng.pick(F::OUTSIDE_BOUNDS)
    };
    sequence.set_own(Some(own));
    sequence.construct(rng);
    sequence.accessors(rng);
    for _ in 0..3 {
        let call = F::addressed(rng, &sequence.geometry());
        sequence.fitting(call, F::id(rng), rng);
    }
    sequence.items
}

/// An id, and the part it stands for.
pub fn ids<F: Flash>(rng: &mut Rng) -> Vec<Item> {
    let mut sequence = Sequence::<F>::new();
    for _ in 0..1 + rng.below(3) {
        let name = rng.pick(&["new", "new_single"]);
        sequence.fitting(plain(name, &[]), F::id(rng), rng);
        sequence.accessors(rng);
        let end = F::capacity(&sequence.geometry());
        sequence.fitting(read(end - 1, 1), F::id(rng), rng);
        sequence.fitting(read(end, 1), F::id(rng), rng);
    }
    sequence.items
}

/// A part that is busy to the last look or beyond it. `turn` counts these cases.
pub fn waits<F: Flash>(rng: &mut Rng, turn: u64) -> Vec<Item> {
    let mut sequence = Sequence::<F>::new();
    sequence.set_own(Some(F::WAITING));
    sequence.construct_well(rng);
    let Waiting { call, taken, full } = F::waiting(rng, turn);
    if call.name == "new" {
        sequence.set_quad(Some(request::quad(rng)));
    }
    sequence.waiting(call, taken, Waits::Full(full), rng);
    sequence.fitting(read(0, 2), F::id(rng), rng);
    sequence.items
}

impl<F: Flash> Sequence<F> {
    fn settings(&mut self, rng: &mut Rng) {
        if rng.percent(60) {
            let quad = request::quad(rng);
            self.set_quad(rng.percent(60).then_some(quad));
        }
        if rng.percent(60) {
            let own = match rng.below(8) {
                0 | 1 => None,
                2 => Some(rng.pick(F::AT_BOUNDS)),
                3 => Some(rng.pick(F::OUTSIDE_BOUNDS)),
                _ => Some(F::small_own(rng)),
            };
            self.set_own(own);
        }
    }

    fn any_call(&mut self, rng: &mut Rng) {
        let call = request::any_call::<F>(rng, &self.geometry());
        self.chancy(call, Waits::Mixed, rng);
    }

    fn construct(&mut self, rng: &mut Rng) {
        let name = rng.pick(&["new", "new", "new", "new_single"]);
        self.chancy(plain(name, &[]), Waits::Short, rng);
    }

    /// A construction that succeeds.
    pub fn construct_well(&mut self, rng: &mut Rng) {
        let id = F::id(rng);
        self.build(id, rng);
    }

    pub fn accessors(&mut self, rng: &mut Rng) {
        for name in request::accessors::<F>() {
            self.fitting(plain(name, &[]), F::id(rng), rng);
        }
    }

    /// A call whose replies fit, but for a reply spoilt at times.
    pub fn chancy(&mut self, call: Call, waits: Waits, rng: &mut Rng) {
        let id = F::id(rng);
        let mut forks = Forks::Chance;
        let script = Script::new(rng, &mut forks, waits);
        self.call(call, id, script, |replies, rng| {
            let spoil = match rng.below(40) {
                0..=5 => Spoil::BusError,
                6 => Spoil::OtherKind,
                7 => Spoil::OtherLength,
                8 => Spoil::RunOut,
                9 | 10 => Spoil::LeftOver,
                _ => return None,
            };
            let place = rng.below(replies as u64) as usize;
            Some(SpoiltAt { spoil, place })
        });
    }

    /// A call on which the bus fails, anywhere.
    pub fn broken_off(&mut self, call: Call, rng: &mut Rng) {
        let id = F::id(rng);
        let mut forks = Forks::path(&[]);
        let script = Script::new(rng, &mut forks, Waits::Short);
        self.call(call, id, script, |replies, rng| {
            let place = rng.below(replies as u64) as usize;
            let spoil = Spoil::BusError;
            Some(SpoiltAt { spoil, place })
        });
    }

    /// A call that goes its given way and waits long.
    fn waiting(&mut self, call: Call, taken: &[bool], waits: Waits, rng: &mut Rng) {
        let id = F::id(rng);
        let mut forks = Forks::path(taken);
        let script = Script::new(rng, &mut forks, waits);
        self.call(call, id, script, |_, _| None);
    }
}
