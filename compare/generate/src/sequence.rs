//! A case in the making: settings and calls one behind the other, with the replies each call needs.

use case_text::{Call, Item, Quad};

use crate::flash::Flash;
use crate::request::plain;
use crate::rng::Rng;
use crate::script::{Forks, Script, Waits};
use crate::spoil::Spoil;

/// What the calls so far have left.
#[derive(Clone, Copy)]
enum Driver<F> {
    NotBuilt,
    Built(F),
    Unfinished,
}

/// Which reply of a call is spoilt, and how. A place behind the last spoils nothing.
#[derive(Clone, Copy)]
pub struct SpoiltAt {
    pub spoil: Spoil,
    pub place: usize,
}

pub struct Sequence<F> {
    pub items: Vec<Item>,
    quad: Option<Quad>,
    own: Option<[u64; 4]>,
    driver: Driver<F>,
}

impl<F: Flash> Sequence<F> {
    pub fn new() -> Self {
        Self {
            items: vec![],
            quad: None,
            own: None,
            driver: Driver::NotBuilt,
        }
    }

    pub fn set_quad(&mut self, quad: Option<Quad>) {
        self.quad = quad;
        self.items.push(Item::Quad(quad));
    }

    pub fn set_own(&mut self, own: Option<[u64; 4]>) {
        self.own = own;
        self.items.push(Item::Own(own));
    }

    /// The geometry that requests are aimed at.
    pub fn geometry(&self) -> F::Geometry {
        match self.driver {
            Driver::Built(flash) => flash.geometry(),
            _ => F::USUAL,
        }
    }

    /// The replies that bring the call to its end, and what they leave of the driver.
    fn course(&self, script: &mut Script, call: &Call, id: [u8; 3]) -> Driver<F> {
        match (call.name, self.driver) {
            (_, Driver::Unfinished) => Driver::Unfinished,
            ("new", before) => match self.own {
                Some(own) if !F::inside_bounds(own) => before,
                own => built(F::construct(script, self.quad, own, id).ok()),
            },
            ("new_single", _) => built(F::construct(script, None, None, id).ok()),
            ("free", _) | (_, Driver::NotBuilt) => Driver::NotBuilt,
            (_, Driver::Built(flash)) => {
                // Whether the call ends well does not matter to the driver.
                let _ = flash.answer(script, call);
                Driver::Built(flash)
            }
        }
    }

    /// Adds a call with the replies of its course. `spoil` is asked with the number of replies.
    pub fn call(
        &mut self,
        call: Call,
        id: [u8; 3],
        mut script: Script,
        spoil: impl FnOnce(usize, &mut Rng) -> Option<SpoiltAt>,
    ) {
        let after = self.course(&mut script, &call, id);
        let (mut replies, rng) = (script.replies, script.rng);
        let spoilt = spoil(replies.len(), rng)
            .filter(|at| at.place < replies.len() || at.spoil == Spoil::LeftOver);
        if let Some(SpoiltAt { spoil, place }) = spoilt {
            spoil.apply(&mut replies, place, rng);
        }
        self.driver = match spoilt.map(|at| at.spoil) {
            None | Some(Spoil::LeftOver) => after,
            Some(Spoil::BusError) if call.name.starts_with("new") => Driver::NotBuilt,
            Some(Spoil::BusError) => self.driver,
            Some(_) => Driver::Unfinished,
        };
        self.items.push(Item::Call(call));
        self.items.extend(replies.into_iter().map(Item::Reply));
    }

    /// Adds a construction that succeeds.
    pub fn build(&mut self, id: [u8; 3], rng: &mut Rng) {
        let mut forks = Forks::path(F::BUILT);
        let script = Script::new(rng, &mut forks, Waits::Short);
        self.call(plain("new", &[]), id, script, |_, _| None);
    }

    /// Adds a call whose replies all fit.
    pub fn fitting(&mut self, call: Call, id: [u8; 3], rng: &mut Rng) {
        let mut forks = Forks::Chance;
        let script = Script::new(rng, &mut forks, Waits::Short);
        self.call(call, id, script, |_, _| None);
    }
}

fn built<F>(flash: Option<F>) -> Driver<F> {
    flash.map_or(Driver::NotBuilt, Driver::Built)
}
