//! Every way through every call, and every reply of each way spoilt in turn.

use std::marker::PhantomData;

use case_text::Item;

use crate::flash::{Flash, Scene};
use crate::request::{plain, quad, read};
use crate::rng::Rng;
use crate::script::{Forks, Script, Waits};
use crate::sequence::{Sequence, SpoiltAt};
use crate::spoil::Spoil;

/// Gives the cases of the sweep without end; when all have been given it begins again with other bytes.
pub struct Sweep<F> {
    flash: PhantomData<F>,
    seed: u64,
    scenes: Vec<Scene>,
    scene: usize,
    forks: Forks,
    /// Counts the ways: each has bytes of its own.
    way: u64,
    variant: usize,
    rounds: u64,
}

impl<F: Flash> Sweep<F> {
    pub fn new(seed: u64) -> Self {
        Self {
            flash: PhantomData,
            seed,
            scenes: F::scenes(),
            scene: 0,
            forks: Forks::first_path(),
            way: 0,
            variant: 0,
            rounds: 0,
        }
    }

    /// Whether every case has been given at least once.
    pub fn is_whole(&self) -> bool {
        self.rounds > 0
    }

    pub fn next_case(&mut self) -> Vec<Item> {
        let (items, variants) = self.case();
        self.turn(variants);
        items
    }

    /// The next way through a call, with nothing spoilt.
    pub fn next_way(&mut self) -> Vec<Item> {
        let (items, _) = self.case();
        self.turn(1);
        items
    }

    /// The case that is due, and how many variants its way has.
    fn case(&mut self) -> (Vec<Item>, usize) {
        let scene = self.scenes[self.scene].clone();
        // The same numbers for all variants of a way, so that its replies stay the same but for the spoilt one.
        let mut rng = Rng::new(self.seed, u64::MAX - self.way);
        let mut sequence = Sequence::<F>::new();
        sequence.prepare(&scene, &mut rng);
        let variant = self.variant;
        let way = self.way as usize;
        let mut variants = 0;
        self.forks.restart();
        let script = Script::new(&mut rng, &mut self.forks, Waits::Short);
        sequence.call(scene.call, F::ID, script, |replies, _| {
            variants = 1 + 2 * replies;
            spoilt_at(variant, replies, way)
        });
        sequence.probe(&mut rng);
        (sequence.items, variants)
    }

    fn turn(&mut self, variants: usize) {
        self.variant += 1;
        if self.variant < variants {
            return;
        }
        self.variant = 0;
        self.way += 1;
        if !self.forks.next_path() {
            self.forks = Forks::first_path();
            self.scene += 1;
        }
        if self.scene == self.scenes.len() {
            self.scene = 0;
            self.rounds += 1;
        }
    }
}

/// Variant 0 spoils nothing, then the bus fails at each place, then the call stays unfinished at each.
fn spoilt_at(variant: usize, replies: usize, way: usize) -> Option<SpoiltAt> {
    let index = variant.checked_sub(1)?;
    let place = index % replies;
    let spoil = if index < replies {
        Spoil::BusError
    } else {
        Spoil::LEAVES_UNFINISHED[(place + way) % 3]
    };
    Some(SpoiltAt { spoil, place })
}

impl<F: Flash> Sequence<F> {
    /// The settings, and the construction unless that is the call itself.
    fn prepare(&mut self, scene: &Scene, rng: &mut Rng) {
        if scene.own.is_some() {
            self.set_own(scene.own);
        }
        if scene.quad {
            self.set_quad(Some(quad(rng)));
        }
        if !scene.call.name.starts_with("new") {
            self.build(F::ID, rng);
        }
    }

    /// What the call has left of the driver shows in the calls behind it.
    fn probe(&mut self, rng: &mut Rng) {
        let name = rng.pick(&[F::DIALECT.own, F::IDENTITY, "config"]);
        self.fitting(plain(name, &[]), F::ID, rng);
        self.fitting(read(3, 2), F::ID, rng);
        if rng.percent(30) {
            self.fitting(plain("new_single", &[]), F::ID, rng);
        }
    }
}
