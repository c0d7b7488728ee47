//! Writes cases: mostly fitting replies, some spoilt. The same seed gives the same cases.

mod course;
mod family;
mod flash;
mod nand;
mod nor;
mod request;
mod rng;
mod script;
mod sequence;
mod spoil;
mod sweep;
mod text;

use case_text::Item;

pub use flash::Flash;
pub use nand::Nand;
pub use nor::Nor;
use rng::Rng;
use sweep::Sweep;

/// Gives one case after the other, without end.
pub struct Generator<F> {
    seed: u64,
    number: u64,
    sweep: Sweep<F>,
}

impl<F: Flash> Generator<F> {
    pub fn new(seed: u64) -> Self {
        Self {
            seed,
            number: 0,
            sweep: Sweep::new(seed),
        }
    }

    /// Whether the cases so far hold a whole sweep.
    pub fn is_swept(&self) -> bool {
        self.sweep.is_whole()
    }
}

impl<F: Flash> Iterator for Generator<F> {
    type Item = String;

    /// The next case, after its head line.
    fn next(&mut self) -> Option<String> {
        let number = self.number;
        self.number += 1;
        let mut rng = Rng::new(self.seed, number);
        let case = F::case(&mut self.sweep, number, &mut rng);
        let note = case
            .note
            .map_or(String::new(), |note| format!("# {note}\n"));
        let text = text::text(&case.items, F::DIALECT.own, &mut rng);
        Some(format!("# case {number}\n{note}{text}"))
    }
}

/// The cases of one whole sweep: every way through every call, each reply spoilt in turn.
pub fn whole_sweep<F: Flash>(seed: u64) -> Vec<String> {
    texts::<F>(seed, Sweep::next_case)
}

/// The cases of one whole sweep in which no reply is spoilt.
pub fn unspoilt_ways<F: Flash>(seed: u64) -> Vec<String> {
    texts::<F>(seed, Sweep::next_way)
}

fn texts<F: Flash>(seed: u64, next: fn(&mut Sweep<F>) -> Vec<Item>) -> Vec<String> {
    let mut sweep = Sweep::new(seed);
    let mut rng = Rng::new(seed, 0);
    let mut texts = Vec::new();
    while !sweep.is_whole() {
        let items = next(&mut sweep);
        texts.push(text::text(&items, F::DIALECT.own, &mut rng));
    }
    texts
}
