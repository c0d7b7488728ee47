//! What the generator knows of a driver. All the rest is the same for every driver.

use case_text::{Call, Dialect, Item, Quad};

use crate::rng::Rng;
use crate::script::{Flow, Script};
use crate::sweep::Sweep;

/// A driver that was built, with the words, numbers and requests of its kind.
pub trait Flash: Copy + 'static {
    const DIALECT: Dialect;
    /// The call that tells the id; a case's other accessors are `config` and the word of the own setting.
    const IDENTITY: &'static str;
    /// The id of most constructions that must succeed.
    const ID: [u8; 3];
    /// The forks that bring a construction to success; none behind them is taken.
    const BUILT: &'static [bool];

    /// The caller's own parts at the bounds, inside.
    const AT_BOUNDS: &'static [[u64; 4]];
    /// The caller's own parts outside the bounds, most of them by one.
    const OUTSIDE_BOUNDS: &'static [[u64; 4]];
    /// A part so small that a call which waits long moves few bytes.
    const WAITING: [u64; 4];

    type Geometry: Copy;
    /// What requests are aimed at while nothing is built.
    const USUAL: Self::Geometry;

    fn inside_bounds(own: [u64; 4]) -> bool;

    /// The replies of a construction in bounds, and the driver if it succeeds.
    fn construct(
        script: &mut Script,
        quad: Option<Quad>,
        own: Option<[u64; 4]>,
        id: [u8; 3],
    ) -> Flow<Self>;

    /// The replies of a call.
    fn answer(&self, script: &mut Script, call: &Call) -> Flow;

    fn geometry(&self) -> Self::Geometry;

    fn capacity(geometry: &Self::Geometry) -> u64;

    /// Known ids, ids that miss one by a byte, and any others.
    fn id(rng: &mut Rng) -> [u8; 3];

    /// A small part of odd numbers, inside the bounds.
    fn small_own(rng: &mut Rng) -> [u64; 4];

    /// A call on registers and ids.
    fn bare(rng: &mut Rng) -> Call;

    /// A request with an address, at and around the edges of the part.
    fn addressed(rng: &mut Rng, geometry: &Self::Geometry) -> Call;

    /// A call that waits, and the forks that bring it to its waits.
    fn waiting(rng: &mut Rng, turn: u64) -> Waiting;

    /// The calls whose every way the sweep goes.
    fn scenes() -> Vec<Scene>;

    /// The case with this number.
    fn case(sweep: &mut Sweep<Self>, number: u64, rng: &mut Rng) -> Case;
}

/// A call that waits to the limit.
pub struct Waiting {
    pub call: Call,
    pub taken: &'static [bool],
    /// So many waits are busy until the last look, which is free; the next is busy then too.
    pub full: usize,
}

/// A call with the settings of its construction.
#[derive(Clone)]
pub struct Scene {
    pub quad: bool,
    pub own: Option<[u64; 4]>,
    pub call: Call,
}

/// A case, and the comment that it begins with.
pub struct Case {
    pub note: Option<&'static str>,
    pub items: Vec<Item>,
}

impl From<Vec<Item>> for Case {
    fn from(items: Vec<Item>) -> Self {
        Self { note: None, items }
    }
}
