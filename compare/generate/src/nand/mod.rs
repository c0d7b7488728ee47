//! The NAND: its words and numbers, and the order of its cases.

mod course;
mod family;
mod geometry;
mod request;

use case_text::{Call, Dialect, NAND, Quad};

use crate::family::{any_calls, bounds, ids, requests, waits};
use crate::flash::{Case, Flash, Scene, Waiting};
use crate::rng::Rng;
use crate::script::{Flow, Script};
use crate::sweep::Sweep;
use geometry::Geometry;

/// A driver that was built.
#[derive(Clone, Copy)]
pub struct Nand {
    geometry: Geometry,
    quad: bool,
}

impl Flash for Nand {
    const DIALECT: Dialect = NAND;
    const IDENTITY: &'static str = "info";
    /// Of the one known part that is not the part of an unknown id.
    const ID: [u8; 3] = [0xEF, 0xAB, 0x21];
    const BUILT: &'static [bool] = &[];
    const AT_BOUNDS: &'static [[u64; 4]] = &geometry::AT_BOUNDS;
    const OUTSIDE_BOUNDS: &'static [[u64; 4]] = &geometry::OUTSIDE_BOUNDS;
    const WAITING: [u64; 4] = [300, 4, 2, 3];

    type Geometry = Geometry;
    const USUAL: Geometry = Geometry::W25N01GV;

    fn inside_bounds(own: [u64; 4]) -> bool {
        Geometry::of(own).inside_bounds()
    }

    fn construct(
        script: &mut Script,
        quad: Option<Quad>,
        own: Option<[u64; 4]>,
        id: [u8; 3],
    ) -> Flow<Self> {
        course::construct(script, quad, own, id)
    }

    fn answer(&self, script: &mut Script, call: &Call) -> Flow {
        course::answer(script, self, call)
    }

    fn geometry(&self) -> Geometry {
        self.geometry
    }

    fn capacity(geometry: &Geometry) -> u64 {
        geometry.capacity()
    }

    fn id(rng: &mut Rng) -> [u8; 3] {
        request::id(rng)
    }

    fn small_own(rng: &mut Rng) -> [u64; 4] {
        request::small_geometry(rng)
    }

    fn bare(rng: &mut Rng) -> Call {
        request::bare(rng)
    }

    fn addressed(rng: &mut Rng, geometry: &Geometry) -> Call {
        request::addressed(rng, geometry)
    }

    fn waiting(_: &mut Rng, turn: u64) -> Waiting {
        family::waiting(turn)
    }

    fn scenes() -> Vec<Scene> {
        family::scenes()
    }

    fn case(sweep: &mut Sweep<Self>, number: u64, rng: &mut Rng) -> Case {
        let round = number / 20;
        let items = match number % 20 {
            0..=9 => sweep.next_case(),
            10..=13 => any_calls::<Self>(rng),
            14 | 15 => requests::<Self>(rng),
            16 => bounds::<Self>(rng),
            17 => ids::<Self>(rng),
            18 => family::registers(rng),
            _ => match round % 8 {
                // Waits of a NAND and its longest pages make long texts, so they come seldom.
                0 => waits::<Self>(rng, round / 8),
                1 | 5 => family::edges(rng, round / 4),
                2 | 6 => family::marks(rng, round / 4),
                4 => return family::large_page(rng, round / 8),
                _ => any_calls::<Self>(rng),
            },
        };
        items.into()
    }
}

#[cfg(test)]
mod tests;
