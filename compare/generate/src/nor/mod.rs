//! The NOR: its words and numbers, and the order of its cases.

mod course;
mod family;
mod request;

use case_text::{Call, Dialect, NOR, Quad};

use crate::family::{any_calls, bounds, ids, requests, waits};
use crate::flash::{Case, Flash, Scene, Waiting};
use crate::request::plain;
use crate::rng::Rng;
use crate::script::{Flow, Script};
use crate::sweep::Sweep;
use course::Device;

/// A driver that was built.
#[derive(Clone, Copy)]
pub struct Nor {
    device: Device,
    quad: bool,
}

impl Flash for Nor {
    const DIALECT: Dialect = NOR;
    const IDENTITY: &'static str = "id";
    const ID: [u8; 3] = [0xEF, 0x40, 0x17];
    /// The quad bit is found set, when it is looked for.
    const BUILT: &'static [bool] = &[true];
    const AT_BOUNDS: &'static [[u64; 4]] = &request::AT_BOUNDS;
    const OUTSIDE_BOUNDS: &'static [[u64; 4]] = &request::OUTSIDE_BOUNDS;
    const WAITING: [u64; 4] = [4_096, 16, 64, 8];

    type Geometry = Device;
    const USUAL: Device = Device::W25Q128JV;

    fn inside_bounds(own: [u64; 4]) -> bool {
        Device::of(own).inside_bounds()
    }

    fn construct(
        script: &mut Script,
        quad: Option<Quad>,
        own: Option<[u64; 4]>,
        id: [u8; 3],
    ) -> Flow<Self> {
        course::construct(script, quad, own, id)
    }

    fn answer(&self, script: &mut Script, call: &Call) -> Flow {
        course::answer(script, self, call)
    }

    fn geometry(&self) -> Device {
        self.device
    }

    fn capacity(device: &Device) -> u64 {
        device.capacity
    }

    fn id(rng: &mut Rng) -> [u8; 3] {
        request::id(rng)
    }

    fn small_own(rng: &mut Rng) -> [u64; 4] {
        request::small_device(rng)
    }

    fn bare(rng: &mut Rng) -> Call {
        plain(rng.pick(&request::BARE_CALLS), &[])
    }

    fn addressed(rng: &mut Rng, device: &Device) -> Call {
        request::addressed(rng, device)
    }

    fn waiting(rng: &mut Rng, turn: u64) -> Waiting {
        family::waiting(rng, turn)
    }

    fn scenes() -> Vec<Scene> {
        family::scenes()
    }

    fn case(sweep: &mut Sweep<Self>, number: u64, rng: &mut Rng) -> Case {
        let round = number / 20;
        let items = match number % 20 {
            0..=7 => sweep.next_case(),
            8..=14 => any_calls::<Self>(rng),
            15 | 16 => requests::<Self>(rng),
            17 => bounds::<Self>(rng),
            18 => ids::<Self>(rng),
            _ => match round % 5 {
                0 | 1 => waits::<Self>(rng, round / 5 * 2 + round % 5),
                2 => family::pieces(rng),
                _ => any_calls::<Self>(rng),
            },
        };
        items.into()
    }
}
