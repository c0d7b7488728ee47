//! What is asked for, where every driver is asked alike.

use case_text::{Call, Lent, Quad};

use crate::flash::Flash;
use crate::rng::Rng;

/// A call with nothing lent.
pub fn plain(name: &'static str, numbers: &[u64]) -> Call {
    Call {
        name,
        numbers: numbers.into(),
        lent: Lent::Nothing,
    }
}

/// A call that reads into a buffer.
pub fn with_buffer(name: &'static str, number: u64, length: u64) -> Call {
    Call {
        name,
        numbers: vec![number],
        lent: Lent::Buffer(length as usize),
    }
}

pub fn with_data(name: &'static str, number: u64, data: Vec<u8>) -> Call {
    Call {
        name,
        numbers: vec![number],
        lent: Lent::Data(data),
    }
}

pub fn read(offset: u64, length: u64) -> Call {
    with_buffer("read", offset, length)
}

pub fn quad(rng: &mut Rng) -> Quad {
    let (tclqv_ns, margin) = (rng.next() as u32, rng.byte());
    let (read_opcode, program_opcode) = (rng.byte(), rng.byte());
    Quad {
        tclqv_ns: rng.pick(&[8, 8, 0, u32::MAX, tclqv_ns]),
        read_opcode: rng.pick(&[0x6B, 0x6B, read_opcode]),
        program_opcode: rng.pick(&[0x32, 0x32, program_opcode]),
        margin: rng.pick(&[0, 0, 255, margin]),
    }
}

/// Data of chance, or all of one byte; 13 begins a page load on a NAND.
pub fn data(rng: &mut Rng, length: u64) -> Vec<u8> {
    match rng.below(4) {
        0 => vec![rng.pick(&[0x00, 0xFF, 0x13]); length as usize],
        _ => rng.bytes(length as usize),
    }
}

/// What a place counts: the first beyond the part, and the most that its number can hold.
#[derive(Clone, Copy)]
pub struct Space {
    pub end: u64,
    pub most: u64,
}

/// Where a request of this length begins: mostly inside, in steps of `unit`; else at an edge or beside it.
pub fn place(rng: &mut Rng, space: Space, unit: u64, length: u64) -> u64 {
    let Space { end, most } = space;
    let inside = rng.below(end / unit) * unit;
    let room = end.saturating_sub(length);
    let place = match rng.below(20) {
        0..=8 => inside.min(room / unit * unit),
        9 => 0,
        10 | 11 => room / unit * unit,
        12 => room,
        13 => room + 1,
        14 | 15 => inside + rng.below(unit),
        16 => end,
        17 => end + rng.pick(&[1, unit]),
        18 => 0x100_0000 - rng.below(2),
        _ => most - rng.below(2) * (length + unit),
    };
    place.min(most)
}

pub const fn accessors<F: Flash>() -> [&'static str; 3] {
    ["config", F::DIALECT.own, F::IDENTITY]
}

pub fn any_call<F: Flash>(rng: &mut Rng, geometry: &F::Geometry) -> Call {
    match rng.below(20) {
        0..=4 => F::bare(rng),
        5 => plain(rng.pick(&accessors::<F>()), &[]),
        6 => plain("new", &[]),
        7 => plain(rng.pick(&["new", "new_single"]), &[]),
        8 => plain("free", &[]),
        _ => F::addressed(rng, geometry),
    }
}
