//! What is asked of a NOR: ids, and requests at and around the edges of a part.

use case_text::Call;

use super::course::Device;
use crate::request::{self, Space, plain, read, with_data};
use crate::rng::Rng;

/// Calls without numbers that use the bus.
pub const BARE_CALLS: [&str; 9] = [
    "read_status1",
    "read_status2",
    "is_busy",
    "jedec_id",
    "unique_id",
    "quad_enabled",
    "enable_quad",
    "disable_quad",
    "unprotect",
];

const MAX_OFFSET: u64 = u32::MAX as u64;

/// An erase of more steps makes too long a text.
const MAX_ERASE_STEPS: usize = 40;

/// The caller's own parts at the bounds, inside.
pub const AT_BOUNDS: [[u64; 4]; 20] = [
    [16_777_216, 4_096, 65_536, 256],
    [16_777_216, 1, 1, 1],
    [16_777_216, 1, 16_777_216, 1],
    [16_777_216, 16_777_216, 16_777_216, 512],
    [16_777_216, 8_388_608, 16_777_216, 511],
    [16_777_215, 5, 15, 3],
    [0, 1, 1, 1],
    [1, 1, 1, 1],
    [1, 2, 2, 2],
    [512, 512, 512, 512],
    [513, 512, 512, 512],
    [65_536, 4_096, 65_536, 256],
    [65_535, 4_096, 65_536, 256],
    [4_096, 4_096, 65_536, 256],
    [131_073, 65_536, 65_536, 256],
    [100_000, 1_000, 3_000, 100],
    [12_345, 7, 21, 5],
    [16_777_216, 4_096, 65_536, 513],
    [16_777_216, 4_096, 65_536, 65_535],
    [16_777_216, 4_096, 65_536, 65_536],
];

/// The caller's own parts outside the bounds, most of them by one.
pub const OUTSIDE_BOUNDS: [[u64; 4]; 19] = [
    [16_777_217, 4_096, 65_536, 256],
    [16_777_216, 4_096, 65_536, 0],
    [16_777_216, 4_096, 65_536, 65_537],
    [16_777_216, 0, 65_536, 256],
    [16_777_216, 0, 0, 256],
    [16_777_216, 4_096, 0, 256],
    [16_777_216, 4_096, 65_537, 256],
    [16_777_216, 4_096, 2_048, 256],
    [16_777_216, 1, 16_777_217, 256],
    [16_777_216, 4_096, 16_781_312, 256],
    [16_777_216, 16_777_217, 16_777_217, 256],
    [16_777_216, 65_536, 4_096, 256],
    [0, 0, 0, 0],
    [4_294_967_296, 4_096, 65_536, 256],
    [65_536, 4_294_967_296, 4_294_967_296, 256],
    [65_536, 4_096, 4_295_032_832, 256],
    [65_536, 4_096, 65_536, 4_294_967_552],
    [9_223_372_036_854_775_808, 1, 1, 1],
    [u64::MAX, u64::MAX, u64::MAX, u64::MAX],
];

/// A small part of odd numbers, inside the bounds.
pub fn small_device(rng: &mut Rng) -> [u64; 4] {
    let sector = rng.pick(&[1, 2, 5, 16, 100, 4_096]);
    let block = sector * rng.pick(&[1, 2, 3, 16]);
    let page = rng.pick(&[1, 2, 3, 16, 100, 256, 511, 512]);
    let unit = rng.pick(&[sector, block, page]);
    let capacity = unit * rng.below(12) + rng.pick(&[0, 0, 1]);
    [capacity, sector, block, page]
}

/// Known ids, ids that miss one by a byte, and codes around those that tell a capacity.
pub fn id(rng: &mut Rng) -> [u8; 3] {
    let known = rng.pick(&[[0xEF, 0x40, 0x17], [0xEF, 0x40, 0x18], [0xC8, 0x40, 0x18]]);
    match rng.below(5) {
        0 | 1 => known,
        2 => {
            let mut near = known;
            near[rng.below(3) as usize] ^= 1 << rng.below(8);
            near
        }
        3 => [known[0], known[1], 14 + rng.below(13) as u8],
        _ => [rng.byte(), rng.byte(), rng.byte()],
    }
}

fn place(rng: &mut Rng, device: &Device, unit: u64, length: u64) -> u64 {
    let space = Space {
        end: device.capacity,
        most: MAX_OFFSET,
    };
    request::place(rng, space, unit, length)
}

pub fn write(offset: u64, data: Vec<u8>) -> Call {
    with_data("write", offset, data)
}

pub fn any_read(rng: &mut Rng, device: &Device) -> Call {
    let length = match rng.below(8) {
        0 => 0,
        1 => 1,
        2 => 250 + rng.below(12),
        3 => device.capacity.min(700) + rng.below(2),
        _ => 1 + rng.below(24),
    };
    read(place(rng, device, 1, length), length)
}

pub fn any_write(rng: &mut Rng, device: &Device) -> Call {
    let page = device.page.min(512);
    let pages = rng.pick(&[0, 1, 1, 1, 2, 3]);
    let length = match rng.below(10) {
        0 => page * pages + 1,
        1 => (page * pages).saturating_sub(1),
        _ => page * pages,
    };
    let data = request::data(rng, length);
    write(place(rng, device, page, length), data)
}

pub fn any_erase(rng: &mut Rng, device: &Device) -> Call {
    let (sector, block) = (device.sector, device.block);
    let length = match rng.below(8) {
        0 => 0,
        1 => block,
        2 => block + sector,
        3 => block * 2,
        4 => sector * rng.below(20) + rng.below(2),
        _ => sector * (1 + rng.below(5)),
    };
    let from = match rng.below(4) {
        // Where a block begins one or two sectors on.
        0 => (rng.below(device.capacity / block) * block).saturating_sub(sector * rng.below(3)),
        _ => place(rng, device, sector, length),
    };
    let to = match rng.below(12) {
        0 => from.saturating_sub(sector),
        1 => device.capacity,
        2 => device.capacity + sector,
        _ => from + length,
    };
    // One end beside its sector, the other not.
    let (from, to) = match rng.below(12) {
        0 => (from + rng.below(sector), to),
        1 => (from, to.saturating_sub(rng.below(sector))),
        2 => (to.saturating_sub(1), to),
        _ => (from, to),
    };
    erase_not_too_long(device, from.min(MAX_OFFSET), to.min(MAX_OFFSET))
}

fn erase_not_too_long(device: &Device, from: u64, to: u64) -> Call {
    let end = device.erase_steps(from, to).nth(MAX_ERASE_STEPS);
    plain("erase", &[from, end.map_or(to, |(address, _)| address)])
}

pub fn any_erase_one(rng: &mut Rng, device: &Device) -> Call {
    let (name, unit) = rng.pick(&[
        ("erase_sector", device.sector),
        ("erase_block", device.block),
    ]);
    plain(name, &[place(rng, device, unit, unit)])
}

/// A request with an address.
pub fn addressed(rng: &mut Rng, device: &Device) -> Call {
    match rng.below(5) {
        0 | 1 => any_read(rng, device),
        2 => any_write(rng, device),
        3 => any_erase(rng, device),
        _ => any_erase_one(rng, device),
    }
}
