//! What is asked of a NAND: ids, and requests at and around the edges of a part.

use case_text::Call;

use super::geometry::Geometry;
use crate::request::{Space, data, place, plain, read, with_buffer, with_data};
use crate::rng::Rng;

/// Calls without numbers that use the bus.
pub const BARE_CALLS: [&str; 10] = [
    "disable_quad",
    "write_enable",
    "read_status",
    "read_configuration",
    "read_protection",
    "reset",
    "jedec_id",
    "reset_and_identify",
    "ensure_configuration",
    "unprotect",
];

/// A longer transfer makes too long a text, and comes only in cases of its own.
const MAX_TRANSFER: u64 = 4_200;
/// A read of more pages makes one too.
const MAX_PAGES: u64 = 4;

/// A small geometry of odd numbers, inside the bounds.
pub fn small_geometry(rng: &mut Rng) -> [u64; 4] {
    [
        rng.pick(&[1, 2, 3, 16, 100, 255, 256, 257, 512, 600]),
        rng.pick(&[0, 1, 2, 16, 64]),
        rng.pick(&[1, 2, 3, 64]),
        rng.pick(&[1, 2, 3, 5, 300]),
    ]
}

/// Known ids, ids that miss one by a bit or are put together of two, and any others.
pub fn id(rng: &mut Rng) -> [u8; 3] {
    const KNOWN: [[u8; 3]; 4] = [
        [0xEF, 0xAA, 0x21],
        [0xEF, 0xAB, 0x21],
        [0xC8, 0xD1, 0x48],
        [0xC8, 0xF1, 0x48],
    ];
    let (known, other) = (rng.pick(&KNOWN), rng.pick(&KNOWN));
    match rng.below(7) {
        0..=2 => known,
        // What a W25N02KV answers by its datasheet.
        3 => [0xEF, 0xAA, 0x22],
        4 => {
            let mut near = known;
            near[rng.below(3) as usize] ^= 1 << rng.below(8);
            near
        }
        5 => [other[0], known[1], known[2]],
        _ => [rng.byte(), rng.byte(), rng.byte()],
    }
}

pub fn bare(rng: &mut Rng) -> Call {
    if rng.percent(12) {
        return write_register(rng);
    }
    plain(rng.pick(&BARE_CALLS), &[])
}

fn write_register(rng: &mut Rng) -> Call {
    let any = rng.byte();
    let register = rng.pick(&[0xA0, 0xB0, 0xC0, any]);
    plain("write_register", &[register.into(), rng.byte().into()])
}

/// A place below `end` or at its edges; at times one whose low bits alone are below it, or whose product is.
fn index(rng: &mut Rng, end: u64, length: u64) -> u64 {
    let space = Space {
        end,
        most: u64::MAX,
    };
    let place = place(rng, space, 1, length);
    match rng.below(20) {
        0 => place.wrapping_add(1 << rng.pick(&[16, 24, 32, 58, 63])),
        _ => place,
    }
}

fn any_page(rng: &mut Rng, geometry: &Geometry) -> u64 {
    index(rng, geometry.pages(), 1)
}

fn any_block(rng: &mut Rng, geometry: &Geometry) -> u64 {
    index(rng, geometry.blocks, 1)
}

/// A column and a length: inside the page, the spare or both, to the end and past it.
fn cache_range(rng: &mut Rng, geometry: &Geometry) -> (u64, u64) {
    let length = match rng.below(8) {
        0 => 0,
        1 => 1,
        2 => geometry.page,
        3 => geometry.cache() + rng.below(2),
        4 => geometry.spare + rng.below(2),
        _ => 1 + rng.below(24),
    };
    let length = length.min(MAX_TRANSFER);
    let column = match rng.below(6) {
        0 => geometry.page,
        _ => index(rng, geometry.cache(), length),
    };
    (column, length)
}

/// A length around that of a page.
fn page_length(rng: &mut Rng, geometry: &Geometry) -> u64 {
    match rng.below(16) {
        0 => 0,
        1 => geometry.page - 1,
        2 => geometry.page + 1,
        3 => geometry.cache().min(MAX_TRANSFER),
        _ => geometry.page,
    }
}

fn any_read(rng: &mut Rng, geometry: &Geometry) -> Call {
    let page = geometry.page;
    let length = match rng.below(8) {
        0 => 0,
        1 => 1,
        2 => 2,
        3 => page + rng.below(3),
        4 => page * 2 + rng.below(3) - 1,
        _ => 1 + rng.below(24),
    };
    let length = length.min(page * MAX_PAGES).min(MAX_TRANSFER);
    let offset = match rng.below(4) {
        // So that the next page begins inside.
        0 => (rng.below(geometry.pages()) * page).saturating_sub(rng.below(length + 1)),
        1 => rng.below(geometry.pages()) * page,
        _ => index(rng, geometry.capacity(), length),
    };
    read(offset, length)
}

/// A request with an address.
pub fn addressed(rng: &mut Rng, geometry: &Geometry) -> Call {
    match rng.below(14) {
        0 => plain("page_read", &[any_page(rng, geometry)]),
        1 => plain("program_execute", &[any_page(rng, geometry)]),
        2 => plain("erase_block", &[any_block(rng, geometry)]),
        3 => plain("is_bad_block", &[any_block(rng, geometry)]),
        4 => plain("mark_bad_block", &[any_block(rng, geometry)]),
        5 | 6 => {
            let (column, length) = cache_range(rng, geometry);
            with_buffer("read_cache", column, length)
        }
        7 | 8 => {
            let (column, length) = cache_range(rng, geometry);
            with_data("load_program_data", column, data(rng, length))
        }
        9 => {
            let length = page_length(rng, geometry);
            with_buffer("read_page", any_page(rng, geometry), length)
        }
        10 => {
            let length = page_length(rng, geometry);
            let data = data(rng, length);
            with_data("write_page", any_page(rng, geometry), data)
        }
        _ => any_read(rng, geometry),
    }
}
