//! Cases with an aim that only the NAND has.

use case_text::{Call, Item};

use super::Nand;
use super::geometry::{AT_BOUNDS, Geometry, LARGE_PAGES};
use super::request::BARE_CALLS;
use crate::flash::{Case, Flash, Scene, Waiting};
use crate::request::{plain, quad, read, with_buffer, with_data};
use crate::rng::Rng;
use crate::script::Waits;
use crate::sequence::Sequence;

/// Pages of three bytes, two of them in a block: whole courses are short.
const SMALL: [u64; 4] = [3, 2, 2, 3];
const WITHOUT_SPARE: [u64; 4] = [3, 0, 2, 3];
/// Two chunks fill the page.
const TWO_CHUNKS: [u64; 4] = [257, 1, 2, 2];

pub fn scenes() -> Vec<Scene> {
    let mut scenes = Vec::new();
    let mut add = |quad, own, call| scenes.push(Scene { quad, own, call });
    for quad in [false, true] {
        add(quad, None, plain("new", &[]));
        add(quad, None, plain("ensure_configuration", &[]));
        for call in transfers() {
            add(quad, Some(SMALL), call);
        }
        add(quad, Some(TWO_CHUNKS), plain("mark_bad_block", &[1]));
    }
    add(true, None, plain("new_single", &[]));
    for name in BARE_CALLS {
        add(false, None, plain(name, &[]));
    }
    add(false, None, plain("write_register", &[0xB0, 0x5A]));
    add(false, Some(SMALL), plain("page_read", &[5]));
    add(false, Some(SMALL), plain("program_execute", &[4]));
    add(false, Some(SMALL), plain("erase_block", &[2]));
    for name in ["is_bad_block", "mark_bad_block"] {
        add(false, Some(WITHOUT_SPARE), plain(name, &[2]));
    }
    scenes
}

/// Calls that move bytes, on the smallest geometry.
fn transfers() -> [Call; 6] {
    [
        with_buffer("read_cache", 1, 4),
        with_data("load_program_data", 2, vec![0x13, 0x00, 0xFF]),
        with_buffer("read_page", 5, 3),
        with_data("write_page", 4, vec![0x13, 0x02, 0xFF]),
        read(2, 2),
        plain("is_bad_block", &[2]),
    ]
}

/// Each call once for each of its waits, which passes its limit, and once with all of them up to it.
pub fn waiting(turn: u64) -> Waiting {
    let mut all: Vec<Waiting> = waiting_calls().into_iter().flat_map(variants).collect();
    let place = turn as usize % all.len();
    all.swap_remove(place)
}

fn variants((call, taken, waits): (Call, &'static [bool], usize)) -> impl Iterator<Item = Waiting> {
    (0..=waits).map(move |full| Waiting {
        call: call.clone(),
        taken,
        full,
    })
}

/// A call, the forks that bring it to its waits, and how many those are.
fn waiting_calls() -> Vec<(Call, &'static [bool], usize)> {
    vec![
        (plain("write_register", &[0xA0, 0x38]), &[], 1),
        (plain("erase_block", &[2]), &[], 1),
        (plain("page_read", &[5]), &[], 1),
        (plain("ensure_configuration", &[]), &[true], 1),
        (plain("program_execute", &[1]), &[], 1),
        (plain("disable_quad", &[]), &[true], 1),
        (with_buffer("read_page", 3, 300), &[], 1),
        (plain("unprotect", &[]), &[true], 1),
        (plain("is_bad_block", &[1]), &[], 1),
        (plain("reset", &[]), &[], 1),
        (with_data("write_page", 2, vec![0x6D; 300]), &[], 2),
        (plain("reset_and_identify", &[]), &[], 1),
        (read(299, 2), &[], 2),
        // The configuration lacks a bit, and the part is locked.
        (plain("new", &[]), &[true, false, false, true], 3),
        (plain("mark_bad_block", &[2]), &[], 4),
    ]
}

/// The registers of configuration and protection, again and again: every pattern of their bits comes. What
/// construction noted of them and of the id stays.
pub fn registers(rng: &mut Rng) -> Vec<Item> {
    let mut sequence = Sequence::<Nand>::new();
    sequence.set_quad(rng.percent(50).then_some(quad(rng)));
    sequence.construct_well(rng);
    for _ in 0..10 {
        for name in ["ensure_configuration", "disable_quad", "unprotect"] {
            sequence.fitting(plain(name, &[]), Nand::id(rng), rng);
        }
        sequence.fitting(Nand::bare(rng), Nand::id(rng), rng);
        sequence.accessors(rng);
        if rng.percent(30) {
            sequence.fitting(plain("new", &[]), Nand::id(rng), rng);
        }
    }
    sequence.items
}

/// The last of everything and the first beyond it, on each geometry at the bounds in turn.
pub fn edges(rng: &mut Rng, turn: u64) -> Vec<Item> {
    let mut sequence = Sequence::<Nand>::new();
    sequence.set_quad(rng.percent(40).then_some(quad(rng)));
    sequence.set_own(Some(AT_BOUNDS[turn as usize % AT_BOUNDS.len()]));
    sequence.construct_well(rng);
    for call in edge_calls(rng, &sequence.geometry()) {
        sequence.fitting(call, Nand::id(rng), rng);
    }
    sequence.items
}

fn edge_calls(rng: &mut Rng, geometry: &Geometry) -> Vec<Call> {
    let mut calls = edge_ranges(rng, geometry);
    let page = geometry.page as usize;
    for number in [geometry.pages() - 1, geometry.pages()] {
        calls.push(plain("page_read", &[number]));
        calls.push(plain("program_execute", &[number]));
        for length in [page, page - 1] {
            calls.push(with_buffer("read_page", number, length as u64));
            calls.push(with_data("write_page", number, rng.bytes(length)));
        }
    }
    for number in [geometry.blocks - 1, geometry.blocks] {
        for name in ["erase_block", "is_bad_block", "mark_bad_block"] {
            calls.push(plain(name, &[number]));
        }
    }
    calls
}

fn edge_ranges(rng: &mut Rng, geometry: &Geometry) -> Vec<Call> {
    let (page, cache, capacity) = (geometry.page, geometry.cache(), geometry.capacity());
    let reads = [
        (page - 1, 2),
        (capacity - 1, 1),
        (capacity - 1, 2),
        (capacity, 0),
        (capacity, 1),
        (capacity + 1, 0),
        (u64::MAX, 1),
    ];
    let mut calls: Vec<Call> = reads.map(|(offset, length)| read(offset, length)).into();
    for (column, length) in [
        (0, cache),
        (1, cache),
        (cache, 0),
        (cache - 1, 1),
        (cache, 1),
    ] {
        calls.push(with_buffer("read_cache", column, length));
        let data = rng.bytes(length as usize);
        calls.push(with_data("load_program_data", column, data));
    }
    calls
}

/// Marks of pages of one or more chunks, whole and broken off anywhere.
pub fn marks(rng: &mut Rng, turn: u64) -> Vec<Item> {
    const PAGES: [u64; 9] = [1, 255, 256, 257, 511, 512, 513, 2_048, 4_096];
    let mut sequence = Sequence::<Nand>::new();
    let page = PAGES[turn as usize % PAGES.len()];
    let on_four_lines = (turn / PAGES.len() as u64).is_multiple_of(2);
    sequence.set_quad(on_four_lines.then_some(quad(rng)));
    sequence.set_own(Some([page, 1, 3, 5]));
    sequence.construct_well(rng);
    sequence.fitting(plain("mark_bad_block", &[rng.below(5)]), Nand::id(rng), rng);
    for _ in 0..3 {
        sequence.broken_off(plain("mark_bad_block", &[rng.below(5)]), rng);
    }
    sequence.chancy(plain("mark_bad_block", &[4]), Waits::Short, rng);
    sequence.items
}

/// The one difference that is wanted: the port refuses such a page once the part is identified.
pub fn large_page(rng: &mut Rng, turn: u64) -> Case {
    let mut sequence = Sequence::<Nand>::new();
    if rng.percent(50) {
        sequence.construct_well(rng);
    }
    sequence.set_quad(rng.percent(50).then_some(quad(rng)));
    sequence.set_own(Some(LARGE_PAGES[turn as usize % LARGE_PAGES.len()]));
    match turn / LARGE_PAGES.len() as u64 % 3 {
        0 => sequence.fitting(plain("new", &[]), Nand::id(rng), rng),
        1 => sequence.broken_off(plain("new", &[]), rng),
        _ => sequence.chancy(plain("new", &[]), Waits::Short, rng),
    }
    sequence.accessors(rng);
    sequence.fitting(plain("new_single", &[]), Nand::id(rng), rng);
    sequence.fitting(read(2_047, 2), Nand::id(rng), rng);
    Case {
        note: Some("large page"),
        items: sequence.items,
    }
}
