//! Cases with an aim that only the NOR has.

use case_text::{Call, Item};

use super::Nor;
use super::course::PIECE;
use super::request::{BARE_CALLS, write};
use crate::flash::{Flash, Scene, Waiting};
use crate::request::{self, plain, read};
use crate::rng::Rng;
use crate::script::Waits;
use crate::sequence::Sequence;

/// A part so small that whole courses are short: three erase steps, pages of four bytes.
const SMALL: [u64; 4] = [64, 8, 16, 4];

pub fn scenes() -> Vec<Scene> {
    let mut scenes = Vec::new();
    let mut add = |quad, own, call| scenes.push(Scene { quad, own, call });
    for quad in [false, true] {
        add(quad, None, plain("new", &[]));
        add(quad, Some(SMALL), read(11, 5));
        add(quad, Some(SMALL), write(8, vec![0x00, 0xFF, 0x13, 0x5A]));
        add(quad, Some(SMALL), write(56, (1..=8).collect()));
    }
    add(true, None, plain("new_single", &[]));
    add(false, Some([64, 8, 16, 513]), plain("new", &[]));
    for name in BARE_CALLS {
        add(false, None, plain(name, &[]));
    }
    add(false, Some(SMALL), plain("erase_sector", &[56]));
    add(false, Some(SMALL), plain("erase_block", &[48]));
    add(false, Some(SMALL), plain("erase", &[8, 40]));
    scenes
}

/// Each call four times: all its waits end at the last look, or the first, second or third does not.
pub fn waiting(rng: &mut Rng, turn: u64) -> Waiting {
    let (call, taken) = waiting_call(rng, turn / 4);
    Waiting {
        call,
        taken,
        full: [usize::MAX, 0, 1, 2][(turn % 4) as usize],
    }
}

/// A call, and the forks that bring it to its waits. Calls with long limits come seldom.
fn waiting_call(rng: &mut Rng, turn: u64) -> (Call, &'static [bool]) {
    // The quad bit is clear, the first register does not keep it, and the second may.
    let sets_quad_late: [&[bool]; 2] = [&[], &[false, false, false, false, false, true]];
    match turn % 12 {
        0 => (plain("erase_block", &[64]), &[]),
        1 => (plain("erase_sector", &[32]), &[]),
        2 => (plain("erase", &[48, 144]), &[]),
        3 | 4 => (plain("unprotect", &[]), &[true, true]),
        5 => (plain("disable_quad", &[]), &[true]),
        6 => (plain("disable_quad", &[]), &[false, true]),
        7 | 8 => (plain("enable_quad", &[]), rng.pick(&sets_quad_late)),
        9 => (plain("new", &[]), rng.pick(&sets_quad_late)),
        _ => (write(40, rng.bytes(24)), &[]),
    }
}

/// Reads around the length of one piece and its multiples.
pub fn pieces(rng: &mut Rng) -> Vec<Item> {
    let mut sequence = Sequence::<Nor>::new();
    if rng.percent(40) {
        sequence.set_quad(Some(request::quad(rng)));
    }
    let own = [PIECE * 2 + 1, 4_096, 65_536, 256];
    sequence.set_own(rng.percent(30).then_some(own));
    sequence.fitting(plain("new", &[]), Nor::id(rng), rng);
    let length = PIECE * (1 + rng.below(2)) + rng.below(3) - 1;
    let end = sequence.geometry().capacity;
    let offset = match rng.below(4) {
        0 => end.saturating_sub(length),
        1 => end.saturating_sub(length) + 1,
        2 => 0,
        _ => rng.below(end.saturating_sub(length)),
    };
    sequence.chancy(read(offset, length), Waits::Short, rng);
    sequence.fitting(read(1, 1), Nor::id(rng), rng);
    sequence.items
}
