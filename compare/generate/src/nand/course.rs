//! The NAND driver's course through each call, as far as its replies need it.

use case_text::{Call, Lent, Quad};

use super::Nand;
use super::geometry::Geometry;
use crate::course::Timings;
use crate::script::{Ended, Flow, Script};

const ERASE_FAILED: u8 = 0x04;
const PROGRAM_FAILED: u8 = 0x08;
const VERDICT: u8 = 0x30;
const QUAD_ENABLE: u8 = 0x01;
const BUFFER_READ: u8 = 0x08;
const ECC_ENABLE: u8 = 0x10;
const PROTECTION: u8 = 0x78;
/// A first spare byte that marks no block.
const UNMARKED: u8 = 0xFF;

const RESET: Timings = timings(10, 10, 500_000);
const LOAD: Timings = timings(10, 10, 400_000);
const PROGRAM: Timings = timings(75, 15, 400_000);
const ERASE: Timings = timings(250, 50, 400_000);
const REGISTER: Timings = timings(10, 10, 10_000);

/// A mark fills the page in chunks of this many bytes.
const CHUNK: u64 = 256;
/// Construction refuses a longer page, last of all.
const MAX_PAGE: u64 = 4_096;

const fn timings(first_us: usize, poll_us: usize, limit_us: usize) -> Timings {
    Timings {
        first_us,
        poll_us,
        limit_us,
    }
}

/// The replies of a construction in bounds, and the driver if it succeeds.
pub fn construct(
    script: &mut Script,
    quad: Option<Quad>,
    own: Option<[u64; 4]>,
    id: [u8; 3],
) -> Flow<Nand> {
    let nand = Nand {
        geometry: own.map_or(Geometry::from_id(id), Geometry::of),
        quad: quad.is_some(),
    };
    reset(script)?;
    script.written();
    script.gives(id.into());
    ensure_configuration(script, nand.quad)?;
    unprotect(script)?;
    script.register(0, false);
    if nand.geometry.page > MAX_PAGE {
        return Err(Ended);
    }
    Ok(nand)
}

/// The replies of a call on a driver that was built.
pub fn answer(script: &mut Script, nand: &Nand, call: &Call) -> Flow {
    let geometry = &nand.geometry;
    let number = |index: usize| call.numbers[index];
    match (call.name, &call.lent) {
        ("page_read", _) => page_read(script, geometry, number(0)),
        ("read_cache", Lent::Buffer(length)) => read_cache(script, nand, number(0), *length as u64),
        ("load_program_data", Lent::Data(data)) => {
            load_program_data(script, nand, number(0), data.len() as u64)
        }
        ("program_execute", _) => program_execute(script, geometry, number(0)),
        ("read_page", Lent::Buffer(length)) => read_page(script, nand, number(0), *length as u64),
        ("write_page", Lent::Data(data)) => write_page(script, nand, number(0), data),
        ("erase_block", _) => erase_block(script, geometry, number(0)),
        ("read", Lent::Buffer(length)) => read(script, nand, number(0), *length as u64),
        ("is_bad_block", _) => {
            let bad = script.turns();
            is_bad_block(script, nand, number(0), bad)
        }
        ("mark_bad_block", _) => mark_bad_block(script, nand, number(0)),
        _ => answer_bare(script, nand, call.name),
    }
}

/// Calls on registers and ids.
fn answer_bare(script: &mut Script, nand: &Nand, name: &str) -> Flow {
    match name {
        "disable_quad" => return disable_quad(script),
        "write_register" => return write_register(script),
        "write_enable" => return script.write_enable(),
        "reset" => return reset(script),
        "ensure_configuration" => return ensure_configuration(script, nand.quad),
        "unprotect" => return unprotect(script),
        "read_status" | "read_configuration" | "read_protection" => {
            script.register(0, false);
        }
        "jedec_id" => script.command_then_read(3),
        "reset_and_identify" => {
            reset(script)?;
            script.command_then_read(3);
        }
        _ => {}
    }
    Ok(())
}

fn reset(script: &mut Script) -> Flow {
    script.written();
    script.wait(RESET)
}

fn write_register(script: &mut Script) -> Flow {
    script.command_and_wait(REGISTER)
}

fn disable_quad(script: &mut Script) -> Flow {
    let set = script.turns();
    script.register(QUAD_ENABLE, set);
    if !set {
        return Ok(());
    }
    write_register(script)?;
    let stays = script.turns();
    script.register(QUAD_ENABLE, stays);
    if stays { Err(Ended) } else { Ok(()) }
}

fn ensure_configuration(script: &mut Script, quad: bool) -> Flow {
    let needed = BUFFER_READ | ECC_ENABLE | if quad { QUAD_ENABLE } else { 0 };
    let lacks = script.turns();
    let wanted = script.byte_with(needed, true);
    let lacking = if lacks {
        script.rng.some_bits(needed)
    } else {
        0
    };
    script.written();
    script.gives(vec![wanted & !lacking]);
    if !lacks {
        return Ok(());
    }
    write_register(script)?;
    let differs = script.fails();
    // Each bit counts, also those that were not to change.
    let difference = if differs { 1 << script.rng.below(8) } else { 0 };
    script.written();
    script.gives(vec![wanted ^ difference]);
    if differs { Err(Ended) } else { Ok(()) }
}

fn unprotect(script: &mut Script) -> Flow {
    let locked = script.turns();
    let lock = if locked {
        script.rng.some_bits(PROTECTION)
    } else {
        0
    };
    let byte = script.byte_with(PROTECTION, false);
    script.written();
    script.gives(vec![byte | lock]);
    if locked {
        write_register(script)
    } else {
        Ok(())
    }
}

fn load_page(script: &mut Script) -> Flow {
    script.written();
    script.wait(LOAD)
}

fn page_read(script: &mut Script, geometry: &Geometry, page: u64) -> Flow {
    within(page < geometry.pages())?;
    load_page(script)?;
    verdict(script)
}

/// Only 2 ends the call.
fn verdict(script: &mut Script) -> Flow {
    let verdict = if script.fails() {
        2
    } else if !script.turns() {
        0
    } else if script.turns() {
        3
    } else {
        1
    };
    let byte = script.byte_with(VERDICT, false);
    script.written();
    script.gives(vec![byte | verdict << 4]);
    if verdict == 2 { Err(Ended) } else { Ok(()) }
}

fn read_cache(script: &mut Script, nand: &Nand, column: u64, length: u64) -> Flow {
    within(nand.geometry.cache_holds(column, length))?;
    let bytes = script.rng.bytes(length as usize);
    script.transfer_in(nand.quad, bytes);
    Ok(())
}

fn load_program_data(script: &mut Script, nand: &Nand, column: u64, length: u64) -> Flow {
    within(nand.geometry.cache_holds(column, length))?;
    script.transfer_out(nand.quad);
    Ok(())
}

fn program_execute(script: &mut Script, geometry: &Geometry, page: u64) -> Flow {
    within(page < geometry.pages())?;
    script.written();
    script.wait(PROGRAM)?;
    fail_bit(script, PROGRAM_FAILED)
}

/// The status behind a wait tells whether the operation failed.
fn fail_bit(script: &mut Script, mask: u8) -> Flow {
    let fails = script.fails();
    script.register(mask, fails);
    if fails { Err(Ended) } else { Ok(()) }
}

fn read_page(script: &mut Script, nand: &Nand, page: u64, length: u64) -> Flow {
    within(length == nand.geometry.page)?;
    page_read(script, &nand.geometry, page)?;
    read_cache(script, nand, 0, length)
}

fn write_page(script: &mut Script, nand: &Nand, page: u64, data: &[u8]) -> Flow {
    let geometry = &nand.geometry;
    within(data.len() as u64 == geometry.page && page < geometry.pages())?;
    script.write_enable()?;
    script.transfer_out(nand.quad);
    program_execute(script, geometry, page)?;
    page_read(script, geometry, page)?;
    script.read_back(nand.quad, data)
}

fn erase_block(script: &mut Script, geometry: &Geometry, block: u64) -> Flow {
    within(block < geometry.blocks)?;
    script.command_and_wait(ERASE)?;
    fail_bit(script, ERASE_FAILED)
}

fn read(script: &mut Script, nand: &Nand, offset: u64, length: u64) -> Flow {
    let geometry = &nand.geometry;
    within(geometry.holds(offset, length))?;
    let mut done = 0;
    while done < length {
        let address = offset + done;
        let column = address % geometry.page;
        let chunk = (geometry.page - column).min(length - done);
        page_read(script, geometry, address / geometry.page)?;
        read_cache(script, nand, column, chunk)?;
        done += chunk;
    }
    Ok(())
}

fn is_bad_block(script: &mut Script, nand: &Nand, block: u64, bad: bool) -> Flow {
    within(block < nand.geometry.blocks)?;
    load_page(script)?;
    // Without a spare the marker lies behind the cache, and that shows only now.
    within(nand.geometry.spare > 0)?;
    let mark = script.rng.byte() & !(1 << script.rng.below(8));
    let mark = script.rng.pick(&[0x00, 0x7F, 0xFE, mark]);
    script.transfer_in(nand.quad, vec![if bad { mark } else { UNMARKED }]);
    Ok(())
}

fn mark_bad_block(script: &mut Script, nand: &Nand, block: u64) -> Flow {
    let bad = script.fails();
    is_bad_block(script, nand, block, bad)?;
    if bad {
        return Ok(());
    }
    erase_block(script, &nand.geometry, block)?;
    script.write_enable()?;
    let marker = 1;
    for _ in 0..nand.geometry.page.div_ceil(CHUNK) + marker {
        script.transfer_out(nand.quad);
    }
    program_execute(
        script,
        &nand.geometry,
        block * nand.geometry.pages_per_block,
    )?;
    let stays_unmarked = script.fails();
    is_bad_block(script, nand, block, !stays_unmarked)
}

/// A request outside ends the call.
fn within(inside: bool) -> Flow {
    if inside { Ok(()) } else { Err(Ended) }
}
