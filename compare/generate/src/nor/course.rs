//! The NOR driver's course through each call, as far as its replies need it.

use case_text::{Call, Lent, Quad};

use super::Nor;
use crate::course::Timings;
use crate::script::{Ended, Flow, Script};

const QUAD_IN_STATUS1: u8 = 0x40;
const QUAD_IN_STATUS2: u8 = 0x02;
const PROTECTION_IN_STATUS1: u8 = 0xFC;
const PROTECTION_IN_STATUS2: u8 = 0xE0;

const PROGRAM: Timings = looks_until(20_000);
const SECTOR: Timings = looks_until(1_000_000);
const BLOCK: Timings = looks_until(5_000_000);
const STATUS: Timings = looks_until(100_000);

/// Every wait looks at once, and then at the same steps.
const fn looks_until(limit_us: usize) -> Timings {
    Timings {
        first_us: 0,
        poll_us: 100,
        limit_us,
    }
}

/// A read goes in pieces of at most this many bytes.
pub const PIECE: u64 = 65_536;
/// Construction refuses a longer page once the part is identified.
const MAX_PAGE: u64 = 512;

/// The geometry of a part.
#[derive(Clone, Copy, Debug, PartialEq, Eq)]
pub struct Device {
    pub capacity: u64,
    pub sector: u64,
    pub block: u64,
    pub page: u64,
}

impl Device {
    pub const W25Q128JV: Self = Self::standard(16_777_216);

    const fn standard(capacity: u64) -> Self {
        Self::of([capacity, 4_096, 65_536, 256])
    }

    pub const fn of([capacity, sector, block, page]: [u64; 4]) -> Self {
        Self {
            capacity,
            sector,
            block,
            page,
        }
    }

    pub fn from_id(id: [u8; 3]) -> Self {
        // The known ids have the capacity of their code too.
        match id[2] {
            code @ 16..=24 => Self::standard(1 << code),
            _ => Self::W25Q128JV,
        }
    }

    pub fn inside_bounds(&self) -> bool {
        self.capacity <= 16_777_216
            && (1..=65_536).contains(&self.page)
            && self.sector >= 1
            && (1..=16_777_216).contains(&self.block)
            && self.block.is_multiple_of(self.sector)
    }

    pub fn holds(&self, offset: u64, length: u64) -> bool {
        offset + length <= self.capacity
    }

    /// The addresses of an erase and whether each is a block's; the range must be in bounds and aligned.
    pub fn erase_steps(&self, from: u64, to: u64) -> impl Iterator<Item = (u64, bool)> {
        let mut address = from;
        std::iter::from_fn(move || {
            let here = address;
            let block = here.is_multiple_of(self.block) && to.saturating_sub(here) >= self.block;
            address += if block { self.block } else { self.sector };
            (here < to).then_some((here, block))
        })
    }
}

/// The replies of a construction in bounds, and the driver if it succeeds.
pub fn construct(
    script: &mut Script,
    quad: Option<Quad>,
    own: Option<[u64; 4]>,
    id: [u8; 3],
) -> Flow<Nor> {
    script.written();
    script.gives(id.into());
    let device = own.map_or(Device::from_id(id), Device::of);
    if device.page > MAX_PAGE {
        return Err(Ended);
    }
    if quad.is_some() {
        enable_quad(script)?;
    }
    Ok(Nor {
        device,
        quad: quad.is_some(),
    })
}

/// The replies of a call on a driver that was built.
pub fn answer(script: &mut Script, part: &Nor, call: &Call) -> Flow {
    let number = |index: usize| call.numbers[index];
    match (call.name, &call.lent) {
        ("read_status1" | "read_status2" | "is_busy", _) => {
            script.register(0, false);
            Ok(())
        }
        ("jedec_id", _) => {
            script.command_then_read(3);
            Ok(())
        }
        ("unique_id", _) => {
            script.command_then_read(8);
            Ok(())
        }
        ("quad_enabled", _) => {
            quad_enabled(script);
            Ok(())
        }
        ("enable_quad", _) => enable_quad(script),
        ("disable_quad", _) => disable_quad(script),
        ("unprotect", _) => unprotect(script),
        ("read", Lent::Buffer(length)) => read(script, part, number(0), *length as u64),
        ("write", Lent::Data(data)) => write(script, part, number(0), data),
        ("erase", _) => erase(script, part, number(0), number(1)),
        ("erase_sector", _) => erase_one(script, part, number(0), false),
        ("erase_block", _) => erase_one(script, part, number(0), true),
        _ => Ok(()),
    }
}

fn quad_enabled(script: &mut Script) -> bool {
    let in_status2 = script.turns();
    script.register(QUAD_IN_STATUS2, in_status2);
    if in_status2 {
        return true;
    }
    let in_status1 = script.turns();
    script.register(QUAD_IN_STATUS1, in_status1);
    in_status1
}

fn enable_quad(script: &mut Script) -> Flow {
    if quad_enabled(script) {
        return Ok(());
    }
    for mask in [QUAD_IN_STATUS2, QUAD_IN_STATUS1] {
        script.register(0, false);
        script.command_and_wait(STATUS)?;
        let sticks = script.turns();
        script.register(mask, sticks);
        if sticks {
            return Ok(());
        }
    }
    Err(Ended)
}

fn disable_quad(script: &mut Script) -> Flow {
    for mask in [QUAD_IN_STATUS2, QUAD_IN_STATUS1] {
        let set = script.turns();
        script.register(mask, set);
        if set {
            script.command_and_wait(STATUS)?;
            let stays = script.turns();
            script.register(mask, stays);
            return if stays { Err(Ended) } else { Ok(()) };
        }
    }
    Ok(())
}

fn unprotect(script: &mut Script) -> Flow {
    let locks = [PROTECTION_IN_STATUS1, PROTECTION_IN_STATUS2].map(|mask| {
        let locked = script.turns();
        let byte = script.byte_with(mask, false);
        // One bit is enough to lock, and each must be able to.
        let lock = 0x80 >> script.rng.below(mask.count_ones().into());
        script.written();
        script.gives(vec![if locked { byte | lock } else { byte }]);
        locked
    });
    for locked in locks {
        if locked {
            script.command_and_wait(STATUS)?;
        }
    }
    script.register(0, false);
    Ok(())
}

fn read(script: &mut Script, part: &Nor, offset: u64, length: u64) -> Flow {
    if !part.device.holds(offset, length) {
        return Err(Ended);
    }
    let mut left = length;
    while left > 0 {
        let piece = left.min(PIECE);
        let bytes = script.rng.bytes(piece as usize);
        script.transfer_in(part.quad, bytes);
        left -= piece;
    }
    Ok(())
}

fn write(script: &mut Script, part: &Nor, offset: u64, data: &[u8]) -> Flow {
    let page = part.device.page;
    let length = data.len() as u64;
    let aligned = offset.is_multiple_of(page) && length.is_multiple_of(page);
    if !part.device.holds(offset, length) || !aligned {
        return Err(Ended);
    }
    for chunk in data.chunks(page as usize) {
        script.write_enable()?;
        script.transfer_out(part.quad);
        script.wait(PROGRAM)?;
        script.read_back(part.quad, chunk)?;
    }
    Ok(())
}

fn erase(script: &mut Script, part: &Nor, from: u64, to: u64) -> Flow {
    let device = &part.device;
    let aligned = from.is_multiple_of(device.sector) && to.is_multiple_of(device.sector);
    if from > to || to > device.capacity || !aligned {
        return Err(Ended);
    }
    for (address, block) in device.erase_steps(from, to) {
        erase_one(script, part, address, block)?;
    }
    Ok(())
}

fn erase_one(script: &mut Script, part: &Nor, offset: u64, block: bool) -> Flow {
    let (unit, timings) = if block {
        (part.device.block, BLOCK)
    } else {
        (part.device.sector, SECTOR)
    };
    if !part.device.holds(offset, unit) || !offset.is_multiple_of(unit) {
        return Err(Ended);
    }
    script.command_and_wait(timings)
}
