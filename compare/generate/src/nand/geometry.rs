//! The geometry of a NAND, and the caller's own ones at the bounds and beyond.

#[derive(Clone, Copy, Debug, PartialEq, Eq)]
pub struct Geometry {
    pub page: u64,
    pub spare: u64,
    pub pages_per_block: u64,
    pub blocks: u64,
}

impl Geometry {
    pub const W25N01GV: Self = Self::of([2_048, 64, 64, 1_024]);
    const W25N02KV: Self = Self::of([2_048, 128, 64, 2_048]);

    pub const fn of([page, spare, pages_per_block, blocks]: [u64; 4]) -> Self {
        Self {
            page,
            spare,
            pages_per_block,
            blocks,
        }
    }

    pub fn from_id(id: [u8; 3]) -> Self {
        match id {
            [0xEF, 0xAB, 0x21] => Self::W25N02KV,
            // The other known ids name the same part as an unknown one.
            _ => Self::W25N01GV,
        }
    }

    pub fn inside_bounds(&self) -> bool {
        let pages = self.pages_per_block.checked_mul(self.blocks);
        let cache = self.page.checked_add(self.spare);
        self.page >= 1
            && cache.is_some_and(|cache| cache <= 65_535)
            && pages.is_some_and(|pages| (1..=16_777_216).contains(&pages))
    }

    pub fn pages(&self) -> u64 {
        self.pages_per_block * self.blocks
    }

    pub fn capacity(&self) -> u64 {
        self.page * self.pages()
    }

    /// The bytes of a page with its spare.
    pub fn cache(&self) -> u64 {
        self.page + self.spare
    }

    pub fn holds(&self, offset: u64, length: u64) -> bool {
        ends_by(offset, length, self.capacity())
    }

    pub fn cache_holds(&self, column: u64, length: u64) -> bool {
        ends_by(column, length, self.cache())
    }
}

fn ends_by(start: u64, length: u64, end: u64) -> bool {
    start
        .checked_add(length)
        .is_some_and(|behind| behind <= end)
}

/// Inside the bounds, with pages that a construction takes.
pub const AT_BOUNDS: [[u64; 4]; 16] = [
    [2_048, 64, 64, 1_024],
    [2_048, 0, 64, 1_024],
    [4_096, 61_439, 64, 1_024],
    [1, 65_534, 1, 1],
    [4_096, 0, 1, 16_777_216],
    [1, 0, 16_777_216, 1],
    [4_096, 256, 4_096, 4_096],
    [1, 1, 1, 1],
    [1, 0, 1, 1],
    [4_095, 1, 3, 5_592_405],
    [255, 1, 2, 3],
    [256, 1, 2, 65_536],
    [257, 65_278, 65_537, 2],
    [3, 2, 1, 65_537],
    [512, 16, 32, 8_192],
    [4_096, 61_439, 16_777_216, 1],
];

/// Inside the bounds, but a construction refuses such a page: the Rust last of all, the port once the part
/// is identified.
pub const LARGE_PAGES: [[u64; 4]; 6] = [
    [4_097, 0, 1, 1],
    [4_097, 61_438, 64, 1_024],
    [65_535, 0, 1, 16_777_216],
    [65_534, 1, 16_777_216, 1],
    [8_192, 256, 64, 2_048],
    [4_160, 64, 1, 1],
];

/// Outside, most of them by one; of others a sum or product wraps, or only its low bits are inside.
pub const OUTSIDE_BOUNDS: [[u64; 4]; 27] = [
    [0, 64, 64, 1_024],
    [0, 0, 1, 1],
    [2_048, 64, 0, 1_024],
    [2_048, 64, 64, 0],
    [2_048, 64, 0, 0],
    [0, 0, 0, 0],
    [65_536, 0, 1, 1],
    [65_535, 1, 1, 1],
    [1, 65_535, 1, 1],
    [4_096, 61_440, 64, 1_024],
    [2_048, 65_536, 64, 1_024],
    [2_048, 64, 1, 16_777_217],
    [2_048, 64, 16_777_217, 1],
    [2_048, 64, 4_096, 4_097],
    [2_048, 64, 4_097, 4_096],
    [2_048, 64, 2, 8_388_609],
    [u64::MAX, 1, 64, 1_024],
    [1, u64::MAX, 64, 1_024],
    [2_048, u64::MAX - 1_983, 64, 1_024],
    [2_048, 64, 4_294_967_296, 4_294_967_296],
    [2_048, 64, u64::MAX, u64::MAX],
    [2_048, 64, 9_223_372_036_854_775_809, 2],
    [4_294_969_344, 64, 64, 1_024],
    [2_048, 4_294_967_360, 64, 1_024],
    [2_048, 64, 4_294_967_360, 1],
    [2_048, 64, 1, 4_294_968_320],
    [u64::MAX, u64::MAX, u64::MAX, u64::MAX],
];
