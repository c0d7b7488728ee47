//! The words that differ between the drivers: their calls, and the setting of the caller's own part.

/// How wide a call's number is. One that is too wide cannot be passed in the Rust either.
#[derive(Clone, Copy, Debug, PartialEq, Eq)]
pub enum Width {
    Byte,
    Offset32,
    Word64,
}

impl Width {
    pub fn holds(self, number: u64) -> bool {
        match self {
            Width::Byte => number <= u64::from(u8::MAX),
            Width::Offset32 => number <= u64::from(u32::MAX),
            Width::Word64 => true,
        }
    }
}

/// What a call takes beside its numbers, in its last word.
#[derive(Clone, Copy, Debug, PartialEq, Eq)]
pub enum Takes {
    Nothing,
    Buffer,
    Data,
}

/// How a call is written.
#[derive(Clone, Copy, Debug)]
pub struct Shape {
    pub name: &'static str,
    pub numbers: &'static [Width],
    pub takes: Takes,
}

impl Shape {
    const fn plain(name: &'static str) -> Self {
        Self::with(name, &[], Takes::Nothing)
    }

    const fn with(name: &'static str, numbers: &'static [Width], takes: Takes) -> Self {
        Self {
            name,
            numbers,
            takes,
        }
    }

    /// How many words follow the name.
    pub fn words(&self) -> usize {
        self.numbers.len() + usize::from(self.takes != Takes::Nothing)
    }
}

/// The words of one driver.
#[derive(Clone, Copy, Debug)]
pub struct Dialect {
    /// The setting of the caller's own device or geometry.
    pub own: &'static str,
    pub calls: &'static [Shape],
}

/// The NOR's words.
pub const NOR: Dialect = Dialect {
    own: "device",
    calls: &[
        Shape::plain("new"),
        Shape::plain("new_single"),
        Shape::plain("config"),
        Shape::plain("device"),
        Shape::plain("id"),
        Shape::plain("free"),
        Shape::plain("read_status1"),
        Shape::plain("read_status2"),
        Shape::plain("is_busy"),
        Shape::plain("jedec_id"),
        Shape::plain("unique_id"),
        Shape::plain("quad_enabled"),
        Shape::plain("enable_quad"),
        Shape::plain("disable_quad"),
        Shape::plain("unprotect"),
        Shape::with("read", &[Width::Offset32], Takes::Buffer),
        Shape::with("write", &[Width::Offset32], Takes::Data),
        Shape::with("erase", &[Width::Offset32, Width::Offset32], Takes::Nothing),
        Shape::with("erase_sector", &[Width::Offset32], Takes::Nothing),
        Shape::with("erase_block", &[Width::Offset32], Takes::Nothing),
    ],
};

/// The NAND's words. Its pages, columns, blocks and offsets are `usize` in the Rust.
pub const NAND: Dialect = Dialect {
    own: "geometry",
    calls: &[
        Shape::plain("new"),
        Shape::plain("new_single"),
        Shape::plain("info"),
        Shape::plain("config"),
        Shape::plain("geometry"),
        Shape::plain("free"),
        Shape::plain("disable_quad"),
        Shape::with(
            "write_register",
            &[Width::Byte, Width::Byte],
            Takes::Nothing,
        ),
        Shape::plain("write_enable"),
        Shape::plain("read_status"),
        Shape::plain("read_configuration"),
        Shape::plain("read_protection"),
        Shape::plain("reset"),
        Shape::plain("jedec_id"),
        Shape::plain("reset_and_identify"),
        Shape::plain("ensure_configuration"),
        Shape::plain("unprotect"),
        Shape::with("page_read", &[Width::Word64], Takes::Nothing),
        Shape::with("read_cache", &[Width::Word64], Takes::Buffer),
        Shape::with("load_program_data", &[Width::Word64], Takes::Data),
        Shape::with("program_execute", &[Width::Word64], Takes::Nothing),
        Shape::with("read_page", &[Width::Word64], Takes::Buffer),
        Shape::with("write_page", &[Width::Word64], Takes::Data),
        Shape::with("erase_block", &[Width::Word64], Takes::Nothing),
        Shape::with("read", &[Width::Word64], Takes::Buffer),
        Shape::with("is_bad_block", &[Width::Word64], Takes::Nothing),
        Shape::with("mark_bad_block", &[Width::Word64], Takes::Nothing),
    ],
};
