//! The Rust's NAND driver behind the names of a case.

use case_text::{Call, Dialect, NAND, Quad};
use reference::spi_flash::FlashError;
use reference::spi_flash::nand::{
    Configuration, NandGeometry, NandInit, NandJedecId, NandQuadConfig, Protection, SpiNandConfig,
    SpiNandFlash, Status,
};

use crate::bench::{Answer, Driver, Settings, data};
use crate::host::{Code, Host};
use crate::values::{self, none, one};

/// Harness: the most that the two bytes of a column reach, spare included.
const MAX_PAGE_AND_SPARE: u64 = 65_535;
/// Harness: the most that the three bytes of a page reach.
const MAX_PAGES: u64 = 16_777_216;

/// The Rust's driver on the scripted host.
pub struct Nand(SpiNandFlash<Host, Host, Host>);

impl Driver for Nand {
    const DIALECT: Dialect = NAND;

    fn inside_bounds([page, spare, pages_per_block, blocks]: [u64; 4]) -> bool {
        let at_most = |number: Option<u64>, most: u64| number.is_some_and(|number| number <= most);
        page >= 1
            && pages_per_block >= 1
            && blocks >= 1
            && at_most(page.checked_add(spare), MAX_PAGE_AND_SPARE)
            && at_most(pages_per_block.checked_mul(blocks), MAX_PAGES)
    }

    fn new(host: Host) -> Result<Self, FlashError<Code>> {
        SpiNandFlash::new(host.clone(), host.clone(), host).map(Nand)
    }

    fn with_config(host: Host, settings: Settings) -> Result<Self, FlashError<Code>> {
        let config = SpiNandConfig {
            quad: settings.quad.map(quad_config),
            geometry: settings.own.map(geometry),
        };
        SpiNandFlash::with_config(host.clone(), host.clone(), host, config).map(Nand)
    }

    fn call(&mut self, call: &Call, buffer: &mut [u8]) -> Answer {
        let flash = &mut self.0;
        let number = |index: usize| call.numbers[index] as usize;
        let byte = |index: usize| call.numbers[index] as u8;
        match call.name {
            "info" => Ok(info_values(flash.info())),
            "config" => Ok(config_values(flash.config())),
            "geometry" => Ok(geometry_values(flash.geometry()).into()),
            "disable_quad" => flash.disable_quad().map(none),
            "write_register" => flash.write_register(byte(0), byte(1)).map(none),
            "write_enable" => flash.write_enable().map(none),
            "read_status" => flash.read_status().map(Status::byte).map(one),
            "read_configuration" => flash.read_configuration().map(configuration_value),
            "read_protection" => flash.read_protection().map(protection_value),
            "reset" => flash.reset().map(none),
            "jedec_id" => flash.jedec_id().map(id_values),
            "reset_and_identify" => flash.reset_and_identify().map(id_values),
            "ensure_configuration" => flash.ensure_configuration().map(configuration_value),
            "unprotect" => flash.unprotect().map(protection_value),
            "page_read" => flash.page_read(number(0)).map(none),
            "read_cache" => flash.read_cache(number(0), buffer).map(none),
            "load_program_data" => flash.load_program_data(number(0), data(call)).map(none),
            "program_execute" => flash.program_execute(number(0)).map(none),
            "read_page" => flash.read_page(number(0), buffer).map(none),
            "write_page" => flash.write_page(number(0), data(call)).map(none),
            "erase_block" => flash.erase_block(number(0)).map(none),
            "read" => flash.read(number(0), buffer).map(none),
            "is_bad_block" => flash.is_bad_block(number(0)).map(one),
            "mark_bad_block" => flash.mark_bad_block(number(0)).map(none),
            name => unreachable!("no call {name}"),
        }
    }

    fn free(self) {
        let _ = self.0.free();
    }
}

fn quad_config(quad: Quad) -> NandQuadConfig {
    NandQuadConfig {
        tclqv_ns: quad.tclqv_ns,
        read_cache_opcode: quad.read_opcode,
        load_program_opcode: quad.program_opcode,
        dummy_margin: quad.margin,
    }
}

/// Bounds are judged before, so each number fits.
fn geometry(own: [u64; 4]) -> NandGeometry {
    let [page_size, oob_size, pages_per_block, block_count] = own.map(|number| number as usize);
    NandGeometry {
        page_size,
        oob_size,
        pages_per_block,
        block_count,
    }
}

fn configuration_value(configuration: Configuration) -> Vec<u64> {
    one(configuration.byte())
}

fn protection_value(protection: Protection) -> Vec<u64> {
    one(protection.byte())
}

fn id_values(id: NandJedecId) -> Vec<u64> {
    vec![id.manufacturer.into(), id.device.into()]
}

fn info_values(info: NandInit) -> Vec<u64> {
    let registers = [
        info.configuration_before.byte(),
        info.configuration_after.byte(),
        info.protection_before.byte(),
    ];
    [id_values(info.id), registers.map(u64::from).into()].concat()
}

fn geometry_values(geometry: NandGeometry) -> [u64; 4] {
    [
        geometry.page_size,
        geometry.oob_size,
        geometry.pages_per_block,
        geometry.block_count,
    ]
    .map(|number| number as u64)
}

fn config_values(config: SpiNandConfig) -> Vec<u64> {
    let quad = config.quad.map(|quad| {
        [
            u64::from(quad.tclqv_ns),
            quad.read_cache_opcode.into(),
            quad.load_program_opcode.into(),
            quad.dummy_margin.into(),
        ]
    });
    values::config(quad, config.geometry.map(geometry_values))
}
