//! The Rust's NOR driver behind the names of a case.

use case_text::{Call, Dialect, NOR, Quad};
use reference::spi_flash::FlashError;
use reference::spi_flash::nor::{
    NorDeviceInfo, NorJedecId, NorQuadConfig, SpiNorConfig, SpiNorFlash,
};

use crate::bench::{Answer, Driver, Settings, data};
use crate::host::{Code, Host};
use crate::values::{self, none, one};

/// Harness: the most that three address bytes reach, and the longest erase block.
const MAX_CAPACITY: u64 = 16_777_216;
/// Harness: the longest page that a caller may name.
const MAX_PAGE: u64 = 65_536;

/// The Rust's driver on the scripted host.
pub struct Nor(SpiNorFlash<Host, Host, Host>);

impl Driver for Nor {
    const DIALECT: Dialect = NOR;

    fn inside_bounds([capacity, sector, block, page]: [u64; 4]) -> bool {
        capacity <= MAX_CAPACITY
            && (1..=MAX_PAGE).contains(&page)
            && sector >= 1
            && (1..=MAX_CAPACITY).contains(&block)
            && block.is_multiple_of(sector)
    }

    fn new(host: Host) -> Result<Self, FlashError<Code>> {
        SpiNorFlash::new(host.clone(), host.clone(), host).map(Nor)
    }

    fn with_config(host: Host, settings: Settings) -> Result<Self, FlashError<Code>> {
        let config = SpiNorConfig {
            quad: settings.quad.map(quad_config),
            device: settings.own.map(device_info),
        };
        SpiNorFlash::with_config(host.clone(), host.clone(), host, config).map(Nor)
    }

    fn call(&mut self, call: &Call, buffer: &mut [u8]) -> Answer {
        let flash = &mut self.0;
        let number = |index: usize| call.numbers[index] as u32;
        match call.name {
            "config" => Ok(config_values(flash.config())),
            "device" => Ok(device_values(flash.device()).into()),
            "id" => Ok(id_values(flash.id())),
            "read_status1" => flash.read_status1().map(one),
            "read_status2" => flash.read_status2().map(one),
            "is_busy" => flash.is_busy().map(one),
            "jedec_id" => flash.jedec_id().map(id_values),
            "unique_id" => flash.unique_id().map(one),
            "quad_enabled" => flash.quad_enabled().map(one),
            "enable_quad" => flash.enable_quad().map(none),
            "disable_quad" => flash.disable_quad().map(none),
            "unprotect" => flash
                .unprotect()
                .map(|(before, after)| vec![before.into(), after.into()]),
            "read" => flash.read(number(0), buffer).map(none),
            "write" => flash.write(number(0), data(call)).map(none),
            "erase" => flash.erase(number(0), number(1)).map(none),
            "erase_sector" => flash.erase_sector(number(0)).map(none),
            "erase_block" => flash.erase_block(number(0)).map(none),
            name => unreachable!("no call {name}"),
        }
    }

    fn free(self) {
        let _ = self.0.free();
    }
}

fn quad_config(quad: Quad) -> NorQuadConfig {
    NorQuadConfig {
        tclqv_ns: quad.tclqv_ns,
        read_opcode: quad.read_opcode,
        page_program_opcode: quad.program_opcode,
        dummy_margin: quad.margin,
    }
}

/// Bounds are judged before, so each number fits.
fn device_info(own: [u64; 4]) -> NorDeviceInfo {
    let [capacity, sector_size, block_size, page_size] = own.map(|number| number as usize);
    NorDeviceInfo {
        capacity,
        sector_size,
        block_size,
        page_size,
    }
}

fn id_values(id: NorJedecId) -> Vec<u64> {
    [id.manufacturer, id.memory_type, id.capacity]
        .map(u64::from)
        .into()
}

fn device_values(device: NorDeviceInfo) -> [u64; 4] {
    [
        device.capacity,
        device.sector_size,
        device.block_size,
        device.page_size,
    ]
    .map(|number| number as u64)
}

fn config_values(config: SpiNorConfig) -> Vec<u64> {
    let quad = config.quad.map(|quad| {
        [
            u64::from(quad.tclqv_ns),
            quad.read_opcode.into(),
            quad.page_program_opcode.into(),
            quad.dummy_margin.into(),
        ]
    });
    values::config(quad, config.device.map(device_values))
}
