//! Writes the module tree over the Rust's files, each at its place below RUST_SRC.
//!
//! The files stay where they are and as they are: `#[path]` names them. The parents of the modules are
//! written here, because they hold nothing but the list of their parts.

use std::path::{Path, PathBuf};
use std::{env, fs};

/// The Rust's files below RUST_SRC.
const FILES: [&str; 10] = [
    "qspi/bus.rs",
    "spi_flash/error.rs",
    "spi_flash/nor/opcode.rs",
    "spi_flash/nor/status.rs",
    "spi_flash/nor/config.rs",
    "spi_flash/nor/driver.rs",
    "spi_flash/nand/opcode.rs",
    "spi_flash/nand/status.rs",
    "spi_flash/nand/config.rs",
    "spi_flash/nand/driver.rs",
];

fn main() {
    println!("cargo::rerun-if-changed=build.rs");
    println!("cargo::rerun-if-env-changed=RUST_SRC");
    let source = source_folder();
    for file in FILES {
        println!("cargo::rerun-if-changed={}", source.join(file).display());
    }
    let tree = Path::new(&env::var("OUT_DIR").unwrap()).join("tree.rs");
    fs::write(tree, module_tree(&source)).expect("the module tree can be written");
}

fn source_folder() -> PathBuf {
    let given = env::var("RUST_SRC").expect("RUST_SRC must name the folder of the Rust's sources");
    let source = fs::canonicalize(&given).unwrap_or_else(|_| panic!("no folder {given}"));
    for file in FILES {
        assert!(source.join(file).is_file(), "RUST_SRC has no {file}");
    }
    source
}

fn module_tree(source: &Path) -> String {
    let qspi = module(source, "qspi/bus.rs", "bus");
    let error = module(source, "spi_flash/error.rs", "error");
    let nor = driver_modules(source, "nor");
    let nand = driver_modules(source, "nand");
    format!(
        "pub mod qspi {{ {qspi} pub use bus::QuadSpiBus; }}
pub mod spi_flash {{
{error}
pub use error::FlashError;
pub mod nor {{ {nor} pub use config::*; pub use driver::*; }}
pub mod nand {{ {nand} pub use config::*; pub use driver::*; pub use status::*; }}
}}
"
    )
}

fn driver_modules(source: &Path, driver: &str) -> String {
    ["opcode", "status", "config", "driver"]
        .map(|name| module(source, &format!("spi_flash/{driver}/{name}.rs"), name))
        .join("\n")
}

fn module(source: &Path, file: &str, name: &str) -> String {
    format!("#[path = {:?}] mod {name};", source.join(file))
}
