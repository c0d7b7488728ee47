//! Links the port's static library where TRACE_LIB names it, so that no process is needed for a case.

use std::env;
use std::path::Path;

fn main() {
    println!("cargo::rerun-if-changed=build.rs");
    println!("cargo::rerun-if-env-changed=TRACE_LIB");
    println!("cargo::rustc-check-cfg=cfg(linked)");
    let Ok(library) = env::var("TRACE_LIB") else {
        return;
    };
    let library = Path::new(&library);
    let folder = library.parent().expect("TRACE_LIB names a file");
    let name = library.file_name().expect("TRACE_LIB names a file");
    println!("cargo::rerun-if-changed={}", library.display());
    println!("cargo::rustc-link-search=native={}", folder.display());
    println!(
        "cargo::rustc-link-lib=static:+verbatim={}",
        name.to_string_lossy()
    );
    println!("cargo::rustc-cfg=linked");
}
