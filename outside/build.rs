//! Links the archive that `rt lib` writes in crates/meter.

use std::path::Path;

fn main() {
    let here = std::env::var("CARGO_MANIFEST_DIR").expect("cargo names the manifest's folder");
    let folder = Path::new(&here).join("../crates/meter/out");
    let archive = folder.join("libmeter.a");
    println!("cargo:rerun-if-changed={}", archive.display());
    println!("cargo:rerun-if-changed=build.rs");
    if !archive.is_file() {
        eprintln!("../crates/meter/out/libmeter.a is not there: run outside/run, which proves and builds it");
        std::process::exit(1);
    }
    println!("cargo:rustc-link-search=native={}", folder.display());
    println!("cargo:rustc-link-lib=static=meter");
}
