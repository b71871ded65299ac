//! Links the proved engine, which stands as a static library in the
//! folder out of its crate.

use std::env;
use std::path::Path;
use std::process::exit;

fn main() {
    let here = env::var("CARGO_MANIFEST_DIR").expect("set while building");
    let folder = Path::new(&here).join("../../crates/mordashun_c/out");
    let archive = folder.join("libmordashun_c.a");
    println!("cargo:rerun-if-changed={}", archive.display());
    if !archive.exists() {
        eprintln!("The engine's static library is missing: crates/mordashun_c/out/libmordashun_c.a.");
        eprintln!("Run `rt lib` in crates/mordashun_c, then try again.");
        exit(1);
    }
    println!("cargo:rustc-link-search=native={}", folder.display());
    println!("cargo:rustc-link-lib=static=mordashun_c");
}
