//! Finds the static library: in the folder that MORDASHUN_LIB_DIR names, or where `rt lib`
//! writes it in crates/mordashun_c.
use std::env;
use std::path::{Path, PathBuf};
use std::process::exit;

const FOLDER: &str = "MORDASHUN_LIB_DIR";
const LIBRARY: &str = "libmordashun_c.a";

fn folder() -> PathBuf {
    match env::var_os(FOLDER) {
        Some(named) => PathBuf::from(named),
        None => Path::new(env!("CARGO_MANIFEST_DIR")).join("../../crates/mordashun_c/out"),
    }
}

fn set(name: &str, wanted: &str) -> bool {
    env::var(name).is_ok_and(|is| is == wanted)
}

fn main() {
    let folder = folder();
    let library = folder.join(LIBRARY);
    println!("cargo:rerun-if-env-changed={FOLDER}");
    println!("cargo:rerun-if-changed=build.rs");
    println!("cargo:rerun-if-changed={}", library.display());
    if !(set("CARGO_CFG_TARGET_ARCH", "x86_64") && set("CARGO_CFG_TARGET_OS", "linux")) {
        eprintln!("mordashun: the library {LIBRARY} is made for x86-64 Linux only.");
        exit(1);
    }
    if !library.is_file() {
        eprintln!("mordashun: there is no {LIBRARY} in {}.", folder.display());
        eprintln!("Make it, in crates/mordashun_c:  rt lib");
        eprintln!("Or name the folder that has it:  {FOLDER}=/that/folder cargo build");
        exit(1);
    }
    println!("cargo:rustc-link-search=native={}", folder.display());
    println!("cargo:rustc-link-lib=static=mordashun_c");
}
