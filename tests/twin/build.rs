//! Links the machine under test, a static library, if it is there. Without it the twin is
//! built with a stand-in that refuses everything, so that it can be developed alone.

use std::env;
use std::path::PathBuf;

fn main() {
    println!("cargo:rustc-check-cfg=cfg(machine_linked)");
    println!("cargo:rerun-if-env-changed=MOVKRESAN_LIB");
    let folder = library_folder();
    let archive = folder.join("libmachine.a");
    println!("cargo:rerun-if-changed={}", archive.display());
    if archive.is_file() {
        println!("cargo:rustc-cfg=machine_linked");
        println!("cargo:rustc-link-search=native={}", folder.display());
        println!("cargo:rustc-link-lib=static=machine");
    } else {
        println!("cargo:warning=no machine at {}: a stand-in is built", archive.display());
    }
}

fn library_folder() -> PathBuf {
    let manifest = PathBuf::from(env::var_os("CARGO_MANIFEST_DIR").expect("cargo sets this"));
    match env::var_os("MOVKRESAN_LIB") {
        Some(folder) => PathBuf::from(folder),
        None => manifest.join("../../target/staticlib"),
    }
}
