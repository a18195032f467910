//! Links the proved builder, which `rt lib` in crates/bridge writes.

use std::path::Path;
use std::process::exit;

fn main() {
    let here = std::env::var("CARGO_MANIFEST_DIR").expect("cargo sets CARGO_MANIFEST_DIR");
    let folder = Path::new(&here).join("../../crates/bridge/out");
    let library = folder.join("libbridge.a");
    println!("cargo:rerun-if-changed={}", library.display());
    if !library.is_file() {
        eprintln!("The proved builder is not there: crates/bridge/out/libbridge.a.");
        eprintln!("Run `rt lib` in crates/bridge first.");
        exit(1);
    }
    println!("cargo:rustc-link-search=native={}", folder.display());
    println!("cargo:rustc-link-lib=static=bridge");
}
