//! Links libcomtrade.a: from the folder COMTRADE_LIB (PREFIX/lib after `install PREFIX`), or from the
//! folder `lib` next to `rust`, as in the archive of a release, or from where `cc` looks.
use std::path::Path;

fn main() {
    println!("cargo:rerun-if-env-changed=COMTRADE_LIB");
    let here = std::env::var("CARGO_MANIFEST_DIR").expect("cargo sets CARGO_MANIFEST_DIR");
    let beside = Path::new(&here).join("../../lib");
    if let Ok(folder) = std::env::var("COMTRADE_LIB") {
        println!("cargo:rustc-link-search=native={folder}");
    } else if beside.join("libcomtrade.a").exists() {
        println!("cargo:rustc-link-search=native={}", beside.display());
    }
    println!("cargo:rustc-link-lib=static=comtrade");
    println!("cargo:rustc-link-lib=m");
}
