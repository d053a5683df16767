//! Finds the archive that is linked: in the folder that ZELVORM_LIB_DIR names, in the repository, or where both are installed.

use std::env;
use std::path::PathBuf;

fn main() {
    println!("cargo:rerun-if-env-changed=ZELVORM_LIB_DIR");
    let here = PathBuf::from(env::var_os("CARGO_MANIFEST_DIR").expect("cargo names the crate's folder"));
    let places = match env::var_os("ZELVORM_LIB_DIR") {
        Some(named) => vec![PathBuf::from(named)],
        None => vec![here.join("../../target/library"), here.join("../../../lib")],
    };
    let Some(found) = places.iter().find(|place| place.join("libzelvorm.a").is_file()) else {
        panic!("no libzelvorm.a in {places:?}: build it (tools/build_library), or name its folder in ZELVORM_LIB_DIR");
    };
    println!("cargo:rerun-if-changed={}", found.join("libzelvorm.a").display());
    println!("cargo:rustc-link-search=native={}", found.display());
    println!("cargo:rustc-link-lib=static=zelvorm");
}
