//! Links the archive that `bindings/build` makes: from the folder that the environment variable LEMIDROSY_LIB_DIR names, or from `target/lemidrosy/lib` of the tree
//! that this package stands in.

use std::path::PathBuf;

fn main() {
    println!("cargo:rerun-if-env-changed=LEMIDROSY_LIB_DIR");
    let here = PathBuf::from(std::env::var_os("CARGO_MANIFEST_DIR").expect("cargo sets it"));
    let built = here.join("../../target/lemidrosy/lib");
    let folder = std::env::var_os("LEMIDROSY_LIB_DIR").map_or(built, PathBuf::from);
    let archive = folder.join("liblemidrosy.a");
    if !archive.is_file() {
        panic!("{} is not there: run bindings/build, or name the library's folder in LEMIDROSY_LIB_DIR", archive.display());
    }
    println!("cargo:rerun-if-changed={}", archive.display());
    println!("cargo:rustc-link-search=native={}", folder.display());
    println!("cargo:rustc-link-lib=static=lemidrosy");
}
