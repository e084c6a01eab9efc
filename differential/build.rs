//! Tells the linker where the static library is: the folder that YOYOMYRTLE_LIB names, else the one that `bin/build library` writes to.

use std::env;
use std::path::PathBuf;

fn main() {
    println!("cargo:rerun-if-changed=build.rs");
    println!("cargo:rerun-if-env-changed=YOYOMYRTLE_LIB");
    if env::var_os("CARGO_FEATURE_LIBRARY").is_none() {
        return;
    }
    let folder = env::var_os("YOYOMYRTLE_LIB").map_or_else(default_folder, PathBuf::from);
    println!(
        "cargo:rerun-if-changed={}",
        folder.join("libadder_c.a").display()
    );
    println!("cargo:rustc-link-search=native={}", folder.display());
    println!("cargo:rustc-link-lib=static=adder_c");
}

fn default_folder() -> PathBuf {
    PathBuf::from(env::var_os("CARGO_MANIFEST_DIR").unwrap_or_default()).join("../target/staticlib")
}
