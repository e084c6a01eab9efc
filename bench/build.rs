//! Tells the linker where the static library is: the folder that YOYOMYRTLE_LIB names, else the one that `bin/build library` writes to. With the
//! feature `before` an earlier archive is linked too, that of the folder YOYOMYRTLE_BEFORE, with `before_` in front of its names.

use std::env;
use std::fs;
use std::path::{Path, PathBuf};
use std::process::Command;

const ARCHIVE: &str = "libadder_c.a";

fn main() {
    println!("cargo:rerun-if-changed=build.rs");
    let now = folder("YOYOMYRTLE_LIB").unwrap_or_else(default_folder);
    println!("cargo:rustc-link-search=native={}", now.display());
    println!("cargo:rustc-link-lib=static=adder_c");
    if env::var_os("CARGO_FEATURE_BEFORE").is_some() {
        let before = folder("YOYOMYRTLE_BEFORE").expect("YOYOMYRTLE_BEFORE names no folder");
        let out = PathBuf::from(env::var_os("OUT_DIR").unwrap_or_default());
        rename(&before.join(ARCHIVE), &out);
        println!("cargo:rustc-link-search=native={}", out.display());
        println!("cargo:rustc-link-lib=static=before");
    }
}

/// A folder that a variable names; its archive is watched.
fn folder(variable: &str) -> Option<PathBuf> {
    println!("cargo:rerun-if-env-changed={variable}");
    let folder = PathBuf::from(env::var_os(variable)?);
    println!("cargo:rerun-if-changed={}", folder.join(ARCHIVE).display());
    Some(folder)
}

fn default_folder() -> PathBuf {
    PathBuf::from(env::var_os("CARGO_MANIFEST_DIR").unwrap_or_default()).join("../target/staticlib")
}

/// Writes the archive as libbefore.a, with other names for all that it defines, so that two builds go into one program.
fn rename(archive: &Path, out: &Path) {
    let mut nm = Command::new("nm");
    let listed = nm
        .args(["-g", "--defined-only", "-P"])
        .arg(archive)
        .output();
    let listed = String::from_utf8(listed.expect("nm runs").stdout).expect("names in ASCII");
    let defined = listed.lines().filter(|line| !line.ends_with(':'));
    let names = defined.filter_map(|line| line.split(' ').next());
    let renamed: String = names
        .map(|name| format!("{name} before_{name}\n"))
        .collect();
    let list = out.join("names");
    fs::write(&list, renamed).expect("the names can be written");
    let mut objcopy = Command::new("objcopy");
    objcopy.arg("--redefine-syms").arg(list).arg(archive);
    let done = objcopy.arg(out.join("libbefore.a")).status();
    assert!(done.expect("objcopy runs").success(), "objcopy failed");
}
