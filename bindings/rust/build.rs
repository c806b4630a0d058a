// Finds libcapi.a: in the folder that DANGRISUK_LIB_DIR names, else in the repository's crates/capi/out, where `rt lib`
// makes it if it is missing.
use std::env;
use std::path::{Path, PathBuf};
use std::process::{exit, Command};

const ARCHIVE: &str = "libcapi.a";
const VARIABLE: &str = "DANGRISUK_LIB_DIR";

fn stop(why: &str) -> ! {
    eprintln!("device_tree: {why}");
    eprintln!("device_tree: make {ARCHIVE} by `rt lib` in crates/capi, or set {VARIABLE} to the folder that has it.");
    exit(1)
}

// The repository's archive, made if it is missing.
fn made() -> PathBuf {
    let manifest = env::var_os("CARGO_MANIFEST_DIR").expect("cargo sets CARGO_MANIFEST_DIR");
    let capi = Path::new(&manifest).join("../../crates/capi");
    let folder = capi.join("out");
    if !folder.join(ARCHIVE).is_file() {
        match Command::new("rt").arg("lib").current_dir(&capi).status() {
            Ok(status) if status.success() => (),
            Ok(status) => stop(&format!("`rt lib` failed: {status}.")),
            Err(why) => stop(&format!("no {} and `rt` cannot be run: {why}.", folder.join(ARCHIVE).display())),
        }
    }
    folder
}

fn main() {
    println!("cargo:rerun-if-env-changed={VARIABLE}");
    let folder = env::var_os(VARIABLE).map_or_else(made, PathBuf::from);
    let archive = folder.join(ARCHIVE);
    if !archive.is_file() {
        stop(&format!("no {}.", archive.display()));
    }
    println!("cargo:rerun-if-changed={}", archive.display());
    println!("cargo:rustc-link-search=native={}", folder.display());
    println!("cargo:rustc-link-lib=static=capi");
}
