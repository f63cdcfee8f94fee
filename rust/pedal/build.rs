//! Links the proved library `libpedal.a` where it can be linked, on x86-64 Linux, and says how to
//! make it where it is missing. Everywhere else nothing is linked, and the engine is asked.

use std::env;
use std::path::{Path, PathBuf};

/// The variable that names another folder of the archive, absolute or relative to this crate.
const VARIABLE: &str = "PEDAL_LIB";
/// The variable that leaves the archive out where it is `no`: the crate is then built as on a
/// machine that cannot link it.
const LINK: &str = "PEDAL_LINK";
/// The archive's folder where the variable is not set, relative to this crate.
const FOLDER: &str = "../../target/staticlib";
/// The archive.
const ARCHIVE: &str = "libpedal.a";

/// Whether the archive is for the machine that is built for, and wanted.
fn is_linked() -> bool {
    let is = |name: &str, value: &str| env::var(name).is_ok_and(|found| found == value);
    is("CARGO_CFG_TARGET_ARCH", "x86_64") && is("CARGO_CFG_TARGET_OS", "linux") && !is(LINK, "no")
}

/// The folder in which the archive is looked for.
fn folder() -> PathBuf {
    let crate_folder = env::var_os("CARGO_MANIFEST_DIR").unwrap_or_default();
    let named = env::var_os(VARIABLE).filter(|name| !name.is_empty());
    Path::new(&crate_folder).join(named.unwrap_or_else(|| FOLDER.into()))
}

/// Tells cargo to link the archive of a folder, and the crate that it is linked.
fn link(folder: &Path) {
    println!("cargo::rustc-link-search=native={}", folder.display());
    println!("cargo::rustc-link-lib=static=pedal");
    println!("cargo::rustc-cfg=linked");
}

/// Tells cargo what is missing and how to make it, at which cargo stops.
fn complain(archive: &Path) {
    println!(
        "cargo::error=the proved library {} is missing: run `tools/prove library` at the root of \
         the repository first, or let {VARIABLE} name the folder of {ARCHIVE}, or leave it out \
         with {LINK}=no",
        archive.display()
    );
}

/// Links the archive if it is for this machine and there.
fn main() {
    println!("cargo::rustc-check-cfg=cfg(linked)");
    println!("cargo::rerun-if-env-changed={VARIABLE}");
    println!("cargo::rerun-if-env-changed={LINK}");
    if !is_linked() {
        return;
    }
    let folder = folder();
    let archive = folder.join(ARCHIVE);
    println!("cargo::rerun-if-changed={}", archive.display());
    if archive.is_file() {
        link(&folder);
    } else {
        complain(&archive);
    }
}
