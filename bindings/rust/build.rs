//! Says where the archive of the proved functions is; `src/raw.rs` links it.
use std::path::{Path, PathBuf};
use std::{env, process};

const FOLDER: &str = "QUAYSAFFRON_LIB";
const ARCHIVE: &str = "libquaysaffron_c.a";

/// What cargo says of the target.
fn target(what: &str) -> String {
    env::var(format!("CARGO_CFG_TARGET_{what}")).unwrap_or_default()
}

/// Why the crate cannot be built here, if it cannot.
fn hindrance(folder: &Path) -> Option<String> {
    let [arch, system, width] = ["ARCH", "OS", "POINTER_WIDTH"].map(target);
    if [&*arch, &*system, &*width] != ["x86_64", "linux", "64"] {
        return Some(format!(
            "the library is for x86-64 Linux, not for {arch} {system}"
        ));
    }
    // the linker runs in a folder of cargo's choice
    if folder.is_relative() {
        return Some(format!(
            "{FOLDER} must be an absolute path, and is {}",
            folder.display()
        ));
    }
    let archive = folder.join(ARCHIVE);
    if archive.is_file() {
        return None;
    }
    Some(format!(
        "{} is missing; `bindings/make library`, run from the repository's root, makes it (x86-64 Linux with the Rattle kit), \
         and {FOLDER} names another folder",
        archive.display()
    ))
}

fn main() {
    let here = PathBuf::from(env::var_os("CARGO_MANIFEST_DIR").unwrap_or_default());
    let folder = env::var_os(FOLDER).map_or(here.join("../../target/staticlib"), PathBuf::from);
    println!("cargo:rerun-if-env-changed={FOLDER}");
    println!("cargo:rerun-if-changed={}", folder.join(ARCHIVE).display());
    if let Some(why) = hindrance(&folder) {
        eprintln!("quaysaffron: {why}");
        process::exit(1);
    }
    println!("cargo:rustc-link-search=native={}", folder.display());
}
