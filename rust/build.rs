//! Finds the archive of the proved library and tells the linker of it.
//!
//! The archive is `libzelmotar.a` in the folder that the environment variable `ZELMOTAR_LIB` names,
//! else in `target/native` of the repository. It is made by `tools/archive`.

use std::env;
use std::path::{Path, PathBuf};

const ARCHIVE: &str = "libzelmotar.a";

/// The folder that should hold the archive.
///
/// A relative one is refused: cargo builds in the package's folder, so nobody can tell where the
/// user who set it stands.
fn folder() -> Result<PathBuf, String> {
    let package = env::var_os("CARGO_MANIFEST_DIR").expect("cargo sets CARGO_MANIFEST_DIR");
    match env::var_os("ZELMOTAR_LIB").filter(|folder| !folder.is_empty()) {
        None => Ok(Path::new(&package).join("../target/native")),
        Some(folder) if Path::new(&folder).is_absolute() => Ok(PathBuf::from(folder)),
        Some(folder) => {
            let shown = Path::new(&folder).display();
            Err(format!("ZELMOTAR_LIB is `{shown}`, and must be an absolute path"))
        }
    }
}

fn main() {
    println!("cargo::rerun-if-env-changed=ZELMOTAR_LIB");
    println!("cargo::rerun-if-changed=build.rs");
    let folder = match folder() {
        Ok(folder) => folder,
        Err(why) => return println!("cargo::error={why}"),
    };
    let archive = folder.join(ARCHIVE);
    println!("cargo::rerun-if-changed={}", archive.display());
    if !archive.is_file() {
        println!("cargo::error=the proved library is not at {}", archive.display());
        println!(
            "cargo::error=run `tools/archive target/native/{ARCHIVE}` in the repository's root,"
        );
        println!("cargo::error=or set ZELMOTAR_LIB to a folder that holds {ARCHIVE}");
        return;
    }
    println!("cargo::rustc-link-search=native={}", folder.display());
    println!("cargo::rustc-link-lib=static=zelmotar");
}
