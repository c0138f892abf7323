//! Finds libseclang: in the folder that SECLANG_LIB names, else where the repository builds it, else where pkg-config says.
//! The archive is linked where the folder has one, else the shared library.

use std::env;
use std::path::{Path, PathBuf};
use std::process::Command;

const LIBRARIES: [(&str, &str); 2] = [("libseclang.a", "static"), ("libseclang.so", "dylib")];

/// The library in a folder and how it is linked, where there is one.
fn linked(folder: &Path) -> Option<(&'static str, &'static str)> {
    LIBRARIES.into_iter().find(|(file, _)| folder.join(file).exists())
}

/// Where tools/library leaves it.
fn built() -> PathBuf {
    PathBuf::from(env::var_os("CARGO_MANIFEST_DIR").expect("cargo sets it")).join("../../target/staticlib")
}

fn installed() -> Option<PathBuf> {
    let said = Command::new("pkg-config").args(["--variable=libdir", "seclang"]).output().ok()?;
    let folder = String::from_utf8(said.stdout).ok()?;
    said.status.success().then(|| PathBuf::from(folder.trim()))
}

fn main() {
    for variable in ["SECLANG_LIB", "PKG_CONFIG_PATH"] {
        println!("cargo:rerun-if-env-changed={variable}");
    }
    let folder = match env::var_os("SECLANG_LIB") {
        Some(named) => PathBuf::from(named),
        None => Some(built()).filter(|folder| linked(folder).is_some()).or_else(installed).unwrap_or_else(built),
    };
    let Some((file, kind)) = linked(&folder) else {
        panic!("there is no libseclang in {}: tools/library builds it, or set SECLANG_LIB to the folder that has it", folder.display());
    };
    let folder = folder.canonicalize().expect("a folder that is there");
    println!("cargo:rerun-if-changed={}", folder.join(file).display());
    println!("cargo:rustc-link-search=native={}", folder.display());
    println!("cargo:rustc-link-lib={kind}=seclang");
}
