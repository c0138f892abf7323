//! Lays the original's files out for the compiler, unchanged.
//!
//! The files open with `//!`, so that `include!` refuses them, and what they keep private is seen only by their own
//! children: so each is copied with one line behind its last byte, `pub mod probe;`, whose file is in probe/.

use std::path::{Path, PathBuf};
use std::{env, fs};

const FILES: [&str; 5] = ["action", "directive", "lexer", "operator", "variable"];

/// The folder of the original, where ORIGINAL_DIR or else the default says.
fn original(default: PathBuf) -> PathBuf {
    println!("cargo:rerun-if-env-changed=ORIGINAL_DIR");
    let named = env::var_os("ORIGINAL_DIR").map_or(default, PathBuf::from);
    if !named.join("parser/lexer.rs").exists() {
        panic!("there is no parser/lexer.rs in {}: set ORIGINAL_DIR to the folder that has it", named.display());
    }
    named.canonicalize().expect("a folder that is there")
}

/// The variants of an enum, in order, out of its source.
fn variants(source: &str, name: &str) -> Vec<String> {
    let body = source.split(&format!("pub enum {name} {{")).nth(1).expect("the enum").split("\n}").next().unwrap();
    let lines = body.lines().map(str::trim).filter(|line| !line.is_empty() && !line.starts_with("//"));
    lines.map(|line| line.trim_end_matches(',').to_string()).collect()
}

fn copied(originals: &Path, here: &Path, out: &Path, name: &str) -> String {
    let mut text = fs::read_to_string(originals.join("parser").join(format!("{name}.rs"))).expect("a file of the original");
    let probe = here.join("probe").join(format!("{name}.rs"));
    for kind in ["VariableName", "OperatorName"] {
        if text.contains(&format!("pub enum {kind} {{")) {
            let all: Vec<String> = variants(&text, kind).iter().map(|v| format!("super::{kind}::{v}")).collect();
            let list = format!("pub const ALL: &[super::{kind}] = &[{}];\n", all.join(", "));
            fs::write(out.join(format!("{name}_all.rs")), list).unwrap();
            let path = out.join(format!("{name}_all.rs"));
            text.push_str(&format!("#[path = {path:?}] pub mod all;\n"));
        }
    }
    if probe.exists() {
        text.push_str(&format!("#[path = {probe:?}] pub mod probe;\n"));
    }
    let copy = out.join(format!("{name}.rs"));
    fs::write(&copy, text).unwrap();
    format!("    #[path = {copy:?}]\n    pub mod {name};\n")
}

fn main() {
    let manifest = PathBuf::from(env::var("CARGO_MANIFEST_DIR").unwrap());
    let here = manifest.ancestors().find(|d| d.join("src/main.rs").exists()).expect("the crate's folder").to_path_buf();
    let out = PathBuf::from(env::var("OUT_DIR").unwrap());

    let originals = original(here.join("../../shared/docs/src"));
    println!("cargo:rerun-if-changed={}", originals.display());
    println!("cargo:rerun-if-changed={}", here.join("probe").display());
    let error = originals.join("error.rs");
    let mut root = format!("#[allow(dead_code)]\n#[path = {error:?}]\npub mod error;\n#[allow(dead_code)]\npub mod parser {{\n");
    for name in FILES {
        root.push_str(&copied(&originals, &here, &out, name));
    }
    root.push_str("    pub use action::{Action, FlowAction, MetadataAction};\n    pub use operator::OperatorSpec;\n    pub use variable::VariableSpec;\n}\n");
    fs::write(out.join("original.rs"), root).unwrap();
}
