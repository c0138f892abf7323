//! Says what is wrong with packages for ModSecurity 2.6 or before, or for 2.7 or later, as a compiler does:
//! `cargo run --example check -- 2.7 FILE..`. Exit status 1 where one is refused.

use seclang::Version;
use std::error::Error;

fn main() -> Result<(), Box<dyn Error>> {
    let mut words = std::env::args().skip(1);
    let version = match words.next().as_deref() {
        Some("2.6") => Version::V2_6,
        Some("2.7") => Version::V2_7,
        _ => return Err("check 2.6 FILE.. or check 2.7 FILE..".into()),
    };
    let mut fine = true;
    for file in words {
        let package = std::fs::read(&file)?;
        if let Err(refusal) = seclang::directives(&package, version) {
            println!("{}", refusal.message(&file, &package));
            fine = false;
        }
    }
    std::process::exit(if fine { 0 } else { 1 });
}
