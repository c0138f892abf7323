//! The library, by the slice functions of its crate for Rust hosts (bindings/rust): any lent buffers, the number back.

use crate::original::Cursor;
pub use seclang::raw::*;

pub fn next_token(input: &[u8], from: Cursor, text: &mut [u8], values: &mut [u64]) -> u64 {
    let Cursor { place, line, column, mark } = from;
    seclang::raw::next_token(input, seclang::Cursor { place, line, column, mark }, text, values)
}
