//! In the place of `regex`: the one type that the original's errors name.

#[derive(Debug)]
pub struct Error;
