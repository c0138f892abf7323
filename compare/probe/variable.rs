//! A child of the original's `variable`, which sees what is private there.

pub fn names() -> Vec<&'static str> {
    super::VARIABLE_MAP.entries().map(|(name, _)| *name).collect()
}
