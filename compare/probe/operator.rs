//! A child of the original's `operator`, which sees what is private there.

pub fn names() -> Vec<&'static str> {
    super::OPERATOR_MAP.entries().map(|(name, _)| *name).collect()
}
