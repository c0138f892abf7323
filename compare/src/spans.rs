//! Span words, an offset and a length in one: by the base of today, by the old one, and the conversions of stored words between them by
//! document 02 (M-105), a second model.

/// What an offset counts for in a span word.
pub const BASE: u64 = 4_294_967_296;

/// What it counted for in words that were stored before.
const OLD_BASE: u64 = 65_536;

/// The largest offset and the largest length that both bases hold.
pub const SHARED: u64 = 65_535;

pub const fn span(offset: u64, len: u64) -> u64 {
    offset * BASE + len
}

/// The span word of what stands from `first` and before `past`.
pub fn between(first: usize, past: usize) -> u64 {
    span(first as u64, (past - first) as u64)
}

/// Offset and length.
pub fn halves(word: u64) -> (usize, usize) {
    ((word / BASE) as usize, (word % BASE) as usize)
}

/// Number and value for an offset and a length that go into a word of another base.
fn converted(offset: u64, len: u64, base: u64) -> (u64, u64) {
    if SHARED < offset || SHARED < len {
        return (21, 0);
    }
    (0, offset * base + len)
}

/// An old word as one of today.
pub fn from_old(word: u64) -> (u64, u64) {
    converted(word / OLD_BASE, word % OLD_BASE, BASE)
}

/// A word of today as an old one.
pub fn to_old(word: u64) -> (u64, u64) {
    converted(word / BASE, word % BASE, OLD_BASE)
}

/// Where halves of words are of one kind on one side and of another beside it.
const HALVES: &[u64] = &[
    0,
    1,
    2,
    255,
    256,
    16_383,
    16_384,
    16_385,
    16_386,
    16_387,
    65_534,
    65_535,
    65_536,
    65_537,
    131_071,
    131_072,
    1_048_575,
    1_048_576,
    1_048_577,
    (1 << 31) - 1,
    1 << 31,
    (1 << 31) + 1,
    (1 << 32) - 2,
    (1 << 32) - 1,
];

/// Offsets that an old word alone has room for.
const FAR: &[u64] = &[1 << 32, (1 << 32) + 1, (1 << 47) - 1, 1 << 47, (1 << 48) - 2, (1 << 48) - 1];

/// Every pair of an offset and a length as a word of either base that holds it, and each power of two with its neighbours.
pub fn edges() -> Vec<u64> {
    let pairs = |offsets: &[&[u64]], lens: u64, base: u64| {
        let of = |offset: u64| HALVES.iter().filter(move |len| **len < lens).map(move |len| offset * base + len);
        offsets.concat().into_iter().flat_map(of).collect::<Vec<u64>>()
    };
    let powers = (0..64).flat_map(|power| [(1u64 << power) - 1, 1 << power, (1 << power) + 1]);
    let ends = [u64::MAX - 1, u64::MAX];
    [pairs(&[HALVES], BASE, BASE), pairs(&[HALVES, FAR], OLD_BASE, OLD_BASE), powers.collect(), ends.to_vec()].concat()
}

#[cfg(test)]
mod tests {
    use super::{edges, from_old, halves, span, to_old};

    /// Document 02's edges.
    #[test]
    fn words_past_either_half_are_refused() {
        assert_eq!([from_old(4_294_967_296), from_old(u64::MAX)], [(21, 0); 2]);
        assert_eq!([to_old(65_536), to_old(1 << 48), to_old(65_535 * 4_294_967_296 + 65_536), to_old(u64::MAX)], [(21, 0); 4]);
        assert_eq!([from_old(0), to_old(0)], [(0, 0); 2]);
    }

    #[test]
    fn halves_keep_what_they_say() {
        assert_eq!(from_old(3 * 65_536 + 7), (0, 3 * 4_294_967_296 + 7));
        assert_eq!((from_old(4_294_967_295), to_old(span(65_535, 65_535))), ((0, span(65_535, 65_535)), (0, 4_294_967_295)));
        assert_eq!(to_old(span(65_535, 0)), (0, 65_535 * 65_536));
        assert_eq!(halves(span(1_048_576, 3)), (1_048_576, 3));
    }

    #[test]
    fn edges_are_on_both_sides() {
        for by in [from_old, to_old] {
            let read = edges().into_iter().filter(|word| by(*word).0 == 0).count();
            assert!(100 < read && 100 < edges().len() - read, "{read} of {}", edges().len());
        }
    }
}
