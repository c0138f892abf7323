//! Whole directives: each text for 2.6 and for 2.7, with every shape of what is lent, beside the model's answer.

use super::spans::{all_held, of_records, of_refusal};
use super::{gate, readable, Checked, Checker};
use crate::directives::{self, Package, Version, VERSIONS, WIDTHS};
use crate::lent::After;
use crate::ours;
use crate::readers::{sized, PackageShape, Reader, LONG_PACKAGE_SHAPES, PACKAGE_SHAPES};

/// Lengths of what is lent: text and scratch, three record buffers, values.
#[derive(Debug)]
struct Lens {
    bytes: [usize; 2],
    words: [usize; 3],
    values: usize,
}

/// A package for a version and what the model gives. Record buffers are sized by what 2.6 reads, so that there is much to clear where an
/// id is missed late.
struct Asked<'a> {
    input: &'a [u8],
    version: Version,
    read: &'a Package,
    lent: &'a Package,
}

impl Asked<'_> {
    fn lens(&self, shape: PackageShape) -> Lens {
        let [d, v, a] = shape.words;
        Lens {
            bytes: shape.bytes.map(|more| sized(self.input.len(), more)),
            words: [sized(self.lent.directives.len(), d), sized(self.lent.variables.len(), v), sized(self.lent.actions.len(), a)],
            values: sized(self.read.values.len(), shape.values),
        }
    }
}

impl Checker {
    /// All lent memory is as it was.
    fn untouched(&self) -> bool {
        let bytes = self.text.is(After::Untouched) && self.scratch.is(After::Untouched);
        bytes && [&self.records, &self.variables, &self.actions].iter().all(|lent| lent.is(After::Untouched))
    }

    /// Texts or a name, the records, and zeros beyond; scratch all zero.
    fn as_read(&self, o: &Package) -> Checked {
        if !self.text.is(After::Padded(&o.texts)) {
            return Err(format!("text {}", self.text.shown(After::Padded(&o.texts))));
        }
        if !self.scratch.is(After::Padded(&[])) {
            return Err(format!("scratch {}, which must be zero", self.scratch.shown(After::Padded(&[]))));
        }
        for (of, lent, words) in [
            ("directive", &self.records, &o.directives),
            ("variable", &self.variables, &o.variables),
            ("action", &self.actions, &o.actions),
        ] {
            if !lent.is(After::Padded(words)) {
                return Err(format!("{of} words {}", lent.shown(After::Padded(words))));
            }
        }
        Ok(())
    }

    fn package(&mut self, asked: &Asked, shape: PackageShape) -> Checked {
        let (newer, lens) = (asked.version == Version::V2_7, asked.lens(shape));
        self.counts[if newer { Reader::Directives27 } else { Reader::Directives } as usize] += 1;
        let (input, read) = (asked.input, asked.read);
        let Lens { bytes: [n, k], words: [d, v, a], values } = lens;
        let got = ours::directives(
            input,
            newer,
            self.text.lend(n),
            self.scratch.lend(k),
            self.records.lend(d),
            self.variables.lend(v),
            self.actions.lend(a),
            self.values.lend(values),
        );
        let checked = match gate(input, n.min(k), input.len()) {
            Some((number, value)) => self.told(got, number, &[value], values).and_then(|()| {
                let kept = self.untouched();
                kept.then_some(()).ok_or_else(|| format!("number {number}, and lent memory is touched"))
            }),
            None => {
                let without_room = read.without_room(lens.words);
                let o = without_room.as_ref().unwrap_or(read);
                self.told(got, o.number, &o.values, values).and_then(|()| self.as_read(o))
            }
        };
        checked.map_err(|e| format!("{e}; {lens:?}"))
    }

    /// The span words of what our own call left in records that fit exactly, by the old base.
    fn package_kept(&mut self, input: &[u8], read: &Package) -> Checked {
        if !self.converted || readable(input).is_none() {
            return Ok(());
        }
        let refused = of_refusal(read.number, self.values.front(read.values.len()));
        let [d, v, a] = WIDTHS;
        let directives = of_records(self.records.front(read.directives.len()), d);
        let variables = of_records(self.variables.front(read.variables.len()), v);
        let actions = of_records(self.actions.front(read.actions.len()), a);
        let counts = all_held(input, refused.into_iter().chain(directives).chain(variables).chain(actions))?;
        self.tally(counts);
        Ok(())
    }

    /// With every shape of what is lent.
    fn shaped(&mut self, asked: &Asked) -> Checked {
        let shapes = if self.long { &LONG_PACKAGE_SHAPES[..] } else { &PACKAGE_SHAPES };
        let (exact, others) = shapes.split_first().expect("the first is exact");
        self.package(asked, *exact)?;
        self.package_kept(asked.input, asked.read)?;
        others.iter().try_for_each(|shape| self.package(asked, *shape))
    }

    pub(super) fn packages(&mut self, input: &[u8]) -> Checked {
        let model = |version| readable(input).map(|text| directives::read(text, version)).unwrap_or_default();
        let [older, newer] = VERSIONS.map(model);
        for (version, read) in VERSIONS.into_iter().zip([&older, &newer]) {
            let asked = Asked { input, version, read, lent: &older };
            self.shaped(&asked).map_err(|e| format!("{version:?}: {e}"))?;
        }
        self.missed += u64::from(newer.number == 18);
        self.continued += u64::from(newer.rests_on_chain());
        // what 2.7 reads underlines the same, and is written the same
        self.underlined(input, &older)?;
        self.writes_one_of(&older)
    }
}

#[cfg(test)]
mod tests {
    use super::super::gate;
    use crate::original::LIMIT;

    /// Lent memory is judged behind the text's length and bytes, and before anything in it.
    #[test]
    fn short_buffers_come_behind_the_text() {
        assert_eq!(gate(b"SecMarker ab", 11, 12), Some((3, 0)));
        assert_eq!(gate(b"SecRule x", 8, 9), Some((3, 0)));
        assert_eq!(gate(b"SecMarker ab", 12, 12), None);
        assert_eq!(gate(b"SecMarker \x80", 0, 11), Some((2, 10)));
        assert_eq!(gate(&vec![0x80; LIMIT + 1], 0, LIMIT + 1), Some((1, 1_048_576)));
    }
}
