//! The readers by name, and the shapes of what is lent to them.

#[derive(Clone, Copy, Debug, PartialEq)]
pub enum Reader {
    NextToken,
    Tokens,
    PlainTokens,
    Actions,
    Setvar,
    Variables,
    Updates,
    Operator,
    Lookup,
    Test,
    XmlTarget,
    Phase,
    Grade,
    Matches,
    ListText,
    WriteListing,
    WriteRefusal,
    Directives,
    SpanFromOld,
    SpanToOld,
    IndexAdd,
    IndexRemove,
    WriteActions,
    /// No reader of its own: `Directives` for 2.7.
    Directives27,
    /// No reader: a part that `Directives` underlines, read alone.
    Underlined,
}

pub const READERS: [Reader; 25] = [
    Reader::NextToken,
    Reader::Tokens,
    Reader::PlainTokens,
    Reader::Actions,
    Reader::Setvar,
    Reader::Variables,
    Reader::Updates,
    Reader::Operator,
    Reader::Lookup,
    Reader::Test,
    Reader::XmlTarget,
    Reader::Phase,
    Reader::Grade,
    Reader::Matches,
    Reader::ListText,
    Reader::WriteListing,
    Reader::WriteRefusal,
    Reader::Directives,
    Reader::SpanFromOld,
    Reader::SpanToOld,
    Reader::IndexAdd,
    Reader::IndexRemove,
    Reader::WriteActions,
    Reader::Directives27,
    Reader::Underlined,
];

/// Words of a record, of each kind.
pub const TOKEN_WORDS: usize = 5;
pub const ACTION_WORDS: usize = 7;
pub const VARIABLE_WORDS: usize = 6;
pub const DIRECTIVE_WORDS: usize = 11;

/// How much is lent, beside what is needed: one of `SHAPES` for each call, in turn.
#[derive(Clone, Copy, Debug)]
pub struct Shape {
    /// More or fewer bytes of text, or none at all.
    pub text: Option<isize>,
    /// The same for scratch, and for words of records.
    pub scratch: Option<isize>,
    pub records: Option<isize>,
    /// More or fewer words for the values.
    pub values: Option<isize>,
}

const fn shape(text: Option<isize>, scratch: Option<isize>, records: Option<isize>, values: Option<isize>) -> Shape {
    Shape { text, scratch, records, values }
}

pub const SHAPES: [Shape; 12] = [
    shape(Some(9), Some(7), Some(13), Some(4)),
    shape(Some(0), Some(0), Some(0), Some(0)),
    shape(Some(-1), Some(0), Some(7), Some(1)),
    shape(Some(0), Some(0), Some(-1), Some(2)),
    shape(Some(1), Some(-1), Some(1), Some(3)),
    shape(Some(2), Some(2), None, Some(4)),
    shape(Some(3), Some(1), Some(4), Some(-1)),
    shape(None, Some(3), Some(12), Some(4)),
    shape(Some(20), Some(40), Some(-5), None),
    shape(Some(40), Some(20), Some(-7), Some(4)),
    shape(Some(4), Some(4), Some(31), Some(8)),
    shape(Some(1), None, Some(2), Some(4)),
];

/// What is lent for a long text: each of these, with one answer of the original.
pub const LONG_SHAPES: [Shape; 5] = [
    shape(Some(0), Some(0), Some(0), Some(0)),
    shape(Some(9), Some(7), Some(13), Some(4)),
    shape(Some(1), Some(1), Some(-1), Some(-1)),
    shape(Some(-1), Some(0), Some(0), Some(1)),
    shape(Some(0), Some(-1), Some(2), Some(3)),
];

/// So many, and so many more or fewer.
pub fn sized(needed: usize, more: Option<isize>) -> usize {
    more.map_or(0, |more| needed.saturating_add_signed(more))
}

/// How much is lent to the reader of whole directives, beside what is needed: every one of `PACKAGE_SHAPES` for each text.
#[derive(Clone, Copy, Debug)]
pub struct PackageShape {
    /// More or fewer bytes of text and of scratch, or none at all.
    pub bytes: [Option<isize>; 2],
    /// The same for words of directive, variable and action records.
    pub words: [Option<isize>; 3],
    /// More or fewer words for the values.
    pub values: Option<isize>,
}

const fn lends(text: isize, scratch: isize, words: [Option<isize>; 3], values: Option<isize>) -> PackageShape {
    PackageShape { bytes: [Some(text), Some(scratch)], words, values }
}

const EXACT: [Option<isize>; 3] = [Some(0); 3];

pub const PACKAGE_SHAPES: [PackageShape; 19] = [
    lends(0, 0, EXACT, Some(0)),
    lends(9, 7, [Some(13), Some(9), Some(8)], Some(4)),
    lends(40, 20, [Some(11), Some(6), Some(7)], Some(6)),
    lends(1, 2, [Some(10), Some(5), Some(6)], Some(1)),
    lends(-1, 0, EXACT, Some(2)),
    lends(0, -1, EXACT, Some(3)),
    lends(-1, -1, [None; 3], Some(-1)),
    PackageShape { bytes: [None, Some(3)], words: EXACT, values: Some(4) },
    PackageShape { bytes: [Some(3), None], words: EXACT, values: Some(4) },
    lends(0, 1, [Some(-1), Some(0), Some(0)], Some(0)),
    lends(1, 0, [Some(0), Some(-1), Some(0)], Some(2)),
    lends(2, 2, [Some(0), Some(0), Some(-1)], Some(-1)),
    lends(0, 0, [Some(-11), Some(30), Some(0)], Some(4)),
    lends(5, 0, [Some(0), Some(-6), Some(8)], Some(0)),
    lends(0, 6, [Some(22), Some(0), Some(-7)], Some(1)),
    lends(3, 3, [None, Some(2), Some(0)], Some(4)),
    lends(0, 0, [Some(0), None, Some(3)], None),
    lends(4, 1, [Some(1), Some(1), None], Some(-1)),
    lends(8, 8, [None; 3], Some(0)),
];

/// The same for a long package: exact, roomy by a little, and one short.
pub const LONG_PACKAGE_SHAPES: [PackageShape; 7] = [
    lends(0, 0, EXACT, Some(0)),
    lends(9, 7, [Some(13), Some(9), Some(8)], Some(4)),
    lends(-1, 0, EXACT, Some(2)),
    lends(0, -1, EXACT, Some(3)),
    lends(0, 1, [Some(-1), Some(0), Some(0)], Some(0)),
    lends(1, 0, [Some(0), Some(-1), Some(0)], Some(-1)),
    lends(0, 0, [Some(0), Some(0), Some(-1)], Some(1)),
];

#[cfg(test)]
mod tests {
    use super::{ACTION_WORDS, DIRECTIVE_WORDS, TOKEN_WORDS, VARIABLE_WORDS};

    /// Records are as wide as the header says.
    #[test]
    fn widths_are_the_headers() {
        let header = include_str!("../../include/seclang.h");
        let widths = [("TOKEN", TOKEN_WORDS), ("ACTION", ACTION_WORDS), ("VARIABLE", VARIABLE_WORDS), ("DIRECTIVE", DIRECTIVE_WORDS)];
        for (kind, width) in widths {
            assert!(header.contains(&format!("#define SECLANG_{kind}_WORDS {width}\n")), "{kind}");
        }
    }
}
