//! The library's functions over any lent buffers of any length, as `include/seclang.h` has them: the number back, values and records
//! as words. Nothing is sized, decoded or refused here. The one place with `unsafe`: each call passes a slice as its pointer and
//! its length.

use crate::Cursor;

mod c {
    extern "C" {
        pub fn seclang_next_token(
            input: *const u8,
            input_len: usize,
            place: usize,
            line: usize,
            column: usize,
            mark: bool,
            text: *mut u8,
            text_len: usize,
            values: *mut u64,
            values_len: usize,
        ) -> u64;
        pub fn seclang_tokens(
            input: *const u8,
            input_len: usize,
            text: *mut u8,
            text_len: usize,
            records: *mut u64,
            records_len: usize,
            values: *mut u64,
            values_len: usize,
        ) -> u64;
        pub fn seclang_plain_tokens(
            input: *const u8,
            input_len: usize,
            text: *mut u8,
            text_len: usize,
            records: *mut u64,
            records_len: usize,
            values: *mut u64,
            values_len: usize,
        ) -> u64;
        pub fn seclang_parse_actions(
            input: *const u8,
            input_len: usize,
            text: *mut u8,
            text_len: usize,
            scratch: *mut u8,
            scratch_len: usize,
            records: *mut u64,
            records_len: usize,
            values: *mut u64,
            values_len: usize,
        ) -> u64;
        pub fn seclang_directives(
            input: *const u8,
            input_len: usize,
            from_2_7: bool,
            text: *mut u8,
            text_len: usize,
            scratch: *mut u8,
            scratch_len: usize,
            directives: *mut u64,
            directives_len: usize,
            variables: *mut u64,
            variables_len: usize,
            actions: *mut u64,
            actions_len: usize,
            values: *mut u64,
            values_len: usize,
        ) -> u64;
        pub fn seclang_parse_setvar(
            input: *const u8,
            input_len: usize,
            text: *mut u8,
            text_len: usize,
            records: *mut u64,
            records_len: usize,
            values: *mut u64,
            values_len: usize,
        ) -> u64;
        pub fn seclang_parse_variables(
            input: *const u8,
            input_len: usize,
            text: *mut u8,
            text_len: usize,
            records: *mut u64,
            records_len: usize,
            values: *mut u64,
            values_len: usize,
        ) -> u64;
        pub fn seclang_parse_update_targets(
            input: *const u8,
            input_len: usize,
            text: *mut u8,
            text_len: usize,
            records: *mut u64,
            records_len: usize,
            values: *mut u64,
            values_len: usize,
        ) -> u64;
        pub fn seclang_parse_operator(input: *const u8, input_len: usize, values: *mut u64, values_len: usize) -> u64;
        pub fn seclang_lookup(table: u64, name: *const u8, name_len: usize) -> u64;
        pub fn seclang_test(test: u64, code: u64) -> bool;
        pub fn seclang_xml_target(selection: u64, text: *const u8, text_len: usize) -> u64;
        pub fn seclang_phase(records: *const u64, records_len: usize) -> u64;
        pub fn seclang_grade(records: *const u64, records_len: usize) -> bool;
        pub fn seclang_matches(ranged: bool, start: u64, end: u64, id: u64) -> bool;
        pub fn seclang_index_add(
            index: *mut u64,
            index_len: usize,
            actions: *const u64,
            actions_len: usize,
            line: u64,
            values: *mut u64,
            values_len: usize,
        ) -> u64;
        pub fn seclang_index_remove(
            index: *mut u64,
            index_len: usize,
            ranged: bool,
            start: u64,
            end: u64,
            values: *mut u64,
            values_len: usize,
        ) -> u64;
        pub fn seclang_list_text(
            input: *const u8,
            input_len: usize,
            text: *mut u8,
            text_len: usize,
            records: *mut u64,
            records_len: usize,
            out: *mut u8,
            out_len: usize,
            values: *mut u64,
            values_len: usize,
        ) -> u64;
        pub fn seclang_write_listing(
            records: *const u64,
            records_len: usize,
            text: *const u8,
            text_len: usize,
            early: bool,
            line: usize,
            column: usize,
            out: *mut u8,
            out_len: usize,
            values: *mut u64,
            values_len: usize,
        ) -> u64;
        pub fn seclang_write_actions(
            records: *const u64,
            records_len: usize,
            text: *const u8,
            text_len: usize,
            out: *mut u8,
            out_len: usize,
            values: *mut u64,
            values_len: usize,
        ) -> u64;
        pub fn seclang_span_from_old(word: u64, values: *mut u64, values_len: usize) -> u64;
        pub fn seclang_span_to_old(word: u64, values: *mut u64, values_len: usize) -> u64;
        pub fn seclang_version() -> u64;
        pub fn seclang_write_refusal(number: u64, place: u64, out: *mut u8, out_len: usize, values: *mut u64, values_len: usize) -> u64;
    }
}

/// A reader that fills a text and a record buffer.
pub type Filler = fn(&[u8], &mut [u8], &mut [u64], &mut [u64]) -> u64;

macro_rules! filler {
    ($(#[$about:meta])* $name:ident, $c:ident) => {
        $(#[$about])*
        #[inline]
        pub fn $name(input: &[u8], text: &mut [u8], records: &mut [u64], values: &mut [u64]) -> u64 {
            // SAFETY: the pointers and lengths are those of slices that live through the call, and no two of them overlap.
            unsafe {
                c::$c(
                    input.as_ptr(),
                    input.len(),
                    text.as_mut_ptr(),
                    text.len(),
                    records.as_mut_ptr(),
                    records.len(),
                    values.as_mut_ptr(),
                    values.len(),
                )
            }
        }
    };
}

filler! {
    /// All tokens of a text: five words to a record.
    tokens, seclang_tokens
}
filler! {
    /// The same by the plain lexer.
    plain_tokens, seclang_plain_tokens
}
filler! {
    /// A setvar alone: one action record, of seven words. `text` is asked to be three bytes longer than the input.
    parse_setvar, seclang_parse_setvar
}
filler! {
    /// A list of variables: six words to a record.
    parse_variables, seclang_parse_variables
}
filler! {
    /// A list of update targets, whose exclusions are looked up too.
    parse_update_targets, seclang_parse_update_targets
}

/// One token at a cursor: its text at the front of `text`, and by values the token and the next cursor.
#[inline]
pub fn next_token(input: &[u8], from: Cursor, text: &mut [u8], values: &mut [u64]) -> u64 {
    // SAFETY: as above.
    unsafe {
        c::seclang_next_token(
            input.as_ptr(),
            input.len(),
            from.place,
            from.line,
            from.column,
            from.mark,
            text.as_mut_ptr(),
            text.len(),
            values.as_mut_ptr(),
            values.len(),
        )
    }
}

/// An action list: seven words to a record. `scratch` too is asked to be as long as the input and takes the normalised list.
#[inline]
pub fn parse_actions(input: &[u8], text: &mut [u8], scratch: &mut [u8], records: &mut [u64], values: &mut [u64]) -> u64 {
    // SAFETY: as above.
    unsafe {
        c::seclang_parse_actions(
            input.as_ptr(),
            input.len(),
            text.as_mut_ptr(),
            text.len(),
            scratch.as_mut_ptr(),
            scratch.len(),
            records.as_mut_ptr(),
            records.len(),
            values.as_mut_ptr(),
            values.len(),
        )
    }
}

/// The directives of a package; `scratch` too is asked to be as long as the input. Eleven words to a directive record, six to a
/// variable's and seven to an action's. With `from_2_7` a rule that continues no chain must have an id, as
/// [`Version::V2_7`](crate::Version::V2_7) says.
#[inline]
#[allow(clippy::too_many_arguments)]
pub fn directives(
    input: &[u8],
    from_2_7: bool,
    text: &mut [u8],
    scratch: &mut [u8],
    directives: &mut [u64],
    variables: &mut [u64],
    actions: &mut [u64],
    values: &mut [u64],
) -> u64 {
    // SAFETY: as above.
    unsafe {
        c::seclang_directives(
            input.as_ptr(),
            input.len(),
            from_2_7,
            text.as_mut_ptr(),
            text.len(),
            scratch.as_mut_ptr(),
            scratch.len(),
            directives.as_mut_ptr(),
            directives.len(),
            variables.as_mut_ptr(),
            variables.len(),
            actions.as_mut_ptr(),
            actions.len(),
            values.as_mut_ptr(),
            values.len(),
        )
    }
}

/// An operator: by values whether it is negated, its code, and where its argument stands and how long it is; or where an unknown name
/// stands, how long it is, and both as a span.
#[inline]
pub fn parse_operator(input: &[u8], values: &mut [u64]) -> u64 {
    // SAFETY: as above.
    unsafe { c::seclang_parse_operator(input.as_ptr(), input.len(), values.as_mut_ptr(), values.len()) }
}

/// The base of a span word, which is offset * base + length.
pub const SPAN_BASE: u64 = 4_294_967_296;

/// What `lookup` gives for a name that has no code.
pub const UNKNOWN: u64 = u64::MAX;

/// A name's code in a table: 0 variables, 1 operators, 2 severity words; else [`UNKNOWN`].
#[inline]
pub fn lookup(table: u64, name: &[u8]) -> u64 {
    // SAFETY: as above.
    unsafe { c::seclang_lookup(table, name.as_ptr(), name.len()) }
}

/// A test on a code: 0 is it a collection, 1 is it implemented, 2 does the operator need an argument.
#[inline]
pub fn test(test: u64, code: u64) -> bool {
    // SAFETY: numbers only.
    unsafe { c::seclang_test(test, code) }
}

/// What an XML selection asks for, by the selection's kind and text: 0 elements, 1 attributes, 2 all, 3 none of these.
#[inline]
pub fn xml_target(selection: u64, text: &[u8]) -> u64 {
    // SAFETY: as above.
    unsafe { c::seclang_xml_target(selection, text.as_ptr(), text.len()) }
}

/// A rule's phase, out of action records.
#[inline]
pub fn phase(records: &[u64]) -> u64 {
    // SAFETY: as above.
    unsafe { c::seclang_phase(records.as_ptr(), records.len()) }
}

/// A rule's house grade, out of action records.
#[inline]
pub fn grade(records: &[u64]) -> bool {
    // SAFETY: as above.
    unsafe { c::seclang_grade(records.as_ptr(), records.len()) }
}

/// Whether a selector takes an id: start alone, or with `ranged` from start to end, both included.
#[inline]
pub fn matches(ranged: bool, start: u64, end: u64, id: u64) -> bool {
    // SAFETY: numbers only.
    unsafe { c::seclang_matches(ranged, start, end, id) }
}

/// Adds a rule to an index of ids: its action records, whole ones, and its directive's line. By values whether it was entered (1, else
/// 0) and how many rules the index has now; with 16 the line of the rule that has the id, with 17 the places, with 20 a 0.
///
/// An index is a count, then id and line of each rule by turns, ids strictly ascending, and zeros beyond: `1 + 2 * n` zeros are an empty
/// one with places for n rules. [`IndexRefusal::from_raw`](crate::IndexRefusal::from_raw) tells what a number refuses.
#[inline]
pub fn index_add(index: &mut [u64], actions: &[u64], line: u64, values: &mut [u64]) -> u64 {
    // SAFETY: as above.
    unsafe {
        c::seclang_index_add(index.as_mut_ptr(), index.len(), actions.as_ptr(), actions.len(), line, values.as_mut_ptr(), values.len())
    }
}

/// Removes the rules from an index whose ids a selector takes, which is that of [`matches()`]. By values how many were removed and how
/// many rules the index has now; with 20 a 0.
#[inline]
pub fn index_remove(index: &mut [u64], ranged: bool, start: u64, end: u64, values: &mut [u64]) -> u64 {
    // SAFETY: as above.
    unsafe { c::seclang_index_remove(index.as_mut_ptr(), index.len(), ranged, start, end, values.as_mut_ptr(), values.len()) }
}

/// A text's listing, as JSON and a line feed, in `out`; `text` and `records` as [`tokens`] leaves them.
#[inline]
pub fn list_text(input: &[u8], text: &mut [u8], records: &mut [u64], out: &mut [u8], values: &mut [u64]) -> u64 {
    // SAFETY: as above.
    unsafe {
        c::seclang_list_text(
            input.as_ptr(),
            input.len(),
            text.as_mut_ptr(),
            text.len(),
            records.as_mut_ptr(),
            records.len(),
            out.as_mut_ptr(),
            out.len(),
            values.as_mut_ptr(),
            values.len(),
        )
    }
}

/// The listing of token records with their text, without a line feed; `early` is the line and column where reading stopped.
#[inline]
pub fn write_listing(records: &[u64], text: &[u8], early: Option<(usize, usize)>, out: &mut [u8], values: &mut [u64]) -> u64 {
    let (line, column) = early.unwrap_or((0, 0));
    // SAFETY: as above.
    unsafe {
        c::seclang_write_listing(
            records.as_ptr(),
            records.len(),
            text.as_ptr(),
            text.len(),
            early.is_some(),
            line,
            column,
            out.as_mut_ptr(),
            out.len(),
            values.as_mut_ptr(),
            values.len(),
        )
    }
}

/// `[number,place]`, without a line feed.
#[inline]
pub fn write_refusal(number: u64, place: u64, out: &mut [u8], values: &mut [u64]) -> u64 {
    // SAFETY: as above.
    unsafe { c::seclang_write_refusal(number, place, out.as_mut_ptr(), out.len(), values.as_mut_ptr(), values.len()) }
}

/// An action list out of action records with their text, in one fixed spelling that reads back to them, and zeros beyond. By values the
/// bytes written; with 19 the first record that no reader makes, whose spelling does not read back, or at which the limit is passed;
/// with 4 the bytes needed. With both `out` is all zero.
#[inline]
pub fn write_actions(records: &[u64], text: &[u8], out: &mut [u8], values: &mut [u64]) -> u64 {
    // SAFETY: as above.
    unsafe {
        c::seclang_write_actions(
            records.as_ptr(),
            records.len(),
            text.as_ptr(),
            text.len(),
            out.as_mut_ptr(),
            out.len(),
            values.as_mut_ptr(),
            values.len(),
        )
    }
}

/// A span word of version 3 or before as a span word of today.
#[inline]
pub fn span_from_old(word: u64, values: &mut [u64]) -> u64 {
    // SAFETY: as above.
    unsafe { c::seclang_span_from_old(word, values.as_mut_ptr(), values.len()) }
}

/// A span word of today as a span word of version 3 or before.
#[inline]
pub fn span_to_old(word: u64, values: &mut [u64]) -> u64 {
    // SAFETY: as above.
    unsafe { c::seclang_span_to_old(word, values.as_mut_ptr(), values.len()) }
}

/// `SECLANG_VERSION` of the header that says what the library does.
#[inline]
pub fn version() -> u64 {
    // SAFETY: nothing is passed.
    unsafe { c::seclang_version() }
}
