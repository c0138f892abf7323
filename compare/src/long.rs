//! Long texts for every reader: frames that fill a length, good pieces joined to it, and these with a fault where no old span reached.

use crate::cases::{pieces_of, Random};
use crate::directives::{self, Version};
use crate::original;
use crate::packages::Pools;
use crate::readers::Reader;
use crate::real::closed;
use crate::underlined;

/// At and beside the limit of once, the largest halves of an old span, powers of two, and the limit.
pub const LENGTHS: [usize; 21] = [
    16_383, 16_384, 16_385, 65_534, 65_535, 65_536, 65_537, 65_538, 131_071, 131_072, 131_073, 262_143, 262_144, 262_145, 524_287, 524_288,
    524_289, 1_048_574, 1_048_575, 1_048_576, 1_048_577,
];

/// Readers that take a long text; with `Tokens` goes the plain lexer, and with `ListText` the listing of its records.
pub const LONG_READERS: [Reader; 9] = [
    Reader::Tokens,
    Reader::NextToken,
    Reader::Actions,
    Reader::Setvar,
    Reader::Variables,
    Reader::Updates,
    Reader::Operator,
    Reader::ListText,
    Reader::Directives,
];

/// What stands first, what is repeated, and what stands last.
pub type Frame = (&'static str, &'static str, &'static str);

/// One long word, string, comment or run of nothing; many tiny tokens; a stop at the end.
const LEXED: &[Frame] = &[
    ("", "x", ""),
    ("", "x\\y", ""),
    ("\"", "y\n", "\""),
    ("'", "\\'", "'"),
    ("'", "z\\\n \t", ""),
    ("#", "c ", ""),
    ("", "\n", ""),
    ("", "\\", ""),
    ("", "\\\n", "x"),
    ("", " \t\r", "sec"),
    ("", "a ", "#"),
    ("", "''", ""),
    ("", "\\\r\n", "\x0c"),
    ("", "sec\n", "\x0b"),
    ("", "\nx", " \x0c x"),
];

/// Many records of each kind, one long text or name of each kind, and each fault at the end.
const PACKAGED: &[Frame] = &[
    ("", "Include\n", ""),
    ("SecMarker ", "m", ""),
    ("SecMarker \"", "m ", "\"\nSecMarker n"),
    ("sec", "x", "\nSecAction deny"),
    ("SecRule ", "TX|", "TX a"),
    ("SecRule TX|", "!a|", "IP a"),
    ("SecRule TX:", "k", "|!ARGS:a b deny"),
    ("SecRule ARGS \"@rx ", "a|", "\" \"id:1,msg:'b'\""),
    ("SecAction ", "t:,", "t:"),
    ("SecAction \"msg:'", "x, ", "',log\""),
    ("SecAction \"log,", "\\\n", "deny\""),
    ("SecAction \"log,", "\\t\\\\\n ", "setvar:a=b\""),
    ("", "SecAction log\n", "SecRule TX:a b deny"),
    ("SecAction \"", "log,", "bogus\""),
    ("SecAction ", "b", ""),
    ("SecAction id:", "9", ""),
    ("SecAction log\n", "#\n", "SecAction id"),
    ("SecMarker ", "m", "\nSecAction log,phase:x"),
    ("SecMarker ", "m", "\nSecRule TX|nope a"),
    ("SecRule ", "n", " a"),
    ("", "\n", "SecRule TX @bad"),
    ("SecRule TX \"@", "o", " a\""),
    ("SecRule TX \"", " ", "@\""),
    ("", "#\n", "SecRule"),
    ("SecMarker a", "\n", "x"),
    ("", " \n", "\x0c"),
    // from 2.7 on: an id and a chain far from where they are looked for, and none where one is
    ("SecAction id:1,chain\n", "#\n", "SecRule TX a"),
    ("SecAction id:1,chain\n", "SecMarker m\n", "SecAction log\nSecAction deny"),
    ("", "SecAction id:1,chain\n", "SecRule TX a\nSecRule TX b"),
    ("SecAction id:1\n", "#\n", "SecAction deny"),
    ("SecAction id:1,", "t:,", "chain\nSecAction deny"),
    ("SecAction ", "t:,", "id:1\nSecAction deny"),
    ("SecAction \"id:1,msg:'", "x, ", "'\"\nSecRule TX a"),
];

const ACTED: &[Frame] = &[
    ("", "t:,", ""),
    ("", "deny,", "log"),
    ("msg:'", "x,", "',tag:y"),
    ("t:", "n", ",t:m"),
    ("", "\\\n", "deny"),
    ("de", "\\\r\n ", "ny,log"),
    ("", "log,", "bogus"),
    ("", "log, ", "id:x"),
    ("", ",", "id"),
    ("", "(,),", ""),
    ("", "b", ""),
    ("id:", "9", ""),
    ("phase:", "0", "1,maturity:256"),
    ("setvar:", "C", ".k=v,log"),
    ("log,ctl:", "a", "=b,log"),
    ("log,expirevar:a=", "0", "7,initcol:c=d"),
    ("", "\"", ""),
    ("", "\\", ",log"),
];

const SET: &[Frame] = &[
    ("", "a", ""),
    ("", "C", ".k=v"),
    ("tx.", "k", "=+1"),
    ("a=", "v", ""),
    ("a=", "9", ""),
    ("a=-", "0", "7"),
    ("a=", "%{x}", ""),
    ("!", "T", ".x"),
    ("", " ", ""),
    ("'", "q", "'"),
    ("  ", " ", "B.c=1 "),
    ("", ".", "="),
];

const TARGETED: &[Frame] = &[
    ("", "TX|", "TX"),
    ("TX|", "!TX|", "IP"),
    ("", "TX|!IP:k|", "&ARGS:a"),
    ("TX:", "k", "|IP"),
    ("TX:/", "r", "/|!IP:/a/"),
    ("!TX:", "e", "|TX"),
    ("", "|", "TX:a"),
    ("TX|", " ", "|!TX:a"),
    ("", "ARGS:a|", "nope"),
    ("TX|", "IP|", " &nope:k "),
    ("TX|", "!IP|", "!nope:k"),
    ("", "n", ""),
    ("&", "&", ""),
];

const OPERATED: &[Frame] = &[
    ("@rx ", "a", ""),
    ("", "a ", ""),
    ("@", "o", " x"),
    ("", " ", "@rx a"),
    ("!", " ", "@bad"),
    ("@within", " ", "x"),
    ("! @pm ", "w ", ""),
    ("", " ", "@"),
    ("", "\x0b", ""),
    ("@rx", "\x0b", "a"),
];

pub fn frames(reader: Reader) -> Vec<Frame> {
    match reader {
        Reader::Actions => ACTED.to_vec(),
        Reader::Setvar => SET.to_vec(),
        Reader::Variables | Reader::Updates => TARGETED.to_vec(),
        Reader::Operator => OPERATED.to_vec(),
        Reader::Directives => [PACKAGED, LEXED].concat(),
        _ => LEXED.to_vec(),
    }
}

/// A text of exactly so many bytes in a frame; where no whole piece fits any more, the piece's last byte fills the rest.
pub fn filled((first, again, last): Frame, len: usize) -> Vec<u8> {
    let rest = len - first.len() - last.len();
    let filling = again[again.len() - 1..].repeat(rest % again.len());
    [first, &again.repeat(rest / again.len()), &filling, last].concat().into_bytes()
}

/// Faults to end with.
const BAD_ACTIONS: &[&str] = &[",bogus", ", ,Bogus:1 ", ",id", ",skipAfter", ",id:x", ",phase:256", ",log,severity:'300'"];
const BAD_TARGETS: &[&str] = &["|nope", "| &nope:k ", "|TX|&&TX"];
const BAD_UPDATES: &[&str] = &["|nope:x", "|!nope:x", "|! TX"];
const BAD_DIRECTIVES: &[&str] = &[
    "\nSecAction log,bogus",
    "\nSecAction \"log,\\\n id\"",
    "\nSecAction id:x",
    "\nSecAction phase:256",
    "\nSecRule TX|nope a",
    "\nSecRule TX \"\\t@bad\"",
    "\nSecRule TX",
    "\nstray",
    "\n\x0c",
];

/// A rule for 2.7 to end with, which no chain before it leads to.
const WITHOUT_ID: &str = "\nSecAction id:1\nSecRule TX a";

/// Good pieces for each reader, which stay good behind one another: lists without their joint, and whole directives, also for 2.7.
pub struct Good {
    packages: Vec<String>,
    with_ids: Vec<String>,
    actions: Vec<String>,
    variables: Vec<String>,
    updates: Vec<String>,
    said: Vec<String>,
    settings: Vec<String>,
}

/// How many different pieces of each kind.
const PIECES: usize = 400;

fn some(make: impl FnMut() -> String, is_good: impl Fn(&str) -> bool) -> Vec<String> {
    std::iter::repeat_with(make).filter(|piece| is_good(piece)).take(PIECES).collect()
}

impl Good {
    pub fn new(random: &mut Random, pools: &Pools) -> Self {
        let owned = |reader| pieces_of(reader, &original::names()).into_iter().map(str::to_string).collect();
        // what ends open would take the next piece with it: one more record must come behind
        let acts = |text: &str| text.len() < 400 && underlined::actions(text).number == 0;
        let one_more = |text: &str| underlined::actions(&format!("{text},deny")).words.len() == underlined::actions(text).words.len() + 7;
        let ascii = |package| String::from_utf8(package).expect("ASCII");
        let good = |text: &str, version| closed(text).last() == Some(&"") && directives::read(text, version).number == 0;
        Good {
            packages: some(|| ascii(pools.package(random, 2000)), |text| !text.is_empty() && good(text, Version::V2_6)),
            with_ids: some(|| ascii(pools.chained(random, 2000)), |text| !text.is_empty() && good(text, Version::V2_7)),
            actions: some(|| pools.actions(random), |text| acts(text) && one_more(text)),
            variables: some(|| pools.list(random), |text| underlined::variables(text).number == 0),
            updates: some(|| pools.list(random), |text| underlined::updates(text).number == 0),
            said: owned(Reader::Operator),
            settings: owned(Reader::Setvar),
        }
    }

    /// How a text begins, its joint, how its last piece begins, and its faults.
    fn parts(reader: Reader) -> (&'static str, &'static str, &'static str, &'static [&'static str]) {
        match reader {
            Reader::Actions => ("log", ",", ",msg:", BAD_ACTIONS),
            Reader::Setvar => ("tx.k=", "", "", &[]),
            Reader::Variables => ("TX", "|", "|TX:", BAD_TARGETS),
            Reader::Updates => ("TX", "|", "|TX:", BAD_UPDATES),
            Reader::Operator => ("@within ", "", "", &[]),
            _ => ("", "", "SecMarker ", BAD_DIRECTIVES),
        }
    }

    fn pieces(&self, reader: Reader) -> &[String] {
        match reader {
            Reader::Actions => &self.actions,
            Reader::Setvar => &self.settings,
            Reader::Variables => &self.variables,
            Reader::Updates => &self.updates,
            Reader::Operator => &self.said,
            _ => &self.packages,
        }
    }

    /// Good pieces joined, and one that fills the rest: exactly so many bytes, with `last` at the end.
    fn ended(random: &mut Random, reader: Reader, pieces: &[String], len: usize, last: &str) -> Vec<u8> {
        let (first, joint, rest, _) = Good::parts(reader);
        let (mut text, room) = (first.to_string(), len - rest.len() - last.len() - 1);
        loop {
            let piece = random.one(pieces);
            if room < text.len() + joint.len() + piece.len() {
                break;
            }
            text.push_str(joint);
            text.push_str(piece);
        }
        text.push_str(rest);
        let filling = "x".repeat(len - last.len() - text.len());
        (text + &filling + last).into_bytes()
    }

    pub fn joined(&self, random: &mut Random, reader: Reader, len: usize) -> Vec<u8> {
        Good::ended(random, reader, self.pieces(reader), len, "")
    }

    /// The same of packages for 2.7.
    pub fn joined_with_ids(&self, random: &mut Random, reader: Reader, len: usize) -> Vec<u8> {
        Good::ended(random, reader, &self.with_ids, len, "")
    }

    /// These with a rule at the end that misses its id.
    pub fn missed(&self, random: &mut Random, reader: Reader, len: usize) -> Vec<u8> {
        Good::ended(random, reader, &self.with_ids, len, WITHOUT_ID)
    }

    /// The same with a fault at the end, where a reader refuses anything.
    pub fn refused(&self, random: &mut Random, reader: Reader, len: usize) -> Vec<u8> {
        let (.., faults) = Good::parts(reader);
        let last = if faults.is_empty() { "" } else { *random.one(faults) };
        Good::ended(random, reader, self.pieces(reader), len, last)
    }

    /// A joined text with a few bytes damaged in its last quarter.
    pub fn damaged(&self, random: &mut Random, reader: Reader, len: usize) -> Vec<u8> {
        let mut text = self.joined(random, reader, len - 40);
        let at = text.len() - 1 - random.below(text.len() / 4);
        let past = text.len().min(at + 400);
        let part = random.damaged(&text[at..past], &["\n", "\"", "\\", ",", "|", "@", "\x0c", "sec", "id", "!"]);
        drop(text.splice(at..past, part));
        text
    }
}

/// A text with a byte past ASCII near its end.
pub fn past_ascii(random: &mut Random, mut text: Vec<u8>) -> Vec<u8> {
    let place = text.len() - 1 - random.below(3);
    text[place] = 128 + random.below(128) as u8;
    text
}

#[cfg(test)]
mod tests {
    use super::{filled, frames, Good};
    use crate::cases::Random;
    use crate::directives::{self, Version, VERSIONS};
    use crate::packages::Pools;
    use crate::readers::Reader;
    use crate::spans::{halves, SHARED};
    use crate::underlined;

    /// The number and the values that the model gives.
    fn told(reader: Reader, text: Vec<u8>) -> (u64, Vec<u64>) {
        let text = String::from_utf8(text).expect("ASCII");
        let of = match reader {
            Reader::Actions => underlined::actions,
            Reader::Variables => underlined::variables,
            Reader::Updates => underlined::updates,
            Reader::Operator => underlined::operator,
            Reader::Setvar => underlined::setvar,
            _ => {
                let read = directives::read(&text, Version::V2_6);
                return (read.number, read.values);
            }
        };
        let read = of(&text);
        (read.number, read.values)
    }

    const REFUSING: [(Reader, &[u64]); 4] = [
        (Reader::Actions, &[5, 10, 11, 12]),
        (Reader::Variables, &[7]),
        (Reader::Updates, &[7]),
        (Reader::Directives, &[5, 7, 8, 10, 11, 12, 13, 14, 15]),
    ];

    /// Joined pieces are read, and with a fault at the end refused with each number, where no old span reached.
    #[test]
    fn joined_texts_are_good_but_for_their_end() {
        let mut random = Random(1);
        let good = Good::new(&mut random, &Pools::new());
        for reader in [Reader::Actions, Reader::Setvar, Reader::Variables, Reader::Updates, Reader::Operator, Reader::Directives] {
            let text = good.joined(&mut random, reader, 70_000);
            assert_eq!((text.len(), told(reader, text).0), (70_000, 0), "{reader:?}");
        }
        for (reader, numbers) in REFUSING {
            let mut found: Vec<u64> = Vec::new();
            for _ in 0..100 {
                let (number, values) = told(reader, good.refused(&mut random, reader, 70_000));
                let is_piece = ![13, 14, 15].contains(&number);
                assert!(number != 0 && (!is_piece || SHARED < halves(*values.last().expect("a span")).0 as u64), "{reader:?}: {number}");
                found.push(number);
            }
            assert!(numbers.iter().all(|number| found.contains(number)), "{reader:?}: {found:?}");
        }
    }

    /// The number and the values that the model gives for 2.7.
    fn told_for_2_7(text: Vec<u8>) -> (u64, Vec<u64>) {
        let read = directives::read(&String::from_utf8(text).expect("ASCII"), Version::V2_7);
        (read.number, read.values)
    }

    /// Packages for 2.7 are read by both, and miss an id at their end alone.
    #[test]
    fn joined_packages_have_ids_but_at_their_end() {
        let mut random = Random(4);
        let good = Good::new(&mut random, &Pools::new());
        for _ in 0..20 {
            let text = good.joined_with_ids(&mut random, Reader::Directives, 70_000);
            assert_eq!((told(Reader::Directives, text.clone()).0, told_for_2_7(text).0), (0, 0));
            let text = good.missed(&mut random, Reader::Directives, 70_000);
            let last = 1 + text.iter().filter(|byte| **byte == b'\n').count() as u64;
            assert_eq!((told(Reader::Directives, text.clone()).0, told_for_2_7(text)), (0, (18, vec![last])));
        }
        let frames = || frames(Reader::Directives).into_iter().map(|frame| filled(frame, 70_000));
        assert!(4 < frames().filter(|text| told_for_2_7(text.clone()).0 == 18).count());
        let differ = |text: &Vec<u8>| VERSIONS.map(|version| directives::read(std::str::from_utf8(text).expect("ASCII"), version).number);
        assert!(frames().any(|text| differ(&text) == [0, 0] && text.starts_with(b"SecAction id:1,chain")));
    }

    /// Frames come to each number of their reader, and to names longer than an old span.
    #[test]
    fn frames_come_to_every_number() {
        for (reader, numbers) in REFUSING.into_iter().chain([(Reader::Operator, &[8][..])]) {
            let all: Vec<(u64, Vec<u64>)> = frames(reader).into_iter().map(|frame| told(reader, filled(frame, 70_000))).collect();
            for number in numbers.iter().chain(&[0]) {
                assert!(all.iter().any(|(other, _)| other == number), "{reader:?}: {number}");
            }
            let long = |(number, values): &(u64, Vec<u64>)| {
                [5, 7, 8].contains(number) && SHARED < halves(*values.last().expect("a span")).1 as u64
            };
            assert!(all.iter().any(long), "{reader:?}");
        }
    }
}
