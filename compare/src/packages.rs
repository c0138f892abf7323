//! Packages to compare on: pieces that make awkward ones, and random ones out of directives with good and bad arguments.

use crate::cases::{Random, SHORT};
use crate::original;

/// Pieces with no blank of their own: what the lexer makes of them is a matter of what stands beside.
pub const JOINTS: &[&str] = &[
    "SecRule",
    "secaction",
    "SecMarker",
    "SecDefaultAction",
    "Include",
    "sec",
    " ",
    "\n",
    "\r\n",
    "\\\n",
    "\\",
    "\\\r\n",
    "\x0c",
    "\x0b",
    "#c\n",
    "#",
    "\"",
    "'",
    "\t",
    "\r",
    "ARGS",
    "x",
    "@x",
    "deny",
    "id",
    "id:",
    "phase:300",
    "\"@rx a\"",
    "'TX:k'",
    "\"\\\"\\t\"",
    "!",
    "\0",
];

/// Whole arguments and line ends, each with its blank.
pub const LINES: &[&str] = &[
    "SecRule",
    "\nsecrule",
    "SECACTION",
    "\nSecMarker",
    "SecDefaultAction",
    "\nSecRuleEngine",
    " ARGS",
    " !a|TX:k|ARGS",
    " nope",
    " \"\"",
    " '!@pm x '",
    " \"\\t!@y\"",
    " deny",
    " skip",
    " id:x",
    " status:+65536",
    " \"msg:'a\\\n  b',setvar:y\"",
    " \\\n",
    "#c\n",
    "\x0c",
];

/// Lists in full: every combination is a rule with its three arguments, or nearly one.
pub const ARGUMENTS: &[&str] = &[
    "SecRule ",
    "\nSecAction ",
    "ARGS ",
    "\"TX:/a/|!b|&ip:c\" ",
    "bogus ",
    "\"!@within a\\\"b\" ",
    "@bad ",
    "\"id:1,t:none\" ",
    "setvar:!x.y ",
    "'id:1,bogus' ",
    "'id:1,ctl' ",
    "\"log,severity:'x'\" ",
    "log,severity:300 ",
    "\\\n",
    "\n",
    "Include ",
];

/// Whole lines: rules with and without an id and a chain, what may stand between two, and a fault of each kind.
pub const CHAINED: &[&str] = &[
    "SecAction id:1\n",
    "SecAction id:0,chain\n",
    "SecAction chain\n",
    "SecAction log\n",
    "SecRule TX a\n",
    "secrule TX a 'Chain,ID:2'\n",
    "SecMarker id:3\n",
    "SecDefaultAction chain\n",
    "SecDefaultAction id:4\n",
    "Include chain\n",
    "# chain\n",
    "SecRule x\n",
    "SecAction id:5,bogus\n",
    "x\n",
    "\x0c",
];

/// What stands around every text of `SPANNED`: an action list in marks and bare, a list of variables, and an operator's name.
pub const AROUND: [(&str, &str); 4] = [("SecAction \"", ""), ("SecAction ", ""), ("SecRule \"", "\" a"), ("SecRule TX \"@", "\"")];

/// What lexer and normaliser take out, read as another byte or trim, and what a list is cut at.
pub const SPANNED: &[&str] = &["\\", "\n", "\r", " ", "\"", ",", "|", "!", "n", "t:", "TX"];

const NAMES: &[&str] = &["SecRule", "SecAction", "SecMarker", "SecDefaultAction"];
const OTHERS: &[&str] = &["Include", "sec", "SecRuleEngine", "SecRules", "SecRul", "SecRuleRemoveById", "INCLUDE", "secmarkerx", "sec-"];
const BETWEEN: &[&str] = &[" ", " ", " ", " ", "  ", "\t", " \\\n    ", "\\\n", " \\\r\n\t", "", "\r", " \\ "];
const ENDS: &[&str] = &["\n", "\n", "\n", "\n", "\n", "\r\n", "\n\n", " # why\n", "#\"\n", "", " \n \n", "\\\n", "\n# it's\n"];
const FLAGS: &[&str] = &["deny", "BLOCK", "pass", "log", "nolog", "auditlog", "capture", "chain", "multiMatch", "exec", "sanitiseMatched"];
const ARGUED: &[&str] = &[
    "id:7",
    "phase:2",
    "severity:critical",
    "severity:'9'",
    "msg:'a, b'",
    "tag:x",
    "rev:\"1\"",
    "ver:",
    "msg",
    "maturity:9",
    "accuracy:255",
    "logdata:%{TX.0}",
    "status:403",
    "skip:2",
    "skipAfter:END",
    "redirect:'/x'",
    "t:none",
    "t:",
    "ctl:ruleRemoveById=1",
    "ctl:a",
    "initcol:ip=%{REMOTE_ADDR}",
    "expirevar:ip.a=60",
    "setvar:y",
    "setvar:'tx.a=+5'",
    "setvar:!IP.b",
    "setvar:a=%{b}",
    "setvar:a=-9",
    "setvar:a='b c'",
];
const BAD: &[&str] = &["bogus", "id", "id:x", "id:'1'", "phase:256", "skipAfter", "setvar", "T:none", "status:65536", "ctl", "deny x"];
/// More arguments that are refused; the stored packages have none of them, so that they stay as they were asked first.
const FLAWED: &[&str] = &[
    "id:",
    "id:99999999999999999999",
    "id:99999999999999999999x",
    "severity",
    "severity:300",
    "severity:'300'",
    "severity:'x'",
    "severity:''",
    "skip:-1",
    "skip:+",
    "accuracy:+256",
    "redirect",
    "initcol",
];
/// What a rule for 2.7 says: an id, a chain, and neither, though it may look like one.
const IDS: &[&str] = &["id:7", "id:7", "id:0", "ID:18446744073709551615", "id:+1", "id:8,id:9"];
const CHAINS: &[&str] = &["chain", "chain", "CHAIN", "Chain", "chain:x", "chain,chain"];
const NEITHER: &[&str] = &[
    "log",
    "t:none",
    "phase:2",
    "msg:'id:7, chain'",
    "t:chain",
    "tag:id",
    "setvar:id=1",
    "ctl:ruleRemoveById=7",
    "skipAfter:chain",
    "exec:chain",
];
/// What may stand between two rules of a chain.
const IDLE: &[&str] = &[
    "SecMarker chain",
    "SecMarker 'id:7'",
    "SecDefaultAction \"phase:1,chain\"",
    "SecDefaultAction id:7",
    "SecDefaultAction log",
    "Include chain",
    "SecRuleEngine On",
    "sec id:7",
    "# chain",
    "",
];
/// What ends the reading of a package, each with its own number.
const FAULTS: &[&str] = &[
    "stray",
    "\x0c",
    "SecRule TX",
    "SecAction log,bogus",
    "SecRule nope a",
    "SecRule TX @bad",
    "SecAction id",
    "SecAction id:x",
    "SecAction id:7,phase:256",
];
const SELECTED: &[&str] = &["", "", "", ":k", ":/^a/", ":", "://", ":a b", ":'x'"];
const SAID: &[&str] = &["", "a", "(?i)union\\s+select", "a b ", "%{TX.0}", "\"q\"", "it's", "^[^\\\\]$", "1"];

/// The names that lists and operators may have, and bad actions.
pub struct Pools {
    variables: Vec<&'static str>,
    operators: Vec<&'static str>,
    bad: Vec<&'static str>,
}

impl Pools {
    pub fn new() -> Self {
        // in an order of their own, since that of a map is another with each make of it
        let mut names = original::names();
        names.sort_unstable();
        let known = |table| names.iter().copied().filter(|name| original::lookup(table, name).is_some()).collect();
        Pools { variables: known(0), operators: known(1), bad: [BAD, FLAWED].concat() }
    }

    /// Those that the stored packages are made of.
    pub fn of_stored() -> Self {
        Pools { bad: BAD.to_vec(), ..Pools::new() }
    }

    pub fn list(&self, random: &mut Random) -> String {
        let parts = (0..random.below(4) + usize::from(random.below(9) != 0)).map(|_| {
            let mark = *random.one(&["", "", "", "", "&", "!", " "]);
            let name = if random.below(40) == 0 { *random.one(&["nope", "&ARGS", "ARGS!", ""]) } else { *random.one(&self.variables) };
            format!("{mark}{}{}", in_some_case(random, name), random.one(SELECTED))
        });
        parts.collect::<Vec<_>>().join("|")
    }

    fn operator(&self, random: &mut Random) -> String {
        let mark = *random.one(&["", "", "", "!", " ", "! "]);
        let said = *random.one(SAID);
        match random.below(24) {
            0 => format!("{mark}@bad {said}"),
            1 => format!("{mark}@{said}"),
            2..=8 => format!("{mark}{said}"),
            _ => format!("{mark}@{} {said}", in_some_case_of(random, &self.operators)),
        }
    }

    pub fn actions(&self, random: &mut Random) -> String {
        let parts = (0..random.below(6)).map(|_| match random.below(40) {
            0 => random.one(&self.bad).to_string(),
            1 => String::new(),
            2..=12 => in_some_case_of(random, FLAGS),
            _ => random.one(ARGUED).to_string(),
        });
        parts.collect::<Vec<_>>().join(*random.one(&[",", ",", ",", ", ", ",\\\n    ", " , "]))
    }

    /// A directive by name, with as many arguments as it takes, or now and then another count.
    fn directive(&self, random: &mut Random, name: &str, out: &mut String) {
        let mut arguments = match name {
            "SecRule" if random.below(4) == 0 => vec![self.list(random), self.operator(random)],
            "SecRule" => vec![self.list(random), self.operator(random), self.actions(random)],
            "SecMarker" => vec![random.one(SAID).to_string()],
            "SecAction" | "SecDefaultAction" => vec![self.actions(random)],
            _ => (0..random.below(4)).map(|_| random.one(SAID).to_string()).collect(),
        };
        match random.below(40) {
            0 => drop(arguments.pop()),
            1 => arguments.push(random.one(SAID).to_string()),
            _ => {}
        }
        out.push_str(&in_some_case(random, name));
        for argument in arguments {
            out.push_str(*random.one(BETWEEN));
            out.push_str(&quoted(random, &argument));
        }
    }

    /// A rule for 2.7 with an id in so many cases of eight; in how many the next should have one: few behind a chain, and not all behind
    /// what a chain led to, so that one that is not handed on is missed.
    fn rule(&self, random: &mut Random, ids: usize, out: &mut String) -> usize {
        let (has_id, has_chain) = (random.below(8) < ids, random.below(5) < 2);
        let mut said: Vec<&str> = (0..random.below(3)).map(|_| *random.one(NEITHER)).collect();
        for of in [has_id.then_some(IDS), has_chain.then_some(CHAINS)].into_iter().flatten() {
            let place = random.below(said.len() + 1);
            said.insert(place, *random.one(of));
        }
        let joined = said.join(*random.one(&[",", ",", ", ", ",\\\n  "]));
        let list = quoted(random, &joined);
        let name = in_some_case_of(random, &["SecRule", "SecRule", "SecAction"]);
        let rule = format!("{} {}", random.one(&["TX", "ARGS|!ARGS:a", "\"&ip:chain\""]), random.one(&["a", "\"!@pm b c\"", "id:7"]));
        out.push_str(&match (name.len(), said.len()) {
            (7, 0) => format!("{name} {rule}"),
            (7, _) => format!("{name} {rule} {list}"),
            _ => format!("{name} {list}"),
        });
        match (has_chain, ids) {
            (true, _) => 2,
            (false, 2) => 5,
            _ => 7,
        }
    }

    fn one_of(&self, random: &mut Random, names: &[&str], out: &mut String) {
        let name = *random.one(names);
        self.directive(random, name, out)
    }

    /// Some lines of a package: rules most of all, and a text that no directive takes or a stop only seldom.
    pub fn package(&self, random: &mut Random, longest: usize) -> Vec<u8> {
        let (mut out, lines) = (String::new(), random.below(7));
        for _ in 0..if longest == SHORT { SHORT } else { lines } {
            match random.below(60) {
                0 => out.push_str("stray"),
                1 => out.push_str(*random.one(&["\x0c", "\x0b", "\\\x0c"])),
                2..=5 => out.push_str(*random.one(&["# it's", "#", "  ", "\t# \"x"])),
                6..=13 => self.one_of(random, OTHERS, &mut out),
                14..=35 => self.directive(random, "SecRule", &mut out),
                _ => self.one_of(random, NAMES, &mut out),
            }
            out.push_str(*random.one(ENDS));
            if longest <= out.len() {
                break;
            }
        }
        // the longest end where they end: beside their length by one
        let len = if longest == SHORT { SHORT - 1 + random.below(3) } else { out.len() };
        out.truncate(len);
        out.into_bytes()
    }
}

impl Pools {
    /// Some lines of a package for 2.7: rules with and without ids and chains, others between them, and seldom a fault.
    pub fn chained(&self, random: &mut Random, longest: usize) -> Vec<u8> {
        let (mut out, mut ids, lines) = (String::new(), 7, random.below(12));
        for _ in 0..if longest == SHORT { SHORT } else { lines } {
            match random.below(60) {
                0 => out.push_str(*random.one(FAULTS)),
                1 => self.one_of(random, NAMES, &mut out),
                2..=19 => out.push_str(*random.one(IDLE)),
                _ => ids = self.rule(random, ids, &mut out),
            }
            out.push_str(if random.below(12) == 0 { *random.one(ENDS) } else { "\n" });
            if longest <= out.len() {
                break;
            }
        }
        out.into_bytes()
    }
}

fn in_some_case(random: &mut Random, name: &str) -> String {
    match random.below(6) {
        0 => name.to_ascii_lowercase(),
        1 => name.to_ascii_uppercase(),
        _ => name.to_string(),
    }
}

fn in_some_case_of(random: &mut Random, names: &[&str]) -> String {
    let name = *random.one(names);
    in_some_case(random, name)
}

/// In either mark with its escapes, or bare; seldom left open.
fn quoted(random: &mut Random, text: &str) -> String {
    let mark = *random.one(&['"', '"', '"', '\'']);
    let plain = !text.is_empty() && !text.contains([' ', '"', '\'', '#', '\n', '\\']);
    match random.below(60) {
        0 => return format!("{mark}{text}"),
        1 => return text.to_string(),
        2..=30 if plain => return text.to_string(),
        _ => {}
    }
    let inside = if random.below(4) == 0 { text.to_string() } else { text.replace(mark, &format!("\\{mark}")) };
    format!("{mark}{inside}{mark}")
}

#[cfg(test)]
mod tests {
    use super::{Pools, ARGUMENTS, CHAINED, JOINTS, LINES};
    use crate::cases::{Random, Set};
    use crate::directives::{self, Package, Version, VERSIONS, WIDTHS};
    use crate::real;

    /// The most records that so many bytes can need, as include/seclang.h has it.
    fn most(n: usize) -> [u64; 3] {
        [n / 3, n / 2, n / 3].map(|count| count as u64)
    }

    /// How often each number comes, of the numbers that the model gives with room for all; no package passes the bounds.
    fn told(packages: impl Iterator<Item = Vec<u8>>) -> Vec<(u64, usize)> {
        let mut numbers = [0; 16];
        for package in packages {
            let text = String::from_utf8(package).expect("ASCII");
            let read = directives::read(&text, Version::V2_6);
            assert!(read.counts().iter().zip(most(text.len())).all(|(count, most)| *count <= most), "{text:?}");
            assert!(read.number != 0 || read.texts.len() <= text.len(), "{text:?}");
            // the join that is timed knows no early stop
            assert!(read.number == 15 || directives::owned(&text).is_ok() == (read.number == 0), "{text:?}");
            numbers[read.number as usize] += 1;
        }
        [0, 5, 7, 8, 10, 11, 12, 13, 14, 15].map(|number| (number as u64, numbers[number])).to_vec()
    }

    /// Pieces that make many records in few bytes.
    #[test]
    fn no_package_passes_the_bounds() {
        let dense = &["SecRule ", "SecAction ", "\nsec", "\"", "'", "TX", "|TX", "|!", "t:", ",t:", "\n", "\\\n"];
        let mut texts = Vec::new();
        let set = Set { readers: &[], alphabet: dense, quick: 0, full: 0 };
        set.each(5, &mut |text| {
            texts.push(text.to_vec());
            true
        });
        let counts = |text: &str| directives::read(text, Version::V2_6).counts();
        assert_eq!((counts("sec\nsec")[0], counts("SecRule TX\"")[1], counts("SecRule TX|!\"")[1]), (2, 1, 2));
        assert_eq!((counts("SecAction t:")[2], counts("SecAction t:,t:")[2]), (1, 2));
        told(texts.into_iter());
    }

    #[test]
    fn random_packages_come_to_every_number() {
        let (pools, mut random) = (Pools::new(), Random(1));
        let numbers = told((0..20_000).map(|_| pools.package(&mut random, 2000)));
        println!("{numbers:?}");
        assert!(5_000 < numbers[0].1 && numbers.iter().all(|(_, count)| 150 < *count), "{numbers:?}");
    }

    #[test]
    fn pieces_come_to_every_number() {
        for alphabet in [JOINTS, LINES, ARGUMENTS] {
            let mut texts = Vec::new();
            let set = Set { readers: &[], alphabet, quick: 0, full: 0 };
            set.each(4, &mut |text| {
                texts.push(text.to_vec());
                true
            });
            let numbers = told(texts.into_iter());
            println!("{numbers:?}");
            assert!(numbers.iter().all(|(number, count)| 50 < *count || *number == 15), "{numbers:?}");
        }
    }

    /// Spans in the input taken out: a directive record's third word, the last of the others, and the last value of a piece refused.
    fn unspanned(mut read: directives::Package) -> directives::Package {
        let [d, v, a] = directives::WIDTHS;
        read.directives.chunks_exact_mut(d).for_each(|record| record[2] = 0);
        read.variables.chunks_exact_mut(v).for_each(|record| record[v - 1] = 0);
        read.actions.chunks_exact_mut(a).for_each(|record| record[a - 1] = 0);
        if matches!(read.number, 5 | 7 | 8 | 10..=12) {
            *read.values.last_mut().expect("a span") = 0;
        }
        read
    }

    /// Document 02's theorem on the model: another line of blanks or a comment in the place of one changes spans alone.
    #[test]
    fn idle_lines_change_spans_alone() {
        let (pools, mut random) = (Pools::new(), Random(2));
        let idle = ["\n", " \t\r\n", "# it's \"x\\\n", "\t#\x0c\n", "  \n", "#\n"];
        let mut tried = 0;
        for _ in 0..20_000 {
            let make = *random.one(&[Pools::package, Pools::chained]);
            let [front, rest] = [0; 2].map(|_| String::from_utf8(make(&pools, &mut random, 400)).expect("ASCII"));
            if !(front.is_empty() || real::closed(&front).last() == Some(&"")) {
                continue;
            }
            let (one, other) = (*random.one(&idle), *random.one(&idle));
            for version in VERSIONS {
                let read = |line: &str| unspanned(directives::read(&format!("{front}{line}{rest}"), version));
                assert_eq!(read(one), read(other), "{version:?}: {front:?}, {one:?} or {other:?}, {rest:?}");
            }
            tried += 1;
        }
        assert!(5_000 < tried, "{tried}");
    }

    /// The rules of a package that was read: whether each has an id and a chain, and whether another directive stands right before it.
    fn rules(read: &Package) -> Vec<(u64, bool, bool, bool)> {
        let [d, _, a] = WIDTHS;
        let (mut rules, mut before) = (Vec::new(), 0);
        for directive in read.directives.chunks_exact(d) {
            let acts = || read.actions.chunks_exact(a).skip(directive[9] as usize).take(directive[10] as usize);
            if directive[0] <= 2 {
                rules.push((directive[1], acts().any(|act| act[0] == 11), acts().any(|act| act[0] == 7), 2 < before));
            }
            before = directive[0];
        }
        rules
    }

    /// How often a package for 2.7 is read, misses an id, misses one behind a rule that continued another, is refused otherwise, and is
    /// read by a chain over another directive. The two versions differ in 18 alone.
    fn told_for_2_7(packages: impl Iterator<Item = Vec<u8>>) -> [usize; 5] {
        let mut counts = [0; 5];
        for package in packages {
            let text = String::from_utf8(package).expect("ASCII");
            let [older, newer] = VERSIONS.map(|version| directives::read(&text, version));
            assert!(newer.number == 15 || directives::owned_with_ids(&text).is_ok() == (newer.number == 0), "{text:?}");
            assert!(newer.number == 18 || newer == older, "{text:?}");
            let rules = rules(&older);
            let missed = rules.iter().position(|rule| newer.number == 18 && rule.0 == newer.values[0]).unwrap_or(0);
            let crossed = rules.iter().any(|(_, has_id, _, crossed)| !has_id && *crossed);
            counts[0] += usize::from(newer.number == 0);
            counts[1] += usize::from(newer.number == 18);
            counts[2] += usize::from(0 < missed && !rules[missed - 1].1);
            counts[3] += usize::from(![0, 18].contains(&newer.number));
            counts[4] += usize::from(newer.number == 0 && crossed);
        }
        counts
    }

    #[test]
    fn random_packages_for_2_7_come_to_every_chain() {
        let (pools, mut random) = (Pools::new(), Random(3));
        let counts = told_for_2_7((0..20_000).map(|_| pools.chained(&mut random, 2000)));
        println!("{counts:?}");
        assert!(counts.iter().all(|count| 1_000 < *count), "{counts:?}");
    }

    #[test]
    fn lines_of_chains_come_to_every_number() {
        let mut texts = Vec::new();
        Set { readers: &[], alphabet: CHAINED, quick: 0, full: 0 }.each(4, &mut |text| {
            texts.push(text.to_vec());
            true
        });
        let counts = told_for_2_7(texts.into_iter());
        println!("{counts:?}");
        assert!(counts.iter().all(|count| 300 < *count), "{counts:?}");
    }
}
