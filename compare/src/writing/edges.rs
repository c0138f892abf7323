//! The edges of written action lists, each with what comes out; the model is held to them, and the comparison begins with them.

use super::records::{laid, Said};
use super::Written;
use crate::original::LIMIT;
use crate::readers::ACTION_WORDS;
use crate::spans::span;
use crate::underlined;

/// Records, a text buffer, and what they come to with room enough.
pub type Edge = (Vec<u64>, Vec<u8>, Written);

const MOST: u64 = u64::MAX;

/// Lists that a reader accepts, and how they are written, or the record that fails.
const LISTS: &[(&str, Result<&str, usize>)] = &[
    ("", Ok("")),
    ("msg", Ok("msg:''")),
    ("expirevar", Ok("expirevar:=0")),
    ("redirect:", Ok("redirect:")),
    ("ctl:", Ok("ctl:=")),
    ("t:", Ok("t:")),
    ("exec:(a,b)", Ok("noauditlog")),
    ("pause", Ok("noauditlog")),
    ("setsid:x", Ok("noauditlog")),
    ("SanitizeMatched", Ok("sanitisematched")),
    ("skipAfter:x", Ok("skipafter:x")),
    ("setvar:A", Ok("setvar:'tx.A'")),
    ("setvar:a=1", Ok("setvar:'tx.a=1'")),
    ("setvar:a=", Ok("setvar:'tx.a='")),
    ("setvar:", Ok("setvar:'tx.'")),
    ("setvar:a=--5", Ok("setvar:'tx.a=--5'")),
    ("setvar:a=+x", Ok("setvar:'tx.a=+1'")),
    ("setvar:a=+-9223372036854775808", Ok("setvar:'tx.a=+-9223372036854775808'")),
    ("setvar:'!a=B.c=d'", Ok("setvar:'!a=b.c=d'")),
    ("setvar:.", Ok("setvar:'.'")),
    ("setvar:' a = '", Ok("setvar:'tx. a = '")),
    ("setvar:a='x'", Ok("setvar:\"tx.a='x'\"")),
    ("msg:\"it's\",log", Ok("msg:\"it's\",log")),
    ("msg:'\n\r '", Ok("msg:'\n\r '")),
    ("ctl:(a,b),log", Ok("ctl:(a,b)=,log")),
    ("redirect:'a,b',log", Ok("redirect:'a,b',log")),
    ("setvar:\"a\"'b',log", Ok("setvar:\"tx.\"a\"'b'\",log")),
    ("msg:'a\\',log", Ok("msg:'a\\',log")),
    // a mark or a bracket that is left open fails where another record follows, and alone is written
    ("msg:a'\"'b,log", Err(0)),
    ("msg:a'\"'b", Ok("msg:\"a'\"'b\"")),
    ("expirevar:'a=5',log", Err(0)),
    ("expirevar:(a=5),log", Err(0)),
    ("log,expirevar:'a=5'", Ok("log,expirevar:'a=0")),
    ("log,expirevar:(a=5),deny", Err(1)),
    ("t:\\\\\n\na", Err(0)),
    // our own: every action, letter cases, blanks and continuations
    ("DENY,Block,pass,allow,drop", Ok("deny,block,pass,allow,drop")),
    (" chain , skip:+07,\\\n  multiMatch", Ok("chain,skip:7,multimatch")),
    ("id:00018446744073709551615,phase:5,severity:'CRITICAL'", Ok("id:18446744073709551615,phase:5,severity:2")),
    ("msg:a,tag:b/c,rev:'2',ver:\"OWASP/3\",logdata:x", Ok("msg:'a',tag:'b/c',rev:'2',ver:'OWASP/3',logdata:'x'")),
    ("maturity:255,accuracy:0,status:65535,skip:4294967295", Ok("maturity:255,accuracy:0,status:65535,skip:4294967295")),
    ("capture,log,nolog,auditlog,noauditlog,xmlns:a", Ok("capture,log,nolog,auditlog,noauditlog,noauditlog")),
    ("initcol:IP=%{x},ctl:a=b=c,initcol:g", Ok("initcol:IP=%{x},ctl:a=b=c,initcol:g=")),
    ("expirevar:ip.a=3600,expirevar:a=b=5", Ok("expirevar:ip.a=3600,expirevar:a=0")),
    ("t:none,t: lower ,t:a:b", Ok("t:none,t: lower,t:a:b")),
    ("setvar:'tx.a=+%{b}',setvar:!IP.C,setvar:x.y.z=7", Ok("setvar:'tx.a=+%{b}',setvar:'!ip.C',setvar:'x.y.z=7'")),
    ("setvar:a=-5,setvar:a=+5,setvar:a=- 5,setvar:a=007", Ok("setvar:'tx.a=-5',setvar:'tx.a=+5',setvar:'tx.a=-1',setvar:'tx.a=7'")),
    (
        "setvar:a=9223372036854775807,setvar:a=9223372036854775808",
        Ok("setvar:'tx.a=9223372036854775807',setvar:'tx.a=9223372036854775808'"),
    ),
    ("setvar:a='1',setvar:'a=1 '", Ok("setvar:\"tx.a='1'\",setvar:'tx.a=1 '")),
    ("msg:),log", Ok("msg:')',log")),
    ("msg:'(',log", Ok("msg:'(',log")),
    ("redirect:),log", Ok("redirect:),log")),
    ("setvar:a=%{,log", Ok("setvar:'tx.a=%{',log")),
    ("t:\\\\\r", Ok("t:\\")),
    ("t:\\\\\ra", Ok("t:\\a")),
    ("msg:a\"b,log", Ok("msg:'a\"b,log'")),
    ("msg:'a\"b',log", Ok("msg:'a\"b',log")),
    ("msg:a'b,log", Ok("msg:\"a'b,log\"")),
    ("setvar:'\"',log", Ok("setvar:'tx.\"',log")),
];

/// Records that a reader makes, though not out of such a list as stands above.
fn made() -> Vec<(Said, &'static str)> {
    vec![
        (Said::set("tx", "a", 1, "1"), "setvar:'tx.a'"),
        (Said::step("tx", "a", 2, 1), "setvar:'tx.a=1'"),
        (Said::set("tx", "a", 1, ""), "setvar:'tx.a='"),
        (Said::set("", "", 1, "1"), "setvar:'.'"),
        (Said::set("tx", "!a", 1, "1"), "setvar:'tx.!a'"),
        (Said::step("!tx", "a", 5, 0), "setvar:'!!tx.a'"),
        (Said::step("", "=", 5, 0), "setvar:'!.='"),
        (Said::set("tx", "a", 6, "%{"), "setvar:'tx.a=%{'"),
        (Said::set("tx", "a", 1, "x+"), "setvar:'tx.a=x+'"),
        (Said::set("tx", "a", 1, "9223372036854775808"), "setvar:'tx.a=9223372036854775808'"),
        (Said::step("tx", "a", 3, i64::MIN), "setvar:'tx.a=+-9223372036854775808'"),
        (Said::step("tx", "a", 4, i64::MIN), "setvar:'tx.a=--9223372036854775808'"),
        (Said::step("tx", "a", 4, 0), "setvar:'tx.a=-0'"),
        (Said::plain(12, 255), "phase:255"),
        (Said::plain(21, 65_535), "status:65535"),
        (Said::plain(8, (1 << 32) - 1), "skip:4294967295"),
        (Said::plain(11, MOST), "id:18446744073709551615"),
        (Said::expiry("a", MOST), "expirevar:a=18446744073709551615"),
        (Said::expiry("a ", 5), "expirevar:a =5"),
        (Said::one(6, " x"), "redirect: x"),
        (Said::one(14, " x "), "msg:' x '"),
        (Said::two(31, " a ", " b"), "ctl: a = b"),
        (Said::two(24, "a", "b=c"), "initcol:a=b=c"),
        (Said::one(32, "\0"), "t:\0"),
        (Said::one(32, "\x7f"), "t:\x7f"),
    ]
}

/// Records that no reader makes, or whose spelling does not read back, each alone.
fn unmade() -> Vec<Said> {
    let mut all = vec![
        Said::one(6, "x "),
        Said::one(9, "x\t"),
        Said::one(32, "x\x0b"),
        Said::one(32, "a,b"),
        Said::one(6, "a\\\nb"),
        Said::one(14, "a\\\rb"),
        Said::one(14, "x'"),
        Said::one(14, "'x"),
        Said::one(14, "\""),
        Said::one(15, "x\""),
        Said::one(16, "'"),
        Said::one(17, "\"x\""),
        Said::one(20, "a'\",b"),
        Said::two(31, "a=", "b"),
        Said::two(31, "a", "b "),
        Said::two(24, "a=b", ""),
        Said::two(24, "a", "\n"),
        Said::two(24, "a,b", "c"),
        Said::expiry("a=", 5),
        Said::expiry("a,b", 5),
        Said::step("tx", "a", 2, -5),
        Said::step("tx", "a", 2, i64::MIN),
        Said::set("tx", "a", 1, "5"),
        Said::set("tx", "a", 1, "01"),
        Said::set("tx", "a", 1, "+"),
        Said::set("tx", "a", 1, "-x"),
        Said::set("tx", "a", 1, "%{"),
        Said::set("tx", "a", 6, "x"),
        Said::set("tx", "a", 6, ""),
        Said::set("Tx", "a", 1, "x"),
        Said::set("t.x", "a", 1, "x"),
        Said::set("!tx", "a", 1, "x"),
        Said::set("tx", "a=b", 1, "x"),
        Said::set("t=x", "a", 1, "1"),
        Said::set("tx", "a=b", 1, "1"),
        Said::step("tx", "a=", 3, 1),
        Said::step("Tx", "a", 5, 0),
        Said::step("t.x", "a", 5, 0),
        Said::set("tx", "a\\\n", 1, "1"),
        Said::set("tx", "a", 1, "'\",\""),
        Said::set("tx", "a", 0, "x"),
        Said::set("tx", "a", 7, "x"),
        Said::step("tx", "a", 0, 0),
        Said::step("tx", "a", 7, 0),
        Said::step("tx", "a", 5, 1),
        Said::step("tx", "a", 1 << 32 | 5, 0),
        Said { number: 1, ..Said::set("tx", "a", 1, "x") },
        Said { kind: 1, ..Said::plain(1, 0) },
        Said { kind: 1, ..Said::one(14, "x") },
        Said::plain(1, 1),
        Said::plain(0, 0),
        Said::plain(33, 0),
        Said::plain(MOST, 0),
        Said::plain(1 << 32 | 1, 0),
        Said::one(1, "x"),
        Said::two(14, "x", "y"),
        Said { number: 1, ..Said::one(14, "x") },
    ];
    all.extend(
        [(12, 256), (12, 1 << 32), (13, 256), (18, 256), (19, MOST), (21, 65_536), (8, 1 << 32)].map(|(code, n)| Said::plain(code, n)),
    );
    all.push(Said { texts: vec![(2, b"x\x80".to_vec())], ..Said::one(14, "") });
    all.push(Said { texts: vec![(2, b"\xc3\xa9".to_vec())], ..Said::one(32, "") });
    all
}

/// Spans of two messages in a text of six bytes, and the record that fails.
fn layouts() -> Vec<([u64; 2], Result<&'static str, usize>)> {
    vec![
        ([span(0, 1), span(1, 2)], Ok("msg:'a',msg:'bc'")),
        ([span(3, 1), span(4, 2)], Ok("msg:'d',msg:'ef'")),
        ([span(6, 0), span(6, 0)], Ok("msg:'',msg:''")),
        ([span(0, 0), span(0, 6)], Ok("msg:'',msg:'abcdef'")),
        ([span(2, 4), span(6, 0)], Ok("msg:'cdef',msg:''")),
        ([span(0, 1), span(2, 2)], Err(1)),
        ([span(0, 2), span(1, 2)], Err(1)),
        ([span(3, 1), span(0, 3)], Err(1)),
        ([span(0, 1), 0], Err(1)),
        ([span(0, 1), span(6, 0)], Err(1)),
        ([span(2, 4), span(6, 1)], Err(1)),
        ([span(7, 0), span(7, 0)], Err(0)),
        ([span(0, 7), span(0, 0)], Err(0)),
        ([span((1 << 32) - 1, 0), span(0, 0)], Err(0)),
        ([span((1 << 32) - 1, 1), span(0, 0)], Err(0)),
        ([MOST, 0], Err(0)),
        ([span(0, (1 << 32) - 1), 0], Err(0)),
        ([0, (1 << 63) + 1], Err(1)),
    ]
}

/// An unused word of 1 in a deny and in a message, at each place.
fn unused() -> Vec<Edge> {
    let places = [1, 2, 3, 4, 5].into_iter().flat_map(|place| [(Said::plain(1, 0), place), (Said::one(14, "x"), place)]);
    let unused = places.filter(|(said, place)| said.texts.iter().all(|(used, _)| used != place));
    let set = |(said, place): (Said, usize)| {
        let (mut words, text) = laid(0, &[Said::plain(26, 0), said]);
        words[ACTION_WORDS + place] = 1;
        (words, text, Err(1))
    };
    unused.map(set).collect()
}

/// The source may be any word, and words left over are not read.
fn unread() -> Vec<Edge> {
    let (words, text) = laid(0, &[Said::one(14, "x"), Said::plain(26, 0)]);
    let sourced = [0, 1, MOST, span(9, 9)].map(|source| {
        let mut words = words.clone();
        (words[6], words[13]) = (source, MOST - source);
        (words, text.clone(), Ok("msg:'x',log".to_string()))
    });
    let left = [0, 33, MOST].map(|word| ([&words[..], &[word; 6]].concat(), text.clone(), Ok("msg:'x',log".to_string())));
    // an open mark is none to what is left over
    let (open, of) = laid(0, &[Said::one(6, "'")]);
    let behind = ([&open[..], &[1, 0, 0, 0, 0, 0]].concat(), of, Ok("redirect:'".to_string()));
    let none = [(vec![], vec![0x80; 3]), (vec![33; 6], vec![b'a'])].map(|(words, text)| (words, text, Ok(String::new())));
    [&sourced[..], &left, &[behind], &none].concat()
}

fn read(list: &str) -> (Vec<u64>, Vec<u8>) {
    let read = underlined::actions(list);
    assert_eq!(read.number, 0, "{list:?} is refused");
    (read.words, read.texts)
}

/// All short ones.
pub fn edges() -> Vec<Edge> {
    let told = |written: Result<&str, usize>| written.map(str::to_string);
    let lists = LISTS.iter().map(|(list, written)| {
        let (words, text) = read(list);
        (words, text, told(*written))
    });
    let alone = |offset, said: &Said, written| {
        let (words, text) = laid(offset, std::slice::from_ref(said));
        (words, text, written)
    };
    let made = made().into_iter().flat_map(|(said, spelling)| [0, 3].map(|offset| alone(offset, &said, told(Ok(spelling)))));
    let unmade = unmade().into_iter().enumerate().map(|(at, said)| alone(at % 2 * 3, &said, Err(0)));
    let pairs = layouts()
        .into_iter()
        .map(|([a, b], written)| (vec![14, 0, a, 0, 0, 0, 0, 14, 0, b, 0, 0, 0, 0], b"abcdef".to_vec(), told(written)));
    lists.chain(made).chain(unmade).chain(pairs).chain(unused()).chain(unread()).collect()
}

/// Records whose spelling ends at the limit or past it: many short ones, and one long text of each kind behind a short record.
pub fn limits() -> Vec<Edge> {
    let exec = |times| [29, 0, 0, 0, 0, 0, 0].repeat(times);
    let spelled = "noauditlog,".repeat(95_325);
    let mut all = vec![(exec(95_325), Vec::new(), Ok(spelled[..1_048_574].to_string())), (exec(95_326), Vec::new(), Err(95_325))];
    let longs: [(&str, &str, fn(&str) -> Said); 6] = [
        ("msg:'", "'", |text| Said::one(14, text)),
        ("t:", "", |text| Said::one(32, text)),
        ("ctl:a=", "", |text| Said::two(31, "a", text)),
        ("expirevar:", "=7", |text| Said::expiry(text, 7)),
        ("setvar:'tx.a=", "'", |text| Said::set("tx", "a", 1, text)),
        ("setvar:'!x.", "'", |text| Said::step("x", text, 5, 0)),
    ];
    for (front, back, said) in longs {
        for (before, past) in [(false, false), (false, true), (true, false), (true, true)] {
            let first = if before { "deny," } else { "" };
            let text = "y".repeat(LIMIT - first.len() - front.len() - back.len() + usize::from(past));
            let list = [vec![Said::plain(1, 0); usize::from(before)], vec![said(&text)]].concat();
            let (words, buffer) = laid(if past { 2 } else { 0 }, &list);
            let failing = usize::from(before);
            all.push((words, buffer, if past { Err(failing) } else { Ok(format!("{first}{front}{text}{back}")) }));
        }
    }
    // what fails earlier comes first, and what is past the limit stays the first at which it is passed
    let text = "y".repeat(LIMIT - 2);
    let long = || Said::one(32, &text);
    all.push((laid(0, &[Said::plain(33, 0), long(), long()]).0, text.clone().into_bytes(), Err(0)));
    let (words, buffer) = laid(0, &[long(), Said::plain(1, 0), Said::plain(33, 0)]);
    all.push((words, buffer, Err(1)));
    let (words, buffer) = laid(0, &[Said::plain(1, 0), long(), Said::plain(33, 0)]);
    all.push((words, buffer, Err(1)));
    all
}

#[cfg(test)]
mod tests {
    use super::{edges, limits, read, LISTS};
    use crate::readers::ACTION_WORDS;
    use crate::writing::{read_again, written};

    #[test]
    fn edges_come_out_as_they_are_said_to() {
        for (words, text, expected) in edges() {
            assert_eq!(written(&words, &text), expected, "{words:?} {}", text.escape_ascii());
        }
    }

    #[test]
    fn limits_come_out_as_they_are_said_to() {
        for (words, text, expected) in limits() {
            let told = written(&words, &text);
            assert!(told == expected, "{} records: {:?}", words.len() / ACTION_WORDS, told.map(|spelling| spelling.len()));
        }
    }

    /// What is written is read again as the same records, sources aside.
    #[test]
    fn what_is_written_is_read_again() {
        for (list, _) in LISTS.iter().filter(|(_, written)| written.is_ok()) {
            let (words, text) = read(list);
            let again = read_again(&written(&words, &text).expect("it is written"));
            let kept: Vec<&[u64]> = words.chunks_exact(ACTION_WORDS).map(|record| &record[..ACTION_WORDS - 1]).collect();
            assert_eq!((again.words, again.texts), (kept.concat(), text), "{list:?}");
        }
    }
}
