//! Real rule files: each whole, all joined, their directives alone, and the arguments of these.

use crate::cases::SHORT;
use crate::directives::{self, Version};
use crate::original::LIMIT;
use crate::parser::lexer::{probe as lexing, Lexer, TokenKind};
use std::collections::BTreeMap;
use std::path::{Path, PathBuf};
use std::{fs, io};

/// The rule files below a folder, in order.
fn files(folder: &Path, found: &mut Vec<PathBuf>) -> io::Result<()> {
    let mut entries: Vec<PathBuf> = fs::read_dir(folder)?.map(|e| e.map(|e| e.path())).collect::<io::Result<_>>()?;
    entries.sort();
    for path in entries {
        let name = path.to_string_lossy().into_owned();
        if path.is_dir() {
            files(&path, found)?;
        } else if name.ends_with(".conf") || name.ends_with(".conf.example") {
            found.push(path);
        }
    }
    Ok(())
}

/// Parts joined as long as they stay within a length; a longer part is a text of its own.
fn within<'a>(longest: usize, parts: impl Iterator<Item = &'a [u8]>) -> Vec<Vec<u8>> {
    let mut texts = vec![Vec::new()];
    for part in parts {
        if longest < texts.last().map_or(0, Vec::len) + part.len() {
            texts.push(Vec::new());
        }
        texts.last_mut().expect("one is there").extend_from_slice(part);
    }
    texts
}

/// The parts of a file between line feeds that are tokens or end a comment: whatever stands before one is read alone as in the whole.
pub fn closed(file: &str) -> Vec<&str> {
    let (mut lexer, mut parts, mut from) = (lexing::at(file, lexing::START), Vec::new(), 0);
    while let Some(token) = lexer.next_token() {
        let place = lexing::standing(&lexer, file.len()).place;
        if matches!(token.kind, TokenKind::Newline | TokenKind::Comment) && file[..place].ends_with('\n') {
            parts.push(&file[from..place]);
            from = place;
        }
    }
    parts.push(&file[from..]);
    parts
}

/// A text cut into packages within a length, each behind a whole directive.
pub fn packages(text: &str, longest: usize) -> Vec<String> {
    let whole = within(longest, closed(text).into_iter().map(str::as_bytes));
    whole.into_iter().map(|package| String::from_utf8(package).expect("ASCII")).collect()
}

/// A text repeated, and cut behind a whole directive within a length.
pub fn repeated(text: &str, longest: usize) -> String {
    if text.is_empty() {
        return String::new();
    }
    packages(&text.repeat(longest / text.len() + 1), longest).swap_remove(0)
}

/// The directives of a file, each alone.
fn rules(file: &str) -> impl Iterator<Item = Vec<u8>> + '_ {
    let told = |part: &&str| !part.trim_start().is_empty() && !part.trim_start().starts_with('#');
    closed(file).into_iter().filter(told).map(|part| part.as_bytes().to_vec())
}

/// A text with bytes past ASCII is refused whole: its copy without them is read too.
fn plain(text: &[u8]) -> String {
    text.iter().map(|b| if b.is_ascii() { char::from(*b) } else { '?' }).collect()
}

/// The words and strings of a text.
fn arguments(text: &str) -> Vec<Vec<u8>> {
    let (mut lexer, mut list) = (Lexer::new(text), Vec::new());
    while let Some(token) = lexer.next_token() {
        if let TokenKind::Word(said) | TokenKind::QuotedString(said) = token.kind {
            list.push(said.into_bytes());
        }
    }
    list
}

/// What is read out of the folders: files whole and copies of those past ASCII, all joined, and their directives and arguments alone.
#[derive(Default)]
pub struct Real {
    pub files: Vec<Vec<u8>>,
    pub copies: Vec<Vec<u8>>,
    pub joined: Vec<Vec<u8>>,
    pub arguments: Vec<Vec<u8>>,
    pub rules: Vec<Vec<u8>>,
}

impl Real {
    /// The files in ASCII that are read as packages, joined.
    pub fn readable(&self) -> String {
        let ascii = self.files.iter().filter(|file| file.is_ascii() && file.len() < LIMIT).map(|file| plain(file) + "\n");
        ascii.filter(|file| directives::read(file, Version::V2_6).number == 0 && closed(file).last() == Some(&"")).collect()
    }

    /// How many files come to which number as packages.
    pub fn numbers(&self, version: Version) -> BTreeMap<u64, usize> {
        let mut numbers = BTreeMap::new();
        for file in &self.files {
            let number = match file {
                file if LIMIT < file.len() => 1,
                file if !file.is_ascii() => 2,
                file => directives::read(&plain(file), version).number,
            };
            *numbers.entry(number).or_default() += 1;
        }
        numbers
    }

    /// The files cut at line ends into short texts, and copies of those past ASCII: what the benchmark has read from the first.
    pub fn short_texts(&self) -> Vec<Vec<u8>> {
        let lines = |file: &Vec<u8>| within(SHORT, file.split_inclusive(|b| *b == b'\n'));
        let mut texts: Vec<Vec<u8>> = self.files.iter().flat_map(lines).collect();
        let copies: Vec<Vec<u8>> = texts.iter().filter(|text| !text.is_ascii()).map(|text| plain(text).into_bytes()).collect();
        texts.extend(copies);
        texts
    }

    /// The files, or their copies, cut behind whole directives into short packages.
    pub fn short_packages(&self) -> Vec<String> {
        self.files.iter().flat_map(|file| packages(&plain(file), SHORT)).collect()
    }
}

pub fn read(folders: &[PathBuf]) -> Real {
    let (mut real, mut found) = (Real::default(), Vec::new());
    for folder in folders {
        files(folder, &mut found).unwrap_or_else(|e| panic!("{}: {e}", folder.display()));
    }
    for path in found {
        let bytes = fs::read(&path).unwrap_or_else(|e| panic!("{}: {e}", path.display()));
        let text = plain(&bytes);
        real.rules.extend(rules(&text));
        real.arguments.extend(arguments(&text));
        if !bytes.is_ascii() {
            real.copies.push(text.into_bytes());
        }
        real.files.push(bytes);
    }
    let all: String = real.files.iter().map(|file| plain(file) + "\n").collect();
    let readable = real.readable();
    let long = [repeated(&readable, LIMIT), all, readable];
    real.joined = long.into_iter().filter(|text| !text.is_empty()).map(String::into_bytes).collect();
    real
}
