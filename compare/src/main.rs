//! Runs the library beside the original, in one process, and shows the first difference as a minimal input.

include!(concat!(env!("OUT_DIR"), "/original.rs"));

mod bench;
mod cases;
mod check;
mod directives;
mod edges;
mod flaws;
mod index;
mod lent;
mod long;
mod original;
mod ours;
mod packages;
mod readers;
mod real;
mod run;
mod sizes;
mod sources;
mod spans;
mod stored;
mod underlined;
mod writing;

use std::path::PathBuf;

const USAGE: &str = "\
compare [--quick] [--seed N] [--random N] [--real FOLDER].. [--alone]    compare; --quick takes under two minutes
compare bench [--real FOLDER]..                                          bytes and calls a second, ours and the original's
compare sizes [--real FOLDER]..                                          what a byte costs at 16 KB to 1 MiB, ours and the original's
compare index                                                            what a call on the id index costs, ours and in plain Rust
compare again CASE TIMES                                                 one of these for callgrind; CASE: rust/tokens, ours/tokens@16384
compare stored FOLDER                                                    writes the stored questions on directives and written lists, and the answers";

fn stored(folder: &str) -> bool {
    let written = stored::write(folder.as_ref());
    match &written {
        Ok(count) => println!("{count} cases"),
        Err(error) => eprintln!("{folder}: {error}"),
    }
    written.is_ok()
}

fn main() {
    let mut wanted = run::Wanted { quick: false, seed: 1, random: None, real: Vec::new(), alone: false };
    let (mut words, mut rest) = (std::env::args().skip(1), Vec::new());
    while let Some(word) = words.next() {
        let mut value = || words.next().unwrap_or_else(|| panic!("{word} takes a value\n{USAGE}"));
        match word.as_str() {
            "--quick" => wanted.quick = true,
            "--alone" => wanted.alone = true,
            "--seed" => wanted.seed = value().parse().expect("a number"),
            "--random" => wanted.random = Some(value().parse().expect("a number")),
            "--real" => wanted.real.push(PathBuf::from(value())),
            _ => rest.push(word),
        }
    }
    // the original's next_token calls itself for each lone backslash, unless the compiler made a loop of it: a mebibyte of them, at up to
    // a thousand bytes each, of which only what is used is taken
    let deep = std::thread::Builder::new().stack_size(1 << 30);
    let work = move || match rest.iter().map(String::as_str).collect::<Vec<_>>()[..] {
        [] => run::all(&wanted),
        ["bench"] => bench::table(&wanted.real),
        ["sizes"] => sizes::table(&wanted.real),
        ["index"] => bench::index::table(),
        ["stored", folder] => stored(folder),
        ["again", case, times] => bench::again(case, times.parse().expect("a number"), &wanted.real),
        _ => {
            eprintln!("{USAGE}");
            false
        }
    };
    let fine = deep.spawn(work).expect("a thread").join().unwrap_or(false);
    std::process::exit(if fine { 0 } else { 1 });
}
