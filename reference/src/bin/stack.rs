//! The stack that the functions of the proved library overwrite, as Markdown.
//! How it is measured is said in `src/stack.rs`.
//!
//! The exit status is 1 where a function overwrites `LIMIT` bytes or more.

use std::process::ExitCode;

use reference::answer::{Answer, COUNTERS, DEPTHS, PLACES};
use reference::extensions::{self, ANSWERS};
use reference::harm::HARMS;
use reference::judge::{self, Judged, Judging, Writing, Written};
use reference::judge_pieces;
use reference::known_extensions::{self, Standing};
use reference::path::{Path, MAX_CERTIFICATES, MAX_LIST};
use reference::pieces::{Fed, FRESH, STATE};
use reference::random::{self, Random, FULL_KINDS};
use reference::random_extensions::{self, Input};
use reference::{everyday, known, record, register, sheet, stack};

/// The bytes that each function must stay below: 128 KiB.
const LIMIT: usize = 131_072;
const _: () = assert!(LIMIT < stack::MEASURABLE);

/// Measures one function on a path that is not refused.
type Measure = fn(&Path) -> usize;

/// The functions of the library, and what measures each.
const FUNCTIONS: [(&str, Measure); 8] = [
    ("judge_sheet", |path| judging(&sheet::write(path), judge::judge_sheet)),
    ("rewrite_sheet", |path| writing(&sheet::write(path), sheet::LONGEST, judge::rewrite_sheet)),
    ("judge_record", |path| judging(&record::numbers(path), judge::judge_record)),
    ("write_record", |path| writing(&record::numbers(path), sheet::LONGEST, judge::write_record)),
    ("read_record", |path| writing(&sheet::write(path), record::LONGEST, judge::read_record)),
    ("fresh", |path| keeping(state_of(path), judge_pieces::fresh)),
    ("feed", |path| {
        let sheet = sheet::write(path);
        keeping(FRESH, |state| judge_pieces::feed(state, &sheet))
    }),
    ("finish", finishing),
];

/// The paths, each with its name: the longest of every kind, case E, the
/// everyday ones and those made to harm.
fn paths() -> Vec<(String, Path)> {
    let mut random = Random::new(1);
    let mut paths = Vec::new();
    for kind in FULL_KINDS {
        let path = random::full(kind, MAX_CERTIFICATES, &mut random);
        paths.push((format!("longest, {kind:?}"), path));
    }
    let e = sheet::read(&known::E_SHEET).expect("a sheet");
    paths.push(("case E".to_string(), e));
    for shape in everyday::shapes() {
        let mapped = if shape.mapped { ", mapped" } else { "" };
        let name = format!("everyday, {} x {}{mapped}", shape.n, shape.policies);
        paths.push((name, shape.path()));
    }
    for kind in HARMS {
        paths.push((kind.to_string(), kind.path(&mut random)));
    }
    paths
}

/// Measures a function that judges.
fn judging<I: Sync>(input: &[I], judge: Judging<I>) -> usize {
    let (mut authority, mut user) = ([0; PLACES], [0; PLACES]);
    let (mut counts, mut counters) = ([0; DEPTHS], [0; COUNTERS]);
    let mut judged = Judged { number: sheet::TOO_SHORT, place: 0 };
    let bytes = stack::overwritten(&mut || {
        judged = judge(input, &mut authority, &mut user, &mut counts, &mut counters);
    });
    assert!(!Answer::bare(judged.number, judged.place).is_refusal());
    bytes
}

/// Measures a function that writes into a lent slice of so many places.
fn writing<I: Sync, O: Clone + Default + Send>(
    input: &[I],
    places: usize,
    write: Writing<I, O>,
) -> usize {
    let mut lent = vec![O::default(); places];
    let mut written = Written { number: sheet::TOO_SHORT, length: 0 };
    let bytes = stack::overwritten(&mut || written = write(input, &mut lent));
    assert!(written.number == 0 && written.length > 0);
    bytes
}

/// The state that keeps the sheet of a path.
fn state_of(path: &Path) -> [u8; STATE] {
    let mut fed = Fed::default();
    fed.feed(&sheet::write(path));
    fed.state()
}

/// Measures a function that changes a state and judges nothing.
fn keeping(old: [u8; STATE], change: impl Fn(&mut [u8]) -> u32 + Sync) -> usize {
    let mut state = old;
    let mut number = u32::from(sheet::TOO_SHORT);
    let bytes = stack::overwritten(&mut || {
        state.copy_from_slice(&old);
        number = change(&mut state);
    });
    assert_eq!(number, 0);
    bytes
}

/// Measures the finish of a sheet that came whole.
fn finishing(path: &Path) -> usize {
    let old = state_of(path);
    let mut state = old;
    let (mut authority, mut user) = ([0; PLACES], [0; PLACES]);
    let (mut counts, mut counters) = ([0; DEPTHS], [0; COUNTERS]);
    let mut judged = Judged { number: sheet::TOO_SHORT, place: 0 };
    let bytes = stack::overwritten(&mut || {
        state.copy_from_slice(&old);
        judged =
            judge_pieces::finish(&mut state, &mut authority, &mut user, &mut counts, &mut counters);
    });
    assert!(!Answer::bare(judged.number, judged.place).is_refusal());
    bytes
}

/// The table of all paths. Returns the most of each function.
fn print_paths() -> [usize; FUNCTIONS.len()] {
    println!("Bytes of stack that a call overwrites, less those of an empty call:\n");
    println!("| sheet | {} |", FUNCTIONS.map(|(name, _)| name).join(" | "));
    println!("|---{}|", "|---:".repeat(FUNCTIONS.len()));
    let mut most = [0; FUNCTIONS.len()];
    for (name, path) in paths() {
        let bytes = FUNCTIONS.map(|(_, measure)| measure(&path));
        println!("| {name} | {} |", bytes.map(|bytes| bytes.to_string()).join(" | "));
        for (most, bytes) in most.iter_mut().zip(bytes) {
            *most = bytes.max(*most);
        }
    }
    most
}

/// The extensions to read, each with its name: the worked ones, full lists, and
/// one with a bad register.
fn all_extensions() -> Vec<(String, Input)> {
    let rows = [known_extensions::read_rows(), known_extensions::refused_rows()].concat();
    let mut all: Vec<(String, Input)> =
        rows.iter().map(|row| (row.name.to_string(), row.input())).collect();
    let mut random = Random::new(1);
    for entries in [0, register::MOST - 3 * MAX_LIST] {
        let input = random_extensions::full(&mut random, entries);
        all.push((format!("{MAX_LIST} policies and {MAX_LIST} pairs, {entries} entries"), input));
    }
    let mut bad = Standing::Full.identifiers();
    bad.swap_remove(0);
    bad.push(register::ANY_POLICY.to_vec());
    let bad = Input::new(Default::default(), 0, &register::of(&bad)[..]);
    all.push(("512 entries, anyPolicy among them".to_string(), bad));
    all
}

/// Measures the reader of extensions.
fn reading(input: &Input) -> (u8, usize) {
    let (mut register, mut certificate) = (input.register.clone(), [0; extensions::PLACES]);
    let mut written = Written { number: sheet::TOO_SHORT, length: 0 };
    let bytes = stack::overwritten(&mut || {
        register.copy_from_slice(&input.register);
        written = judge::read_extensions(input.extensions(), &mut register, &mut certificate);
    });
    (written.number, bytes)
}

/// The table of extensions by their answer. Returns the most.
fn print_extensions() -> usize {
    println!("\nThe most that reading extensions overwrites, by the answer:\n");
    println!("| answer | extensions | bytes |");
    println!("|---|---|---:|");
    let measured: Vec<(String, (u8, usize))> =
        all_extensions().into_iter().map(|(name, input)| (name, reading(&input))).collect();
    for answer in ANSWERS {
        let of_answer = measured.iter().filter(|(_, (number, _))| *number == answer);
        if let Some((name, (_, bytes))) = of_answer.max_by_key(|(_, (_, bytes))| *bytes) {
            println!("| {answer} | {name} | {bytes} |");
        }
    }
    measured.iter().map(|&(_, (_, bytes))| bytes).max().unwrap_or(0)
}

fn main() -> ExitCode {
    let most = print_paths();
    let functions = FUNCTIONS.map(|(name, _)| name).into_iter().chain(["read_extensions"]);
    let most = most.into_iter().chain([print_extensions()]);
    println!("\nThe most of each function:\n");
    println!("| function | bytes |");
    println!("|---|---:|");
    let mut status = ExitCode::SUCCESS;
    for (name, bytes) in functions.zip(most) {
        println!("| skandrulo_{name} | {bytes} |");
        if bytes >= LIMIT {
            eprintln!("stack: {name} overwrites {bytes} bytes, not fewer than {LIMIT}");
            status = ExitCode::FAILURE;
        }
    }
    status
}
