//! The graph judge against the tree judge, and the codec and the reader of
//! extensions each against itself, on random paths, sheets and extensions,
//! without the proved library.
//!
//! Arguments: the seed (1), the number of random sheets (200000) and of random
//! extensions.

use std::env;
use std::process::ExitCode;

use reference::answer::{judge_path, judge_sheet, Answer, NUMBERS, PLACES};
use reference::causes::{self, Causes};
use reference::extensions::{self, ANSWERS};
use reference::path::{Path, MAX_CERTIFICATES};
use reference::random::{self, Random, FULL_KINDS};
use reference::random_extensions::{self, Input, Registers};
use reference::recount::{self, Kinds, KINDS};
use reference::{known, register, sheet, tree};

/// The least number of random sheets that each answer must get, of those answered 3
/// that each cause must have, and of each kind of counters.
const OFTEN: usize = 500;

/// The least number of random extensions that each answer must get.
const OFTEN_READ: usize = 1_000;

/// What was checked, and what the checks saw.
#[derive(Default)]
struct Tally {
    passed: usize,
    failed: usize,
    answers: [usize; NUMBERS],
    causes: Causes,
    kinds: Kinds,
    trees: usize,
    over_cap: usize,
    most_nodes_at_a_depth: u16,
}

impl Tally {
    /// Counts one check; a failure is printed with its sheet in hex.
    fn check(&mut self, holds: bool, what: &str, sheet: &[u8]) {
        if holds {
            self.passed += 1;
            return;
        }
        self.failed += 1;
        if self.failed <= 20 {
            let hex: String = sheet.iter().map(|byte| format!("{byte:02X}")).collect();
            println!("FAILED {what}: {hex}");
        }
    }
}

/// Demand 3: "At depth i, one or more, the count is at most the number of
/// policies listed in certificates 1 to i plus the number of mapping pairs
/// listed there."
fn counts_within_bound(path: &Path, answer: &Answer) -> bool {
    let mut bound = 0;
    path.certificates.iter().enumerate().all(|(place, certificate)| {
        bound += certificate.policies.len() + certificate.mappings.len();
        usize::from(answer.counts[place + 1]) <= bound
    })
}

/// What the counters of an answer must show; the path, if one was read.
fn check_counters(tally: &mut Tally, path: Option<&Path>, sheet: &[u8], answer: &Answer) {
    let broken = recount::broken(path, answer);
    tally.check(broken.is_none(), &format!("counters: {}", broken.unwrap_or_default()), sheet);
}

/// Demand 3: the tree gives the graph's whole answer, the counters too.
fn check_path(tally: &mut Tally, path: &Path, sheet: &[u8], answer: &Answer) {
    tally.kinds.count(path, answer);
    match tree::judge(path, tree::CAP) {
        Some(by_tree) => {
            tally.trees += 1;
            tally.check(by_tree == *answer, "graph and tree differ", sheet);
            check_counters(tally, Some(path), sheet, &by_tree);
        }
        None => tally.over_cap += 1,
    }
    let bound = counts_within_bound(path, answer);
    tally.check(bound, "a count is above its bound", sheet);
    let widest = answer.counts.iter().copied().max().unwrap_or(0);
    tally.most_nodes_at_a_depth = tally.most_nodes_at_a_depth.max(widest);
}

/// Judges one sheet, and where it is accepted compares graph and tree, and
/// the written sheet with the one that was read.
fn check_sheet(tally: &mut Tally, random: &mut Random, sheet: &[u8]) {
    let places = if random.chance(5) { random.pick(&[0, PLACES - 1]) } else { PLACES };
    let (mut authority, mut user) = (vec![9; PLACES], vec![9; places]);
    let answer = judge_sheet(sheet, &mut authority, &mut user);
    tally.answers[usize::from(answer.number)] += 1;
    if answer.is_refusal() {
        let unchanged = authority.iter().chain(&user).all(|&place| place == 9);
        tally.check(unchanged, "a refusal changed a table", sheet);
    }
    if answer.number == sheet::WRONG_COUNT {
        tally.causes.count(sheet);
    }
    if let Some(agrees) = causes::agrees(sheet, answer.number) {
        tally.check(agrees, "the sheet has not the cause of its answer", sheet);
    }
    let read = sheet::read(sheet);
    check_counters(tally, read.as_ref().ok(), sheet, &answer);
    match read {
        Ok(path) if answer.number != sheet::TOO_SHORT => {
            tally.check(sheet::write(&path) == sheet, "reading and writing", sheet);
            let again = judge_path(&path, &mut authority, &mut user);
            tally.check(again == answer, "sheet and path differ", sheet);
            check_path(tally, &path, sheet, &answer);
        }
        Ok(_) => {}
        Err(number) => {
            let expected = if places < PLACES { sheet::TOO_SHORT } else { number };
            tally.check(answer.number == expected, "the reader's refusal", sheet);
        }
    }
}

/// Writing a path and reading the sheet: the same path, or the refusal that
/// the decoded path gets.
fn check_round_trip(tally: &mut Tally, path: &Path) {
    let sheet = sheet::write(path);
    let expected = sheet::refusal(path).map(|()| path.clone());
    tally.check(sheet::read(&sheet) == expected, "writing and reading", &sheet);
}

/// What the reader of extensions answers, and what it leaves.
#[derive(PartialEq)]
struct Read {
    answer: (u8, usize),
    register: Vec<u8>,
    certificate: Vec<u16>,
}

/// Reads an input with a register, and with a certificate of nines.
fn read_extensions(input: &Input, register: &[u8]) -> Read {
    let (mut register, mut certificate) = (register.to_vec(), vec![9; input.places]);
    let answer = extensions::read_into(input.extensions(), &mut register, &mut certificate);
    Read { answer, register, certificate }
}

/// Whether a refusal leaves the register, and of the certificate so many places
/// 0 and the others as they were.
fn leaves(input: &Input, read: &Read, cleared: usize) -> bool {
    let (zeros, rest) = read.certificate.split_at(cleared);
    read.register == input.register
        && zeros.iter().all(|&place| place == 0)
        && rest.iter().all(|&place| place == 9)
}

/// Whether reading once more, with the register as it has become, gives the
/// same and leaves it, and the old entries stand first in it.
fn stands(input: &Input, read: &Read) -> bool {
    let entries = |register: &[u8]| {
        let bytes = register.first_chunk().expect("a whole register");
        register::identifiers(bytes).concat()
    };
    read_extensions(input, &read.register) == *read
        && entries(&read.register).starts_with(&entries(&input.register))
}

/// Reads random extensions, and checks what each answer leaves. Returns how
/// often each number came.
fn check_extensions(tally: &mut Tally, random: &mut Random, inputs: u64) -> [usize; 21] {
    let mut times = [0; 21];
    let mut registers = Registers::new(random);
    for _ in 0..inputs {
        let input = random_extensions::input(random, &mut registers);
        let read = read_extensions(&input, &input.register);
        let (number, _) = read.answer;
        times[usize::from(number)] += 1;
        let holds = match number {
            0 => stands(&input, &read),
            sheet::TOO_SHORT => leaves(&input, &read, 0),
            _ => leaves(&input, &read, extensions::PLACES),
        };
        let values = input.values.each_ref().map(|value| value.octets()).concat();
        tally.check(holds, &format!("extensions answered {number}"), &values);
        if number == 0 {
            registers.keep(&read.register);
        }
    }
    times
}

/// The known paths, those that are refused with every cut, full ones and case B's
/// family.
fn check_made(tally: &mut Tally, random: &mut Random) {
    for row in known::rows() {
        let sheet = sheet::write(&row.path);
        check_round_trip(tally, &row.path);
        check_path(tally, &row.path, &sheet, &row.answer);
        let (mut authority, mut user) = ([9; PLACES], [9; PLACES]);
        let answer = judge_sheet(&sheet, &mut authority, &mut user);
        tally.check(answer == row.answer, row.name, &sheet);
    }
    for row in known::refused_rows() {
        check_round_trip(tally, &row.path);
        let sheet = sheet::write(&row.path);
        for length in 0..=sheet.len() {
            let cut = &sheet[..length];
            check_sheet(tally, random, cut);
            let number = if length < row.bytes { sheet::ENDS_EARLY } else { row.number };
            tally.check(sheet::read(cut) == Err(number), row.name, cut);
        }
    }
    for n in 2..=MAX_CERTIFICATES {
        let mut paths = vec![random::doubling(n)];
        paths.extend(FULL_KINDS.map(|kind| random::full(kind, n, random)));
        for path in paths {
            check_round_trip(tally, &path);
            check_sheet(tally, random, &sheet::write(&path));
        }
    }
}

/// Random sheets, of which each answer, each cause of answer 3 and each kind of
/// counters must come up often, and random paths.
fn check_random(tally: &mut Tally, random: &mut Random, sheets: u64) {
    (tally.answers, tally.kinds) = ([0; NUMBERS], Kinds::default());
    for _ in 0..sheets {
        let sheet = random::sheet(random);
        check_sheet(tally, random, &sheet);
    }
    for _ in 0..sheets / 4 {
        let path = random::path(random);
        check_round_trip(tally, &path);
        let path = random::faulty_path(random);
        check_round_trip(tally, &path);
    }
    for (number, times) in tally.answers.into_iter().enumerate() {
        println!("answer {number}: {times}");
        tally.check(times >= OFTEN, &format!("answer {number} is too rare"), &[]);
    }
    let Causes { no_certificate, empty_list } = tally.causes;
    println!("answer 3 for n 0: {no_certificate}, for a present count of 0: {empty_list}");
    tally.check(no_certificate.min(empty_list) >= OFTEN, "a cause of 3 is too rare", &[]);
    for ((kind, _), times) in KINDS.into_iter().zip(tally.kinds.times) {
        println!("counters of {kind}: {times}");
        tally.check(times >= OFTEN, &format!("{kind} is too rare"), &[]);
    }
}

fn main() -> ExitCode {
    let mut arguments = env::args().skip(1).map(|word| word.parse::<u64>().expect("a number"));
    let seed = arguments.next().unwrap_or(1);
    let sheets = arguments.next().unwrap_or(200_000);
    let mut random = Random::new(seed);
    let mut tally = Tally::default();

    println!("seed {seed}, {sheets} random sheets");
    check_made(&mut tally, &mut random);
    check_random(&mut tally, &mut random, sheets);
    println!("trees compared: {}, over the cap: {}", tally.trees, tally.over_cap);
    println!("widest depth: {}", tally.most_nodes_at_a_depth);
    let times = check_extensions(&mut tally, &mut random, sheets);
    for number in ANSWERS {
        let times = times[usize::from(number)];
        println!("extensions answered {number}: {times}");
        tally.check(times >= OFTEN_READ, &format!("answer {number} is too rare"), &[]);
    }
    println!("{} passed, {} failed", tally.passed, tally.failed);
    if tally.failed == 0 {
        ExitCode::SUCCESS
    } else {
        ExitCode::FAILURE
    }
}
