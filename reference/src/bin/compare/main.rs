//! The proved judge against the graph judge, the tree judge and the codec of
//! this package, on sheets, on records and on sheets in pieces, and its reader of
//! extensions against the plain one.
//!
//! Arguments: the seed (1), the number of random sheets (200000) and of random
//! extensions; half as many random records and random sheets in pieces are
//! compared.

mod extensions;
mod limits;
mod pieces;
mod records;
mod repeats;
mod run;

use std::env;
use std::process::ExitCode;

use reference::answer::{Answer, COUNTERS, NUMBERS, PLACES};
use reference::beside::{JUDGE_RECORD, JUDGE_SHEET};
use reference::causes::Causes;
use reference::harm::HARMS;
use reference::known::{self, E_SHEET};
use reference::lent::{Lengths, ENOUGH, LENT_COUNTERS, TABLES};
use reference::path::{Path, MAX_CERTIFICATES};
use reference::random::{self, Full, Random, FULL_KINDS};
use reference::recount::{Kinds, KINDS};
use reference::repeats::Likeness;
use reference::{everyday, record, sheet, tree};

use run::{Judgement, Run, BUFFERS, RECORDS};

/// The least number of random sheets, and of records, that each answer must
/// get.
pub const OFTEN: usize = 500;

/// The bytes or numbers by which random ones go beyond the longest sheet or
/// record.
pub const MORE: usize = 40;

/// The cap on the tree of a damaged sheet, of which there are many.
const DAMAGE_CAP: usize = 2_000;

impl Run {
    /// One sheet with slices that suffice, a rewrite, and its record read.
    pub fn once(&mut self, sheet: &[u8], cap: usize) {
        self.rewrite(sheet, sheet::LONGEST);
        self.read_record(sheet, record::LONGEST);
        let authority = self.random.pick(&TABLES[2..]);
        let user = self.random.pick(&TABLES[2..]);
        let counters = self.random.pick(&LENT_COUNTERS[COUNTERS..]);
        self.judge(sheet, Lengths { authority, user, counters, ..ENOUGH }, cap);
    }

    /// One sheet with all lengths of tables, counts, counters, buffers and records.
    pub fn all_lengths(&mut self, sheet: &[u8]) {
        for lengths in Lengths::all() {
            self.judge(sheet, lengths, tree::CAP);
        }
        for length in BUFFERS {
            self.rewrite(sheet, length);
        }
        for length in RECORDS {
            self.read_record(sheet, length);
        }
    }

    /// "Paths with known outcomes."
    fn known(&mut self) {
        for row in known::rows() {
            let sheet = sheet::write(&row.path);
            let record = record::numbers(&row.path);
            let judgement = Judgement::of(&JUDGE_SHEET, &sheet, ENOUGH, &mut self.random);
            self.check(judgement.shows(&row.answer), || format!("row {}", row.name), &sheet);
            let judgement = Judgement::of(&JUDGE_RECORD, &record, ENOUGH, &mut self.random);
            self.check(judgement.shows(&row.answer), || format!("row {}", row.name), &record);
            self.all_lengths(&sheet);
        }
        for (sheet, number) in [(&[][..], 1), (&[0x21][..], 2)] {
            let judgement = Judgement::of(&JUDGE_SHEET, sheet, ENOUGH, &mut self.random);
            let expected = Answer::bare(number, 0);
            self.check(judgement.shows(&expected), || format!("01's answer {number}"), sheet);
            self.all_lengths(sheet);
        }
        for places in [PLACES - 1, PLACES] {
            let lengths = Lengths { authority: places, user: places, ..ENOUGH };
            let judgement = Judgement::of(&JUDGE_SHEET, &E_SHEET, lengths, &mut self.random);
            let number = if places < PLACES { sheet::TOO_SHORT } else { 0 };
            let holds = judgement.judged.number == number;
            self.check(holds, || format!("tables of {places}"), &E_SHEET);
        }
        self.all_lengths(&E_SHEET);
    }

    /// Full sheets of every kind, and case B's family, from n = 2 to the most.
    /// Of case B's family the whole tree is grown once.
    fn large(&mut self) {
        for n in 2..=MAX_CERTIFICATES {
            let sheet = sheet::write(&random::doubling(n));
            self.all_lengths(&sheet);
            self.judge(&sheet, ENOUGH, (1 << (n + 1)) - 1);
            for kind in FULL_KINDS {
                let path = random::full(kind, n, &mut self.random);
                self.all_lengths(&sheet::write(&path));
            }
        }
    }

    /// An answer must have come up so many times at least.
    pub fn often(&mut self, number: usize, times: usize, least: usize, inputs: &str) {
        self.seen(&format!("answer {number}"), times, least, inputs);
    }

    /// What is to be seen must have come up so many times at least.
    pub fn seen(&mut self, what: &str, times: usize, least: usize, inputs: &str) {
        println!("{what}: {times} {inputs}");
        self.check::<u8>(times >= least, || format!("{what} is too rare in {inputs}"), &[]);
    }

    /// Random sheets. Each answer must come up often, and so must a last
    /// certificate with a mapping that test 9 would not let pass, each cause of
    /// answer 3, each kind of counters, and counters that alone are too short.
    fn random_sheets(&mut self, sheets: u64) {
        let mut answers = [0; NUMBERS];
        let mut causes = Causes::default();
        let mut kinds = Kinds::default();
        let (mut ignored, mut short) = (0, 0);
        for _ in 0..sheets {
            let sheet = random::sheet(&mut self.random);
            let lengths = self.draw_lengths();
            let answer = self.judge(&sheet, lengths, tree::CAP);
            answers[usize::from(answer.number)] += 1;
            short += usize::from(lengths.are_short_of_counters_alone());
            if answer.number == sheet::WRONG_COUNT {
                causes.count(&sheet);
            }
            if let Ok(path) = sheet::read(&sheet) {
                kinds.count(&path, &answer);
                let maps = path.last_mapping_names_any();
                ignored += usize::from(maps && matches!(answer.number, 0 | 10));
            }
            let length = self.draw_length(&BUFFERS);
            self.rewrite(&sheet, length);
            let length = self.draw_length(&RECORDS);
            self.read_record(&sheet, length);
        }
        for (number, times) in answers.into_iter().enumerate() {
            self.often(number, times, OFTEN, "random sheets");
        }
        self.seen("answer 3 for n 0", causes.no_certificate, OFTEN, "random sheets");
        self.seen("answer 3 for a present count of 0", causes.empty_list, OFTEN, "random sheets");
        self.seen("anyPolicy mapped by the last, 0 or 10", ignored, OFTEN, "random sheets");
        self.seen("answer 7 for the counters alone", short, OFTEN, "random sheets");
        for ((kind, _), times) in KINDS.into_iter().zip(kinds.times) {
            self.seen(&format!("counters of {kind}"), times, OFTEN, "random sheets");
        }
    }

    /// Every one-bit damage and every cut of a dozen sheets, every cut of
    /// them with a policy at fault and with a pair twice, and some longer forms.
    fn damage(&mut self) {
        for path in self.dozen() {
            let sheet = sheet::write(&path);
            for bit in 0..sheet.len() * 8 {
                let mut damaged = sheet.clone();
                damaged[bit / 8] ^= 0x80 >> (bit % 8);
                self.once(&damaged, DAMAGE_CAP);
            }
            for length in 0..sheet.len() {
                self.once(&sheet[..length], DAMAGE_CAP);
            }
            let mut fields = sheet::fields(&path);
            random::change_field(&mut self.random, &mut fields, 16);
            let mut repeated = path.clone();
            random::add_pair_like(&mut self.random, &mut repeated, Likeness::Same);
            for faulty in [sheet::pack(&fields), sheet::write(&repeated)] {
                for length in 0..=faulty.len() {
                    self.once(&faulty[..length], DAMAGE_CAP);
                }
            }
            self.byte_more(&sheet);
        }
    }

    /// One sheet with a byte more.
    pub fn byte_more(&mut self, sheet: &[u8]) {
        for byte in [0x00, 0x01, 0x80, 0xFF] {
            let longer = [sheet, &[byte]].concat();
            self.once(&longer, DAMAGE_CAP);
        }
    }

    /// A dozen paths, from one certificate to the longest sheet.
    pub fn dozen(&mut self) -> Vec<Path> {
        let random = &mut self.random;
        let mut paths: Vec<Path> = known::rows()
            .into_iter()
            .filter(|row| ["A", "B", "E", "H user 50", "M"].contains(&row.name))
            .map(|row| row.path)
            .collect();
        paths.push(random::doubling(6));
        paths.push(random::full(Full::Straight, MAX_CERTIFICATES, random));
        paths.push(random::full(Full::Any, 3, random));
        paths.push(random::full(Full::Drawn, 4, random));
        while paths.len() < 12 {
            let path = random::path(random);
            if path.certificates.len() > 2 {
                paths.push(path);
            }
        }
        paths
    }

    /// Random bytes of every length to some more than the longest sheet: bare,
    /// after the head of a path, and full sheets cut or lengthened.
    fn random_bytes(&mut self) {
        for length in 0..=sheet::LONGEST + MORE {
            let mut bytes: Vec<u8> = (0..length).map(|_| self.random.byte()).collect();
            self.once(&bytes, tree::CAP);
            if let Some(first) = bytes.first_mut() {
                *first = 0x10 + self.random.between(1, MAX_CERTIFICATES) as u8;
                self.once(&bytes, tree::CAP);
            }
            let kind = self.random.pick(&FULL_KINDS);
            let path = random::full(kind, MAX_CERTIFICATES, &mut self.random);
            let mut full = sheet::write(&path);
            if length <= full.len() {
                full.truncate(length);
            } else {
                let more = length - full.len();
                full.extend((0..more).map(|_| self.random.byte()));
            }
            self.once(&full, DAMAGE_CAP);
        }
    }

    /// Everyday sheets and those made to harm, each also with a byte less and
    /// with a byte more.
    fn everyday_and_harm(&mut self) {
        let mut paths: Vec<Path> = everyday::shapes().iter().map(|shape| shape.path()).collect();
        paths.extend(HARMS.map(|kind| kind.path(&mut self.random)));
        for path in paths {
            let sheet = sheet::write(&path);
            self.all_lengths(&sheet);
            self.once(&sheet[..sheet.len() - 1], DAMAGE_CAP);
            self.byte_more(&sheet);
        }
    }
}

fn main() -> ExitCode {
    let mut arguments = env::args().skip(1).map(|word| word.parse::<u64>().expect("a number"));
    let seed = arguments.next().unwrap_or(1);
    let sheets = arguments.next().unwrap_or(200_000);
    let mut run = Run { random: Random::new(seed), passed: 0, failed: 0, trees: 0, over_cap: 0 };
    println!("seed {seed}, {sheets} random sheets");
    run.known();
    run.repeats();
    run.every_count();
    run.large();
    run.random_sheets(sheets);
    run.damage();
    run.random_bytes();
    run.everyday_and_harm();
    run.records(sheets / 2);
    run.pieces(sheets / 2);
    run.extensions(sheets);
    println!("compared with the tree: {}, over its cap: {}", run.trees, run.over_cap);
    println!("{} passed, {} failed", run.passed, run.failed);
    if run.failed == 0 {
        ExitCode::SUCCESS
    } else {
        ExitCode::FAILURE
    }
}
