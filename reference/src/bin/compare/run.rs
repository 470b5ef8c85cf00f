//! A run of checks: one input and one set of lent slices at a time.

use std::fmt::UpperHex;
use std::mem::size_of;

use reference::answer::{Answer, COUNTERS, DEPTHS};
use reference::beside::{Judges, JUDGE_RECORD, JUDGE_SHEET};
use reference::judge::{self, Judged, Writing, Written};
use reference::lent::{Lengths, Lent, COUNTS, LENT_COUNTERS, TABLES};
use reference::path::Path;
use reference::random::Random;
use reference::{causes, record, recount, sheet, tree};

/// The failures that are printed whole.
const SHOWN: usize = 20;

/// Lengths of lent buffers.
pub const BUFFERS: [usize; 5] =
    [0, sheet::LONGEST - 1, sheet::LONGEST, sheet::LONGEST + 1, 2 * sheet::LONGEST];

/// Lengths of lent records.
pub const RECORDS: [usize; 5] =
    [0, record::LONGEST - 1, record::LONGEST, record::LONGEST + 1, 2 * record::LONGEST];

/// The plain answer with slices of these lengths.
pub fn expected(lengths: Lengths, plain: impl FnOnce(&mut [u16], &mut [u16]) -> Answer) -> Answer {
    let answer = plain(&mut vec![0; lengths.authority], &mut vec![0; lengths.user]);
    if lengths.are_short() {
        return Answer::bare(sheet::TOO_SHORT, 0);
    }
    answer
}

/// A function of the library that writes into a lent slice, the plain one
/// beside it, and what draws the slice's old values.
struct Writer<I, O> {
    name: &'static str,
    proved: Writing<I, O>,
    plain: fn(&[I], &mut [O]) -> (u8, usize),
    old: fn(&mut Random) -> O,
}

const REWRITE_SHEET: Writer<u8, u8> = Writer {
    name: "rewrite_sheet",
    proved: judge::rewrite_sheet,
    plain: sheet::rewrite,
    old: Random::byte,
};

const WRITE_RECORD: Writer<u16, u8> = Writer {
    name: "write_record",
    proved: judge::write_record,
    plain: record::write_into,
    old: Random::byte,
};

const READ_RECORD: Writer<u8, u16> = Writer {
    name: "read_record",
    proved: judge::read_record,
    plain: record::read_into,
    old: Random::word,
};

/// The slices lent for one judgement.
#[derive(Clone, PartialEq)]
pub struct Tables {
    authority: Lent<u16>,
    user: Lent<u16>,
    counts: Lent<u16>,
    counters: Lent<u16>,
}

impl Tables {
    /// Slices full of old values.
    pub fn new(lengths: Lengths, random: &mut Random) -> Tables {
        Tables {
            authority: Lent::new(lengths.authority, random, Random::word),
            user: Lent::new(lengths.user, random, Random::word),
            counts: Lent::new(lengths.counts, random, Random::word),
            counters: Lent::new(lengths.counters, random, Random::word),
        }
    }

    /// Has the proved judge judge with these slices.
    pub fn judged(
        mut self,
        proved: impl FnOnce(&mut [u16], &mut [u16], &mut [u16], &mut [u16]) -> Judged,
    ) -> Judgement {
        let Tables { authority, user, counts, counters } = &mut self;
        let judged = proved(authority.slice(), user.slice(), counts.slice(), counters.slice());
        Judgement { tables: self, judged }
    }
}

/// The slices after a judgement, and what the proved judge returned.
#[derive(PartialEq)]
pub struct Judgement {
    tables: Tables,
    pub judged: Judged,
}

impl Judgement {
    /// Has the proved judge judge with slices full of old values.
    pub fn of<I>(
        judges: &Judges<I>,
        input: &[I],
        lengths: Lengths,
        random: &mut Random,
    ) -> Judgement {
        Tables::new(lengths, random).judged(|authority, user, counts, counters| {
            (judges.proved)(input, authority, user, counts, counters)
        })
    }

    /// Whether number, place, every place of every slice and every guard are as the
    /// answer demands.
    pub fn shows(&self, answer: &Answer) -> bool {
        let tables = &self.tables;
        let (mut authority, mut user) = (tables.authority.old(), tables.user.old());
        answer.fill(&mut authority, &mut user);
        let mut counts = tables.counts.old();
        if answer.number != sheet::TOO_SHORT {
            counts[..DEPTHS].copy_from_slice(&answer.counts);
        }
        self.judged == Judged { number: answer.number, place: answer.place }
            && tables.authority.holds(&authority)
            && tables.user.holds(&user)
            && tables.counts.holds(&counts)
            && self.has_counters(answer.counters)
    }

    /// Whether the counters begin with these and are as they were beyond them;
    /// after 7 they are as they were.
    fn has_counters(&self, numbers: [u16; COUNTERS]) -> bool {
        let mut counters = self.tables.counters.old();
        if self.judged.number != sheet::TOO_SHORT {
            let Some(first) = counters.first_chunk_mut() else { return false };
            *first = numbers;
        }
        self.tables.counters.holds(&counters)
    }

    /// Whether the counters are those that are counted again from the path, if one
    /// was read, and from the number and place that the proved judge returned.
    pub fn has_recounted(&self, path: Option<&Path>) -> bool {
        let Judged { number, place } = self.judged;
        self.has_counters(recount::counters(path, number, place))
    }
}

/// Numbers in hex.
pub fn hex<I: UpperHex>(numbers: &[I]) -> String {
    let digits = 2 * size_of::<I>();
    let hex: Vec<String> = numbers.iter().map(|number| format!("{number:0digits$X}")).collect();
    hex.join(" ")
}

/// The run so far.
pub struct Run {
    pub random: Random,
    pub passed: usize,
    pub failed: usize,
    pub trees: usize,
    pub over_cap: usize,
}

impl Run {
    /// Counts one check; a failure is printed with its input in hex.
    pub fn check<I: UpperHex>(&mut self, holds: bool, what: impl FnOnce() -> String, input: &[I]) {
        if holds {
            self.passed += 1;
            return;
        }
        self.failed += 1;
        if self.failed <= SHOWN {
            println!("FAILED {}: {}", what(), hex(input));
        }
    }

    /// One sheet or record, one set of slices: the proved judge against an answer of
    /// the graph judge, and its counters against those counted again. The path is
    /// that of the input, if one is read.
    fn answered<I: UpperHex>(
        &mut self,
        judges: &Judges<I>,
        input: &[I],
        path: Option<&Path>,
        lengths: Lengths,
        expected: &Answer,
    ) -> Judgement {
        let judgement = Judgement::of(judges, input, lengths, &mut self.random);
        let (name, got) = (judges.name, judgement.judged);
        let what = || format!("{name} and graph differ, {lengths:?}, {got:?}, graph {expected:?}");
        self.check(judgement.shows(expected), what, input);
        let what = || format!("{name} has not the counters counted again, {lengths:?}, {got:?}");
        self.check(judgement.has_recounted(path), what, input);
        judgement
    }

    /// What the counters of an expected answer must show.
    pub fn rules<I: UpperHex>(&mut self, path: Option<&Path>, expected: &Answer, input: &[I]) {
        let broken = recount::broken(path, expected);
        let what = || format!("counters of {expected:?}: {}", broken.unwrap_or_default());
        self.check(broken.is_none(), what, input);
    }

    /// One sheet, one set of slices: the proved judge, on the sheet and on its
    /// record, against the graph judge and, within the cap, the tree judge. The
    /// sheet's first cause must be that of its answer. Returns the expected answer.
    pub fn judge(&mut self, sheet: &[u8], lengths: Lengths, cap: usize) -> Answer {
        let expected =
            expected(lengths, |authority, user| (JUDGE_SHEET.plain)(sheet, authority, user));
        let path = sheet::read(sheet).ok();
        let judgement = self.answered(&JUDGE_SHEET, sheet, path.as_ref(), lengths, &expected);
        self.rules(path.as_ref(), &expected, sheet);
        if let Some(path) = &path {
            if !expected.is_refusal() {
                self.grow(path, sheet, &judgement, cap);
            }
            let record = record::numbers(path);
            self.answered(&JUDGE_RECORD, &record, Some(path), lengths, &expected);
        }
        if let Some(agrees) = causes::agrees(sheet, expected.number) {
            let what = || format!("the sheet has not the cause of its answer {}", expected.number);
            self.check(agrees, what, sheet);
        }
        expected
    }

    /// One record, one set of slices: the proved judge against the graph
    /// judge. Returns the expected answer.
    pub fn judge_record(&mut self, record: &[u16], lengths: Lengths) -> Answer {
        let expected =
            expected(lengths, |authority, user| (JUDGE_RECORD.plain)(record, authority, user));
        let path = record::path_of(record).ok();
        self.answered(&JUDGE_RECORD, record, path.as_ref(), lengths, &expected);
        self.rules(path.as_ref(), &expected, record);
        expected
    }

    /// One judgement against the tree judge, within the cap.
    fn grow(&mut self, path: &Path, sheet: &[u8], judgement: &Judgement, cap: usize) {
        let Some(answer) = tree::judge(path, cap) else {
            self.over_cap += 1;
            return;
        };
        self.trees += 1;
        let what = || format!("judge and tree differ, {:?}, tree {answer:?}", judgement.judged);
        self.check(judgement.shows(&answer), what, sheet);
    }

    /// One input, one lent slice full of old values: the proved function
    /// against the plain one. Returns what the plain one wrote.
    fn written<I: UpperHex, O: Copy + PartialEq>(
        &mut self,
        writer: &Writer<I, O>,
        input: &[I],
        length: usize,
    ) -> Vec<O> {
        let mut lent = Lent::new(length, &mut self.random, writer.old);
        let got = (writer.proved)(input, lent.slice());
        let mut expected = lent.old();
        let (number, length) = (writer.plain)(input, &mut expected);
        let same = got == Written { number, length } && lent.holds(&expected);
        let what = || format!("{} differs, {got:?}, plain {number} {length}", writer.name);
        self.check(same, what, input);
        expected.truncate(length);
        expected
    }

    /// One sheet, one buffer: the proved reader and writer against the codec,
    /// and the sheet's record written.
    pub fn rewrite(&mut self, sheet: &[u8], length: usize) {
        let mut written = vec![self.written(&REWRITE_SHEET, sheet, length)];
        if let Ok(path) = sheet::read(sheet) {
            written.push(self.write_record(&record::numbers(&path), length));
        }
        let again = written.iter().all(|written| written.is_empty() || written == sheet);
        self.check(again, || "the codec writes another sheet".to_string(), sheet);
    }

    /// One record, one buffer: the proved writer against the codec. Returns
    /// what the codec wrote.
    pub fn write_record(&mut self, record: &[u16], length: usize) -> Vec<u8> {
        self.written(&WRITE_RECORD, record, length)
    }

    /// One sheet, one lent record: the proved reader against the codec.
    pub fn read_record(&mut self, sheet: &[u8], length: usize) {
        self.written(&READ_RECORD, sheet, length);
    }

    /// Lengths for random input, short ones now and then.
    pub fn draw_lengths(&mut self) -> Lengths {
        let least = if self.random.chance(8) { 0 } else { 2 };
        let table = |random: &mut Random| random.pick(&TABLES[least..]);
        Lengths {
            authority: table(&mut self.random),
            user: table(&mut self.random),
            counts: if self.random.chance(2) { self.random.pick(&COUNTS) } else { DEPTHS },
            counters: if self.random.chance(4) {
                self.random.pick(&LENT_COUNTERS)
            } else {
                COUNTERS
            },
        }
    }

    /// One of the lengths, of which the third suffices, for random input: that
    /// one more often than not.
    pub fn draw_length(&mut self, lengths: &[usize; 5]) -> usize {
        if self.random.chance(5) {
            self.random.pick(lengths)
        } else {
            lengths[2]
        }
    }
}
