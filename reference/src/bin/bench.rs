//! The speed of the proved judge, readers and writer beside the plain graph
//! judge, codec and reader of extensions of this package, and of the proved
//! judge of pieces beside that of whole sheets, as Markdown.
//!
//! Argument: the seed of the sheets (1).

use std::env;
use std::fmt::Debug;
use std::hint::black_box;
use std::time::Instant;

use reference::answer::{COUNTERS, DEPTHS, PLACES};
use reference::beside::{Judges, JUDGE_RECORD, JUDGE_SHEET};
use reference::draft::{Draft, Identifier};
use reference::everyday::{self, Everyday};
use reference::extensions;
use reference::harm::HARMS;
use reference::judge::{self, Judged, Writing, Written};
use reference::judge_pieces;
use reference::path::{Certificate, Path, MAX_CERTIFICATES, MAX_LIST};
use reference::pieces::{FRESH, STATE};
use reference::random::{self, Full, Random, FULL_KINDS};
use reference::random_extensions::{self, Input};
use reference::{random_pieces, record, register, sheet, tree};

/// The sheets of one kind and length.
const SHEETS: usize = 4;

/// The batches of each judge on each sheet, of which the median counts.
const BATCHES: usize = 101;

/// The least time of one batch, in microseconds.
const BATCH_TIME: f64 = 50.0;

/// The numbers of pieces into which a sheet is cut, beside single bytes.
const PIECES: [usize; 3] = [1, 3, 8];

/// The number and place of an answer.
type Verdict = (u8, usize);

/// The verdict on a path that is valid for policy.
const VALID: Verdict = (0, 0);

/// The tables lent to one judge for all runs on one input.
#[derive(Debug, PartialEq)]
struct Tables {
    authority: [u16; PLACES],
    user: [u16; PLACES],
    counts: [u16; DEPTHS],
    counters: [u16; COUNTERS],
}

impl Tables {
    fn new() -> Tables {
        Tables {
            authority: [0; PLACES],
            user: [0; PLACES],
            counts: [0; DEPTHS],
            counters: [0; COUNTERS],
        }
    }

    /// The plain judge judges once.
    fn plain<I>(&mut self, judges: &Judges<I>, input: &[I]) -> Verdict {
        let answer = (judges.plain)(black_box(input), &mut self.authority, &mut self.user);
        (self.counts, self.counters) = (answer.counts, answer.counters);
        black_box(&*self);
        (answer.number, answer.place)
    }

    /// The proved judge judges once.
    fn proved<I>(&mut self, judges: &Judges<I>, input: &[I]) -> Verdict {
        let Tables { authority, user, counts, counters } = self;
        let judged = (judges.proved)(black_box(input), authority, user, counts, counters);
        black_box(&*self);
        (judged.number, judged.place)
    }

    /// The proved judge judges once, a sheet that comes in pieces.
    fn in_pieces(&mut self, state: &mut [u8; STATE], pieces: &[&[u8]]) -> Verdict {
        let Tables { authority, user, counts, counters } = self;
        judge_pieces::fresh(state);
        for piece in black_box(pieces) {
            judge_pieces::feed(state, piece);
        }
        let Judged { number, place } =
            judge_pieces::finish(state, authority, user, counts, counters);
        black_box((&*self, &*state));
        (number, place)
    }
}

/// Times for one input, in microseconds.
#[derive(Default)]
struct Times {
    plain: f64,
    proved: f64,
}

/// Times both judges on one sheet or record of n certificates. Both give the
/// verdict, with the same counts, counters and tables, and where it is 0 no
/// depth count to n is 0.
fn judging<I>(judges: &Judges<I>, input: &[I], n: usize, verdict: Verdict) -> Times {
    let (mut plain, mut proved) = (Tables::new(), Tables::new());
    assert_eq!(plain.plain(judges, input), verdict);
    assert_eq!(proved.proved(judges, input), verdict);
    assert_eq!(proved, plain);
    assert!(verdict != VALID || plain.counts[..=n].iter().all(|&count| count > 0));
    in_turn(|| plain.plain(judges, input), || proved.proved(judges, input))
}

/// Times both judges on sheets with one verdict: the mean over the sheets.
fn measure(paths: &[Path], verdict: Verdict) -> Times {
    mean(
        paths.iter().map(|path| {
            judging(&JUDGE_SHEET, &sheet::write(path), path.certificates.len(), verdict)
        }),
    )
}

/// The mean of times.
fn mean(times: impl ExactSizeIterator<Item = Times>) -> Times {
    let count = times.len() as f64;
    let sum = times.fold(Times::default(), |sum, times| Times {
        plain: sum.plain + times.plain,
        proved: sum.proved + times.proved,
    });
    Times { plain: sum.plain / count, proved: sum.proved / count }
}

/// Times two functions that write a sheet or a record: the plain one returns
/// it, the proved one has a lent slice of so many places. Both write the same.
fn writing<I, O: Copy + Default + Debug + PartialEq>(
    input: &[I],
    places: usize,
    plain: fn(&[I]) -> Vec<O>,
    proved: Writing<I, O>,
) -> Times {
    let mut lent = vec![O::default(); places];
    let expected = plain(input);
    assert_eq!(proved(input, &mut lent), Written { number: 0, length: expected.len() });
    assert_eq!(lent[..expected.len()], expected);
    in_turn(|| plain(black_box(input)), || proved(black_box(input), &mut lent))
}

/// Reading alone: a sheet to its path's record.
fn reading_alone(path: &Path) -> Times {
    let plain = |sheet: &[u8]| record::numbers(&sheet::read(sheet).expect("a sheet"));
    writing(&sheet::write(path), record::LONGEST, plain, judge::read_record)
}

/// Writing alone: a record to its path's sheet.
fn writing_alone(path: &Path) -> Times {
    let plain = |record: &[u16]| sheet::write(&record::path_of(record).expect("a record"));
    writing(&record::numbers(path), sheet::LONGEST, plain, judge::write_record)
}

/// Reading and writing: a sheet to its path's sheet.
fn rewriting(path: &Path) -> Times {
    let plain = |sheet: &[u8]| sheet::write(&sheet::read(sheet).expect("a sheet"));
    writing(&sheet::write(path), sheet::LONGEST, plain, judge::rewrite_sheet)
}

/// The pieces of a sheet, so many and as even as can be.
fn even_pieces(sheet: &[u8], number: usize) -> Vec<&[u8]> {
    let cuts: Vec<usize> = (1..number).map(|place| place * sheet.len() / number).collect();
    random_pieces::at(sheet, &cuts)
}

/// Times the proved judge on a sheet that is answered 0: in one call, in place of
/// the plain judge, and in so many pieces. Both leave the same.
fn judging_pieces(sheet: &[u8], number: usize) -> Times {
    let pieces = even_pieces(sheet, number);
    let (mut whole, mut joined) = (Tables::new(), Tables::new());
    let mut state = FRESH;
    assert_eq!(whole.proved(&JUDGE_SHEET, sheet), VALID);
    assert_eq!(joined.in_pieces(&mut state, &pieces), VALID);
    assert_eq!(joined, whole);
    in_turn(|| whole.proved(&JUDGE_SHEET, sheet), || joined.in_pieces(&mut state, &pieces))
}

/// The slices lent to one reader of extensions.
#[derive(PartialEq)]
struct Lent {
    register: Vec<u8>,
    certificate: [u16; extensions::PLACES],
}

impl Lent {
    fn new(register: &[u8]) -> Lent {
        Lent { register: register.to_vec(), certificate: [0; extensions::PLACES] }
    }

    /// Takes the entries back that were added to a register: its count and its
    /// order are as they were.
    fn put_back(&mut self, register: &[u8]) {
        let end = register::entry_start(0);
        self.register[..end].copy_from_slice(&register[..end]);
    }

    /// The plain reader reads once.
    fn plain(&mut self, input: &Input) -> Written {
        let values = black_box(input.extensions());
        let (number, length) =
            extensions::read_into(values, &mut self.register, &mut self.certificate);
        black_box(&*self);
        Written { number, length }
    }

    /// The proved reader reads once.
    fn proved(&mut self, input: &Input) -> Written {
        let values = black_box(input.extensions());
        let written = judge::read_extensions(values, &mut self.register, &mut self.certificate);
        black_box(&*self);
        written
    }
}

/// Times both readers on extensions that are read. Both leave the same.
fn reading_extensions(input: &Input) -> Times {
    let old = &input.register;
    let (mut plain, mut proved) = (Lent::new(old), Lent::new(old));
    assert_eq!(plain.plain(input).number, 0);
    assert_eq!(proved.proved(input).number, 0);
    assert!(proved == plain);
    if plain.register == *old {
        return in_turn(|| plain.plain(input), || proved.proved(input));
    }
    in_turn(
        || {
            plain.put_back(old);
            plain.plain(input)
        },
        || {
            proved.put_back(old);
            proved.proved(input)
        },
    )
}

/// Times both functions, batch by batch in turn: the median of each.
fn in_turn<T, U>(mut plain: impl FnMut() -> T, mut proved: impl FnMut() -> U) -> Times {
    let mut plain = || drop(black_box(plain()));
    let mut proved = || drop(black_box(proved()));
    let (plain_rounds, proved_rounds) = (rounds(&mut plain), rounds(&mut proved));
    let (mut plain_times, mut proved_times) = (Vec::new(), Vec::new());
    for _ in 0..BATCHES {
        plain_times.push(time(plain_rounds, &mut plain));
        proved_times.push(time(proved_rounds, &mut proved));
    }
    Times { plain: median(plain_times), proved: median(proved_times) }
}

/// The rounds that fill the least time of a batch; also warms up.
fn rounds(mut round: impl FnMut()) -> usize {
    round();
    let once = time(1, &mut round);
    (BATCH_TIME / once).ceil().max(1.0) as usize
}

/// Microseconds for one round, from a batch of them.
fn time(rounds: usize, mut round: impl FnMut()) -> f64 {
    let start = Instant::now();
    for _ in 0..rounds {
        round();
    }
    start.elapsed().as_secs_f64() * 1e6 / rounds as f64
}

fn median(mut times: Vec<f64>) -> f64 {
    times.sort_by(f64::total_cmp);
    times[times.len() / 2]
}

fn full_paths(kinds: &[Full], n: usize, random: &mut Random) -> Vec<Path> {
    let draws = kinds.iter().flat_map(|&kind| [kind; SHEETS]);
    draws.map(|kind| random::full(kind, n, random)).collect()
}

/// A row: its first cells, then both times and their ratio.
fn print_row(first: &[String], times: &Times) {
    let (first, ratio) = (first.join(" | "), times.proved / times.plain);
    let [plain, proved] = [times.plain, times.proved].map(microseconds);
    println!("| {first} | {plain} | {proved} | {ratio:.2} |");
}

/// A time as it is printed: in thousandths below 1, else in hundredths.
fn microseconds(time: f64) -> String {
    let decimals = if time < 1.0 { 3 } else { 2 };
    format!("{time:.decimals$}")
}

/// The head over such rows.
fn print_head(first: &[&str]) {
    println!("| {} | plain, µs | proved, µs | proved / plain |", first.join(" | "));
    println!("|---{}|", "|---:".repeat(first.len() + 2));
}

/// How the times were taken.
fn print_method(seed: u64) {
    println!(
        "Time for one sheet: the median of {BATCHES} batches of each judge, taken in turn on the"
    );
    println!("same sheet, and where there are several sheets the mean of their medians. Reading");
    println!("the sheet is included in both. The lent tables are not cleared between runs; the");
    println!("judge overwrites them. Optimised builds, seed {seed}.");
}

/// The table of full sheets.
fn print_full(random: &mut Random) {
    println!(
        "\nFull sheets of {MAX_CERTIFICATES} certificates with {MAX_LIST} policies and {MAX_LIST} pairs each, answered 0 with"
    );
    println!("no depth count 0, {SHEETS} of each kind:\n");
    print_head(&["kind"]);
    for kind in FULL_KINDS {
        let paths = full_paths(&[kind], MAX_CERTIFICATES, random);
        print_row(&[format!("{kind:?}")], &measure(&paths, VALID));
    }
    let paths = full_paths(&FULL_KINDS, MAX_CERTIFICATES, random);
    print_row(&["all kinds".to_string()], &measure(&paths, VALID));
}

/// The table by the number of certificates.
fn print_growth(random: &mut Random) {
    println!("\nGrowth with the number of certificates, all kinds together:\n");
    print_head(&["n"]);
    for n in 2..=MAX_CERTIFICATES {
        let paths = full_paths(&FULL_KINDS, n, random);
        print_row(&[n.to_string()], &measure(&paths, VALID));
    }
}

/// The table of case B's family.
fn print_doubling() {
    println!("\nCase B's family, where the tree has 2^n leaves:\n");
    print_head(&["n", "leaves", "tree, µs"]);
    for n in 2..=MAX_CERTIFICATES {
        let path = random::doubling(n);
        let times = measure(std::slice::from_ref(&path), VALID);
        let grow = || {
            let answer = tree::judge(black_box(&path), usize::MAX);
            assert!(black_box(answer).is_some());
        };
        let tree_rounds = rounds(grow);
        let tree = median((0..BATCHES).map(|_| time(tree_rounds, grow)).collect());
        print_row(&[n.to_string(), (1 << n).to_string(), format!("{tree:.2}")], &times);
    }
}

/// The table of everyday sheets.
fn print_everyday() {
    println!("\nEveryday sheets: the same policies in each certificate, or each mapped to one of");
    println!("the next certificate; the user asks for one that the path carries, answered 0:\n");
    print_head(&["n", "policies", "mapped"]);
    for shape in everyday::shapes() {
        let mapped = if shape.mapped { "one to one" } else { "no" };
        let first = [shape.n.to_string(), shape.policies.to_string(), mapped.to_string()];
        print_row(&first, &measure(&[shape.path()], VALID));
    }
}

/// The table of sheets made to harm.
fn print_harm(random: &mut Random) {
    println!(
        "\nSheets made to harm an engine (reference/src/harm.rs), with the answer that both give,"
    );
    println!("{SHEETS} of each, which differ where names are drawn:\n");
    print_head(&["sheet", "answer"]);
    for kind in HARMS {
        let paths: Vec<Path> = (0..SHEETS).map(|_| kind.path(random)).collect();
        let answer = match kind.verdict() {
            (number, 0) => number.to_string(),
            (number, place) => format!("{number} at {place}"),
        };
        print_row(&[kind.to_string(), answer], &measure(&paths, kind.verdict()));
    }
}

/// A path with its name.
type Named = (String, Path);

/// The name of an everyday path.
fn name_of(shape: Everyday) -> String {
    let Everyday { n, policies, mapped } = shape;
    format!("{n} x {policies}{}", if mapped { ", mapped" } else { "" })
}

/// Paths from one certificate with one policy to a full one, answered 0.
fn small_to_full(random: &mut Random) -> Vec<Named> {
    let shapes = [(1, 1, false), (2, 1, false), (3, 2, false), (4, 4, true)];
    let everyday = shapes.map(|(n, policies, mapped)| {
        let shape = Everyday { n, policies, mapped };
        (name_of(shape), shape.path())
    });
    let mut paths = everyday.to_vec();
    let case_b = random::doubling(MAX_CERTIFICATES);
    paths.push((format!("case B, n = {MAX_CERTIFICATES}"), case_b));
    paths.push(full_path(Full::Straight, random));
    paths
}

/// As many certificates as can be, of small fields alone: flags and skip values,
/// and no list.
fn small_fields() -> Named {
    let certificate = Certificate {
        self_issued: true,
        require_explicit_policy: Some(10),
        inhibit_policy_mapping: Some(100),
        inhibit_any_policy: Some(200),
        ..Certificate::default()
    };
    let certificates = vec![certificate; MAX_CERTIFICATES];
    (format!("{MAX_CERTIFICATES} x 0, skip values"), Path { certificates, ..Path::default() })
}

/// The longest path of a kind.
fn full_path(kind: Full, random: &mut Random) -> Named {
    let name = format!("{MAX_CERTIFICATES} x {MAX_LIST}, full, {kind:?}");
    (name, random::full(kind, MAX_CERTIFICATES, random))
}

/// The table of reading and writing alone.
fn print_codec<'a>(paths: impl Iterator<Item = &'a Named>) {
    println!(
        "\nReading and writing alone, with no judging. Reading is from a sheet to a record of"
    );
    println!("numbers (skandrulo_read_record), writing from a record to a sheet");
    println!(
        "(skandrulo_write_record), both from a sheet to a sheet (skandrulo_rewrite_sheet). The"
    );
    println!("plain code returns new vectors, the proved code writes into lent slices:\n");
    print_head(&["sheet", "bytes", "operation"]);
    for (name, path) in paths {
        let bytes = sheet::write(path).len().to_string();
        for (operation, times) in [
            ("reading", reading_alone(path)),
            ("writing", writing_alone(path)),
            ("both", rewriting(path)),
        ] {
            print_row(&[name.clone(), bytes.clone(), operation.to_string()], &times);
        }
    }
}

/// The table of judging records.
fn print_records(paths: &[Named]) {
    println!("\nJudging records, answered 0:\n");
    print_head(&["record", "places"]);
    for (name, path) in paths {
        let record = record::numbers(path);
        let times = judging(&JUDGE_RECORD, &record, path.certificates.len(), VALID);
        print_row(&[name.clone(), record.len().to_string()], &times);
    }
}

/// The everyday paths of all shapes, and a full one.
fn everyday_and_full(random: &mut Random) -> Vec<Named> {
    let shapes = everyday::shapes().into_iter();
    let mut paths: Vec<Named> = shapes.map(|shape| (name_of(shape), shape.path())).collect();
    paths.push(full_path(Full::Straight, random));
    paths
}

/// The table of sheets in pieces.
fn print_pieces(paths: &[Named]) {
    println!(
        "\nSheets that arrive in pieces, answered 0. The proved judge is timed in one call for"
    );
    println!(
        "the whole sheet, and in turn with that in as many calls as it takes: skandrulo_fresh,"
    );
    println!("skandrulo_feed for each piece, and skandrulo_finish. The pieces are as even as can");
    println!("be. Under their number stands the ratio, time in pieces / time in one call:\n");
    let numbers = PIECES.map(|number| format!("in {number}")).join(" | ");
    println!("| sheet | bytes | one call, µs | {numbers} | in single bytes |");
    println!("|---{}|", "|---:".repeat(PIECES.len() + 3));
    for (name, path) in paths {
        print_pieces_row(name, &sheet::write(path));
    }
}

/// A row of it.
fn print_pieces_row(name: &str, sheet: &[u8]) {
    let bytes = sheet.len();
    let numbers = PIECES.into_iter().chain([bytes]);
    let times: Vec<Times> = numbers.map(|number| judging_pieces(sheet, number)).collect();
    let one_call = microseconds(times[0].plain);
    let ratios: Vec<String> =
        times.iter().map(|times| format!("{:.2}", times.proved / times.plain)).collect();
    println!("| {name} | {bytes} | {one_call} | {} |", ratios.join(" | "));
}

/// Everyday extensions, with a register of so many entries after the call, to
/// which their two identifiers belong already or are added.
fn everyday_extensions(random: &mut Random, entries: usize, new: bool) -> Input {
    let mut identifiers = random_extensions::enterprise_identifiers(random, entries);
    let policies: [Identifier; 2] =
        [entries - 2, entries - 1].map(|place| identifiers[place].clone());
    if new {
        identifiers.truncate(entries - 2);
    }
    random.shuffle(&mut identifiers);
    let draft = Draft::everyday(&policies[0], &policies[1]);
    Input::new(draft.encode(), 0, &register::of(&identifiers)[..])
}

/// The table of reading extensions.
fn print_extensions(random: &mut Random) {
    println!("\nReading the extensions of a certificate with two policies, one pair and both");
    println!("constraints, answered 0. The registers hold identifiers 1.3.6.1.4.1.x.y, {SHEETS} drawn of");
    println!("each size, and are looked through at every call. The certificate's identifiers are");
    println!(
        "entries, or they are new: then the old count and order, 1,026 bytes, are copied back"
    );
    println!("before each call, within both times. The ratio should be at most 1.5:\n");
    print_head(&["entries before", "entries after"]);
    for new in [false, true] {
        for entries in [2, 50, 512] {
            let inputs = (0..SHEETS).map(|_| everyday_extensions(random, entries, new));
            let times = mean(inputs.map(|input| reading_extensions(&input)));
            let before = if new { entries - 2 } else { entries };
            print_row(&[before.to_string(), entries.to_string()], &times);
        }
    }
}

fn main() {
    let seed = env::args().nth(1).map_or(1, |word| word.parse().expect("a number"));
    let mut random = Random::new(seed);
    print_method(seed);
    print_full(&mut random);
    print_growth(&mut random);
    print_doubling();
    print_everyday();
    print_harm(&mut random);
    let mut paths = small_to_full(&mut random);
    print_codec(paths.iter().chain([&small_fields()]));
    paths.push(full_path(Full::Any, &mut random));
    print_records(&paths);
    print_extensions(&mut random);
    print_pieces(&everyday_and_full(&mut random));
}
