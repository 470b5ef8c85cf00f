//! Sheets that arrive in pieces: the proved judge of pieces against the plain
//! judge, and against the proved judge of whole sheets.

use reference::answer::{Answer, NUMBERS};
use reference::everyday;
use reference::harm::HARMS;
use reference::judge;
use reference::judge_pieces::{self, Pieces};
use reference::known::{self, E_SHEET};
use reference::lent::{Lengths, Lent, ENOUGH};
use reference::path::{Path, MAX_CERTIFICATES};
use reference::pieces::{Fed, FRESH, HEAD, KEPT, STATE};
use reference::random::{self, Full, Random, FULL_KINDS};
use reference::random_pieces::{self, Way, WAYS};
use reference::sheet::{self, LONGEST};

use crate::run::{expected, hex, Run, Tables};
use crate::{MORE, OFTEN};

/// The least number of states of any bytes that each answer must get, and of
/// sheets beyond what is kept that are answered 7.
const SOME: usize = 100;

/// Sizes of states that are answered 7.
const SIZES: [usize; 8] = [0, 1, HEAD, KEPT, STATE - 1, STATE + 1, 2 * STATE, WORDS + STATE];

/// The numbers of 16 bits.
const WORDS: usize = 65_536;

/// The bytes of long pieces.
const LONG: [usize; 6] = [WORDS / 2, WORDS - 1, WORDS, WORDS + 1, WORDS + LONGEST, 2 * WORDS];

/// The states of random sizes.
const RANDOM_SIZES: usize = 500;

/// A sheet that is arriving: the lent state, and what was fed.
struct Arriving {
    state: Lent<u8>,
    fed: Fed,
}

impl Arriving {
    /// A lent state of any bytes.
    fn of(state: &[u8; STATE], random: &mut Random) -> Arriving {
        let fed = Fed::of_state(state);
        Arriving { state: Lent::part(state, STATE, random, Random::byte), fed }
    }
}

/// The sheets in pieces so far.
#[derive(Default)]
struct Tally {
    answers: [usize; NUMBERS],
    sheets: usize,
    pieces: usize,
    empty: usize,
    single: usize,
    short_after_a_fault: usize,
    short_and_overfull: usize,
}

impl Tally {
    /// Counts the pieces of a sheet.
    fn count_pieces(&mut self, pieces: &[&[u8]]) {
        let of_length = |length| pieces.iter().filter(|piece| piece.len() == length).count();
        self.sheets += 1;
        self.pieces += pieces.len();
        self.empty += of_length(0);
        self.single += of_length(1);
    }

    /// Counts the answer that a sheet got.
    fn count_answer(&mut self, sheet: &[u8], answer: &Answer) {
        self.answers[usize::from(answer.number)] += 1;
        if answer.number == sheet::TOO_SHORT {
            self.short_after_a_fault += usize::from(sheet::read(sheet).is_err());
            self.short_and_overfull += usize::from(sheet.len() > KEPT);
        }
    }
}

/// The names of the parts that are not as they should be.
fn differing(parts: &[(&'static str, bool)]) -> String {
    let names: Vec<&str> = parts.iter().filter(|(_, same)| !same).map(|&(name, _)| name).collect();
    names.join(", ")
}

/// The known paths, those that are refused too, the everyday ones, full ones, case
/// B's family and those made to harm.
fn made_paths(random: &mut Random) -> Vec<Path> {
    let mut paths: Vec<Path> = known::rows().into_iter().map(|row| row.path).collect();
    paths.extend(known::refused_rows().into_iter().map(|row| row.path));
    paths.extend(everyday::shapes().iter().map(|shape| shape.path()));
    for n in 2..=MAX_CERTIFICATES {
        paths.push(random::doubling(n));
        paths.extend(FULL_KINDS.map(|kind| random::full(kind, n, random)));
    }
    paths.extend(HARMS.map(|kind| kind.path(random)));
    paths
}

impl Run {
    /// All families of sheets in pieces and of states. Each answer must come up
    /// often.
    pub fn pieces(&mut self, sheets: u64) {
        self.made_in_pieces();
        self.every_way_of_e();
        self.every_cut_in_two();
        self.long_pieces();
        self.random_in_pieces(sheets);
        self.any_states(sheets / 5);
        self.other_sizes();
        self.owned_states(sheets / 10);
    }

    /// A lent state of old bytes that is made fresh.
    fn fresh_state(&mut self) -> Arriving {
        let mut state = Lent::new(STATE, &mut self.random, Random::byte);
        let result = judge_pieces::fresh(state.slice());
        let what = || format!("fresh differs, {result}, of the state");
        self.check(result == 0 && state.holds(&FRESH), what, &state.old());
        Arriving { state, fed: Fed::default() }
    }

    /// One piece: the result, every byte of the state, and all guards.
    fn feed(&mut self, arriving: &mut Arriving, piece: &[u8]) {
        let before = arriving.state.slice().to_vec();
        let mut lent = Lent::part(piece, piece.len(), &mut self.random, Random::byte);
        let result = judge_pieces::feed(arriving.state.slice(), lent.slice());
        arriving.fed.feed(piece);
        let parts = [
            ("result", result == 0),
            ("state", arriving.state.holds(&arriving.fed.state())),
            ("piece", lent.is_unchanged()),
        ];
        let what = || {
            let (parts, before) = (differing(&parts), hex(&before));
            format!("feed differs, {parts}: {result}, state {before}, piece")
        };
        self.check(parts.iter().all(|&(_, same)| same), what, piece);
    }

    /// The finish, with one set of tables: against the plain judge of all pieces
    /// joined together, and against the proved judge of the whole with the same
    /// tables. The state must be fresh then. Returns the expected answer.
    fn finish(&mut self, arriving: &mut Arriving, lengths: Lengths) -> Answer {
        let Arriving { state, fed } = arriving;
        let (before, joined) = (state.slice().to_vec(), fed.joined().to_vec());
        let path = sheet::read(&joined).ok();
        let tables = Tables::new(lengths, &mut self.random);
        let whole = tables.clone().judged(|authority, user, counts, counters| {
            judge::judge_sheet(&joined, authority, user, counts, counters)
        });
        let finished = tables.judged(|authority, user, counts, counters| {
            judge_pieces::finish(state.slice(), authority, user, counts, counters)
        });
        let expected = expected(lengths, |authority, user| fed.finish(authority, user));
        let parts = [
            ("number", usize::from(finished.judged.number) < NUMBERS),
            ("graph", finished.shows(&expected)),
            ("counters counted again", finished.has_recounted(path.as_ref())),
            ("whole", finished == whole),
            ("state", state.holds(&FRESH)),
        ];
        let what = || {
            let (parts, got, before) = (differing(&parts), finished.judged, hex(&before));
            format!("finish differs, {parts}: {lengths:?}, {got:?}, graph {expected:?}, state {before}, pieces")
        };
        self.check(parts.iter().all(|&(_, same)| same), what, &joined);
        self.rules(path.as_ref(), &expected, &joined);
        expected
    }

    /// One sheet in pieces, one set of tables. Returns the expected answer.
    fn in_pieces(&mut self, arriving: &mut Arriving, pieces: &[&[u8]], lengths: Lengths) -> Answer {
        for piece in pieces {
            self.feed(arriving, piece);
        }
        self.finish(arriving, lengths)
    }

    /// Sheets that were made, cut in every way, with slices that suffice and with
    /// others; those of the known paths also with all lengths.
    fn made_in_pieces(&mut self) {
        let mut arriving = self.fresh_state();
        for path in made_paths(&mut self.random) {
            let sheet = sheet::write(&path);
            for way in WAYS {
                for lengths in [ENOUGH, self.draw_lengths()] {
                    let pieces = way.cut(&sheet, &mut self.random);
                    self.in_pieces(&mut arriving, &pieces, lengths);
                }
            }
        }
        for row in known::rows() {
            let sheet = sheet::write(&row.path);
            let answer = self.with_all_lengths(&mut arriving, &sheet);
            self.check(answer == row.answer, || format!("row {} in pieces", row.name), &sheet);
        }
        for row in known::refused_rows() {
            let sheet = sheet::write(&row.path);
            let answer = self.with_all_lengths(&mut arriving, &sheet);
            let refused = answer == Answer::bare(row.number, 0);
            self.check(refused, || format!("row {} in pieces", row.name), &sheet);
        }
    }

    /// One sheet in a few pieces, with all lengths. Returns the answer expected with
    /// slices that suffice.
    fn with_all_lengths(&mut self, arriving: &mut Arriving, sheet: &[u8]) -> Answer {
        for lengths in Lengths::all() {
            let pieces = Way::Few.cut(sheet, &mut self.random);
            self.in_pieces(arriving, &pieces, lengths);
        }
        let pieces = Way::Few.cut(sheet, &mut self.random);
        self.in_pieces(arriving, &pieces, ENOUGH)
    }

    /// Case E's sheet, and one with a byte more, cut at every set of places.
    fn every_way_of_e(&mut self) {
        let mut arriving = self.fresh_state();
        for sheet in [&E_SHEET[..], &[&E_SHEET[..], &[0]].concat()] {
            for set in 0..1 << (sheet.len() - 1) {
                let cuts: Vec<usize> =
                    (1..sheet.len()).filter(|place| set >> (place - 1) & 1 == 1).collect();
                self.in_pieces(&mut arriving, &random_pieces::at(sheet, &cuts), ENOUGH);
            }
        }
    }

    /// A dozen sheets, and the longest one with more bytes, cut into two pieces
    /// at every place.
    fn every_cut_in_two(&mut self) {
        let mut sheets: Vec<Vec<u8>> = self.dozen().iter().map(sheet::write).collect();
        let longest = random::full(Full::Straight, MAX_CERTIFICATES, &mut self.random);
        let mut longer = sheet::write(&longest);
        longer.resize_with(longer.len() + MORE, || self.random.byte());
        sheets.push(longer);
        let mut arriving = self.fresh_state();
        for sheet in sheets {
            for place in 0..=sheet.len() {
                self.in_pieces(&mut arriving, &random_pieces::at(&sheet, &[place]), ENOUGH);
            }
        }
    }

    /// Long pieces: after sheets, before them, and in one piece with them.
    fn long_pieces(&mut self) {
        let longest = random::full(Full::Straight, MAX_CERTIFICATES, &mut self.random);
        let longest = sheet::write(&longest);
        let overfull = [&longest[..], &longest].concat();
        let mut arriving = self.fresh_state();
        for bytes in LONG {
            let long: Vec<u8> = (0..bytes).map(|_| self.random.byte()).collect();
            for sheet in [&[][..], &E_SHEET, &longest, &overfull] {
                for pieces in [&[sheet, &long][..], &[&long, sheet], &[&[sheet, &long].concat()]] {
                    self.in_pieces(&mut arriving, pieces, ENOUGH);
                }
            }
        }
    }

    /// Random sheets in random pieces, several one after another with one state.
    fn random_in_pieces(&mut self, sheets: u64) {
        let mut tally = Tally::default();
        let mut arriving = self.fresh_state();
        for _ in 0..sheets {
            if self.random.chance(10) {
                arriving = self.fresh_state();
            }
            let sheet = random_pieces::sheet(&mut self.random);
            let pieces = Way::draw(sheet.len(), &mut self.random).cut(&sheet, &mut self.random);
            let lengths = self.draw_lengths();
            let answer = self.in_pieces(&mut arriving, &pieces, lengths);
            tally.count_pieces(&pieces);
            tally.count_answer(&sheet, &answer);
        }
        let Tally { sheets, pieces, empty, single, .. } = tally;
        println!(
            "sheets in pieces: {sheets}, pieces: {pieces}, empty: {empty}, of one byte: {single}"
        );
        for (number, times) in tally.answers.into_iter().enumerate() {
            self.often(number, times, OFTEN, "sheets in pieces");
        }
        let inputs = "sheets in pieces";
        self.seen("answer 7 where there is a fault", tally.short_after_a_fault, OFTEN, inputs);
        self.seen("answer 7 beyond what is kept", tally.short_and_overfull, SOME, inputs);
    }

    /// States such as no feeding gives: finished at once, fed an empty piece or
    /// others, or fed the rest of a sheet whose first piece they hold.
    fn any_states(&mut self, states: u64) {
        let mut answers = [0; NUMBERS];
        for _ in 0..states {
            let random = &mut self.random;
            let sheet = random_pieces::sheet(random);
            let cut = Way::Few.cut(&sheet, random);
            let (state, pieces) = match random.below(6) {
                0 => (random_pieces::state(random), &cut[..]),
                1 => (random_pieces::state(random), &[&[][..]][..]),
                2 => {
                    let number = cut[0].len() as u16;
                    (random_pieces::holding(cut[0], number, random), &cut[1..])
                }
                _ => (random_pieces::state(random), &[][..]),
            };
            let mut arriving = Arriving::of(&state, random);
            let lengths = self.draw_lengths();
            let answer = self.in_pieces(&mut arriving, pieces, lengths);
            answers[usize::from(answer.number)] += 1;
            self.in_pieces(&mut arriving, &[&E_SHEET], ENOUGH);
        }
        for (number, times) in answers.into_iter().enumerate() {
            self.often(number, times, SOME, "states of any bytes");
        }
    }

    /// States of other sizes: each function answers 7 and writes nothing.
    fn other_sizes(&mut self) {
        let mut sizes = SIZES.to_vec();
        sizes.extend((0..RANDOM_SIZES).map(|_| self.random.below(2 * STATE)));
        sizes.retain(|&size| size != STATE);
        for size in sizes {
            let mut bytes = random_pieces::state(&mut self.random).to_vec();
            bytes.resize_with(size, || self.random.byte());
            self.other_size(&bytes);
        }
    }

    /// One such state.
    fn other_size(&mut self, bytes: &[u8]) {
        let lengths = self.draw_lengths();
        let random = &mut self.random;
        let mut state = Lent::part(bytes, bytes.len(), random, Random::byte);
        let mut piece = Lent::new(random.below(100), random, Random::byte);
        let fresh = judge_pieces::fresh(state.slice());
        let fed = judge_pieces::feed(state.slice(), piece.slice());
        let finished = Tables::new(lengths, random).judged(|authority, user, counts, counters| {
            judge_pieces::finish(state.slice(), authority, user, counts, counters)
        });
        let parts = [
            ("fresh", fresh == u32::from(sheet::TOO_SHORT)),
            ("feed", fed == u32::from(sheet::TOO_SHORT)),
            ("finish", finished.shows(&Answer::bare(sheet::TOO_SHORT, 0))),
            ("state", state.is_unchanged()),
            ("piece", piece.is_unchanged()),
        ];
        let what =
            || format!("a state of {} bytes, {}, {lengths:?}", bytes.len(), differing(&parts));
        self.check(parts.iter().all(|&(_, same)| same), what, bytes);
    }

    /// The wrapper that owns its state, for random sheets one after another.
    fn owned_states(&mut self, sheets: u64) {
        let (mut pieces, mut fed) = (Pieces::new(), Fed::default());
        self.check(pieces.state() == &FRESH, || "Pieces::new".to_string(), pieces.state());
        for _ in 0..sheets {
            let sheet = random_pieces::sheet(&mut self.random);
            for piece in Way::draw(sheet.len(), &mut self.random).cut(&sheet, &mut self.random) {
                pieces.feed(piece);
                fed.feed(piece);
                let same = pieces.state() == &fed.state();
                self.check(same, || "Pieces::feed".to_string(), fed.joined());
            }
            let lengths = self.draw_lengths();
            let tables = Tables::new(lengths, &mut self.random);
            let finished = tables.judged(|authority, user, counts, counters| {
                pieces.finish(authority, user, counts, counters)
            });
            let expected = expected(lengths, |authority, user| fed.finish(authority, user));
            let same = finished.shows(&expected) && pieces.state() == &FRESH;
            let what = || format!("Pieces::finish, {lengths:?}, {:?}", finished.judged);
            self.check(same, what, &sheet);
        }
    }
}
