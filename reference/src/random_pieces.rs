//! Random sheets that arrive in pieces: the bytes, the ways to cut them, and
//! states such as no feeding gives.

use crate::path::MAX_CERTIFICATES;
use crate::pieces::{HEAD, KEPT, STATE};
use crate::random::{self, Random, FULL_KINDS};
use crate::sheet::{self, LONGEST};

/// The most bytes that are put after a sheet.
const MOST_MORE: usize = 4_000;

/// The places of the cuts around the last byte that is kept.
const LIMITS: [usize; 3] = [LONGEST, KEPT, KEPT + 1];

/// The bytes of a sheet that is often cut into single ones.
const SHORT: usize = 60;

/// A way to cut a sheet.
#[derive(Clone, Copy, Debug, PartialEq, Eq)]
pub enum Way {
    /// One piece, or none for an empty sheet.
    Whole,
    /// Single bytes.
    Bytes,
    /// Cuts at a few places, which may be the same.
    Few,
    /// Pieces of up to a drawn number of bytes, empty ones among them.
    Steps,
    /// Cuts around the last byte that is kept, and at a few other places.
    Limits,
}

/// All ways.
pub const WAYS: [Way; 5] = [Way::Whole, Way::Bytes, Way::Few, Way::Steps, Way::Limits];

impl Way {
    /// A way for a sheet of so many bytes.
    pub fn draw(length: usize, random: &mut Random) -> Way {
        let bytes = if length <= SHORT { 15 } else { 1 };
        if random.chance(bytes) {
            return Way::Bytes;
        }
        random.pick(&[Way::Whole, Way::Few, Way::Few, Way::Steps, Way::Limits])
    }

    /// The pieces of a sheet: now and then an empty one comes first or last.
    pub fn cut<'a>(self, sheet: &'a [u8], random: &mut Random) -> Vec<&'a [u8]> {
        if self == Way::Whole && sheet.is_empty() {
            return Vec::new();
        }
        let mut cuts = self.cuts(sheet.len(), random);
        if self != Way::Whole {
            cuts.extend([0, sheet.len()].into_iter().filter(|_| random.chance(20)));
        }
        cuts.sort_unstable();
        at(sheet, &cuts)
    }

    /// The places at which a sheet of so many bytes is cut.
    fn cuts(self, length: usize, random: &mut Random) -> Vec<usize> {
        match self {
            Way::Whole => Vec::new(),
            Way::Bytes => (1..length).collect(),
            Way::Few => few(length, random),
            Way::Steps => steps(length, random),
            Way::Limits => {
                let mut cuts = if random.chance(50) { few(length, random) } else { Vec::new() };
                cuts.extend(LIMITS.into_iter().filter(|&cut| cut <= length && random.chance(60)));
                cuts
            }
        }
    }
}

/// A few places.
fn few(length: usize, random: &mut Random) -> Vec<usize> {
    (0..random.between(1, 7)).map(|_| random.between(0, length)).collect()
}

/// Places that are a step of up to a drawn number of bytes apart.
fn steps(length: usize, random: &mut Random) -> Vec<usize> {
    let most = random.between(1, 2 + length / 8);
    let mut cuts = Vec::new();
    let mut next = random.between(0, most);
    while next <= length {
        cuts.push(next);
        next += random.between(0, most);
    }
    cuts
}

/// The pieces of a sheet that is cut at these places, ascending. Where two are
/// the same the piece between them is empty.
pub fn at<'a>(sheet: &'a [u8], cuts: &[usize]) -> Vec<&'a [u8]> {
    let mut start = 0;
    let mut pieces = Vec::new();
    for &end in cuts.iter().chain([&sheet.len()]) {
        pieces.push(&sheet[start..end]);
        start = end;
    }
    pieces
}

/// A random sheet: well-formed, damaged, too long, random bytes, or empty.
pub fn sheet(random: &mut Random) -> Vec<u8> {
    match random.below(100) {
        0 => Vec::new(),
        1..=12 => longer(random::sheet(random), random),
        13..=16 => longer(full(random), random),
        17..=19 => damaged(full(random), random),
        20..=23 => bytes(random),
        _ => random::sheet(random),
    }
}

/// A full sheet, the longest as often as not.
fn full(random: &mut Random) -> Vec<u8> {
    let n = if random.chance(50) { MAX_CERTIFICATES } else { random.between(2, MAX_CERTIFICATES) };
    let kind = random.pick(&FULL_KINDS);
    sheet::write(&random::full(kind, n, random))
}

/// The sheet as it is, with one bit the other way, or without its last bytes.
fn damaged(sheet: Vec<u8>, random: &mut Random) -> Vec<u8> {
    match random.below(3) {
        0 => sheet,
        1 => random::flip_bit(random, sheet),
        _ => random::cut(random, sheet),
    }
}

/// The sheet with zeros or with random bytes after it: a few, as many as fill a
/// state or one fewer or more, or any number of them.
fn longer(mut sheet: Vec<u8>, random: &mut Random) -> Vec<u8> {
    let few = sheet.len() + random.between(1, 4);
    let any = sheet.len() + random.between(1, MOST_MORE);
    let limit = random.pick(&LIMITS).max(few);
    let length = random.pick(&[few, any, any, limit]);
    let zeros = random.chance(50);
    sheet.resize_with(length, || if zeros { 0 } else { random.byte() });
    sheet
}

/// Random bytes, more often than not after the first byte of a sheet.
fn bytes(random: &mut Random) -> Vec<u8> {
    let most = random.pick(&[100, 2 * STATE]);
    let mut bytes: Vec<u8> = (0..random.between(0, most)).map(|_| random.byte()).collect();
    if let Some(first) = bytes.first_mut().filter(|_| random.chance(70)) {
        *first = 0x10 + random.between(1, MAX_CERTIFICATES) as u8;
    }
    bytes
}

/// A state such as no feeding gives, but by chance: any number, and places that
/// hold a sheet or none.
pub fn state(random: &mut Random) -> [u8; STATE] {
    if random.chance(25) {
        return holding(&[], any_number(random), random);
    }
    let sheet = sheet(random);
    let number = number_near(sheet.len().min(KEPT) as u16, random);
    holding(&sheet, number, random)
}

/// A state with this number, whose places hold these bytes, as many as there is
/// room for, with zeros or with random bytes after them.
pub fn holding(bytes: &[u8], number: u16, random: &mut Random) -> [u8; STATE] {
    let zeros = random.chance(20);
    let mut state = [0; STATE].map(|place| if zeros { place } else { random.byte() });
    let (head, places) = state.split_at_mut(HEAD);
    head.copy_from_slice(&number.to_be_bytes());
    let held = bytes.len().min(KEPT);
    places[..held].copy_from_slice(&bytes[..held]);
    state
}

/// The number of bytes that are held more often than not, else one fewer or
/// more, or any.
fn number_near(held: u16, random: &mut Random) -> u16 {
    match random.below(20) {
        0 => held.saturating_sub(1),
        1 => held + 1,
        2 => any_number(random),
        _ => held,
    }
}

/// Any number, or one around the most bytes that a state keeps.
fn any_number(random: &mut Random) -> u16 {
    match random.below(8) {
        0 => 0,
        1 => u16::MAX,
        2 => random.word(),
        3 => random.below(KEPT) as u16,
        _ => random.pick(&LIMITS) as u16,
    }
}

#[cfg(test)]
mod tests {
    use super::*;
    use crate::answer::NUMBERS;
    use crate::pieces::Fed;

    #[test]
    fn pieces_are_the_sheet() {
        let mut random = Random::new(1);
        for _ in 0..200 {
            let sheet = sheet(&mut random);
            for way in WAYS {
                assert_eq!(way.cut(&sheet, &mut random).concat(), sheet, "{way:?}");
            }
        }
    }

    #[test]
    fn pieces_at_places() {
        let sheet = [1, 2, 3];
        assert_eq!(at(&sheet, &[]), [&sheet[..]]);
        assert_eq!(at(&sheet, &[0, 2, 2, 3]), [&[][..], &[1, 2], &[], &[3], &[]]);
    }

    #[test]
    fn no_piece_and_single_bytes() {
        let mut random = Random::new(2);
        assert!(Way::Whole.cut(&[], &mut random).is_empty());
        assert_eq!(Way::Whole.cut(&[5], &mut random), [[5]]);
        let sheet = [1, 2, 3];
        let mut single = Way::Bytes.cut(&sheet, &mut random);
        single.retain(|piece| !piece.is_empty());
        assert_eq!(single, [[1], [2], [3]]);
    }

    /// Of a sheet that is too long, each place around the last byte kept is cut
    /// often, and so is each of a short sheet; empty pieces come first, last and
    /// between others.
    #[test]
    fn every_place_is_cut() {
        let mut random = Random::new(3);
        for (length, places) in [(2 * STATE, &LIMITS[..]), (5, &[0, 1, 2, 3, 4, 5])] {
            let sheet = vec![7; length];
            let mut times = vec![0; length + 1];
            let mut empty = 0;
            for _ in 0..1_000 {
                let way = Way::draw(length, &mut random);
                let pieces = way.cut(&sheet, &mut random);
                let mut end = 0;
                for piece in &pieces[..pieces.len() - 1] {
                    end += piece.len();
                    times[end] += 1;
                    empty += usize::from(piece.is_empty());
                }
            }
            assert!(places.iter().all(|&place| times[place] >= 50), "{length}");
            assert!(empty >= 100, "{length}: {empty}");
        }
    }

    #[test]
    fn random_sheets_are_of_every_kind() {
        let mut random = Random::new(4);
        let sheets: Vec<Vec<u8>> = (0..2_000).map(|_| sheet(&mut random)).collect();
        let mut times = [0; NUMBERS];
        for sheet in &sheets {
            times[usize::from(sheet::read(sheet).err().unwrap_or(0))] += 1;
        }
        assert!((0..=6).chain([11]).all(|number| times[number] >= 20), "{times:?}");
        for length in [0, LONGEST, KEPT, KEPT + 1] {
            assert!(sheets.iter().filter(|sheet| sheet.len() == length).count() >= 5, "{length}");
        }
        assert!(sheets.iter().filter(|sheet| sheet.len() > 2 * STATE - 2_000).count() >= 20);
    }

    #[test]
    fn states_of_every_kind() {
        let mut random = Random::new(5);
        let states: Vec<[u8; STATE]> = (0..2_000).map(|_| state(&mut random)).collect();
        for number in [0, LONGEST, KEPT, KEPT + 1, usize::from(u16::MAX)] {
            let head = (number as u16).to_be_bytes();
            let times = states.iter().filter(|state| state[..HEAD] == head).count();
            assert!(times >= 10, "{number}: {times}");
        }
        let fed: Vec<Fed> = states.iter().map(Fed::of_state).collect();
        let sheets = fed.iter().filter(|fed| sheet::read(fed.joined()).is_ok()).count();
        let strange = states.iter().zip(&fed).filter(|(state, fed)| fed.state() != **state).count();
        assert!(sheets >= 500 && strange >= 1_000, "{sheets} {strange}");
    }
}
