//! Tables and buffers to lend, with old values in them and guards around, and the
//! lengths of those that are lent to the judge.

use std::ops::Range;

use crate::answer::{COUNTERS, DEPTHS, PLACES};
use crate::random::Random;

/// Lengths of lent tables.
pub const TABLES: [usize; 5] = [0, PLACES - 1, PLACES, PLACES + 1, 2 * PLACES];

/// Lengths of lent counts.
pub const COUNTS: [usize; 5] = [0, DEPTHS - 1, DEPTHS, DEPTHS + 1, 4 * DEPTHS];

/// Lengths of lent counters.
pub const LENT_COUNTERS: [usize; 6] = [0, 1, 2, COUNTERS, COUNTERS + 1, 4 * COUNTERS];

/// The lengths of the four slices lent to the judge.
#[derive(Clone, Copy, Debug)]
pub struct Lengths {
    pub authority: usize,
    pub user: usize,
    pub counts: usize,
    pub counters: usize,
}

/// Slices that suffice.
pub const ENOUGH: Lengths =
    Lengths { authority: PLACES, user: PLACES, counts: DEPTHS, counters: COUNTERS };

impl Lengths {
    /// Whether one of the slices is too short.
    pub fn are_short(&self) -> bool {
        self.authority.min(self.user) < PLACES || self.counts < DEPTHS || self.counters < COUNTERS
    }

    /// Whether the counters alone are too short.
    pub fn are_short_of_counters_alone(&self) -> bool {
        self.are_short() && !Lengths { counters: COUNTERS, ..*self }.are_short()
    }

    /// All lengths of the two tables, all of the counts and of the counters, and
    /// counters that are too short with every other slice that is too short or not.
    pub fn all() -> Vec<Lengths> {
        let mut all = Vec::new();
        for authority in TABLES {
            all.extend(TABLES.map(|user| Lengths { authority, user, ..ENOUGH }));
        }
        for counts in COUNTS {
            all.extend(LENT_COUNTERS.map(|counters| Lengths { counts, counters, ..ENOUGH }));
        }
        for short in 0..1 << 3 {
            let less = |slice: usize| short >> slice & 1;
            let (authority, user) = (PLACES - less(0), PLACES - less(1));
            let counts = DEPTHS - less(2);
            let counters = &LENT_COUNTERS[..COUNTERS];
            all.extend(counters.iter().map(|&counters| Lengths {
                authority,
                user,
                counts,
                counters,
            }));
        }
        all
    }
}

/// The guard places on each side.
const GUARD: usize = 8;

/// A lent slice inside a longer one, and a copy of the whole as it was.
#[derive(Clone, PartialEq)]
pub struct Lent<T> {
    cells: Vec<T>,
    before: Vec<T>,
    range: Range<usize>,
}

impl<T: Copy + PartialEq> Lent<T> {
    /// A slice of `length` places, it and its guards filled by `draw`.
    pub fn new(length: usize, random: &mut Random, draw: fn(&mut Random) -> T) -> Lent<T> {
        let cells: Vec<T> = (0..length + 2 * GUARD).map(|_| draw(random)).collect();
        Lent { before: cells.clone(), cells, range: GUARD..GUARD + length }
    }

    /// The first `length` places of `buffer`, with guards around the buffer.
    pub fn part(
        buffer: &[T],
        length: usize,
        random: &mut Random,
        draw: fn(&mut Random) -> T,
    ) -> Lent<T> {
        let guard = [(); GUARD].map(|()| draw(random));
        let cells = [&guard, buffer, &guard].concat();
        Lent { before: cells.clone(), cells, range: GUARD..GUARD + length }
    }

    /// The slice that is lent.
    pub fn slice(&mut self) -> &mut [T] {
        &mut self.cells[self.range.clone()]
    }

    /// The old values of the slice.
    pub fn old(&self) -> Vec<T> {
        self.before[self.range.clone()].to_vec()
    }

    /// Whether the slice holds exactly `expected` and the guards are as they
    /// were.
    pub fn holds(&self, expected: &[T]) -> bool {
        let Range { start, end } = self.range;
        self.cells[..start] == self.before[..start]
            && self.cells[start..end] == *expected
            && self.cells[end..] == self.before[end..]
    }

    /// Whether the slice and the guards are as they were.
    pub fn is_unchanged(&self) -> bool {
        self.cells == self.before
    }
}

#[cfg(test)]
mod tests {
    use super::*;

    #[test]
    fn one_place_less_is_too_short() {
        assert!(!ENOUGH.are_short());
        for short in [
            Lengths { authority: PLACES - 1, ..ENOUGH },
            Lengths { user: PLACES - 1, ..ENOUGH },
            Lengths { counts: DEPTHS - 1, ..ENOUGH },
            Lengths { counters: COUNTERS - 1, ..ENOUGH },
        ] {
            assert!(short.are_short(), "{short:?}");
            assert_eq!(short.are_short_of_counters_alone(), short.counters < COUNTERS);
        }
    }

    /// Counters of 0, 1 and 2 places, with each set of other slices that are too
    /// short, and longer ones with slices that suffice.
    #[test]
    fn all_lengths_of_counters() {
        let all = Lengths::all();
        for counters in 0..COUNTERS {
            for short in 0..1 << 3 {
                let set = [short & 1 == 1, short >> 1 & 1 == 1, short >> 2 & 1 == 1];
                let found = all.iter().any(|lengths| {
                    let Lengths { authority, user, counts, .. } = *lengths;
                    lengths.counters == counters
                        && set == [authority < PLACES, user < PLACES, counts < DEPTHS]
                });
                assert!(found, "{counters} {set:?}");
            }
        }
        let longer = all.iter().filter(|lengths| !lengths.are_short());
        assert!(longer.filter(|lengths| lengths.counters > COUNTERS).count() >= 2);
    }

    #[test]
    fn a_slice_and_its_guards_are_watched() {
        let mut random = Random::new(1);
        let mut lent = Lent::new(COUNTERS, &mut random, Random::word);
        let old = lent.old();
        assert!(lent.holds(&old) && lent.is_unchanged());
        lent.slice()[0] ^= 1;
        assert!(!lent.holds(&old) && !lent.is_unchanged());
        lent.slice()[0] ^= 1;
        for place in [0, GUARD - 1, GUARD + COUNTERS, 2 * GUARD + COUNTERS - 1] {
            lent.cells[place] ^= 1;
            assert!(!lent.holds(&old) && !lent.is_unchanged(), "{place}");
            lent.cells[place] ^= 1;
        }
        assert!(lent.holds(&old));
    }
}
