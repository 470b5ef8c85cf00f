//! The judge's answer, and how it stands in the lent tables.

use crate::path::{Path, MAX_CERTIFICATES};
use crate::{graph, record, sheet};

/// "two tables of 16-bit numbers, authority and user", which "need 899 places
/// (15 x 31 and 14 x 31)" (document 02, Four)
pub const PLACES: usize = 899;

/// The depth counts, from depth 0 on: "the counts have sixteen places".
pub const DEPTHS: usize = MAX_CERTIFICATES + 1;

/// The counters: "the three numbers in the order explicit, mapping, any"
/// (document 02, Seven).
pub const COUNTERS: usize = 3;

/// The numbers that the judge answers with: 0 to 10 of document 01's table, and
/// 11 (document 02, Six).
pub const NUMBERS: usize = 12;

/// "8: after certificate i's policies, explicit_policy is 0 and there is no
/// graph"
pub const NO_GRAPH: u8 = 8;
/// "9: a mapping of certificate i names anyPolicy", for i < n
pub const MAPS_ANY: u8 = 9;
/// "10: at the end, explicit_policy is 0 and the user set is empty"
pub const NO_USER_POLICY: u8 = 10;

/// The number and place, the depth counts, "the three counters as they stood when
/// the verdict was reached" (document 02, Seven), and both sets, ascending.
#[derive(Clone, Debug, Default, PartialEq, Eq)]
pub struct Answer {
    pub number: u8,
    pub place: usize,
    pub counts: [u16; DEPTHS],
    pub counters: [u16; COUNTERS],
    pub authority: Vec<u16>,
    pub user: Vec<u16>,
}

impl Answer {
    /// A refusal, place 0: all counts zero and both sets empty, and the counters
    /// "all zero after any refusal that is not a verdict" (document 02, Seven).
    pub fn bare(number: u8, place: usize) -> Answer {
        Answer { number, place, ..Answer::default() }
    }

    /// Verdict 8 or 9 at its certificate: all counts zero and both sets empty,
    /// with the counters "before test 8 or 9 fails" (document 02, Seven).
    pub fn stopped(number: u8, place: usize, counters: [u16; COUNTERS]) -> Answer {
        Answer { counters, ..Answer::bare(number, place) }
    }

    /// "1 to 7 are refusals, the others verdicts"; 11 "is a refusal like 1 to
    /// 7" (document 02, Six).
    pub fn is_refusal(&self) -> bool {
        matches!(self.number, 1..=7 | sheet::REPEATED_PAIR)
    }

    /// "After a refusal both are unchanged"; otherwise each table takes its
    /// set.
    pub fn fill(&self, authority: &mut [u16], user: &mut [u16]) {
        if !self.is_refusal() {
            fill_table(&self.authority, authority);
            fill_table(&self.user, user);
        }
    }
}

/// "each holds its set first, ascending, no repeats, and the places after the
/// last policy are zeroed to the table's end"
fn fill_table(set: &[u16], table: &mut [u16]) {
    let (first, rest) = table.split_at_mut(set.len());
    first.copy_from_slice(set);
    rest.fill(0);
}

/// Has lent tables take an answer: "7 first", then a refusal or the answer.
fn lend(
    authority: &mut [u16],
    user: &mut [u16],
    judged: impl FnOnce() -> Result<Answer, u8>,
) -> Answer {
    if authority.len() < PLACES || user.len() < PLACES {
        return Answer::bare(sheet::TOO_SHORT, 0);
    }
    let answer = judged().unwrap_or_else(|number| Answer::bare(number, 0));
    answer.fill(authority, user);
    answer
}

/// Judges a sheet: "7 first; then the sheet field by field [...]; then
/// certificate by certificate".
pub fn judge_sheet(sheet: &[u8], authority: &mut [u16], user: &mut [u16]) -> Answer {
    lend(authority, user, || sheet::read(sheet).map(|path| graph::judge(&path)))
}

/// Judges "a path handed over decoded".
pub fn judge_path(path: &Path, authority: &mut [u16], user: &mut [u16]) -> Answer {
    lend(authority, user, || sheet::refusal(path).map(|()| graph::judge(path)))
}

/// Judges the path of a record.
pub fn judge_record(record: &[u16], authority: &mut [u16], user: &mut [u16]) -> Answer {
    lend(authority, user, || record::path_of(record).map(|path| graph::judge(&path)))
}

#[cfg(test)]
mod tests {
    use super::*;
    use crate::known::{self, E_SHEET};
    use crate::path::{Certificate, MAX_LIST};
    use crate::random::{self, Random};

    /// The places of a table that is longer than needed.
    const LONGER: usize = 2 * PLACES;

    /// All policies listed, and the mapping issuers of all certificates before
    /// the last.
    #[test]
    fn a_table_has_a_place_for_every_policy_listed_and_every_issuer() {
        assert_eq!(PLACES, MAX_CERTIFICATES * MAX_LIST + (MAX_CERTIFICATES - 1) * MAX_LIST);
    }

    #[test]
    fn tables_one_place_short_and_just_long_enough() {
        let (mut authority, mut user) = ([9; PLACES], [9; PLACES]);
        let answer = judge_sheet(&E_SHEET, &mut authority[1..], &mut user);
        assert_eq!(answer, Answer::bare(7, 0));
        let answer = judge_sheet(&[], &mut authority, &mut user[1..]);
        assert_eq!(answer, Answer::bare(7, 0));
        assert_eq!((authority, user), ([9; PLACES], [9; PLACES]));
        let answer = judge_sheet(&E_SHEET, &mut authority, &mut user);
        assert_eq!((answer.number, answer.place), (0, 0));
        assert_eq!((authority[0], &user[..2]), (1, &[30, 31][..]));
        assert!(authority[1..].iter().chain(&user[2..]).all(|&place| place == 0));
    }

    #[test]
    fn tables_after_each_row() {
        for row in known::rows() {
            let (mut authority, mut user) = ([9; LONGER], [9; PLACES]);
            let numbers = record::numbers(&row.path);
            let answer = judge_record(&numbers, &mut authority, &mut user);
            assert_eq!(answer, row.answer, "{}", row.name);
            let (mut authority, mut user) = ([9; LONGER], [9; PLACES]);
            let answer = judge_path(&row.path, &mut authority, &mut user);
            assert_eq!(answer, row.answer, "{}", row.name);
            let (set, rest) = authority.split_at(answer.authority.len());
            assert_eq!(set, answer.authority);
            assert!(rest.iter().all(|&place| place == 0));
            let (set, rest) = user.split_at(answer.user.len());
            assert_eq!(set, answer.user);
            assert!(rest.iter().all(|&place| place == 0));
        }
    }

    #[test]
    fn the_refusals_are_1_to_7_and_11() {
        for number in 0..=u8::MAX {
            let refused = [1, 2, 3, 4, 5, 6, 7, 11].contains(&number);
            assert_eq!(Answer::bare(number, 0).is_refusal(), refused, "{number}");
        }
    }

    /// "all zero after any refusal that is not a verdict" (document 02, Seven)
    #[test]
    fn the_counters_are_zero_after_every_refusal() {
        let listed = |policies: &[u16]| {
            let certificate = Certificate { policies: policies.to_vec(), ..Certificate::default() };
            Path { certificates: vec![certificate], ..Path::default() }
        };
        let (zero, repeated) = (listed(&[5, 0]), listed(&[5, 5]));
        let mut longer = E_SHEET.to_vec();
        longer.push(0);
        for (sheet, places, number) in [
            (&[][..], PLACES, 1),
            (&[0x21], PLACES, 2),
            (&[0x10], PLACES, 3),
            (&sheet::write(&zero), PLACES, 4),
            (&sheet::write(&repeated), PLACES, 5),
            (&longer, PLACES, 6),
            (&E_SHEET, PLACES - 1, 7),
            (&known::REPEATED_PAIR_SHEET, PLACES, 11),
        ] {
            let answer = judge_sheet(sheet, &mut [9; PLACES], &mut vec![9; places]);
            assert_eq!((answer.number, answer.counters), (number, [0, 0, 0]));
        }
        for (path, number) in [(Path::default(), 3), (zero, 4), (repeated, 5)] {
            let numbers = record::numbers(&path);
            let decoded = judge_path(&path, &mut [9; PLACES], &mut [9; PLACES]);
            assert_eq!((decoded.number, decoded.counters), (number, [0, 0, 0]));
            let answer = judge_record(&numbers, &mut [9; PLACES], &mut [9; PLACES]);
            assert_eq!((answer.number, answer.counters), (number, [0, 0, 0]));
        }
    }

    /// The arbitrators' question, and the same of an answer that names a
    /// certificate.
    #[test]
    fn an_empty_set_is_accepted_only_where_none_is_required() {
        let mut random = Random::new(1);
        let (mut accepted, mut refused) = (0, 0);
        for _ in 0..5_000 {
            let path = random::path(&mut random);
            let answer = judge_path(&path, &mut [9; PLACES], &mut [9; PLACES]);
            let [explicit, ..] = answer.counters;
            match answer.number {
                0 if answer.user.is_empty() => {
                    accepted += 1;
                    assert!(explicit > 0, "{path:?}");
                }
                NO_GRAPH | NO_USER_POLICY => {
                    refused += 1;
                    assert_eq!(explicit, 0, "{path:?}");
                }
                _ => {}
            }
        }
        assert!(accepted >= 200 && refused >= 200, "{accepted} {refused}");
    }

    #[test]
    fn a_refusal_leaves_the_tables() {
        let (mut authority, mut user) = ([9; PLACES], [9; PLACES]);
        assert_eq!(judge_sheet(&[0x21], &mut authority, &mut user), Answer::bare(2, 0));
        assert_eq!(judge_path(&Path::default(), &mut authority, &mut user), Answer::bare(3, 0));
        assert_eq!(judge_record(&[0], &mut authority, &mut user), Answer::bare(3, 0));
        for row in known::refused_rows() {
            let (sheet, numbers) = (sheet::write(&row.path), record::numbers(&row.path));
            let refused = Answer::bare(row.number, 0);
            assert_eq!(judge_sheet(&sheet, &mut authority, &mut user), refused, "{}", row.name);
            assert_eq!(judge_path(&row.path, &mut authority, &mut user), refused, "{}", row.name);
            assert_eq!(judge_record(&numbers, &mut authority, &mut user), refused, "{}", row.name);
            let short = judge_sheet(&sheet, &mut authority, &mut user[1..]);
            assert_eq!(short, Answer::bare(7, 0), "{}", row.name);
        }
        assert_eq!((authority, user), ([9; PLACES], [9; PLACES]));
    }
}
