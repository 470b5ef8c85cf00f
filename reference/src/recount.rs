//! The counters worked out once more, apart from `counters.rs`: each for itself,
//! from the path and from the number and place of its answer, with nothing that is
//! carried from certificate to certificate. And what counters must show.
//!
//! A counter starts with a value, and each skip value is one that may take its
//! place. Of each value as many are gone as certificates came after it that are
//! not self-issued, and 0 is the least that is left of it. The counter is the least
//! of what is left.

use std::iter;

use crate::answer::{Answer, COUNTERS, MAPS_ANY, NO_GRAPH, NO_USER_POLICY};
use crate::path::{Certificate, Path};

/// Where a counter has its values from.
struct Source {
    flag: fn(&Path) -> bool,
    skip: fn(&Certificate) -> Option<u8>,
}

/// "in the order explicit, mapping, any" (document 02, Seven)
const SOURCES: [Source; COUNTERS] = [
    Source { flag: |path| path.explicit_policy, skip: |one| one.require_explicit_policy },
    Source { flag: |path| path.mapping_inhibit, skip: |one| one.inhibit_policy_mapping },
    Source { flag: |path| path.any_policy_inhibit, skip: |one| one.inhibit_any_policy },
];

impl Source {
    /// The counter after the given certificates, the first of its path.
    fn after(&self, path: &Path, first: &[Certificate]) -> usize {
        let start = if (self.flag)(path) { 0 } else { path.certificates.len() + 1 };
        let skips = first.iter().map(|one| (self.skip)(one).map(usize::from));
        iter::once(Some(start))
            .chain(skips)
            .enumerate()
            .filter_map(|(given, value)| Some(value?.saturating_sub(falls(&first[given..]))))
            .min()
            .unwrap_or(0)
    }
}

/// The certificates that are not self-issued.
fn falls(certificates: &[Certificate]) -> usize {
    certificates.iter().filter(|certificate| !certificate.self_issued).count()
}

/// The counters with which the certificate at a place, from 1 on, is tested: before
/// its mappings and its skip values. One place beyond the last they are those that
/// the last would leave if another came.
pub fn at(path: &Path, place: usize) -> [u16; COUNTERS] {
    let before = place.saturating_sub(1).min(path.certificates.len());
    SOURCES.map(|source| source.after(path, &path.certificates[..before]) as u16)
}

/// The counters with which the last certificate is tested.
fn tested_last(path: &Path) -> [u16; COUNTERS] {
    at(path, path.certificates.len())
}

/// The counters after the end rules: explicit_policy is one less than the last
/// certificate was tested with, self-issued or not, or 0 where its
/// requireExplicitPolicy is 0; the others are those that it was tested with.
pub fn at_the_end(path: &Path) -> [u16; COUNTERS] {
    let [tested, mapping, any] = tested_last(path);
    let last = path.certificates.last();
    let explicit = match last.and_then(|last| last.require_explicit_policy) {
        Some(0) => 0,
        _ => tested.max(1) - 1,
    };
    [explicit, mapping, any]
}

/// The counters of an answer with this number and place: "before test 8 or 9 fails,
/// or after the end rules for 0 and 10; all zero after any refusal that is not a
/// verdict" (document 02, Seven). Zeros too where no path was read.
pub fn counters(path: Option<&Path>, number: u8, place: usize) -> [u16; COUNTERS] {
    match (number, path) {
        (NO_GRAPH | MAPS_ANY, Some(path)) => at(path, place),
        (0 | NO_USER_POLICY, Some(path)) => at_the_end(path),
        _ => [0; COUNTERS],
    }
}

/// What the counters of an answer break, if they break anything. The path is that
/// of the sheet or record, if one was read.
pub fn broken(path: Option<&Path>, answer: &Answer) -> Option<&'static str> {
    let Answer { number, place, counters: stood, user, .. } = answer;
    let n = path.map_or(0, |path| path.certificates.len());
    let rules = [
        ("counted again they are others", *stood == counters(path, *number, *place)),
        ("not zero after a refusal", !answer.is_refusal() || *stood == [0; COUNTERS]),
        ("above n + 1", stood.iter().all(|&counter| usize::from(counter) <= n + 1)),
        ("explicit_policy 0, an empty set accepted", explains_empty(*number, user, stood[0])),
        ("explicit_policy above 0 at an 8 or a 10", requires(*number, stood[0])),
    ];
    rules.into_iter().find(|&(_, holds)| !holds).map(|(rule, _)| rule)
}

/// "why an empty set was accepted" (document 02, Seven): since explicit_policy was
/// above 0.
fn explains_empty(number: u8, user: &[u16], explicit: u16) -> bool {
    number != 0 || !user.is_empty() || explicit > 0
}

/// "explicit_policy is 0" where the answer is 8 or 10.
fn requires(number: u8, explicit: u16) -> bool {
    !matches!(number, NO_GRAPH | NO_USER_POLICY) || explicit == 0
}

/// A kind of verdict whose counters tell readings apart: its name, and whether a
/// path's answer is of it.
type Kind = (&'static str, fn(&Path, &Answer) -> bool);

/// The kinds that must come up often.
pub const KINDS: [Kind; 8] = [
    ("8, mapping and any differ", |_, answer| answer.number == NO_GRAPH && differ(answer)),
    ("8, others after the certificate", |path, answer| {
        answer.number == NO_GRAPH && changed(path, answer)
    }),
    ("9, others after the certificate", |path, answer| {
        answer.number == MAPS_ANY && changed(path, answer)
    }),
    ("0 or 10, explicit 0, mapping and any differ", |_, answer| {
        is_at_the_end(answer) && answer.counters[0] == 0 && differ(answer)
    }),
    ("0, an empty user set", |_, answer| answer.number == 0 && answer.user.is_empty()),
    ("10 by the end rules", |path, answer| answer.number == NO_USER_POLICY && fell(path, answer)),
    ("0 or 10, explicit fell for a self-issued one", |path, answer| {
        let last = path.certificates.last();
        is_at_the_end(answer) && fell(path, answer) && last.is_some_and(|last| last.self_issued)
    }),
    ("0 or 10, explicit fell by more than 1", |path, answer| {
        is_at_the_end(answer) && tested_last(path)[0] > answer.counters[0] + 1
    }),
];

/// Whether the verdict was reached at the end.
fn is_at_the_end(answer: &Answer) -> bool {
    matches!(answer.number, 0 | NO_USER_POLICY)
}

/// Whether policy_mapping and inhibit_anyPolicy differ.
fn differ(answer: &Answer) -> bool {
    answer.counters[1] != answer.counters[2]
}

/// Whether the certificate named would have changed the counters.
fn changed(path: &Path, answer: &Answer) -> bool {
    at(path, answer.place + 1) != answer.counters
}

/// Whether the end rules changed explicit_policy.
fn fell(path: &Path, answer: &Answer) -> bool {
    tested_last(path)[0] != answer.counters[0]
}

/// How often each kind came so far.
#[derive(Default)]
pub struct Kinds {
    pub times: [usize; KINDS.len()],
}

impl Kinds {
    /// Counts a path's answer.
    pub fn count(&mut self, path: &Path, answer: &Answer) {
        for (times, (_, is)) in self.times.iter_mut().zip(KINDS) {
            *times += usize::from(is(path, answer));
        }
    }
}

#[cfg(test)]
mod tests {
    use super::*;
    use crate::known;
    use crate::random::{self, Random};
    use crate::{graph, tree};

    #[test]
    fn known_paths() {
        for row in known::rows() {
            let Answer { number, place, counters: stood, .. } = row.answer;
            assert_eq!(counters(Some(&row.path), number, place), stood, "{}", row.name);
            assert_eq!(broken(Some(&row.path), &row.answer), None, "{}", row.name);
        }
    }

    /// Three certificates, of which the second is self-issued, worked out by hand.
    #[test]
    fn at_each_certificate() {
        let certificate = |self_issued, explicit, mapping, any| Certificate {
            self_issued,
            require_explicit_policy: explicit,
            inhibit_policy_mapping: mapping,
            inhibit_any_policy: any,
            ..Certificate::default()
        };
        let path = Path {
            any_policy_inhibit: true,
            certificates: vec![
                certificate(false, Some(2), None, None),
                certificate(true, Some(3), Some(1), Some(5)),
                certificate(false, Some(1), Some(0), None),
            ],
            ..Path::default()
        };
        let each: Vec<[u16; COUNTERS]> = (1..=4).map(|place| at(&path, place)).collect();
        assert_eq!(each, [[4, 4, 0], [2, 3, 0], [2, 1, 0], [1, 0, 0]]);
        assert_eq!(at_the_end(&path), [1, 1, 0]);
    }

    #[test]
    fn zeros_after_refusals_and_without_a_path() {
        let path = &known::rows()[0].path;
        for number in [1, 2, 3, 4, 5, 6, 7, 11] {
            assert_eq!(counters(Some(path), number, 0), [0; COUNTERS]);
        }
        for number in 0..=u8::MAX {
            assert_eq!(counters(None, number, 1), [0; COUNTERS]);
        }
    }

    /// On random paths, among which each kind comes up.
    #[test]
    fn graph_and_tree_count_the_same() {
        let mut random = Random::new(1);
        let mut kinds = Kinds::default();
        for _ in 0..5_000 {
            let path = random::path(&mut random);
            let answer = graph::judge(&path);
            kinds.count(&path, &answer);
            assert_eq!(broken(Some(&path), &answer), None, "{path:?}");
            if let Some(answer) = tree::judge(&path, 1_000) {
                assert_eq!(broken(Some(&path), &answer), None, "{path:?}");
            }
        }
        assert!(kinds.times.iter().all(|&times| times >= 20), "{:?}", kinds.times);
    }

    /// Each counter one more or one less, and two of them exchanged, is noticed.
    #[test]
    fn other_counters_are_noticed() {
        for row in known::rows() {
            let noticed = |counters| {
                let other = Answer { counters, ..row.answer.clone() };
                other == row.answer || broken(Some(&row.path), &other).is_some()
            };
            for place in 0..COUNTERS {
                let mut other = row.answer.counters;
                other[place] += 1;
                assert!(noticed(other), "{}", row.name);
                other[place] = other[place].saturating_sub(2);
                assert!(noticed(other), "{}", row.name);
                let mut other = row.answer.counters;
                other.swap(place, (place + 1) % COUNTERS);
                assert!(noticed(other), "{}", row.name);
            }
        }
    }

    /// The rules that no counting is needed for.
    #[test]
    fn rules_of_the_explicit_counter() {
        for explicit in [1, 2, 16] {
            assert!(explains_empty(0, &[], explicit) && !explains_empty(0, &[], 0));
            assert!(explains_empty(0, &[5], explicit) && explains_empty(0, &[5], 0));
            assert!(explains_empty(10, &[], 0));
            assert!(!requires(8, explicit) && !requires(10, explicit));
            assert!(requires(8, 0) && requires(10, 0));
            assert!(requires(0, explicit) && requires(9, explicit));
        }
        let refused = Answer { counters: [1, 0, 0], ..Answer::bare(3, 0) };
        assert!(broken(None, &refused).is_some());
        assert_eq!(broken(None, &Answer::bare(3, 0)), None);
    }

    /// The kinds of a few rows, in the order of `KINDS`.
    #[test]
    fn kinds_of_known_paths() {
        for (name, expected) in [
            ("A", &[][..]),
            ("D", &[1]),
            ("F", &[4]),
            ("8, own skip values", &[0, 1]),
            ("9, own skip values", &[2]),
            ("0, the last has skip values 0", &[7]),
            ("0, all are self-issued", &[6]),
            ("10 by the fall at the end", &[3, 5]),
            ("10 by requireExplicitPolicy 0", &[3, 5, 7]),
            ("0, an empty user set", &[4]),
        ] {
            let rows = known::rows();
            let row = rows.iter().find(|row| row.name == name).unwrap();
            let mut kinds = Kinds::default();
            kinds.count(&row.path, &row.answer);
            let seen: Vec<usize> = (0..KINDS.len()).filter(|&kind| kinds.times[kind] > 0).collect();
            assert_eq!(seen, expected, "{name}");
        }
    }
}
