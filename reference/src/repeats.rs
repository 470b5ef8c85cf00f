//! Pairs that repeat within one certificate, and pairs that almost do.

use crate::draft::{Draft, Identifier};
use crate::path::{Certificate, Path, ANY, MAX_LIST};
use crate::random::Random;
use crate::sheet;

/// How like a pair is to one before it.
#[derive(Clone, Copy, Debug, PartialEq, Eq)]
pub enum Likeness {
    /// The same pair, which is refused.
    Same,
    /// The same issuer and another subject.
    SameIssuer,
    /// The same subject and another issuer.
    SameSubject,
    /// The issuer as the subject, and the subject as the issuer.
    Exchanged,
}

/// All of them, of which the first alone is refused.
pub const LIKENESSES: [Likeness; 4] =
    [Likeness::Same, Likeness::SameIssuer, Likeness::SameSubject, Likeness::Exchanged];

impl Likeness {
    /// One of them, the same pair more often than not.
    pub fn draw(random: &mut Random) -> Likeness {
        if random.chance(60) {
            Likeness::Same
        } else {
            random.pick(&LIKENESSES)
        }
    }

    /// A pair that is like one before it; what is not the same is its own.
    pub fn pair<T: Clone>(self, before: &(T, T), own: &(T, T)) -> (T, T) {
        let (issuer, subject) = before.clone();
        match self {
            Likeness::Same => (issuer, subject),
            Likeness::SameIssuer => (issuer, own.1.clone()),
            Likeness::SameSubject => (own.0.clone(), subject),
            Likeness::Exchanged => (subject, issuer),
        }
    }
}

/// Adds a pair that is like one of a list, after that one: next to it, at the
/// end, or anywhere. One of a full list goes first, and one that has nothing in
/// it gets the own pair. Returns the place of the pair added.
pub fn add_like<T: Clone>(
    random: &mut Random,
    pairs: &mut Vec<(T, T)>,
    likeness: Likeness,
    own: &(T, T),
) -> usize {
    if pairs.len() >= MAX_LIST {
        pairs.remove(random.below(pairs.len()));
    }
    if pairs.is_empty() {
        pairs.push(own.clone());
    }
    let first = random.below(pairs.len());
    let place = match random.below(3) {
        0 => first + 1,
        1 => pairs.len(),
        _ => random.between(first + 1, pairs.len()),
    };
    pairs.insert(place, likeness.pair(&pairs[first], own));
    place
}

/// Adds pairs of the given things until a list has so many, and none twice: fewer
/// where too many draws repeat.
pub fn add_different<T: Clone + PartialEq>(
    random: &mut Random,
    pairs: &mut Vec<(T, T)>,
    from: &[T],
    count: usize,
) {
    for _ in 0..3 * count {
        if pairs.len() >= count {
            break;
        }
        let [issuer, subject] = [(); 2].map(|()| from[random.below(from.len())].clone());
        let pair = (issuer, subject);
        if !pairs.contains(&pair) {
            pairs.push(pair);
        }
    }
}

/// The place of the first pair that stands before it already, if there is one.
pub fn first_repeat<T: PartialEq>(pairs: &[T]) -> Option<usize> {
    (0..pairs.len()).find(|&place| pairs[..place].contains(&pairs[place]))
}

/// As many pairs as there may be, of which one is like another before it and all
/// else differs.
#[derive(Clone, Debug)]
pub struct Alike {
    pub likeness: Likeness,
    /// The place of the later of the two.
    pub place: usize,
    pub pairs: Vec<(u16, u16)>,
}

/// Every two places of a full list, with every likeness.
pub fn in_full_lists() -> Vec<Alike> {
    let different: Vec<(u16, u16)> = (1..=MAX_LIST as u16).map(|k| (100 + k, 200 + k)).collect();
    let mut all = Vec::new();
    for place in 0..MAX_LIST {
        for first in 0..place {
            all.extend(LIKENESSES.map(|likeness| {
                let mut pairs = different.clone();
                pairs[place] = likeness.pair(&different[first], &different[place]);
                Alike { likeness, place, pairs }
            }));
        }
    }
    all
}

impl Alike {
    /// A path of two certificates, of which the first has the pairs.
    pub fn path(&self) -> Path {
        let mappings = self.pairs.clone();
        let policies = mappings.iter().map(|pair| pair.0);
        let first = Certificate { policies: sorted(policies), mappings, ..Certificate::default() };
        let policies = self.pairs.iter().map(|pair| pair.1);
        let second = Certificate { policies: sorted(policies), ..Certificate::default() };
        Path { user: vec![ANY], certificates: vec![first, second], ..Path::default() }
    }

    /// The bytes of the path's sheet to the end of the later pair.
    pub fn end(&self) -> usize {
        end_of_pair(&self.path(), 0, self.place)
    }

    /// Extensions that have the pairs and nothing else.
    pub fn draft(&self) -> Draft {
        let pairs = self.pairs.iter();
        let mappings = pairs.map(|&(issuer, subject)| (identifier(issuer), identifier(subject)));
        Draft { mappings: mappings.collect(), ..Draft::default() }
    }
}

/// An identifier of its own for each policy below 16,384.
fn identifier(policy: u16) -> Identifier {
    vec![0x2B, (policy / 128) as u8, (policy % 128) as u8]
}

/// The policies, ascending and without repeats.
fn sorted(policies: impl Iterator<Item = u16>) -> Vec<u16> {
    let mut policies: Vec<u16> = policies.collect();
    policies.sort_unstable();
    policies.dedup();
    policies
}

/// The bytes of a path's sheet to the end of a pair, whose certificate and place
/// are given. Counted are the bits of a path that ends with this pair, less the
/// three that say that its skip values are absent.
pub fn end_of_pair(path: &Path, certificate: usize, place: usize) -> usize {
    let mut start = path.clone();
    start.certificates.truncate(certificate + 1);
    let last = &mut start.certificates[certificate];
    last.mappings.truncate(place + 1);
    last.require_explicit_policy = None;
    last.inhibit_policy_mapping = None;
    last.inhibit_any_policy = None;
    let bits: usize = sheet::fields(&start).iter().map(|&(_, width)| width).sum();
    (bits - 3).div_ceil(8)
}

#[cfg(test)]
mod tests {
    use super::*;
    use crate::known;

    #[test]
    fn pairs_like_another() {
        let like = LIKENESSES.map(|likeness| likeness.pair(&(5, 6), &(7, 8)));
        assert_eq!(like, [(5, 6), (5, 8), (7, 6), (6, 5)]);
    }

    #[test]
    fn the_ends_of_the_pairs_of_the_known_rows() {
        for row in known::refused_rows() {
            if row.number == sheet::REPEATED_PAIR {
                let lists = row.path.certificates.iter().map(|one| &one.mappings);
                let mut places = lists.map(|pairs| first_repeat(pairs)).enumerate();
                let (certificate, place) =
                    places.find_map(|(at, place)| Some((at, place?))).expect("a repeat");
                assert_eq!(end_of_pair(&row.path, certificate, place), row.bytes, "{}", row.name);
            }
        }
    }

    #[test]
    fn every_two_places_of_a_full_list() {
        let all = in_full_lists();
        assert_eq!(all.len(), 4 * MAX_LIST * (MAX_LIST - 1) / 2);
        for Alike { likeness, place, pairs } in all {
            assert_eq!(pairs.len(), MAX_LIST);
            let same = likeness == Likeness::Same;
            assert_eq!(first_repeat(&pairs), same.then_some(place));
        }
    }

    #[test]
    fn pairs_are_added_after_those_they_are_like() {
        let mut random = Random::new(1);
        let (mut next, mut last, mut between) = (0, 0, 0);
        for _ in 0..1_000 {
            let count = random.pick(&[0, 1, 2, 5, MAX_LIST - 1, MAX_LIST]);
            let mut pairs: Vec<(u16, u16)> = (100..).zip(200..).take(count).collect();
            let likeness = random.pick(&LIKENESSES);
            let place = add_like(&mut random, &mut pairs, likeness, &(7, 8));
            assert_eq!(pairs.len(), (count + 1).clamp(2, MAX_LIST));
            let mut before = pairs[..place].iter();
            assert!(before.any(|pair| likeness.pair(pair, &(7, 8)) == pairs[place]));
            if likeness == Likeness::Same {
                let first = pairs.iter().position(|pair| *pair == pairs[place]).unwrap();
                next += usize::from(first + 1 == place);
                last += usize::from(place + 1 == pairs.len());
                between += usize::from(first + 1 < place && place + 1 < pairs.len());
            }
        }
        assert!(next >= 50 && last >= 50 && between >= 10, "{next} {last} {between}");
    }

    #[test]
    fn different_pairs_up_to_a_count() {
        let mut random = Random::new(2);
        for (from, count, least) in [(1, 5, 1), (2, 9, 2), (6, 4, 4), (40, MAX_LIST, MAX_LIST)] {
            let from: Vec<u16> = (2..).take(from).collect();
            let mut pairs = Vec::new();
            add_different(&mut random, &mut pairs, &from, count);
            assert!((least..=count).contains(&pairs.len()), "{pairs:?}");
            assert_eq!(first_repeat(&pairs), None, "{pairs:?}");
        }
    }
}
