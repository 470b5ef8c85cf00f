//! Paths made to harm an engine: each is the most work of its kind.

use std::fmt;

use crate::answer::NO_GRAPH;
use crate::everyday;
use crate::path::{pairs, Certificate, Path, ANY, MAX_CERTIFICATES, MAX_LIST};
use crate::random::{longest_certificate, Random};

/// The slots of the proved judge's table of policies for a small sheet.
pub const SMALL_TABLE: u16 = 64;

/// The slots of its table for any other sheet.
pub const LARGE_TABLE: u16 = 4_096;

/// The policies that share a slot of the large table.
const SHARED: usize = 65_536 / LARGE_TABLE as usize;

/// The fewest slots of the large table that hold the policies of a full list.
const FEWEST_SLOTS: usize = MAX_LIST.div_ceil(SHARED);

/// The slot that is crowded: the first that neither 0 nor anyPolicy has.
const SLOT: u16 = 2;

/// The fresh names of a certificate of `Growth`, beside anyPolicy: its
/// policies, its issuers and its subjects.
const FRESH: usize = MAX_LIST - 1 + 2 * MAX_LIST;

/// The names of chains: for each certificate its policies and as many that
/// nothing expects, and the subjects of the last.
const CHAIN_NAMES: usize = (2 * MAX_CERTIFICATES + 1) * MAX_LIST;

/// The names made for a path, as many as the kind that needs most.
const NAMES: usize = max(FRESH * MAX_CERTIFICATES, CHAIN_NAMES);

const fn max(one: usize, other: usize) -> usize {
    if one > other {
        one
    } else {
        other
    }
}

/// The slot of a policy in a table of so many slots. This was told of the
/// proved judge; no answer of this package depends on it.
pub fn slot(policy: u16, slots: u16) -> u16 {
    (policy % slots + policy / slots) % slots
}

/// The policies of one slot, ascending, without 0 and anyPolicy.
fn sharing(wanted: u16, slots: u16) -> Vec<u16> {
    (2..=u16::MAX).filter(|&policy| slot(policy, slots) == wanted).collect()
}

/// The policies of so many neighbouring slots of the large table, slot by slot.
fn crowd(slots: usize) -> Vec<u16> {
    (SLOT..).take(slots).flat_map(|slot| sharing(slot, LARGE_TABLE)).collect()
}

/// What the policies of a path are called, in the order in which the path
/// takes them.
#[derive(Clone, Copy, Debug, PartialEq, Eq)]
pub enum Names {
    /// From 2 upwards.
    Ascending,
    /// From 65,535 downwards.
    Descending,
    /// Drawn from all policies.
    Drawn,
    /// Those of as few neighbouring slots of the large table as there can be,
    /// slot by slot.
    Crowded,
}

impl Names {
    /// The names: no two are the same, and none is 0 or anyPolicy.
    fn take(self, random: &mut Random) -> Vec<u16> {
        let mut names: Vec<u16> = match self {
            Names::Ascending => (2..=u16::MAX).collect(),
            Names::Descending => (2..=u16::MAX).rev().collect(),
            Names::Drawn => {
                let mut all: Vec<u16> = (2..=u16::MAX).collect();
                random.shuffle(&mut all);
                all
            }
            Names::Crowded => crowd(NAMES.div_ceil(SHARED)),
        };
        names.truncate(NAMES);
        names
    }
}

impl fmt::Display for Names {
    fn fmt(&self, to: &mut fmt::Formatter) -> fmt::Result {
        to.write_str(match self {
            Names::Ascending => "ascending",
            Names::Descending => "descending",
            Names::Drawn => "drawn",
            Names::Crowded => "neighbouring slots",
        })
    }
}

/// A kind of path made to harm. All but `SmallSlot` and `ShortSlot` have the
/// longest sheet: as many certificates as can be, each with full lists and all
/// skip values.
#[derive(Clone, Copy, Debug, PartialEq, Eq)]
pub enum Harm {
    /// Chains of all the policies of neighbouring slots of the large table, as
    /// few as hold a full list, which is longer than one slot can hold.
    FewSlots,
    /// Three certificates with four policies each, mapped one to one, whose
    /// policies share a slot of the small table.
    SmallSlot,
    /// One certificate and a user list with 24 policies that share a slot of
    /// the small table: as many as a sheet that still takes it can name.
    ShortSlot,
    /// anyPolicy and else fresh policies in each certificate, and fresh issuers
    /// mapped to as many fresh subjects: each depth is as wide as can be.
    Growth(Names),
    /// As many chains as a list is long: the policies of each certificate are
    /// fresh, and the subjects of the certificate before.
    Chains(Names),
    /// Chains of which each certificate after the first ends one, so that
    /// nodes go at every depth above it.
    Falling,
    /// Chains of which the last certificate ends all.
    Collapse,
}

/// All kinds, with all names.
pub const HARMS: [Harm; 13] = [
    Harm::FewSlots,
    Harm::SmallSlot,
    Harm::ShortSlot,
    Harm::Growth(Names::Ascending),
    Harm::Growth(Names::Descending),
    Harm::Growth(Names::Drawn),
    Harm::Growth(Names::Crowded),
    Harm::Chains(Names::Ascending),
    Harm::Chains(Names::Descending),
    Harm::Chains(Names::Drawn),
    Harm::Chains(Names::Crowded),
    Harm::Falling,
    Harm::Collapse,
];

impl Harm {
    /// A path of this kind, which requires an explicit policy.
    pub fn path(self, random: &mut Random) -> Path {
        match self {
            Harm::FewSlots => chains(&few_slots(), |_| 0),
            Harm::SmallSlot => small_chains(&sharing(SLOT, SMALL_TABLE)),
            Harm::ShortSlot => short(&sharing(SLOT, SMALL_TABLE)),
            Harm::Growth(names) => growth(&names.take(random)),
            Harm::Chains(names) => chains(&names.take(random), |_| 0),
            Harm::Falling => chains(&Names::Ascending.take(random), |place| place),
            Harm::Collapse => chains(&Names::Ascending.take(random), all_at_the_last),
        }
    }

    /// The number and place of the path's answer.
    pub fn verdict(self) -> (u8, usize) {
        match self {
            Harm::Collapse => (NO_GRAPH, MAX_CERTIFICATES),
            _ => (0, 0),
        }
    }
}

impl fmt::Display for Harm {
    fn fmt(&self, to: &mut fmt::Formatter) -> fmt::Result {
        match self {
            Harm::FewSlots => write!(to, "chains, {FEWEST_SLOTS} slots"),
            Harm::SmallSlot => to.write_str("3 x 4, one slot"),
            Harm::ShortSlot => to.write_str("1 x 16, one slot"),
            Harm::Growth(names) => write!(to, "growth, {names}"),
            Harm::Chains(names) => write!(to, "chains, {names}"),
            Harm::Falling => to.write_str("chains that end one by one"),
            Harm::Collapse => to.write_str("chains that end at the last"),
        }
    }
}

/// A path that requires an explicit policy.
fn explicit(user: Vec<u16>, certificates: Vec<Certificate>) -> Path {
    Path { explicit_policy: true, user, certificates, ..Path::default() }
}

/// The path of `Growth`. The pairs of the last certificate make its sheet
/// longer and do nothing else.
fn growth(names: &[u16]) -> Path {
    let certificates: Vec<Certificate> = names
        .chunks(FRESH)
        .take(MAX_CERTIFICATES)
        .map(|names| {
            let (listed, mapped) = names.split_at(MAX_LIST - 1);
            let (issuers, subjects) = mapped.split_at(MAX_LIST);
            longest_certificate([listed, &[ANY]].concat(), pairs(issuers, subjects))
        })
        .collect();
    explicit(certificates[0].policies.clone(), certificates)
}

/// The names of `FewSlots`, over and over. Where the slots have more policies
/// than a list, the next certificate starts with those left out.
fn few_slots() -> Vec<u16> {
    crowd(FEWEST_SLOTS).into_iter().cycle().take(CHAIN_NAMES).collect()
}

/// The path of chains, whose certificate at a place, counted from 0, has
/// `ended` policies that nothing expects in place of as many subjects of the
/// certificate before.
fn chains(names: &[u16], ended: fn(usize) -> usize) -> Path {
    let groups: Vec<&[u16]> = names.chunks(MAX_LIST).collect();
    let (expected, strangers) = groups.split_at(MAX_CERTIFICATES + 1);
    let certificate = |place: usize| {
        let kept = &expected[place][..MAX_LIST - ended(place)];
        let others = &strangers[place][..ended(place)];
        let mappings = pairs(expected[place], expected[place + 1]);
        longest_certificate([kept, others].concat(), mappings)
    };
    explicit(expected[0].to_vec(), (0..MAX_CERTIFICATES).map(certificate).collect())
}

/// Chains that end: all, at the last certificate.
fn all_at_the_last(place: usize) -> usize {
    if place + 1 == MAX_CERTIFICATES {
        MAX_LIST
    } else {
        0
    }
}

/// The path of `SmallSlot`.
fn small_chains(names: &[u16]) -> Path {
    let lists: Vec<Vec<u16>> = names.chunks(4).take(3).map(<[u16]>::to_vec).collect();
    everyday::mapped(&lists)
}

/// The path of `ShortSlot`: the user list's first policy is listed, and the
/// pairs, of a last certificate, name two issuers and two subjects.
fn short(names: &[u16]) -> Path {
    let (issuers, subjects) = names[20..24].split_at(2);
    let policies = names[..16].to_vec();
    let mappings = pairs(issuers, subjects);
    let certificate = Certificate { policies, mappings, ..Certificate::default() };
    explicit(names[15..20].to_vec(), vec![certificate])
}

#[cfg(test)]
mod tests {
    use super::*;
    use crate::answer::{Answer, DEPTHS};
    use crate::{graph, sheet, tree};

    /// The policies of a list.
    const LIST: u16 = MAX_LIST as u16;

    /// The policies of chains of which none ends.
    const CHAINED: usize = (MAX_CERTIFICATES + 1) * MAX_LIST;

    fn path(kind: Harm) -> Path {
        kind.path(&mut Random::new(5))
    }

    /// Counts with one node at depth 0 and so many at each other depth.
    fn at_each_depth(nodes: u16) -> [u16; DEPTHS] {
        let mut counts = [nodes; DEPTHS];
        counts[0] = 1;
        counts
    }

    /// The slots of the large table that policies have, which are neighbours.
    fn slots(policies: &[u16]) -> usize {
        let slots: Vec<u16> = policies.iter().map(|&policy| slot(policy, LARGE_TABLE)).collect();
        let count = (SLOT..).take_while(|slot| slots.contains(slot)).count();
        assert!(slots.iter().all(|&slot| usize::from(slot - SLOT) < count));
        count
    }

    fn answer(kind: Harm) -> Answer {
        graph::judge(&path(kind))
    }

    /// All policies of a path in the sheet's order.
    fn policies(path: &Path) -> Vec<u16> {
        let mut all = path.user.clone();
        for certificate in &path.certificates {
            all.extend(&certificate.policies);
            all.extend(certificate.mappings.iter().flat_map(|&(one, other)| [one, other]));
        }
        all
    }

    /// The different policies of a path other than anyPolicy, ascending.
    fn distinct(path: &Path) -> Vec<u16> {
        let mut all = policies(path);
        all.retain(|&policy| policy != ANY);
        all.sort_unstable();
        all.dedup();
        all
    }

    #[test]
    fn every_sheet_is_legal_and_all_but_the_small_ones_are_the_longest() {
        for kind in HARMS {
            let path = path(kind);
            let sheet = sheet::write(&path);
            assert_eq!(sheet::read(&sheet), Ok(path.clone()), "{kind}");
            let longest = sheet.len() == sheet::LONGEST;
            let short = matches!(kind, Harm::SmallSlot | Harm::ShortSlot);
            assert_eq!(longest, !short, "{kind}");
        }
    }

    #[test]
    fn graph_and_tree_give_the_answer_stated() {
        for kind in HARMS {
            let answer = answer(kind);
            assert_eq!((answer.number, answer.place), kind.verdict(), "{kind}");
            assert_eq!(answer.user.is_empty(), kind == Harm::Collapse, "{kind}");
            assert_eq!(tree::judge(&path(kind), tree::CAP), Some(answer), "{kind}");
        }
    }

    #[test]
    fn the_slots_of_a_few_policies() {
        assert_eq!(
            [1, 63, 64, 65, 4_095, 65_535].map(|policy| slot(policy, 64)),
            [1, 63, 1, 2, 62, 62]
        );
        assert_eq!(
            [1, 4_095, 4_096, 4_097, 65_535].map(|policy| slot(policy, 4_096)),
            [1, 4_095, 1, 2, 14]
        );
    }

    #[test]
    fn policies_that_share_a_slot() {
        let large = distinct(&path(Harm::FewSlots));
        assert!(large.len() >= MAX_LIST && large.len() == SHARED * FEWEST_SLOTS);
        assert_eq!(slots(&large), FEWEST_SLOTS);
        const { assert!((FEWEST_SLOTS - 1) * SHARED < MAX_LIST) };
        let small = path(Harm::SmallSlot);
        assert_eq!((small.certificates.len(), distinct(&small).len()), (3, 12));
        assert!(policies(&small).iter().all(|&policy| slot(policy, SMALL_TABLE) == SLOT));
        let short = path(Harm::ShortSlot);
        assert_eq!((short.certificates.len(), distinct(&short).len()), (1, 24));
        assert!(policies(&short).iter().all(|&policy| slot(policy, SMALL_TABLE) == SLOT));
    }

    #[test]
    fn crowded_policies_have_few_slots() {
        let growth = (Harm::Growth(Names::Crowded), FRESH * MAX_CERTIFICATES);
        for (kind, names) in [growth, (Harm::Chains(Names::Crowded), CHAINED)] {
            let all = distinct(&path(kind));
            assert_eq!((all.len(), slots(&all)), (names, names.div_ceil(SHARED)), "{kind}");
        }
    }

    #[test]
    fn growth_is_as_wide_as_can_be() {
        let mut counts = [0; DEPTHS];
        for (depth, count) in (0..).zip(&mut counts) {
            *count = (2 * LIST - 1) * depth + 1;
        }
        // The last certificate's mappings are ignored.
        counts[MAX_CERTIFICATES] -= LIST;
        let widest = usize::from(counts[MAX_CERTIFICATES]);
        for kind in HARMS.into_iter().filter(|kind| matches!(kind, Harm::Growth(_))) {
            let answer = answer(kind);
            assert_eq!(answer.counts, counts, "{kind}");
            assert_eq!((answer.authority.len(), answer.user.len()), (widest, widest), "{kind}");
            assert_eq!(distinct(&path(kind)).len(), FRESH * MAX_CERTIFICATES, "{kind}");
        }
    }

    #[test]
    fn the_chains_stand() {
        let stand = |kind: &Harm| matches!(kind, Harm::Chains(_) | Harm::FewSlots);
        for kind in HARMS.into_iter().filter(stand) {
            assert_eq!(answer(kind).counts, at_each_depth(LIST), "{kind}");
            for pair in path(kind).certificates.windows(2) {
                let subjects = pair[0].mappings.iter().map(|&(_, subject)| subject);
                assert!(subjects.eq(pair[1].policies.iter().copied()), "{kind}");
            }
        }
        assert_eq!(distinct(&path(Harm::Chains(Names::Drawn))).len(), CHAINED);
    }

    #[test]
    fn each_certificate_after_the_first_has_ended_a_falling_chain() {
        let left = MAX_LIST - (MAX_CERTIFICATES - 1);
        assert_eq!(answer(Harm::Falling).counts, at_each_depth(left as u16));
    }

    #[test]
    fn the_names_are_in_their_order() {
        let in_order = |kind, before: fn(u16, u16) -> bool| {
            let lists = path(kind).certificates.into_iter().map(|certificate| certificate.policies);
            let fresh: Vec<u16> = lists.flatten().filter(|&policy| policy != ANY).collect();
            fresh.windows(2).all(|pair| before(pair[0], pair[1]))
        };
        for kind in [Harm::Growth, Harm::Chains] {
            assert!(in_order(kind(Names::Ascending), |one, other| one < other));
            assert!(in_order(kind(Names::Descending), |one, other| one > other));
            assert!(!in_order(kind(Names::Drawn), |one, other| one < other));
        }
    }
}
