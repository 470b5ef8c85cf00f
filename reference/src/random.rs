//! A small fixed generator of numbers, and the random paths and sheets drawn
//! from it.

use crate::path::{pairs, Certificate, Path, ANY, MAX_CERTIFICATES, MAX_LIST};
use crate::repeats::{self, Likeness};
use crate::sheet::{self, Field};

/// Splitmix64: the same seed gives the same numbers everywhere.
pub struct Random {
    state: u64,
}

impl Random {
    /// The generator that starts from a seed.
    pub fn new(seed: u64) -> Random {
        Random { state: seed }
    }

    /// The next 64 bits.
    pub fn bits(&mut self) -> u64 {
        self.state = self.state.wrapping_add(0x9E37_79B9_7F4A_7C15);
        let mut mixed = self.state;
        mixed = (mixed ^ (mixed >> 30)).wrapping_mul(0xBF58_476D_1CE4_E5B9);
        mixed = (mixed ^ (mixed >> 27)).wrapping_mul(0x94D0_49BB_1331_11EB);
        mixed ^ (mixed >> 31)
    }

    /// A number from 0 to `limit` - 1.
    pub fn below(&mut self, limit: usize) -> usize {
        (self.bits() % limit as u64) as usize
    }

    /// A number from `low` to `high`, both included.
    pub fn between(&mut self, low: usize, high: usize) -> usize {
        low + self.below(high - low + 1)
    }

    /// True in about `percent` of 100 draws.
    pub fn chance(&mut self, percent: usize) -> bool {
        self.below(100) < percent
    }

    /// One of the given things.
    pub fn pick<T: Copy>(&mut self, from: &[T]) -> T {
        from[self.below(from.len())]
    }

    /// The same things in a random order.
    pub fn shuffle<T>(&mut self, list: &mut [T]) {
        for place in (1..list.len()).rev() {
            list.swap(place, self.below(place + 1));
        }
    }

    /// Any byte.
    pub fn byte(&mut self) -> u8 {
        self.bits() as u8
    }

    /// Any 16-bit number.
    pub fn word(&mut self) -> u16 {
        self.bits() as u16
    }
}

/// An alphabet of more policies than a list can have.
const MORE_THAN_A_LIST: usize = MAX_LIST + 9;

/// How often each thing occurs in one random path.
struct Habits {
    certificates: usize,
    alphabet: Vec<u16>,
    listed: usize,
    any: usize,
    mapped: usize,
    most_pairs: usize,
    skips: usize,
}

/// Rates under which many issuer policies share subject policies at every
/// depth, so that the tree grows fast.
fn dense(random: &mut Random) -> Habits {
    let size = random.between(2, 5) as u16;
    Habits {
        certificates: random.between(4, MAX_CERTIFICATES),
        alphabet: (2..2 + size).collect(),
        listed: 95,
        any: random.pick(&[0, 50]),
        mapped: 100,
        most_pairs: random.pick(&[MAX_LIST / 2, MAX_LIST]),
        skips: 0,
    }
}

/// Draws an alphabet of policies, none of them 0 or anyPolicy, and the rates
/// for one path.
fn habits(random: &mut Random) -> Habits {
    if random.chance(4) {
        return dense(random);
    }
    let most = if random.chance(70) { 4 } else { MAX_CERTIFICATES };
    let size = random.pick(&[1, 2, 2, 3, 3, 4, 6, 10, 20, MORE_THAN_A_LIST]);
    let small = random.chance(70);
    let alphabet = (0..size)
        .map(|place| if small { place as u16 + 2 } else { random.word().max(2) })
        .collect();
    Habits {
        certificates: random.between(1, most),
        alphabet,
        listed: random.pick(&[25, 50, 75, 95]),
        any: random.pick(&[0, 20, 60, 95]),
        mapped: random.pick(&[0, 40, 80, 100]),
        most_pairs: random.pick(&[1, 2, 4, 6, MAX_LIST / 2, MAX_LIST]),
        skips: random.pick(&[0, 0, 5, 20, 40]),
    }
}

/// A well-formed random path. Small alphabets make matches, chains of
/// mappings and every verdict likely.
pub fn path(random: &mut Random) -> Path {
    let habits = habits(random);
    Path {
        mapping_inhibit: random.chance(15),
        explicit_policy: random.chance(45),
        any_policy_inhibit: random.chance(15),
        user: user_list(random, &habits.alphabet),
        certificates: (0..habits.certificates).map(|_| certificate(random, &habits)).collect(),
    }
}

/// A user list: empty, any-policy, or policies of the alphabet with repeats
/// and an outsider now and then.
fn user_list(random: &mut Random, alphabet: &[u16]) -> Vec<u16> {
    let length = match random.below(10) {
        0 => 0,
        1 => random.between(0, MAX_LIST),
        _ => random.between(1, 4),
    };
    let any = random.pick(&[0, 0, 60]);
    (0..length)
        .map(|_| match random.below(100) {
            rate if rate < any => ANY,
            99 => random.word().max(1),
            _ => random.pick(alphabet),
        })
        .collect()
}

/// A certificate whose lists are drawn from the path's alphabet, without repeats.
fn certificate(random: &mut Random, habits: &Habits) -> Certificate {
    let mut policies: Vec<u16> = Vec::new();
    if !random.chance(4) {
        for &policy in &habits.alphabet {
            if random.chance(habits.listed) && !policies.contains(&policy) {
                policies.push(policy);
            }
        }
        random.shuffle(&mut policies);
        if random.chance(habits.any) {
            policies.truncate(MAX_LIST - 1);
            policies.push(ANY);
        }
        policies.truncate(MAX_LIST);
        random.shuffle(&mut policies);
    }
    let mut mappings: Vec<(u16, u16)> = Vec::new();
    if random.chance(habits.mapped) {
        let least = habits.most_pairs.div_ceil(2);
        let count = random.between(least, habits.most_pairs);
        repeats::add_different(random, &mut mappings, &habits.alphabet, count);
    }
    if random.chance(4) {
        name_any(random, &mut mappings);
    }
    Certificate {
        self_issued: random.chance(25),
        policies,
        mappings,
        require_explicit_policy: skip(random, habits.skips),
        inhibit_policy_mapping: skip(random, habits.skips),
        inhibit_any_policy: skip(random, habits.skips),
    }
}

/// anyPolicy in one of the pairs, if there are any.
fn name_any(random: &mut Random, mappings: &mut [(u16, u16)]) {
    if !mappings.is_empty() {
        let place = random.below(mappings.len());
        match random.below(3) {
            0 => mappings[place].0 = ANY,
            1 => mappings[place].1 = ANY,
            _ => mappings[place] = (ANY, ANY),
        }
    }
}

/// A skip value, small more often than not, or around the greatest counter.
fn skip(random: &mut Random, percent: usize) -> Option<u8> {
    if !random.chance(percent) {
        None
    } else if random.chance(80) {
        Some(random.below(4) as u8)
    } else {
        let around = random.between(MAX_CERTIFICATES - 1, MAX_CERTIFICATES + 2) as u8;
        Some(random.pick(&[5, 9, around, around, 127, 128, 254, 255]))
    }
}

/// A random sheet: well-formed, or damaged in one of the ways below. A field
/// at fault may stand before or after a second one, or before a cut.
pub fn sheet(random: &mut Random) -> Vec<u8> {
    let mut path = path(random);
    match random.below(22) {
        0..=10 => sheet::write(&path),
        11 => flip_bit(random, sheet::write(&path)),
        12 => cut(random, sheet::write(&path)),
        13 => extend(random, sheet::write(&path)),
        14 => (0..random.below(40)).map(|_| random.byte()).collect(),
        15 => random_after_head(random, &path),
        16..=17 => sheet_with_repeat(random, path),
        _ => {
            let mut fields = sheet::fields(&path);
            match random.below(4) {
                0 => change_field(random, &mut fields, 5),
                1 => change_field(random, &mut fields, 4),
                2 => change_field(random, &mut fields, 16),
                _ => {
                    repeat_policy(random, &mut path);
                    fields = sheet::fields(&path);
                }
            }
            if random.chance(20) {
                let width = random.pick(&[4, 5, 16]);
                change_field(random, &mut fields, width);
            }
            let sheet = sheet::pack(&fields);
            if random.chance(30) {
                cut(random, sheet)
            } else {
                sheet
            }
        }
    }
}

/// A sheet with a pair twice in one certificate, or with one like another: with
/// another fault before it or after it now and then, or cut around its end.
fn sheet_with_repeat(random: &mut Random, mut path: Path) -> Vec<u8> {
    let (certificate, pair) = repeat_pair(random, &mut path);
    match random.below(13) {
        0 => repeat_policy(random, &mut path),
        1 => {
            repeat_pair(random, &mut path);
        }
        2..=4 => {
            let end = repeats::end_of_pair(&path, certificate, pair);
            let mut sheet = sheet::write(&path);
            sheet.truncate(end - random.below(6));
            return sheet;
        }
        5 => return extend(random, sheet::write(&path)),
        6 => return flip_bit(random, sheet::write(&path)),
        7..=8 => {
            let mut fields = sheet::fields(&path);
            let width = random.pick(&[5, 16, 16]);
            change_field(random, &mut fields, width);
            return sheet::pack(&fields);
        }
        _ => {}
    }
    sheet::write(&path)
}

/// One bit of the sheet the other way.
pub fn flip_bit(random: &mut Random, mut sheet: Vec<u8>) -> Vec<u8> {
    let place = random.below(sheet.len());
    sheet[place] ^= 1 << random.below(8);
    sheet
}

/// The sheet without some of its last bytes.
pub fn cut(random: &mut Random, mut sheet: Vec<u8>) -> Vec<u8> {
    sheet.truncate(random.below(sheet.len()));
    sheet
}

/// The sheet with bytes after it, or with bits set in its last byte.
fn extend(random: &mut Random, mut sheet: Vec<u8>) -> Vec<u8> {
    if random.chance(30) {
        let last = sheet.len() - 1;
        sheet[last] |= random.byte() & 7;
    } else {
        for _ in 0..random.between(1, 3) {
            sheet.push(random.pick(&[0, 0, 1, 128, 255]));
        }
    }
    sheet
}

/// The first bytes of a sheet, then random ones.
fn random_after_head(random: &mut Random, path: &Path) -> Vec<u8> {
    let mut sheet = sheet::write(path);
    sheet.truncate(random.between(1, 6));
    sheet.extend((0..random.below(200)).map(|_| random.byte()));
    sheet
}

/// Another value in one of the fields of the given width: 4 bits are edition
/// and n, 5 bits the counts, of which many become 0, and 16 bits the policies,
/// of which most do.
pub fn change_field(random: &mut Random, fields: &mut [Field], width: usize) {
    let places: Vec<usize> = (0..fields.len()).filter(|&place| fields[place].1 == width).collect();
    if !places.is_empty() {
        let place = random.pick(&places);
        let other = random.word() & ((1u32 << width) - 1) as u16;
        let zeros = if width == 16 { 80 } else { 30 };
        fields[place].0 = if random.chance(zeros) { 0 } else { other };
    }
}

/// A policy twice in one certificate's list, where there is room for it.
pub fn repeat_policy(random: &mut Random, path: &mut Path) {
    let place = random.below(path.certificates.len());
    let policies = &mut path.certificates[place].policies;
    if !policies.is_empty() && policies.len() < MAX_LIST {
        let policy = random.pick(policies);
        policies.insert(random.below(policies.len() + 1), policy);
    }
}

/// A pair twice in one certificate's list, or one that is like another. Returns
/// the places of the certificate and of the later pair.
pub fn repeat_pair(random: &mut Random, path: &mut Path) -> (usize, usize) {
    let likeness = Likeness::draw(random);
    add_pair_like(random, path, likeness)
}

/// A pair that is like one of its certificate's, and after it; now and then one of
/// them names anyPolicy. Returns the same.
pub fn add_pair_like(random: &mut Random, path: &mut Path, likeness: Likeness) -> (usize, usize) {
    let certificate = random.below(path.certificates.len());
    let mappings = &mut path.certificates[certificate].mappings;
    if random.chance(15) {
        name_any(random, mappings);
    }
    let own = [(); 2].map(|()| random.word().max(2)).into();
    (certificate, repeats::add_like(random, mappings, likeness, &own))
}

/// A path with faults that its sheet can carry, policies 0, repeats and no
/// certificate, and with lists of any length to the limit.
pub fn faulty_path(random: &mut Random) -> Path {
    let mut path = path(random);
    for _ in 0..random.between(1, 3) {
        let count = random.between(0, MAX_LIST);
        let place = random.below(path.certificates.len());
        let certificate = &mut path.certificates[place];
        match random.below(9) {
            0 => certificate.policies = (2..).take(count).collect(),
            1 => certificate.mappings = (2..).take(count).map(|issuer| (issuer, 3)).collect(),
            2 => path.user = vec![2; count],
            3 => certificate.policies.insert(0, 0),
            4 => {
                let place = random.between(0, certificate.mappings.len());
                certificate.mappings.insert(place, random.pick(&[(0, 2), (2, 0), (0, 0)]));
            }
            5 => path.user.insert(0, 0),
            6 => repeat_policy(random, &mut path),
            7 => {
                repeat_pair(random, &mut path);
            }
            _ => {
                let n = random.between(1, MAX_CERTIFICATES);
                path.certificates.resize(n, Certificate::default());
            }
        }
    }
    path.user.truncate(MAX_LIST);
    for certificate in &mut path.certificates {
        certificate.policies.truncate(MAX_LIST);
        certificate.mappings.truncate(MAX_LIST);
    }
    if random.chance(6) {
        path.certificates.clear();
    }
    path
}

/// The same, and now and then with n or a list above its limit, which no sheet
/// can say.
pub fn overlong_path(random: &mut Random) -> Path {
    let mut path = faulty_path(random);
    if path.certificates.is_empty() || random.chance(70) {
        return path;
    }
    let more = random.between(1, MAX_LIST);
    let place = random.below(path.certificates.len());
    let certificate = &mut path.certificates[place];
    match random.below(4) {
        0 => path.certificates.resize(MAX_CERTIFICATES + more, Certificate::default()),
        1 => path.user.resize(MAX_LIST + more, 2),
        2 => certificate.policies.extend((2..).take(MAX_LIST + more)),
        _ => certificate.mappings.extend((2..).take(MAX_LIST + more).map(|issuer| (issuer, 3))),
    }
    path
}

/// The kinds of full sheets.
pub const FULL_KINDS: [Full; 6] =
    [Full::Straight, Full::Pairs, Full::Square, Full::Fan, Full::Any, Full::Drawn];

/// A kind of full sheet: each certificate has `MAX_LIST` policies and as many
/// pairs, of which no two are the same.
#[derive(Clone, Copy, Debug, PartialEq, Eq)]
pub enum Full {
    /// Each policy is mapped to one policy of the next certificate.
    Straight,
    /// Half of the policies are mapped to two each, itself and the next; the
    /// others expect themselves.
    Pairs,
    /// Some policies, as many as the pairs suffice for, are each mapped to all
    /// of them, so that the tree grows as many times at each depth; each pair
    /// left over maps another policy to itself.
    Square,
    /// One policy is mapped to all of the next certificate, so that all others
    /// fall away at each depth.
    Fan,
    /// anyPolicy, as many new policies as there is room for, and new issuer
    /// policies that hang under anyPolicy: the widest levels.
    Any,
    /// Policies and pairs drawn from an alphabet half as long again as a list.
    Drawn,
}

/// The limit of a list, as a number of 16 bits.
const MOST: u16 = MAX_LIST as u16;

/// A full path of n certificates, with a full user list and all skip values
/// present, so that the sheet has the greatest length for its n. It is
/// answered 0 and no depth count up to n is 0.
pub fn full(kind: Full, n: usize, random: &mut Random) -> Path {
    let mut user: Vec<u16> = (2..2 + MOST).collect();
    if kind == Full::Any {
        user[0] = ANY;
    }
    let certificates = (0..n).map(|place| full_certificate(kind, place as u16, random)).collect();
    Path { user, certificates, ..Path::default() }
}

/// The certificate at a place, counted from 0, of a full path.
fn full_certificate(kind: Full, place: u16, random: &mut Random) -> Certificate {
    let (mut policies, mut mappings) = match kind {
        Full::Straight => straight_lists(place),
        Full::Pairs => pairs_lists(),
        Full::Square => square_lists(),
        Full::Fan => fan_lists(place),
        Full::Any => any_lists(place),
        Full::Drawn => drawn_lists(random),
    };
    random.shuffle(&mut policies);
    random.shuffle(&mut mappings);
    longest_certificate(policies, mappings)
}

/// A certificate that has all skip values, each too large to matter.
pub fn longest_certificate(policies: Vec<u16>, mappings: Vec<(u16, u16)>) -> Certificate {
    Certificate {
        self_issued: false,
        policies,
        mappings,
        require_explicit_policy: Some(255),
        inhibit_policy_mapping: Some(255),
        inhibit_any_policy: Some(255),
    }
}

/// The policies and the pairs of a certificate.
type Lists = (Vec<u16>, Vec<(u16, u16)>);

/// The policies that the certificate at a place has for itself.
fn own(place: u16) -> Vec<u16> {
    (2 + MOST * place..).take(MAX_LIST).collect()
}

fn straight_lists(place: u16) -> Lists {
    let subjects: Vec<u16> = own(place + 1).into_iter().rev().collect();
    (own(place), pairs(&own(place), &subjects))
}

/// With an odd number of pairs, one of the other policies is mapped to itself.
fn pairs_lists() -> Lists {
    let half = MOST / 2;
    let twice = (0..half)
        .flat_map(|policy| [(2 + policy, 2 + policy), (2 + policy, 2 + (policy + 1) % half)]);
    let others = (2 + half..).map(|policy| (policy, policy));
    (own(0), twice.chain(others).take(MAX_LIST).collect())
}

fn square_lists() -> Lists {
    let side = MOST.isqrt();
    let square =
        (0..side).flat_map(|issuer| (0..side).map(move |subject| (2 + issuer, 2 + subject)));
    let others = (2 + side..).map(|policy| (policy, policy));
    (own(0), square.chain(others).take(MAX_LIST).collect())
}

fn fan_lists(place: u16) -> Lists {
    let policies = own(place);
    let issuer = policies[5];
    (policies, own(place + 1).into_iter().map(|subject| (issuer, subject)).collect())
}

fn any_lists(place: u16) -> Lists {
    let [mut policies, issuers, subjects] = [0, 1, 2].map(|list| own(3 * place + list));
    policies[0] = ANY;
    (policies, pairs(&issuers, &subjects))
}

/// Policy 2 is always among them and mapped to itself, so that the path
/// stands; the other pairs are free.
fn drawn_lists(random: &mut Random) -> Lists {
    let last = 1 + MAX_LIST + MAX_LIST / 2;
    let mut others: Vec<u16> = (3..=last as u16).collect();
    random.shuffle(&mut others);
    others.truncate(MAX_LIST - 1);
    let mut mappings = vec![(2, 2)];
    while mappings.len() < MAX_LIST {
        let pair = (random.between(2, last) as u16, random.between(2, last) as u16);
        if !mappings.contains(&pair) {
            mappings.push(pair);
        }
    }
    ([vec![2], others].concat(), mappings)
}

/// Case B at n certificates: each with policies 21 and 22 and the four pairs
/// among them, the last without pairs. The tree has 2^n leaves.
pub fn doubling(n: usize) -> Path {
    let doubled = Certificate {
        policies: vec![21, 22],
        mappings: vec![(21, 21), (21, 22), (22, 21), (22, 22)],
        ..Certificate::default()
    };
    let mut certificates = vec![doubled; n];
    certificates[n - 1].mappings.clear();
    Path { user: vec![ANY], certificates, ..Path::default() }
}

#[cfg(test)]
mod tests {
    use super::*;
    use crate::answer::NUMBERS;

    /// Whether no two things of a list are the same.
    fn all_differ<T: Ord + Clone>(list: &[T]) -> bool {
        let mut sorted = list.to_vec();
        sorted.sort();
        sorted.windows(2).all(|two| two[0] != two[1])
    }

    #[test]
    fn full_paths_have_full_lists_without_repeats() {
        let mut random = Random::new(1);
        for n in 2..=MAX_CERTIFICATES {
            for kind in FULL_KINDS {
                let path = full(kind, n, &mut random);
                assert_eq!(sheet::read(&sheet::write(&path)), Ok(path.clone()), "{kind:?} {n}");
                assert_eq!((path.certificates.len(), path.user.len()), (n, MAX_LIST));
                for Certificate { policies, mappings, .. } in &path.certificates {
                    assert_eq!((policies.len(), mappings.len()), (MAX_LIST, MAX_LIST), "{kind:?}");
                    assert!(all_differ(policies) && all_differ(mappings), "{kind:?} {n}");
                    assert!(!mappings.iter().any(|&(one, other)| one == ANY || other == ANY));
                }
            }
        }
    }

    #[test]
    fn full_paths_of_most_certificates_have_the_longest_sheet() {
        for kind in FULL_KINDS {
            let path = full(kind, MAX_CERTIFICATES, &mut Random::new(2));
            assert_eq!(sheet::write(&path).len(), sheet::LONGEST, "{kind:?}");
        }
    }

    #[test]
    fn the_square_is_as_large_as_can_be() {
        let (_, mappings) = square_lists();
        let side = (1..).take_while(|side| side * side <= MAX_LIST).count();
        let moved = mappings.iter().filter(|&&(issuer, subject)| issuer != subject).count();
        assert_eq!(moved, side * side - side);
    }

    #[test]
    fn random_paths_reach_every_limit() {
        let mut random = Random::new(3);
        let mut reached = [0; 4];
        for _ in 0..10_000 {
            let path = path(&mut random);
            let certificates = path.certificates.iter();
            let lists = certificates.map(|one| (one.policies.len(), one.mappings.len()));
            let (policies, pairs): (Vec<usize>, Vec<usize>) = lists.unzip();
            reached[0] += usize::from(path.certificates.len() == MAX_CERTIFICATES);
            reached[1] += usize::from(path.user.len() == MAX_LIST);
            reached[2] += usize::from(policies.contains(&MAX_LIST));
            reached[3] += usize::from(pairs.contains(&MAX_LIST));
            assert_eq!(sheet::refusal(&path), Ok(()));
        }
        assert!(reached.iter().all(|&times| times >= 20), "{reached:?}");
    }

    #[test]
    fn a_faulty_path_has_the_refusal_of_its_sheet() {
        let mut random = Random::new(4);
        let mut times = [0; NUMBERS];
        for _ in 0..2_000 {
            let path = faulty_path(&mut random);
            let refusal = sheet::refusal(&path);
            assert_eq!(sheet::read(&sheet::write(&path)), refusal.map(|()| path));
            times[usize::from(refusal.err().unwrap_or(0))] += 1;
        }
        assert!([0, 3, 4, 5, 11].into_iter().all(|number| times[number] >= 50), "{times:?}");
    }

    /// 11 for repeats alone and before other faults, the numbers of faults before
    /// them, 1 where the sheet is cut, and 0 for pairs that are only like others.
    #[test]
    fn sheets_with_repeats_get_every_refusal() {
        let mut random = Random::new(6);
        let mut times = [0; NUMBERS];
        for _ in 0..5_000 {
            let path = path(&mut random);
            let sheet = sheet_with_repeat(&mut random, path);
            times[usize::from(sheet::read(&sheet).err().unwrap_or(0))] += 1;
        }
        assert!([0, 1, 3, 4, 5, 6, 11].into_iter().all(|number| times[number] >= 20), "{times:?}");
        assert!(times[0] >= 200 && times[11] >= 2_000, "{times:?}");
    }

    #[test]
    fn pairs_repeat_everywhere() {
        let mut random = Random::new(7);
        let (mut next, mut last, mut not_first, mut later, mut any) = (0, 0, 0, 0, 0);
        for _ in 0..2_000 {
            let mut path = path(&mut random);
            let (certificate, place) = repeat_pair(&mut random, &mut path);
            let mappings = &path.certificates[certificate].mappings;
            let pair = mappings[place];
            if let Some(first) = mappings[..place].iter().position(|&before| before == pair) {
                next += usize::from(first + 1 == place);
                last += usize::from(place + 1 == mappings.len());
                not_first += usize::from(first > 0);
                later += usize::from(certificate > 0);
                any += usize::from(pair.0 == ANY || pair.1 == ANY);
                assert_eq!(sheet::refusal(&path), Err(sheet::REPEATED_PAIR));
            }
        }
        let times = [next, last, not_first, later, any];
        assert!(times.iter().all(|&times| times >= 50), "{times:?}");
    }

    /// Two pairs of one certificate that differ in the subject alone, in the
    /// issuer alone, and by exchange, and a pair in two certificates.
    #[test]
    fn paths_that_are_read_have_pairs_like_others() {
        let mut random = Random::new(8);
        let mut times = [0; 4];
        for _ in 0..2_000 {
            let Ok(path) = sheet::read(&sheet(&mut random)) else { continue };
            let lists: Vec<&Vec<(u16, u16)>> =
                path.certificates.iter().map(|one| &one.mappings).collect();
            let within = |like: fn((u16, u16), (u16, u16)) -> bool| {
                let two = |list: &&Vec<(u16, u16)>| {
                    list.iter()
                        .any(|&one| list.iter().any(|&other| one != other && like(one, other)))
                };
                usize::from(lists.iter().any(two))
            };
            times[0] += within(|one, other| one.0 == other.0);
            times[1] += within(|one, other| one.1 == other.1);
            times[2] += within(|one, other| one == (other.1, other.0));
            let twice = |two: &[&Vec<(u16, u16)>]| two[0].iter().any(|pair| two[1].contains(pair));
            times[3] += usize::from(lists.windows(2).any(twice));
        }
        assert!(times.iter().all(|&times| times >= 100), "{times:?}");
    }

    #[test]
    fn no_sheet_can_say_an_overlong_path() {
        let mut random = Random::new(5);
        let paths: Vec<Path> = (0..2_000).map(|_| overlong_path(&mut random)).collect();
        let above = |path: &&Path| {
            let lists = path.certificates.iter();
            let most = lists.map(|one| one.policies.len().max(one.mappings.len())).max();
            path.certificates.len() > MAX_CERTIFICATES
                || path.user.len().max(most.unwrap_or(0)) > MAX_LIST
        };
        let (overlong, others): (Vec<&Path>, Vec<&Path>) = paths.iter().partition(above);
        assert!(overlong.len() >= 200 && others.len() >= 200);
        assert!(overlong.iter().all(|path| sheet::refusal(path).is_err()));
    }
}
