//! Random inputs of the reader of extensions: as they should be, and with
//! faults.

use crate::draft::{Draft, Identifier, Integer, PolicyConstraints, PolicyInformation};
use crate::extension_faults as faults;
use crate::extensions::{Extensions, PLACES};
use crate::path::MAX_LIST;
use crate::random::Random;
use crate::register::{self, ANY_POLICY, BYTES, LONGEST, MOST};
use crate::repeats;
use crate::tlv::Tlv;

/// A value that is lent: the first octets of a buffer.
#[derive(Clone, Debug, Default)]
pub struct Value {
    pub buffer: Vec<u8>,
    pub length: usize,
}

impl Value {
    /// A value that is its whole buffer.
    pub fn new(octets: Vec<u8>) -> Value {
        Value { length: octets.len(), buffer: octets }
    }

    /// The octets of the value.
    pub fn octets(&self) -> &[u8] {
        &self.buffer[..self.length]
    }
}

/// What the reader is called with.
#[derive(Clone, Debug)]
pub struct Input {
    /// certificatePolicies, policyMappings, policyConstraints and
    /// inhibitAnyPolicy.
    pub values: [Value; 4],
    pub self_issued: u8,
    /// The bytes of the lent register.
    pub register: Vec<u8>,
    /// The places of the lent certificate.
    pub places: usize,
}

impl Input {
    /// An input whose lent slices have just the length that they need.
    pub fn new(values: [Vec<u8>; 4], self_issued: u8, register: &[u8]) -> Input {
        let (values, register) = (values.map(Value::new), register.to_vec());
        Input { values, self_issued, register, places: PLACES }
    }

    /// The values and the flag, as the plain reader takes them.
    pub fn extensions(&self) -> Extensions<'_> {
        let [policies, mappings, constraints, inhibit_any] =
            self.values.each_ref().map(Value::octets);
        let self_issued = self.self_issued;
        Extensions { policies, mappings, constraints, inhibit_any, self_issued }
    }
}

/// The entries of the registers that are drawn.
const COUNTS: [usize; 16] = [0, 0, 1, 2, 2, 3, 17, 50, 50, 200, 500, 507, 511, MOST, MOST, MOST];

/// The registers that grow from nothing by what is read.
const GROWING: usize = 8;

/// The registers that inputs are made with: the growing ones, then those that
/// are drawn.
pub struct Registers {
    all: Vec<Box<[u8; BYTES]>>,
    /// The one of the last input.
    last: usize,
}

impl Registers {
    pub fn new(random: &mut Random) -> Registers {
        let mut all = vec![Box::new([0; BYTES]); GROWING];
        all.extend(COUNTS.map(|count| drawn_register(random, count)));
        Registers { all, last: 0 }
    }

    /// One of them. Now and then one is drawn anew, and one that has grown full
    /// is emptied.
    fn pick(&mut self, random: &mut Random) -> &[u8; BYTES] {
        if random.chance(2) {
            let place = random.below(COUNTS.len());
            self.all[GROWING + place] = drawn_register(random, COUNTS[place]);
        }
        self.last = random.below(self.all.len());
        let register = &mut self.all[self.last];
        let full = register::identifiers(register).len() == MOST;
        if self.last < GROWING && full && random.chance(3) {
            register::put_count(register, 0);
        }
        register
    }

    /// Keeps what the register of the last input has become, if it is a growing
    /// one.
    pub fn keep(&mut self, register: &[u8]) {
        if self.last < GROWING {
            self.all[self.last].copy_from_slice(&register[..BYTES]);
        }
    }
}

/// A register of so many entries, with any bytes where they never matter.
fn drawn_register(random: &mut Random, count: usize) -> Box<[u8; BYTES]> {
    let mut identifiers = Vec::new();
    while identifiers.len() < count {
        identifiers.extend((identifiers.len()..count).map(|_| identifier(random)));
        identifiers.sort();
        identifiers.dedup();
    }
    random.shuffle(&mut identifiers);
    let mut bytes = Box::new([0; BYTES]);
    bytes.fill_with(|| random.byte());
    register::write(&identifiers, &mut bytes);
    bytes
}

/// Valid content of an identifier, of so many octets.
pub fn content(random: &mut Random, length: usize) -> Identifier {
    let mut starts = true;
    let mut content: Identifier = (0..length)
        .map(|_| {
            let octet = match random.below(4) {
                0 => random.byte(),
                1 => 0x80,
                _ => random.byte() & 0x7F,
            };
            let octet = if starts && octet == 0x80 { 0x81 } else { octet };
            starts = octet < 0x80;
            octet
        })
        .collect();
    content[length - 1] &= 0x7F;
    content
}

/// An identifier of 1 to 32 octets other than anyPolicy, under 1.3.6.1.4.1 more
/// often than not.
pub fn identifier(random: &mut Random) -> Identifier {
    let length = match random.below(10) {
        0 => random.between(1, 3),
        1 => LONGEST,
        2 => random.between(1, LONGEST),
        _ => {
            let length = random.between(2, 8);
            return [&[0x2B, 0x06, 0x01, 0x04, 0x01], &content(random, length)[..]].concat();
        }
    };
    let drawn = content(random, length);
    if drawn == ANY_POLICY {
        vec![0x55, 0x1D, 0x20]
    } else {
        drawn
    }
}

/// An identifier of an enterprise, 1.3.6.1.4.1 and a few numbers.
fn enterprise_identifier(random: &mut Random) -> Identifier {
    let mut identifier = vec![0x2B, 0x06, 0x01, 0x04, 0x01];
    push_subidentifier(&mut identifier, random.between(1, 60_000));
    for _ in 0..random.between(2, 4) {
        push_subidentifier(&mut identifier, random.between(1, 200));
    }
    identifier
}

/// Adds a number of at most 16 bits, seven bits in an octet, in as few octets as
/// can be.
fn push_subidentifier(identifier: &mut Identifier, number: usize) {
    for shift in [14, 7] {
        if number >> shift > 0 {
            identifier.push((number >> shift) as u8 | 0x80);
        }
    }
    identifier.push(number as u8 & 0x7F);
}

/// So many different identifiers of enterprises.
pub fn enterprise_identifiers(random: &mut Random, count: usize) -> Vec<Identifier> {
    let mut identifiers: Vec<Identifier> = Vec::new();
    while identifiers.len() < count {
        let identifier = enterprise_identifier(random);
        if !identifiers.contains(&identifier) {
            identifiers.push(identifier);
        }
    }
    identifiers
}

/// An identifier close to another in the order: an octet longer, an octet
/// shorter, or with another last octet.
fn neighbour(random: &mut Random, identifier: &[u8]) -> Identifier {
    let mut near = identifier.to_vec();
    match random.below(3) {
        0 if near.len() < LONGEST => near.push(random.pick(&[0, 1, 0x7F])),
        1 if near.len() > 1 => {
            near.pop();
        }
        _ => {}
    }
    let last = near.len() - 1;
    near[last] &= 0x7F;
    if near == identifier {
        near[last] ^= 1;
    }
    near
}

/// The identifiers that are drawn for one certificate at most, more than a list
/// can have.
const MORE_THAN_A_LIST: usize = MAX_LIST + 9;

/// Different identifiers for one certificate: entries of the register, others
/// close to them, new ones, and anyPolicy more often than not.
pub fn alphabet(random: &mut Random, register: &[u8; BYTES]) -> Vec<Identifier> {
    let entries = register::identifiers(register);
    let known = random.pick(&[0, 50, 90, 100, 100, 100]);
    let size = random.pick(&[1, 3, 6, 20, MORE_THAN_A_LIST]);
    let mut alphabet: Vec<Identifier> = (0..size)
        .map(|_| {
            if entries.is_empty() || !random.chance(known) && random.chance(70) {
                return identifier(random);
            }
            let entry = random.pick(&entries);
            if random.chance(known) {
                entry.to_vec()
            } else {
                neighbour(random, entry)
            }
        })
        .collect();
    if random.chance(60) {
        alphabet.push(ANY_POLICY.to_vec());
    }
    alphabet.sort();
    alphabet.dedup();
    random.shuffle(&mut alphabet);
    alphabet
}

/// The length of a list, few more often than not.
fn list_length(random: &mut Random) -> usize {
    match random.below(10) {
        0 => MAX_LIST,
        1..=2 => random.between(1, MAX_LIST),
        _ => random.between(1, 3),
    }
}

/// What the extensions of a certificate say. No policy and no pair repeats.
pub fn draft(random: &mut Random, alphabet: &[Identifier]) -> Draft {
    let mut draft = Draft::default();
    if random.chance(85) {
        let listed = alphabet.iter().take(list_length(random));
        let with_qualifiers = |identifier: &Identifier| PolicyInformation {
            identifier: identifier.clone(),
            qualifiers: qualifiers(random),
        };
        draft.policies = listed.map(with_qualifiers).collect();
    }
    if random.chance(50) {
        let length = list_length(random);
        repeats::add_different(random, &mut draft.mappings, alphabet, length);
    }
    if random.chance(50) {
        draft.constraints = Some(PolicyConstraints {
            require_explicit_policy: random.chance(60).then(|| integer(random)),
            inhibit_policy_mapping: random.chance(60).then(|| integer(random)),
        });
    }
    draft.inhibit_any_policy = random.chance(40).then(|| integer(random));
    draft
}

/// An integer that is not negative, small more often than not.
pub fn integer(random: &mut Random) -> Integer {
    let width = match random.below(10) {
        0..=4 => return vec![random.below(5) as u8],
        5..=6 => 1,
        7 => 2,
        8 => random.between(3, 9),
        _ => random.pick(&[16, 17, 100, 127, 128, 200]),
    };
    let mut integer: Integer = (0..width).map(|_| random.byte()).collect();
    if integer[0] >= 0x80 || width > 1 && random.chance(30) {
        integer[0] |= 0x80;
        integer.insert(0, 0);
    } else if width > 1 && integer[0] == 0 {
        integer[0] = 1;
    }
    integer
}

/// The qualifiers of a policy: none, or a few.
fn qualifiers(random: &mut Random) -> Vec<Tlv> {
    if random.chance(75) {
        return Vec::new();
    }
    (0..random.between(1, 3)).map(|_| qualifier(random)).collect()
}

/// A CPS pointer, a user notice, or any qualifier.
fn qualifier(random: &mut Random) -> Tlv {
    let kind = |last| Tlv::identifier(&[0x2B, 0x06, 0x01, 0x05, 0x05, 0x07, 0x02, last]);
    match random.below(3) {
        0 => {
            let text = vec![b'a'; random.pick(&[1, 20, 60, 127, 128, 255, 256])];
            Tlv::sequence(vec![kind(1), Tlv::octets(0x16, &text)])
        }
        1 => Tlv::sequence(vec![kind(2), user_notice(random)]),
        _ => {
            let length = random.pick(&[1, 3, 8, 32, 33, 127, 128, 130]);
            let identifier = Tlv::identifier(&content(random, length));
            Tlv::sequence(vec![identifier, any_value(random)])
        }
    }
}

/// A UserNotice (RFC 5280 4.2.1.4), whose fields are optional.
fn user_notice(random: &mut Random) -> Tlv {
    let mut fields = Vec::new();
    if random.chance(50) {
        let numbers = (1..=random.below(4) as u8).map(|number| Tlv::octets(0x02, &[number]));
        let numbers = Tlv::sequence(numbers.collect());
        fields.push(Tlv::sequence(vec![Tlv::octets(0x0C, b"Sealed devices"), numbers]));
    }
    if random.chance(50) {
        let text = vec![b'n'; random.between(0, 200)];
        fields.push(Tlv::octets(random.pick(&[0x0C, 0x1A, 0x1E]), &text));
    }
    Tlv::sequence(fields)
}

/// A value of any tag, whose content is any octets.
pub fn any_value(random: &mut Random) -> Tlv {
    let octets: Vec<u8> = (0..random.pick(&[0, 1, 2, 5, 130])).map(|_| random.byte()).collect();
    let leading = random.byte();
    let mut value = Tlv::octets(leading, &octets);
    if leading & 0x1F == 0x1F {
        value.tag.extend(tag_number(random));
    }
    value
}

/// A tag number of 31 or more, in octets of its own.
fn tag_number(random: &mut Random) -> Vec<u8> {
    if random.chance(40) {
        return vec![random.pick(&[31, 31, 32, 64, 127])];
    }
    let mut number = vec![random.between(0x81, 0xFF) as u8];
    number.extend((0..random.below(12)).map(|_| random.byte() | 0x80));
    number.push(random.byte() & 0x7F);
    number
}

/// As many policies and pairs as there may be, all of them new, with a register
/// of so many entries.
pub fn full(random: &mut Random, entries: usize) -> Input {
    let identifiers = enterprise_identifiers(random, entries + 3 * MAX_LIST);
    let (known, new) = identifiers.split_at(entries);
    let (policies, pairs) = new.split_at(MAX_LIST);
    let draft = Draft {
        policies: policies.iter().map(|identifier| PolicyInformation::new(identifier)).collect(),
        mappings: pairs.chunks(2).map(|pair| (pair[0].clone(), pair[1].clone())).collect(),
        ..Draft::default()
    };
    Input::new(draft.encode(), 0, &register::of(known)[..])
}

/// How many faults the values of an input have.
fn fault_count(random: &mut Random) -> usize {
    match random.below(20) {
        0..=6 => 0,
        7..=15 => 1,
        16..=18 => 2,
        _ => 3,
    }
}

/// The values of a draft, with faults: first in what they say, then in how they
/// are encoded, then in their octets.
fn values(random: &mut Random, mut draft: Draft, alphabet: &[Identifier]) -> [Value; 4] {
    let (mut encodings, mut octets) = (0, 0);
    for _ in 0..fault_count(random) {
        match random.below(20) {
            0..=10 => faults::spoil_draft(random, &mut draft, alphabet),
            11..=15 => encodings += 1,
            _ => octets += 1,
        }
    }
    let mut encoded = draft.values();
    for _ in 0..encodings {
        faults::spoil_encoding(random, &mut encoded);
    }
    let mut values =
        encoded.map(|value| value.map_or(Value::default(), |value| Value::new(value.encode())));
    for _ in 0..octets {
        faults::spoil_octets(random, &mut values);
    }
    values
}

/// The length of a lent slice that needs so many places: that one, more often
/// than not.
fn lent_length(random: &mut Random, needed: usize) -> usize {
    match random.below(100) {
        0 => random.pick(&[0, needed / 2, needed - 1, needed - 1]),
        1..=4 => needed + random.pick(&[1, 2, 40]),
        _ => needed,
    }
}

/// A random input.
pub fn input(random: &mut Random, registers: &mut Registers) -> Input {
    let register = registers.pick(random);
    let alphabet = alphabet(random, register);
    let draft = draft(random, &alphabet);
    let mut register = Box::new(*register);
    if random.chance(7) {
        faults::spoil_register(random, &mut register);
    }
    let mut register = register.to_vec();
    let length = lent_length(random, BYTES);
    register.resize_with(length, || random.byte());
    Input {
        values: values(random, draft, &alphabet),
        self_issued: if random.chance(60) { 0 } else { random.byte() },
        register,
        places: lent_length(random, PLACES),
    }
}

#[cfg(test)]
mod tests {
    use super::*;
    use crate::der;
    use crate::extensions::{read_into, ANSWERS};
    use crate::sheet::REPEATED_PAIR;

    /// The number of an identifier in a list, to which it is added if it is new.
    fn number(identifier: &Identifier, entries: &mut Vec<Identifier>) -> u16 {
        if identifier[..] == ANY_POLICY {
            return 1;
        }
        let found = entries.iter().position(|entry| entry == identifier);
        let position = found.unwrap_or_else(|| {
            entries.push(identifier.clone());
            entries.len() - 1
        });
        position as u16 + 2
    }

    /// The number of a skip value in a record.
    fn skip(integer: &Option<Integer>) -> u16 {
        let Some(integer) = integer else { return 0 };
        let value = integer
            .iter()
            .fold(0u16, |value, &octet| value.saturating_mul(256).saturating_add(u16::from(octet)));
        value.min(255) + 1
    }

    /// The certificate that a draft says, and the entries after it.
    fn certificate(draft: &Draft, entries: &mut Vec<Identifier>) -> Vec<u16> {
        let constraints = draft.constraints.clone().unwrap_or_default();
        let mut certificate = vec![
            0,
            draft.policies.len() as u16,
            draft.mappings.len() as u16,
            skip(&constraints.require_explicit_policy),
            skip(&constraints.inhibit_policy_mapping),
            skip(&draft.inhibit_any_policy),
        ];
        for information in &draft.policies {
            certificate.push(number(&information.identifier, entries));
        }
        let pairs = draft.mappings.iter();
        let numbers: Vec<(u16, u16)> =
            pairs.map(|(one, other)| (number(one, entries), number(other, entries))).collect();
        certificate.extend(numbers.iter().map(|&(issuer, _)| issuer));
        certificate.extend(numbers.iter().map(|&(_, subject)| subject));
        certificate
    }

    #[test]
    fn a_draft_is_read_as_it_says() {
        let mut random = Random::new(6);
        for _ in 0..3_000 {
            let count = random.pick(&[0, 2, 50, MOST - MORE_THAN_A_LIST]);
            let mut register = drawn_register(&mut random, count);
            let entries = register::identifiers(&register).into_iter();
            let mut entries: Vec<Identifier> = entries.map(<[u8]>::to_vec).collect();
            let alphabet = alphabet(&mut random, &register);
            let draft = draft(&mut random, &alphabet);
            let mut expected = certificate(&draft, &mut entries);
            let mut after = register.clone();
            register::write(&entries, &mut after);
            let input = Input::new(draft.encode(), 0, &register[..]);
            let mut read = [7; PLACES];
            let answer = read_into(input.extensions(), &mut register[..], &mut read);
            assert_eq!(answer, (0, expected.len()), "{draft:X?}");
            expected.resize(PLACES, 0);
            assert_eq!(read[..], expected, "{draft:X?}");
            assert!(register == after, "{draft:X?}");
        }
    }

    /// A draft with a pair that is like another: 11 where it is the same.
    #[test]
    fn a_draft_with_a_pair_twice_is_refused() {
        let mut random = Random::new(9);
        let mut times = [0; 2];
        for _ in 0..3_000 {
            let register = drawn_register(&mut random, 50);
            let alphabet = alphabet(&mut random, &register);
            let mut draft = draft(&mut random, &alphabet);
            faults::repeat_pair(&mut random, &mut draft, &alphabet);
            let repeats = repeats::first_repeat(&draft.mappings).is_some();
            let input = Input::new(draft.encode(), 0, &register[..]);
            let (mut register, mut read) = (input.register.clone(), [7; PLACES]);
            let (number, _) = read_into(input.extensions(), &mut register, &mut read);
            assert_eq!(number, if repeats { REPEATED_PAIR } else { 0 }, "{draft:X?}");
            times[usize::from(repeats)] += 1;
        }
        assert!(times.iter().all(|&times| times >= 300), "{times:?}");
    }

    #[test]
    fn subidentifiers() {
        for (number, octets) in [
            (0, &[0][..]),
            (127, &[0x7F]),
            (128, &[0x81, 0x00]),
            (311, &[0x82, 0x37]),
            (16_383, &[0xFF, 0x7F]),
            (16_384, &[0x81, 0x80, 0x00]),
            (60_000, &[0x83, 0xD4, 0x60]),
        ] {
            let mut identifier = Vec::new();
            push_subidentifier(&mut identifier, number);
            assert_eq!(identifier, octets);
        }
    }

    #[test]
    fn drawn_identifiers_are_identifiers() {
        let mut random = Random::new(7);
        for _ in 0..10_000 {
            let identifier = identifier(&mut random);
            let near = neighbour(&mut random, &identifier);
            for drawn in [&identifier, &near] {
                assert!((1..=LONGEST).contains(&drawn.len()), "{drawn:X?}");
                assert!(drawn[..] != ANY_POLICY);
            }
            assert!(der::is_identifier(&identifier), "{identifier:X?}");
            assert!(near != identifier);
        }
    }

    #[test]
    fn random_inputs_get_every_answer() {
        let mut random = Random::new(8);
        let mut registers = Registers::new(&mut random);
        let mut times = [0; 21];
        for _ in 0..10_000 {
            let mut input = input(&mut random, &mut registers);
            let mut register = std::mem::take(&mut input.register);
            let mut certificate = vec![0; input.places];
            let (number, _) = read_into(input.extensions(), &mut register, &mut certificate);
            times[usize::from(number)] += 1;
            if number == 0 {
                registers.keep(&register);
            }
        }
        let answers = [0, 3, 5, 7, 11, 13, 14, 15, 20];
        assert_eq!(ANSWERS.map(usize::from), answers);
        assert!(answers.into_iter().all(|number| times[number] >= 100), "{times:?}");
        assert_eq!(answers.map(|number| times[number]).iter().sum::<usize>(), 10_000);
    }
}
