//! Faults of the reader's inputs, each at a random place.

use crate::der::{CONTEXT_0, CONTEXT_1, INTEGER, OBJECT_IDENTIFIER, SEQUENCE};
use crate::draft::{Draft, Identifier, Integer, PolicyInformation};
use crate::path::MAX_LIST;
use crate::random::Random;
use crate::random_extensions::{any_value, content, identifier, integer, Value};
use crate::register::{self, entry_start, order_start, ANY_POLICY, BYTES, LONGEST, MOST};
use crate::repeats::{self, Likeness};
use crate::tlv::{Content, Length, Tlv};

/// The lengths of identifiers that are too long for a register.
const LONG: [usize; 9] = [33, 33, 33, 34, 64, 127, 128, 130, 300];

/// One of the things in a list, if there are any.
fn pick_mut<'l, T>(random: &mut Random, list: &'l mut [T]) -> Option<&'l mut T> {
    if list.is_empty() {
        return None;
    }
    let place = random.below(list.len());
    Some(&mut list[place])
}

/// One fault in what the extensions say.
pub fn spoil_draft(random: &mut Random, draft: &mut Draft, alphabet: &[Identifier]) {
    match random.below(14) {
        0..=1 => repeat_policy(random, draft),
        2 => repeat_any_policy(random, draft),
        3..=4 => too_many_policies(random, draft),
        5..=6 => too_many_pairs(random, draft, alphabet),
        7..=8 => {
            let length = random.pick(&LONG);
            let long = content(random, length);
            replace_identifier(random, draft, long);
        }
        9..=10 => {
            let bad = bad_identifier(random);
            replace_identifier(random, draft, bad);
        }
        11..=12 => repeat_pair(random, draft, alphabet),
        _ => replace_integer(random, draft),
    }
}

/// A policy once more, somewhere in the list.
fn repeat_policy(random: &mut Random, draft: &mut Draft) {
    if let Some(policy) = pick_mut(random, &mut draft.policies) {
        let again = policy.clone();
        insert(random, &mut draft.policies, again);
    }
}

/// anyPolicy twice, somewhere in the list.
fn repeat_any_policy(random: &mut Random, draft: &mut Draft) {
    for _ in 0..2 {
        insert(random, &mut draft.policies, PolicyInformation::new(&ANY_POLICY));
    }
}

/// A pair once more, or one that is like it, after it in the list.
pub fn repeat_pair(random: &mut Random, draft: &mut Draft, alphabet: &[Identifier]) {
    let own = [(); 2].map(|()| alphabet[random.below(alphabet.len())].clone()).into();
    let likeness = Likeness::draw(random);
    repeats::add_like(random, &mut draft.mappings, likeness, &own);
}

fn insert<T>(random: &mut Random, list: &mut Vec<T>, element: T) {
    list.insert(random.below(list.len() + 1), element);
}

/// Policies up to one above the limit, or further. That one is one of the
/// first, or it is new, too long or bad.
fn too_many_policies(random: &mut Random, draft: &mut Draft) {
    while draft.policies.len() < MAX_LIST {
        draft.policies.push(PolicyInformation::new(&identifier(random)));
    }
    let one_more = odd_identifier(random, &draft.policies[0].identifier);
    draft.policies.push(PolicyInformation::new(&one_more));
    for _ in 0..random.below(3) {
        draft.policies.push(PolicyInformation::new(&identifier(random)));
    }
}

/// Pairs up to one above the limit, or further. That one is one of the others,
/// or it has identifiers that are new, too long or bad. Where the alphabet has
/// too few pairs for the limit, those lacking have new issuers.
fn too_many_pairs(random: &mut Random, draft: &mut Draft, alphabet: &[Identifier]) {
    let known = |random: &mut Random| alphabet[random.below(alphabet.len())].clone();
    repeats::add_different(random, &mut draft.mappings, alphabet, MAX_LIST);
    while draft.mappings.len() < MAX_LIST {
        draft.mappings.push((identifier(random), known(random)));
    }
    let (issuer, subject) = draft.mappings[random.below(MAX_LIST)].clone();
    let issuer = odd_identifier(random, &issuer);
    let subject = odd_identifier(random, &subject);
    draft.mappings.push((issuer, subject));
    for _ in 0..random.below(3) {
        draft.mappings.push((known(random), known(random)));
    }
}

/// A given identifier, or one that is new, too long or bad.
fn odd_identifier(random: &mut Random, given: &[u8]) -> Identifier {
    match random.below(5) {
        0..=1 => given.to_vec(),
        2 => identifier(random),
        3 => {
            let length = random.pick(&LONG);
            content(random, length)
        }
        _ => bad_identifier(random),
    }
}

/// Octets that are not the content of an identifier.
fn bad_identifier(random: &mut Random) -> Identifier {
    let length = random.pick(&[1, 2, 3, 9, 30, 31, 32, 33, 130]);
    bad_content(random, length)
}

/// The same, of at most two octets more than so many.
fn bad_content(random: &mut Random, length: usize) -> Identifier {
    let mut bad = content(random, length);
    match random.below(4) {
        0 => bad.clear(),
        1 => bad.insert(0, 0x80),
        2 => bad[length - 1] |= 0x80,
        _ => bad.extend([0x80, 0x01]),
    }
    bad
}

/// Another identifier in the place of a policy's, an issuer's or a subject's.
fn replace_identifier(random: &mut Random, draft: &mut Draft, identifier: Identifier) {
    let policies = draft.policies.iter_mut().map(|information| &mut information.identifier);
    let pairs = draft.mappings.iter_mut().flat_map(|(issuer, subject)| [issuer, subject]);
    let mut all: Vec<&mut Identifier> = policies.chain(pairs).collect();
    if let Some(place) = pick_mut(random, &mut all) {
        **place = identifier;
    }
}

/// A bad integer in the place of a skip value, or as inhibitAnyPolicy.
fn replace_integer(random: &mut Random, draft: &mut Draft) {
    let bad = bad_integer(random);
    let constraints = draft.constraints.get_or_insert_default();
    match random.below(3) {
        0 => constraints.require_explicit_policy = Some(bad),
        1 => constraints.inhibit_policy_mapping = Some(bad),
        _ => draft.inhibit_any_policy = Some(bad),
    }
}

/// The content of an integer that is negative, or not minimal, or none.
fn bad_integer(random: &mut Random) -> Integer {
    let mut bad = integer(random);
    match random.below(5) {
        0 => bad.clear(),
        1 => bad[0] |= 0x80,
        2 => bad.insert(0, 0),
        3 => bad.insert(0, 0xFF),
        _ => bad.fill(0xFF),
    }
    bad
}

/// One fault in how the values are encoded.
pub fn spoil_encoding(random: &mut Random, values: &mut [Option<Tlv>; 4]) {
    match random.below(10) {
        0..=1 => {
            if let Some(Tlv { content: Content::Values(policies), .. }) = &mut values[0] {
                if let Some(policy) = pick_mut(random, policies) {
                    spoil_qualifiers(random, policy);
                }
            }
        }
        2 => values[2] = Some(odd_constraints(random)),
        _ => spoil_any_value(random, values),
    }
}

/// A policy with qualifiers at fault, or with something in their place.
fn spoil_qualifiers(random: &mut Random, policy: &mut Tlv) {
    let Content::Values(fields) = &mut policy.content else { return };
    let mut parts = vec![Tlv::identifier(&identifier(random)), any_value(random)];
    match random.below(4) {
        0 => parts.truncate(random.below(2)),
        1 => parts.push(any_value(random)),
        2 => parts[1].tag = odd_tag(random),
        _ => {}
    }
    let qualifier = Tlv::sequence(parts);
    match random.below(8) {
        0 => fields.push(Tlv::sequence(vec![])),
        1 => fields.push(qualifier),
        2 => fields.extend([Tlv::sequence(vec![qualifier]), any_value(random)]),
        3 => fields.push(any_value(random)),
        _ => fields.push(Tlv::sequence(vec![qualifier])),
    }
}

/// A tag whose number is in octets of its own, at the limits of what is DER.
fn odd_tag(random: &mut Random) -> Vec<u8> {
    let mut tag = vec![random.byte() | 0x1F];
    tag.extend(random.pick(&[
        &[0x1E][..],
        &[0x1F],
        &[0x00],
        &[0x7F],
        &[0x80, 0x1F],
        &[0x80, 0x81, 0x00],
        &[0x81, 0x00],
        &[0x81, 0x80, 0x00],
        &[0x81, 0x80],
        &[],
    ]));
    tag
}

/// A policyConstraints of any fields in any order.
fn odd_constraints(random: &mut Random) -> Tlv {
    let fields = (0..random.between(1, 3)).map(|_| {
        let tag = random.pick(&[CONTEXT_0, CONTEXT_0, CONTEXT_1, CONTEXT_1, 0x82, 0xA0, INTEGER]);
        Tlv::octets(tag, &integer(random))
    });
    Tlv::sequence(fields.collect())
}

/// One fault at any depth of a value.
fn spoil_any_value(random: &mut Random, values: &mut [Option<Tlv>; 4]) {
    let mut present: Vec<&mut Tlv> = values.iter_mut().flatten().collect();
    let Some(value) = pick_mut(random, &mut present) else { return };
    let place = if random.chance(20) { 0 } else { random.below(value.count()) };
    let Some(value) = value.nth(place) else { return };
    match random.below(10) {
        0..=1 => value.tag = other_tag(random),
        2..=4 => spoil_length(random, value),
        5 => value.content = Content::Octets(Vec::new()),
        6..=7 => add_octets(random, value),
        _ => change_content(random, value),
    }
}

/// A tag, of which most are of the extensions' values.
fn other_tag(random: &mut Random) -> Vec<u8> {
    const TAGS: [u8; 5] = [SEQUENCE, OBJECT_IDENTIFIER, INTEGER, CONTEXT_0, CONTEXT_1];
    match random.below(4) {
        0 => vec![random.byte()],
        1 => vec![0x1F, random.byte(), random.byte()],
        2 => vec![random.pick(&TAGS) ^ random.pick(&[0x20, 0x40, 0x80, 0xA0])],
        _ => vec![random.pick(&TAGS)],
    }
}

/// A length that is not minimal, is indefinite, is another, or is huge.
fn spoil_length(random: &mut Random, value: &mut Tlv) {
    value.length = match random.below(10) {
        0..=1 => Length::Long(random.pick(&[0, 0, 1, 2, 7, 8, 9, 100])),
        2 => Length::Octets(vec![0]),
        3 => Length::Indefinite,
        4..=5 => Length::Off(random.pick(&[-130, -3, -2, -1, 1, 1, 2, 3, 128, 256])),
        6 => {
            // The largest length of one octet in two, and the next in one.
            let (length, octets) = random.pick(&[(127, &[0x81, 0x7F][..]), (128, &[0x80])]);
            value.content = Content::Octets(vec![0; length]);
            Length::Octets(octets.to_vec())
        }
        7 => {
            // The length plus a power of 256, in as many octets as that takes.
            let octets = random.between(1, 16);
            let low = (value.content_octets().len() as u128).to_be_bytes();
            Length::Octets([&[0x81 + octets as u8, 1], &low[16 - octets..]].concat())
        }
        8 => {
            // Just below 2^64, so that a place plus the length would wrap.
            let huge = 0u64.wrapping_sub(random.between(1, 300) as u64);
            Length::Octets([&[0x88], &huge.to_be_bytes()[..]].concat())
        }
        _ => {
            let octets = random.between(1, 127);
            let digits = (0..octets).map(|_| random.pick(&[0, 1, 0xFF]));
            Length::Octets([0x80 + octets as u8].into_iter().chain(digits).collect())
        }
    };
}

/// Something more in the content, first or last.
fn add_octets(random: &mut Random, value: &mut Tlv) {
    match &mut value.content {
        Content::Values(values) => {
            let more = match random.below(4) {
                0 => Tlv::octets(0x05, &[]),
                1 => Tlv::octets(0x00, &[]),
                2 => Tlv::identifier(&identifier(random)),
                _ => any_value(random),
            };
            let place = if random.chance(80) { values.len() } else { 0 };
            values.insert(place, more);
        }
        Content::Octets(octets) => {
            let place = if random.chance(50) { octets.len() } else { 0 };
            octets.insert(place, random.pick(&[0x00, 0x01, 0x80, 0x81, 0xFF]));
        }
    }
}

/// A value of the content less, or once more, or two of them in the other
/// order; octets replaced.
fn change_content(random: &mut Random, value: &mut Tlv) {
    match &mut value.content {
        Content::Values(values) if !values.is_empty() => {
            let [one, other] = [(); 2].map(|()| random.below(values.len()));
            match random.below(3) {
                0 => {
                    values.remove(one);
                }
                1 => values.insert(other, values[one].clone()),
                _ => values.swap(one, other),
            }
        }
        Content::Octets(octets) => match random.below(3) {
            0 => *octets = bad_identifier(random),
            1 => *octets = bad_integer(random),
            _ => octets.iter_mut().for_each(|octet| *octet = random.byte()),
        },
        Content::Values(_) => {}
    }
}

/// One fault in the octets of the values.
pub fn spoil_octets(random: &mut Random, values: &mut [Value; 4]) {
    match random.below(20) {
        0 => values[random.below(4)] = any_octets(random),
        1 => {
            let [one, other] = [(); 2].map(|()| random.below(4));
            values.swap(one, other);
        }
        _ => {
            let present = values.iter_mut().filter(|value| value.length > 0);
            if let Some(value) = pick_mut(random, &mut present.collect::<Vec<_>>()) {
                spoil_value(random, value);
            }
        }
    }
}

/// One fault in the octets of a value that has some.
fn spoil_value(random: &mut Random, value: &mut Value) {
    let place = random.below(value.length);
    match random.below(8) {
        0..=1 => value.buffer[place] ^= 1 << random.below(8),
        2..=3 => value.length = place,
        4 => value.buffer[place] = random.pick(&[0x00, 0x01, 0x06, 0x30, 0x7F, 0x80, 0x81, 0xFF]),
        5 => {
            value.buffer.remove(place);
            value.length -= 1;
        }
        6 => {
            value.buffer.insert(place, random.byte());
            value.length += 1;
        }
        _ => {
            let more = random.pick(&[&[0][..], &[0, 0], &[5, 0], &[0x30], &[0x02, 1, 0]]);
            value.buffer.truncate(value.length);
            value.buffer.extend(more);
            value.length = value.buffer.len();
        }
    }
}

/// A few octets: any, or after the header of a list.
fn any_octets(random: &mut Random) -> Value {
    let mut octets: Vec<u8> = (0..random.below(40)).map(|_| random.byte()).collect();
    if random.chance(70) {
        octets.splice(0..0, [SEQUENCE, octets.len() as u8]);
    }
    Value::new(octets)
}

/// One fault in a register.
pub fn spoil_register(random: &mut Random, bytes: &mut [u8; BYTES]) {
    let count = register::identifiers(bytes).len();
    match random.below(10) {
        0 => register::put_count(bytes, random.pick(&[513, 514, 768, 1_024, 33_280, 65_535])),
        1 => register::put_count(bytes, count + random.between(1, 600)),
        2 => bytes.fill_with(|| random.byte()),
        3 => {
            bytes.fill_with(|| random.byte());
            register::put_count(bytes, random.between(1, 3));
        }
        _ if count == 0 => register::put_count(bytes, 1),
        4..=6 => spoil_entry(random, bytes, count),
        7 => {
            let place = random.below(count);
            let starts = [0, order_start(place), entry_start(place), entry_start(place) + 1];
            let start = random.pick(&starts);
            bytes[start + random.below(2)] ^= 1 << random.below(8);
        }
        _ => spoil_order(random, bytes, count),
    }
}

/// An entry that is none, in its right place in the order as far as can be.
fn spoil_entry(random: &mut Random, bytes: &mut [u8; BYTES], count: usize) {
    let position = random.below(count);
    if random.chance(30) {
        bytes[entry_start(position)] = random.pick(&[0, 0, 33, 33, 34, 64, 255]);
        return;
    }
    let mut identifiers: Vec<Identifier> =
        register::identifiers(bytes).into_iter().map(<[u8]>::to_vec).collect();
    identifiers[position] = match random.below(3) {
        0 => ANY_POLICY.to_vec(),
        1 => identifiers[random.below(count)].clone(),
        _ => {
            let length = random.between(1, LONGEST - 2);
            bad_content(random, length)
        }
    };
    register::write(&identifiers, bytes);
}

/// An order with two places swapped, with a position twice, or with one that no
/// entry has.
fn spoil_order(random: &mut Random, bytes: &mut [u8; BYTES], count: usize) {
    let place = random.below(count);
    let near = if place + 1 < count { place + 1 } else { 0 };
    let far = random.below(count);
    match random.below(4) {
        0 => swap_places(bytes, place, near),
        1 => swap_places(bytes, place, far),
        2 => bytes.copy_within(order_start(far)..order_start(far + 1), order_start(place)),
        _ => {
            let position = random.pick(&[count, count + 1, MOST, MOST + 1, 65_535]);
            register::put_position(bytes, place, position);
        }
    }
}

/// Swaps the positions at two places of an order.
fn swap_places(bytes: &mut [u8; BYTES], one: usize, other: usize) {
    for (one, other) in
        (order_start(one)..order_start(one + 1)).zip(order_start(other)..order_start(other + 1))
    {
        bytes.swap(one, other);
    }
}
