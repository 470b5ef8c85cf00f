//! Worked values of extensions, with what the reader answers.

use crate::der::{INTEGER, OBJECT_IDENTIFIER, SEQUENCE};
use crate::draft::Identifier;
use crate::path::MAX_LIST;
use crate::random_extensions::Input;
use crate::register::{self, ANY_POLICY, MOST};
use crate::tlv::Tlv;

/// 1.2.3.4
pub const P: &[u8] = &[0x2A, 0x03, 0x04];
/// 1.3.6.1.4.1.311.21
pub const Q: &[u8] = &[0x2B, 0x06, 0x01, 0x04, 0x01, 0x82, 0x37, 0x15];
/// 2.16.840.1.101.3.2.1.48.1
pub const R: &[u8] = &[0x60, 0x86, 0x48, 0x01, 0x65, 0x03, 0x02, 0x01, 0x30, 0x01];

/// A register before the call.
#[derive(Clone, Copy, Debug, PartialEq, Eq)]
pub enum Standing {
    /// No entry.
    Empty,
    /// P is 2, Q is 3.
    Two,
    /// The same, and others up to 511 entries.
    OneLeft,
    /// The same, and others up to 512 entries.
    Full,
}

/// All registers.
pub const STANDINGS: [Standing; 4] =
    [Standing::Empty, Standing::Two, Standing::OneLeft, Standing::Full];

impl Standing {
    /// The identifiers, by position.
    pub fn identifiers(self) -> Vec<Identifier> {
        let count = match self {
            Standing::Empty => 0,
            Standing::Two => 2,
            Standing::OneLeft => MOST - 1,
            Standing::Full => MOST,
        };
        let others = (0..MOST).map(|place| other(place).to_vec());
        [P.to_vec(), Q.to_vec()].into_iter().chain(others).take(count).collect()
    }
}

/// An identifier that stands in the registers of 511 and 512 entries.
fn other(place: usize) -> [u8; 3] {
    [0x29, (place / 100) as u8, (place % 100) as u8]
}

/// Values, and what the reader answers.
#[derive(Clone, Debug)]
pub struct Row {
    pub name: &'static str,
    /// In the order named.
    pub values: [Vec<u8>; 4],
    pub self_issued: u8,
    pub standing: Standing,
    pub number: u8,
    /// The certificate's numbers; none after a refusal.
    pub certificate: Vec<u16>,
    /// The identifiers that the register gains.
    pub new: Vec<Identifier>,
}

impl Row {
    /// What the reader is called with.
    pub fn input(&self) -> Input {
        let register = register::of(&self.standing.identifiers());
        Input::new(self.values.clone(), self.self_issued, &register[..])
    }

    /// The identifiers of the register after the call.
    pub fn entered(&self) -> Vec<Identifier> {
        [self.standing.identifiers(), self.new.clone()].concat()
    }
}

/// The octets of a text in hex.
fn hex(text: &str) -> Vec<u8> {
    let digits = text.split_whitespace();
    digits.map(|octet| u8::from_str_radix(octet, 16).expect("an octet in hex")).collect()
}

/// A row that is read, its values in hex.
fn read(
    name: &'static str,
    values: [&str; 4],
    standing: Standing,
    certificate: &[u16],
    new: &[&[u8]],
) -> Row {
    Row {
        name,
        values: values.map(hex),
        self_issued: 0,
        standing,
        number: 0,
        certificate: certificate.to_vec(),
        new: new.iter().map(|identifier| identifier.to_vec()).collect(),
    }
}

/// The rows that are read, of every shape.
pub fn read_rows() -> Vec<Row> {
    use Standing::{Empty, Full, OneLeft, Two};
    let one_policy = "30 07 30 05 06 03 2A 03 04";
    let long_lengths = "30 82 01 4B 30 82 01 47 06 03 2A 03 04 \
                             30 82 01 3E 30 82 01 3A 06 08 2B 06 01 05 05 07 02 01 16 82 01 2C"
        .to_string()
        + &" 61".repeat(300);
    let length_128 = "30 81 80 30 7E 06 03 2A 03 04 \
                            30 77 30 75 06 08 2B 06 01 05 05 07 02 01 16 69"
        .to_string()
        + &" 61".repeat(105);
    let mut self_issued = read("self-issued", ["", "", "", ""], Two, &[1, 0, 0, 0, 0, 0], &[]);
    self_issued.self_issued = 0x80;
    vec![
        read("all absent", ["", "", "", ""], Empty, &[0; 6], &[]),
        self_issued,
        read("a new policy", [one_policy, "", "", ""], Empty, &[0, 1, 0, 0, 0, 0, 2], &[P]),
        read("a known policy", [one_policy, "", "", ""], Full, &[0, 1, 0, 0, 0, 0, 2], &[]),
        read(
            "anyPolicy, and the last number",
            ["30 16 30 06 06 04 55 1D 20 00 30 0C 06 0A 60 86 48 01 65 03 02 01 30 01", "", "", ""],
            OneLeft,
            &[0, 2, 0, 0, 0, 0, 1, 513],
            &[R],
        ),
        read(
            "a CPS qualifier",
            [
                "30 2F 30 21 06 03 2A 03 04 \
                 30 1A 30 18 06 08 2B 06 01 05 05 07 02 01 \
                 16 0C 68 74 74 70 3A 2F 2F 61 2E 62 2F 63 \
                 30 0A 06 08 2B 06 01 04 01 82 37 15",
                "",
                "",
                "",
            ],
            Two,
            &[0, 2, 0, 0, 0, 0, 2, 3],
            &[],
        ),
        read(
            "a user notice",
            [
                "30 2A 30 28 06 03 2A 03 04 \
                 30 21 30 1F 06 08 2B 06 01 05 05 07 02 02 \
                 30 13 30 0D 0C 03 4F 72 67 30 06 02 01 01 02 01 02 0C 02 48 69",
                "",
                "",
                "",
            ],
            Empty,
            &[0, 1, 0, 0, 0, 0, 2],
            &[P],
        ),
        read(
            "qualifiers of any kind",
            [
                "30 28 30 26 06 03 2A 03 04 \
                 30 1F 30 06 06 01 7F 3F 1F 00 30 05 06 01 00 00 00 \
                 30 0E 06 01 28 DF 81 80 00 06 30 80 00 00 05 FF",
                "",
                "",
                "",
            ],
            Empty,
            &[0, 1, 0, 0, 0, 0, 2],
            &[P],
        ),
        read("a length of 128", [&length_128, "", "", ""], Two, &[0, 1, 0, 0, 0, 0, 2], &[]),
        read(
            "lengths of two octets",
            [&long_lengths, "", "", ""],
            Full,
            &[0, 1, 0, 0, 0, 0, 2],
            &[],
        ),
        read(
            "a pair, the subject new",
            ["", "30 13 30 11 06 03 2A 03 04 06 0A 60 86 48 01 65 03 02 01 30 01", "", ""],
            Two,
            &[0, 0, 1, 0, 0, 0, 2, 4],
            &[R],
        ),
        read(
            "pairs that name anyPolicy",
            [
                "",
                "30 20 30 0E 06 04 55 1D 20 00 06 06 2B 06 01 04 01 01 \
                 30 0E 06 06 2B 06 01 04 01 01 06 04 55 1D 20 00",
                "",
                "",
            ],
            Empty,
            &[0, 0, 2, 0, 0, 0, 1, 2, 2, 1],
            &[&[0x2B, 0x06, 0x01, 0x04, 0x01, 0x01]],
        ),
        read(
            "pairs of one issuer, of one subject, and exchanged",
            [
                "",
                "30 4D 30 0F 06 03 2A 03 04 06 08 2B 06 01 04 01 82 37 15 \
                 30 11 06 03 2A 03 04 06 0A 60 86 48 01 65 03 02 01 30 01 \
                 30 16 06 0A 60 86 48 01 65 03 02 01 30 01 06 08 2B 06 01 04 01 82 37 15 \
                 30 0F 06 08 2B 06 01 04 01 82 37 15 06 03 2A 03 04",
                "",
                "",
            ],
            Two,
            &[0, 0, 4, 0, 0, 0, 2, 2, 4, 3, 3, 4, 3, 2],
            &[R],
        ),
        read(
            "pairs that differ in one bit",
            [
                "",
                "30 24 30 0A 06 03 2A 03 04 06 03 2A 03 04 \
                 30 0A 06 03 2A 03 04 06 03 2A 03 05 \
                 30 0A 06 03 2A 03 05 06 03 2A 03 04",
                "",
                "",
            ],
            Two,
            &[0, 0, 3, 0, 0, 0, 2, 2, 4, 2, 4, 2],
            &[&[0x2A, 0x03, 0x05]],
        ),
        read(
            "both constraints, and inhibitAnyPolicy 0",
            ["", "", "30 06 80 01 00 81 01 05", "02 01 00"],
            Empty,
            &[0, 0, 0, 1, 6, 1],
            &[],
        ),
        read(
            "requireExplicitPolicy 128, inhibitAnyPolicy 256",
            ["", "", "30 04 80 02 00 80", "02 02 01 00"],
            Empty,
            &[0, 0, 0, 129, 0, 256],
            &[],
        ),
        read(
            "inhibitPolicyMapping 255, inhibitAnyPolicy 65,536",
            ["", "", "30 04 81 02 00 FF", "02 03 01 00 00"],
            Empty,
            &[0, 0, 0, 0, 256, 256],
            &[],
        ),
        read("constraints with nothing in them", ["", "", "30 00", ""], Empty, &[0; 6], &[]),
        read(
            "all four",
            [
                "30 15 30 05 06 03 2A 03 04 30 0C 06 0A 60 86 48 01 65 03 02 01 30 01",
                "30 11 30 0F 06 03 2A 03 04 06 08 2B 06 01 04 01 82 37 15",
                "30 06 80 01 01 81 01 02",
                "02 01 03",
            ],
            Two,
            &[0, 2, 1, 2, 3, 4, 2, 4, 2, 3],
            &[R],
        ),
    ]
}

/// A value in octets.
fn value(tag: u8, content: &[u8]) -> Vec<u8> {
    Tlv::octets(tag, content).encode()
}

fn sequence(parts: &[Vec<u8>]) -> Vec<u8> {
    value(SEQUENCE, &parts.concat())
}

fn identifier(content: &[u8]) -> Vec<u8> {
    Tlv::identifier(content).encode()
}

/// A policy without qualifiers.
fn policy(content: &[u8]) -> Vec<u8> {
    sequence(&[identifier(content)])
}

/// A policy with something after its identifier.
fn policy_and(content: &[u8], after: &[u8]) -> Vec<u8> {
    sequence(&[identifier(content), after.to_vec()])
}

/// P with one qualifier, of these parts.
fn qualified(parts: &[Vec<u8>]) -> Vec<u8> {
    sequence(&[policy_and(P, &sequence(&[sequence(parts)]))])
}

fn pair(issuer: &[u8], subject: &[u8]) -> Vec<u8> {
    sequence(&[identifier(issuer), identifier(subject)])
}

/// As many policies of their own as there may be, and one more element.
fn full_policies_and(more: &[u8]) -> Vec<u8> {
    let policies = (0..MAX_LIST as u8).map(|last| policy(&[0x2B, last]));
    sequence(&policies.chain([more.to_vec()]).collect::<Vec<_>>())
}

/// As many pairs as there may be, each with an issuer of its own, and one more
/// element.
fn full_pairs_and(more: &[u8]) -> Vec<u8> {
    let pairs = (0..MAX_LIST as u8).map(|last| pair(&[0x2B, last], Q));
    sequence(&pairs.chain([more.to_vec()]).collect::<Vec<_>>())
}

/// Octets that are the content of an identifier.
fn long_identifier(length: usize) -> Identifier {
    vec![0x2A; length]
}

/// The value with octets after it.
fn and(mut value: Vec<u8>, after: &[u8]) -> Vec<u8> {
    value.extend(after);
    value
}

/// A row whose policies are refused, with two entries in the register.
fn policies(name: &'static str, value: Vec<u8>, number: u8) -> Row {
    refused(name, [value, vec![], vec![], vec![]], Standing::Two, number)
}

/// A row whose mappings are refused.
fn mappings(name: &'static str, value: Vec<u8>, number: u8) -> Row {
    refused(name, [vec![], value, vec![], vec![]], Standing::Two, number)
}

/// A row whose constraints are not DER of their type.
fn constraints(name: &'static str, content: &[u8]) -> Row {
    refused(name, [vec![], vec![], value(SEQUENCE, content), vec![]], Standing::Two, 13)
}

/// A row whose inhibitAnyPolicy is not DER of its type.
fn inhibit_any(name: &'static str, value: &[u8]) -> Row {
    refused(name, [vec![], vec![], vec![], value.to_vec()], Standing::Two, 13)
}

fn refused(name: &'static str, values: [Vec<u8>; 4], standing: Standing, number: u8) -> Row {
    let (certificate, new) = (Vec::new(), Vec::new());
    Row { name, values, self_issued: 1, standing, number, certificate, new }
}

/// The rows that are refused, most of them with a second fault.
pub fn refused_rows() -> Vec<Row> {
    [
        list_rows(),
        identifier_rows(),
        pair_rows(),
        full_rows(),
        header_rows(),
        qualifier_rows(),
        integer_rows(),
        later_rows(),
    ]
    .concat()
}

/// Too few elements and too many.
fn list_rows() -> Vec<Row> {
    let long = long_identifier(33);
    vec![
        policies("no policies", hex("30 00"), 3),
        policies("no policies, and octets after", hex("30 00 05 00"), 3),
        policies("no policies, the length not minimal", hex("30 81 00"), 13),
        mappings("no pairs", hex("30 00"), 3),
        mappings("no pairs, and octets after", hex("30 00 30"), 3),
        policies("one policy more", full_policies_and(&policy(P)), 3),
        policies("one policy more, too long", full_policies_and(&policy(&long)), 3),
        policies("one policy more, that repeats", full_policies_and(&policy(&[0x2B, 0])), 3),
        policies("one policy more, at fault", full_policies_and(&policy(&[0x80, 0])), 13),
        policies("one policy more, with no identifier", full_policies_and(&hex("30 00")), 13),
        policies("one policy more, that is no SEQUENCE", full_policies_and(&hex("31 00")), 13),
        policies(
            "one policy more, with qualifiers at fault",
            full_policies_and(&policy_and(P, &hex("05 00"))),
            3,
        ),
        mappings("one pair more", full_pairs_and(&pair(P, Q)), 3),
        mappings("one pair more, the issuer too long", full_pairs_and(&pair(&long, Q)), 3),
        mappings("one pair more, the issuer at fault", full_pairs_and(&pair(&[], Q)), 13),
        mappings("one pair more, the subject at fault", full_pairs_and(&pair(P, &[])), 3),
        mappings("one pair more, of one identifier", full_pairs_and(&policy(P)), 3),
        mappings("one pair more, that repeats", full_pairs_and(&pair(&[0x2B, 0], Q)), 3),
    ]
}

/// Identifiers: 13, then 15, 14, 5, before what comes later.
fn identifier_rows() -> Vec<Row> {
    let long = long_identifier(33);
    let unfinished = [&long[1..], &[0x81]].concat();
    vec![
        policies("an identifier of no octets", sequence(&[policy(&[])]), 13),
        policies("a subidentifier that starts with 80", sequence(&[policy(&[0x2A, 0x80, 1])]), 13),
        policies("an identifier without its end", sequence(&[policy(&[0x2A, 0x81])]), 13),
        policies("33 octets", sequence(&[policy(&long)]), 15),
        policies("130 octets", sequence(&[policy(&long_identifier(130))]), 15),
        policies("33 octets without their end", sequence(&[policy(&unfinished)]), 13),
        policies(
            "33 octets, then an octet that is no value",
            sequence(&[policy_and(&long, &[0])]),
            15,
        ),
        policies("33 octets, then octets after", and(sequence(&[policy(&long)]), &[0]), 15),
        policies("a policy twice", sequence(&[policy(P), policy(Q), policy(P)]), 5),
        policies("a new policy twice", sequence(&[policy(R), policy(R)]), 5),
        policies("anyPolicy twice", sequence(&[policy(&ANY_POLICY), policy(&ANY_POLICY)]), 5),
        policies("a policy twice, then 13", sequence(&[policy(P), policy(P), hex("05 00")]), 5),
        policies("13, then a policy twice", sequence(&[policy(P), hex("05 00"), policy(P)]), 13),
        policies("a policy twice, then octets", and(sequence(&[policy(P), policy(P)]), &[0]), 5),
        policies(
            "a policy twice, an empty list of qualifiers",
            sequence(&[policy(P), policy_and(P, &hex("30 00"))]),
            5,
        ),
        policies(
            "an empty list of qualifiers, then a policy twice",
            sequence(&[policy(P), policy_and(Q, &hex("30 00")), policy(P)]),
            13,
        ),
        mappings("a subject of 33 octets", sequence(&[pair(P, &long)]), 15),
        mappings("an issuer of 33 octets, no subject", sequence(&[policy(&long)]), 15),
        mappings("an issuer, no subject", sequence(&[policy(P)]), 13),
        mappings("three in a pair", sequence(&[sequence(&vec![identifier(P); 3])]), 13),
        mappings(
            "three in a pair, the second of 33 octets",
            sequence(&[sequence(&[P, &long, P].map(identifier))]),
            15,
        ),
    ]
}

/// Pairs that repeat: 11 at the second subject, after 13, 15 and 14, and before
/// what comes later.
fn pair_rows() -> Vec<Row> {
    let [one, other] = [pair(P, Q), pair(Q, P)];
    let twice = |issuer: &[u8], subject: &[u8]| sequence(&vec![pair(issuer, subject); 2]);
    let again = |more: Vec<Vec<u8>>| sequence(&[vec![one.clone()], more].concat());
    let longer = |after: &[u8]| sequence(&[identifier(P), identifier(Q), after.to_vec()]);
    let new = pair(R, &[0x2A]);
    vec![
        mappings("a pair twice", again(vec![one.clone()]), 11),
        mappings("a pair twice, the last", again(vec![other.clone(), one.clone()]), 11),
        mappings("a pair twice, not the first", again(vec![other.clone(), other.clone()]), 11),
        mappings("a pair twice, the last that there may be", last_of_full_pairs(), 11),
        mappings("a new pair twice", sequence(&[new.clone(), other.clone(), new]), 11),
        mappings("a pair of one policy, twice", twice(P, P), 11),
        mappings("a pair twice, issuer anyPolicy", twice(&ANY_POLICY, P), 11),
        mappings("a pair twice, subject anyPolicy", twice(P, &ANY_POLICY), 11),
        mappings("anyPolicy to itself, twice", twice(&ANY_POLICY, &ANY_POLICY), 11),
        mappings("a pair twice, but for its subject's tag", again(vec![constructed_subject()]), 13),
        mappings("a pair twice, but for a subject of no octets", again(vec![pair(P, &[])]), 13),
        mappings(
            "a pair twice, but for its subject's length",
            again(vec![subject_that_overruns()]),
            13,
        ),
        mappings("a pair twice, but for its second subject", again(vec![policy(P)]), 13),
        mappings(
            "a pair twice, but for a long subject",
            again(vec![pair(P, &long_identifier(33))]),
            15,
        ),
        mappings("a pair twice, and octets after its subject", again(vec![longer(&[5, 0])]), 11),
        mappings("a pair twice, and an octet after its subject", again(vec![longer(&[0])]), 11),
        mappings(
            "octets after a subject, then the pair",
            sequence(&[longer(&[5, 0]), one.clone()]),
            13,
        ),
        mappings("a pair twice, then 13", again(vec![one.clone(), hex("05 00")]), 11),
        mappings("13, then a pair twice", again(vec![hex("05 00"), one.clone()]), 13),
        mappings(
            "a pair twice, then 15",
            again(vec![one.clone(), pair(&long_identifier(33), P)]),
            11,
        ),
        mappings(
            "15, then a pair twice",
            again(vec![pair(&long_identifier(33), P), one.clone()]),
            15,
        ),
        mappings("a pair twice, then octets", and(again(vec![one.clone()]), &[0]), 11),
    ]
}

/// As many pairs as there may be, of which the last is the first.
fn last_of_full_pairs() -> Vec<u8> {
    let pairs = (0..MAX_LIST as u8 - 1).chain([0]).map(|last| pair(&[0x2B, last], Q));
    sequence(&pairs.collect::<Vec<_>>())
}

/// P and Q as a pair, but that the subject is constructed.
fn constructed_subject() -> Vec<u8> {
    sequence(&[identifier(P), value(0x26, Q)])
}

/// P and Q as a pair, but that the subject says an octet more than it has.
fn subject_that_overruns() -> Vec<u8> {
    let subject = [&[OBJECT_IDENTIFIER, Q.len() as u8 + 1], Q].concat();
    sequence(&[identifier(P), subject])
}

/// Registers with one place left and with none.
fn full_rows() -> Vec<Row> {
    let unknown = sequence(&[policy(P), policy(R)]);
    let one_more = sequence(&[pair(R, P), pair(P, &[0x2A])]);
    let known = [pair(P, Q), pair(&ANY_POLICY, P)];
    let [one, new] = [pair(P, Q), pair(P, R)];
    let repeated = sequence(&[policy(P), policy(P), policy(R)]);
    let full = |name, policies: &[u8], mappings: &[u8], number| {
        refused(
            name,
            [policies.to_vec(), mappings.to_vec(), vec![], vec![]],
            Standing::Full,
            number,
        )
    };
    vec![
        full("a new policy, 512 stand", &unknown, &[], 14),
        full("14, then octets after", &and(unknown.clone(), &[0]), &[], 14),
        full("14, then mappings that are none", &unknown, &[0], 14),
        full("13 in the element before", &sequence(&[hex("30 00"), policy(R)]), &[], 13),
        full("33 octets, 512 stand", &sequence(&[policy(&long_identifier(33))]), &[], 15),
        full("5, then a new policy, 512 stand", &repeated, &[], 5),
        full(
            "known pairs, then a new issuer",
            &[],
            &sequence(&[&known[..], &[pair(R, P)]].concat()),
            14,
        ),
        full(
            "known pairs, then a new subject",
            &[],
            &sequence(&[&known[..], &[pair(P, R)]].concat()),
            14,
        ),
        full("one policy more, that is new", &full_known_and_new(), &[], 3),
        full("a pair twice, 512 stand", &[], &sequence(&[one.clone(), one.clone()]), 11),
        full(
            "11, then a new subject, 512 stand",
            &[],
            &sequence(&[one.clone(), one.clone(), new.clone()]),
            11,
        ),
        full(
            "a new subject, then a pair twice, 512 stand",
            &[],
            &sequence(&[one.clone(), new, one]),
            14,
        ),
        refused(
            "a new policy, then another as a subject, 511 stand",
            [unknown, one_more, vec![], vec![]],
            Standing::OneLeft,
            14,
        ),
    ]
}

/// As many policies of a full register as there may be, and one that it lacks.
fn full_known_and_new() -> Vec<u8> {
    let known = (0..MAX_LIST).map(|place| policy(&other(place)));
    sequence(&known.chain([policy(R)]).collect::<Vec<_>>())
}

/// Headers, and octets after values.
fn header_rows() -> Vec<Row> {
    let long = identifier(&long_identifier(33));
    let whole = sequence(&[policy(P)]);
    let text_127 = "16 81 7F".to_string() + &" 61".repeat(127);
    vec![
        policies("a tag alone", hex("30"), 13),
        policies("another tag", hex("31 07 30 05 06 03 2A 03 04"), 13),
        policies("the tag of another class", hex("B0 07 30 05 06 03 2A 03 04"), 13),
        policies("a length not minimal", hex("30 81 07 30 05 06 03 2A 03 04"), 13),
        policies("a length of 128 in one octet", list_of_128_octets(&[0x80]), 13),
        policies("a length of 128 after a zero", list_of_128_octets(&[0x82, 0, 0x80]), 13),
        policies(
            "a length of 2^64 + 128",
            list_of_128_octets(&hex("89 01 00 00 00 00 00 00 00 80")),
            13,
        ),
        policies("a length of 127 in two octets", qualified(&[identifier(P), hex(&text_127)]), 13),
        policies("a length that is indefinite", hex("30 80 30 05 06 03 2A 03 04 00 00"), 13),
        policies(
            "a length of 2^64 + 7",
            hex("30 89 01 00 00 00 00 00 00 00 07 30 05 06 03 2A 03 04"),
            13,
        ),
        policies(
            "a length of 2^64 - 1",
            hex("30 88 FF FF FF FF FF FF FF FF 30 05 06 03 2A 03 04"),
            13,
        ),
        policies("a length that overruns the value", hex("30 08 30 05 06 03 2A 03 04"), 13),
        // The octet that is lacking follows the list, and then the element.
        policies("an element that overruns the list", hex("30 07 30 06 06 04 2A 03 04 05"), 13),
        policies(
            "an identifier that overruns its element",
            hex("30 0E 30 05 06 04 2A 03 04 30 05 06 03 2A 03 05"),
            13,
        ),
        policies("an element that overruns before 33 octets", overrun_before(&long), 13),
        policies("octets after", and(whole.clone(), &[0]), 13),
        policies("a second value after", [&whole[..], &whole].concat(), 13),
        policies("an element of no octets", hex("30 02 30 00"), 13),
        policies("an element that is an identifier", hex("30 05 06 03 2A 03 04"), 13),
        policies("a constructed identifier", hex("30 07 30 05 26 03 2A 03 04"), 13),
        mappings("octets after a pair", sequence(&[and(pair(P, Q), &[5, 0])]), 13),
        mappings("octets after the pairs", and(sequence(&[pair(P, Q)]), &[5, 0]), 13),
    ]
}

/// A list of one policy, its content of 128 octets after this length.
fn list_of_128_octets(length: &[u8]) -> Vec<u8> {
    let element = "30 7E 06 03 2A 03 04 30 77 30 75 06 08 2B 06 01 05 05 07 02 01 16 69";
    [&[SEQUENCE], length, &hex(element), &[b'a'; 105]].concat()
}

/// A list whose only element says an octet more than the list has.
fn overrun_before(identifier: &[u8]) -> Vec<u8> {
    let element = [&[SEQUENCE, identifier.len() as u8 + 1][..], identifier].concat();
    and(value(SEQUENCE, &element), &[0])
}

/// Qualifiers at fault.
fn qualifier_rows() -> Vec<Row> {
    let cps = || identifier(&[0x2B, 0x06, 0x01, 0x05, 0x05, 0x07, 0x02, 0x01]);
    let with = |value: &str| qualified(&[cps(), hex(value)]);
    vec![
        policies("an empty list of qualifiers", sequence(&[policy_and(P, &hex("30 00"))]), 13),
        policies("qualifiers that are no SEQUENCE", sequence(&[policy_and(P, &hex("31 00"))]), 13),
        policies("a qualifier of nothing", qualified(&[]), 13),
        policies("a qualifier without a value", qualified(&[cps()]), 13),
        policies("a qualifier without an identifier", qualified(&[hex("05 00")]), 13),
        policies("two values", with("05 00 05 00"), 13),
        policies("an octet after the value", with("05 00 00"), 13),
        policies("a value that overruns", with("16 01"), 13),
        policies("a value whose length is indefinite", with("30 80 00 00"), 13),
        policies("a value whose length is not minimal", with("16 81 01 61"), 13),
        policies("a tag number below 31 in an octet of its own", with("1F 1E 00"), 13),
        policies("a tag number that starts with 80", with("1F 80 1F 00"), 13),
        policies("a tag number without its end", with("1F 81 80"), 13),
        policies("a tag without its number", with("1F"), 13),
        policies(
            "an identifier at fault",
            qualified(&[identifier(&[0x2A, 0x80, 1]), hex("05 00")]),
            13,
        ),
        policies(
            "octets after the qualifiers",
            sequence(&[policy_and(
                P,
                &and(sequence(&[sequence(&[cps(), hex("05 00")])]), &[5, 0]),
            )]),
            13,
        ),
    ]
}

/// Constraints and inhibitAnyPolicy at fault.
fn integer_rows() -> Vec<Row> {
    vec![
        constraints("[1] before [0]", &hex("81 01 00 80 01 00")),
        constraints("[0] twice", &hex("80 01 00 80 01 00")),
        constraints("[1] twice", &hex("81 01 00 81 01 00")),
        constraints("[2]", &hex("82 01 00")),
        constraints("[2] after both", &hex("80 01 00 81 01 00 82 01 00")),
        constraints("an INTEGER", &hex("02 01 00")),
        constraints("a constructed [0]", &hex("A0 03 02 01 00")),
        constraints("[0] of no octets", &hex("80 00")),
        constraints("[0] negative", &hex("80 01 80")),
        constraints("[1] not minimal", &hex("81 02 00 7F")),
        constraints("[0] that overruns", &hex("80 02 00")),
        refused(
            "octets after the constraints",
            [vec![], vec![], hex("30 00 00"), vec![]],
            Standing::Two,
            13,
        ),
        inhibit_any("no octets", &hex("02 00")),
        inhibit_any("-1", &hex("02 01 FF")),
        inhibit_any("-128", &hex("02 01 80")),
        inhibit_any("-1 in many octets", &value(INTEGER, &[0xFF; 12])),
        inhibit_any("0 not minimal", &hex("02 02 00 00")),
        inhibit_any("127 not minimal", &hex("02 02 00 7F")),
        inhibit_any("another tag", &hex("0A 01 00")),
        inhibit_any("octets after the integer", &hex("02 01 00 00")),
        inhibit_any("an integer that overruns", &hex("02 02 01")),
    ]
}

/// A fault of a value before those of the later ones.
fn later_rows() -> Vec<Row> {
    let fault = || hex("05 00");
    let long = sequence(&[policy(&long_identifier(33))]);
    let repeated = sequence(&[policy(R), policy(R)]);
    let too_many = full_pairs_and(&pair(P, Q));
    let pair_twice = sequence(&vec![pair(R, P); 2]);
    let new = sequence(&[policy(R)]);
    let none = || hex("30 00");
    let refused = |name, values, number| refused(name, values, Standing::Two, number);
    vec![
        refused("15, then 13", [long.clone(), fault(), fault(), fault()], 15),
        refused("5, then 3", [repeated.clone(), none(), vec![], vec![]], 5),
        refused("5, then 11", [repeated.clone(), pair_twice.clone(), vec![], vec![]], 5),
        refused("3, then 11", [none(), pair_twice.clone(), vec![], vec![]], 3),
        refused("13, then 11", [fault(), pair_twice.clone(), vec![], vec![]], 13),
        refused("3, then 5", [none(), repeated, fault(), vec![]], 3),
        refused("3 of the pairs, then 13", [new.clone(), too_many, fault(), fault()], 3),
        refused("11, then 13", [new.clone(), pair_twice.clone(), fault(), fault()], 11),
        refused("11, then 13 at the very end", [vec![], pair_twice.clone(), vec![], fault()], 11),
        refused("13, then 15", [fault(), long, vec![], vec![]], 13),
        refused(
            "a new policy, then 13 of the constraints",
            [new.clone(), vec![], fault(), vec![]],
            13,
        ),
        refused(
            "a new policy, then 13 at the very end",
            [new, vec![], none(), hex("02 01 00 00")],
            13,
        ),
    ]
}

#[cfg(test)]
mod tests {
    use super::*;
    use crate::extensions::{read_into, PLACES};
    use crate::register;

    /// What the reader answers, and what it leaves.
    fn outcome(row: &Row) -> ((u8, usize), [u16; PLACES], Vec<u8>) {
        let input = row.input();
        let (mut register, mut certificate) = (input.register.clone(), [7; PLACES]);
        let answer = read_into(input.extensions(), &mut register, &mut certificate);
        (answer, certificate, register)
    }

    #[test]
    fn rows_that_are_read() {
        for row in read_rows() {
            let (answer, certificate, register) = outcome(&row);
            assert_eq!(answer, (0, row.certificate.len()), "{}", row.name);
            let (taken, rest) = certificate.split_at(row.certificate.len());
            assert_eq!(taken, row.certificate, "{}", row.name);
            assert!(rest.iter().all(|&place| place == 0), "{}", row.name);
            assert!(register == register::of(&row.entered())[..], "{}", row.name);
        }
    }

    #[test]
    fn rows_that_are_refused() {
        for row in refused_rows() {
            let (answer, certificate, register) = outcome(&row);
            assert_eq!(answer, (row.number, 0), "{}", row.name);
            assert_eq!(certificate, [0; PLACES], "{}", row.name);
            assert!(register == row.input().register, "{}", row.name);
        }
    }
}
