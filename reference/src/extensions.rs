//! The extensions of a certificate that speak of policies (RFC 5280 4.2.1.4,
//! 4.2.1.5, 4.2.1.11 and 4.2.1.14), read into the certificate's numbers as they
//! stand in a record. Paper 02, request One, and include/judge.h are quoted.

use crate::der::{self, Reader, NOT_DER};
use crate::path::{ANY, MAX_LIST};
use crate::record::{skip_number, CERTIFICATE_HEAD};
use crate::register::{self, Register, ANY_POLICY, BAD_REGISTER};
use crate::sheet::{self, REPEATED_PAIR, REPEATED_POLICY, TOO_SHORT, WRONG_COUNT};

/// "14 exactly when a new identifier is needed and 512 stand"
pub const REGISTER_FULL: u8 = 14;
/// "15 for an identifier above 32 octets"
pub const LONG_IDENTIFIER: u8 = 15;

/// The numbers that the reader answers.
pub const ANSWERS: [u8; 9] = [
    0,
    WRONG_COUNT,
    REPEATED_POLICY,
    TOO_SHORT,
    REPEATED_PAIR,
    NOT_DER,
    REGISTER_FULL,
    LONG_IDENTIFIER,
    BAD_REGISTER,
];

/// The places "of the longest certificate" in a record.
pub const PLACES: usize = CERTIFICATE_HEAD + 3 * MAX_LIST;

/// "the values of certificatePolicies, policyMappings, policyConstraints and
/// inhibitAnyPolicy", of which an empty one is absent, and the flag.
#[derive(Clone, Copy, Default)]
pub struct Extensions<'v> {
    pub policies: &'v [u8],
    pub mappings: &'v [u8],
    pub constraints: &'v [u8],
    pub inhibit_any: &'v [u8],
    pub self_issued: u8,
}

/// Reads a certificate's extensions: 7 first, then 20, then the first fault of
/// the values. Returns the number and the places that the certificate takes, 0
/// on refusal. "After any refusal the register is unchanged and the certificate
/// cleared"; after 7 nothing is written.
pub fn read_into(
    extensions: Extensions,
    register: &mut [u8],
    certificate: &mut [u16],
) -> (u8, usize) {
    let (Some(register), Some(certificate)) =
        (register.first_chunk_mut(), certificate.first_chunk_mut::<PLACES>())
    else {
        return (TOO_SHORT, 0);
    };
    certificate.fill(0);
    match read(extensions, register) {
        Ok(read) => (0, read.write(certificate)),
        Err(number) => (number, 0),
    }
}

/// Reads the values "in the order named", and enters the new identifiers.
fn read(extensions: Extensions, register: &mut [u8; register::BYTES]) -> Result<Certificate, u8> {
    let mut register = Register::open(register)?;
    let mut numbering = Numbering { register: &register, new: Vec::new() };
    let policies = read_policies(extensions.policies, &mut numbering)?;
    let pairs = read_mappings(extensions.mappings, &mut numbering)?;
    let (explicit, mapping) = read_constraints(extensions.constraints)?;
    let inhibit_any = read_inhibit_any(extensions.inhibit_any)?;
    for identifier in numbering.new {
        register.enter(identifier);
    }
    Ok(Certificate {
        self_issued: extensions.self_issued != 0,
        policies,
        pairs,
        skips: [explicit, mapping, inhibit_any],
    })
}

/// Up to `MAX_LIST` policies or pairs.
#[derive(Default)]
struct List<T> {
    places: [T; MAX_LIST],
    count: usize,
}

impl<T> List<T> {
    fn elements(&self) -> &[T] {
        &self.places[..self.count]
    }

    fn is_full(&self) -> bool {
        self.count == MAX_LIST
    }

    /// Adds an element to a list that is not full.
    fn push(&mut self, element: T) {
        self.places[self.count] = element;
        self.count += 1;
    }
}

/// What the values say, and the flag.
struct Certificate {
    self_issued: bool,
    policies: List<u16>,
    pairs: List<(u16, u16)>,
    skips: [Option<u8>; 3],
}

impl Certificate {
    /// Writes the certificate "as it stands in a record" over zeros, and
    /// returns the places that it takes.
    fn write(&self, places: &mut [u16; PLACES]) -> usize {
        let (policies, pairs) = (self.policies.elements(), self.pairs.elements());
        let [listed, mapped] = [policies.len(), pairs.len()].map(|count| count as u16);
        let [explicit, mapping, any] = self.skips.map(skip_number);
        let head = [u16::from(self.self_issued), listed, mapped, explicit, mapping, any];
        let issuers = pairs.iter().map(|&(issuer, _)| issuer);
        let subjects = pairs.iter().map(|&(_, subject)| subject);
        let lists = policies.iter().copied().chain(issuers).chain(subjects);
        for (place, number) in places.iter_mut().zip(head.into_iter().chain(lists)) {
            *place = number;
        }
        head.len() + policies.len() + 2 * pairs.len()
    }
}

/// The numbers of identifiers: those of the register, and after them the
/// identifiers that are new in this call.
struct Numbering<'r, 'v> {
    register: &'r Register<'r>,
    new: Vec<&'v [u8]>,
}

impl<'v> Numbering<'_, 'v> {
    /// The number of an identifier: 15, then 14.
    fn number(&mut self, identifier: &'v [u8]) -> Result<u16, u8> {
        if identifier.len() > register::LONGEST {
            return Err(LONG_IDENTIFIER);
        }
        if identifier == ANY_POLICY {
            return Ok(ANY);
        }
        if let Some(number) = self.register.find(identifier) {
            return Ok(number);
        }
        let count = self.register.count();
        if let Some(place) = self.new.iter().position(|&new| new == identifier) {
            return Ok(register::number(count + place));
        }
        let position = count + self.new.len();
        if position == register::MOST {
            return Err(REGISTER_FULL);
        }
        self.new.push(identifier);
        Ok(register::number(position))
    }
}

/// The elements of a value that is a list: "An empty list of policies or pairs
/// is 3, at its header".
fn elements<'v>(value: &mut Reader<'v>) -> Result<Reader<'v>, u8> {
    let elements = Reader::new(value.value(der::SEQUENCE)?);
    if elements.is_empty() {
        return Err(WRONG_COUNT);
    }
    Ok(elements)
}

/// certificatePolicies. At one identifier 13, then 3 for a policy or pair above
/// the limit, then 15, 14, 5.
fn read_policies<'v>(value: &'v [u8], numbering: &mut Numbering<'_, 'v>) -> Result<List<u16>, u8> {
    let mut policies = List::default();
    let mut value = Reader::new(value);
    if value.is_empty() {
        return Ok(policies);
    }
    let mut elements = elements(&mut value)?;
    while !elements.is_empty() {
        let mut information = Reader::new(elements.value(der::SEQUENCE)?);
        let identifier = information.identifier()?;
        if policies.is_full() {
            return Err(WRONG_COUNT);
        }
        let policy = numbering.number(identifier)?;
        if policies.elements().contains(&policy) {
            return Err(REPEATED_POLICY);
        }
        policies.push(policy);
        if !information.is_empty() {
            check_qualifiers(information.value(der::SEQUENCE)?)?;
        }
        information.end()?;
    }
    value.end()?;
    Ok(policies)
}

/// "Qualifiers, one or more, are checked as PolicyQualifierInfo, with any
/// identifier of any length, the inner value by tag and length only, and
/// dropped."
fn check_qualifiers(qualifiers: &[u8]) -> Result<(), u8> {
    let mut qualifiers = Reader::new(qualifiers);
    if qualifiers.is_empty() {
        return Err(NOT_DER);
    }
    while !qualifiers.is_empty() {
        let mut qualifier = Reader::new(qualifiers.value(der::SEQUENCE)?);
        qualifier.identifier()?;
        qualifier.any_value()?;
        qualifier.end()?;
    }
    Ok(())
}

/// policyMappings. A pair too many is 3 at its issuer; "11 where a pair repeats,
/// at its second subject. Of one identifier 13 comes first, then 3, 15, 14, and
/// then 5 or 11."
fn read_mappings<'v>(
    value: &'v [u8],
    numbering: &mut Numbering<'_, 'v>,
) -> Result<List<(u16, u16)>, u8> {
    let mut pairs = List::default();
    let mut value = Reader::new(value);
    if value.is_empty() {
        return Ok(pairs);
    }
    let mut elements = elements(&mut value)?;
    while !elements.is_empty() {
        let mut mapping = Reader::new(elements.value(der::SEQUENCE)?);
        let issuer = mapping.identifier()?;
        if pairs.is_full() {
            return Err(WRONG_COUNT);
        }
        let issuer = numbering.number(issuer)?;
        let subject = numbering.number(mapping.identifier()?)?;
        sheet::pair_fault(pairs.elements(), (issuer, subject))?;
        pairs.push((issuer, subject));
        mapping.end()?;
    }
    value.end()?;
    Ok(pairs)
}

/// policyConstraints: requireExplicitPolicy, then inhibitPolicyMapping. "An
/// empty policyConstraints means both absent."
fn read_constraints(value: &[u8]) -> Result<(Option<u8>, Option<u8>), u8> {
    let mut value = Reader::new(value);
    if value.is_empty() {
        return Ok((None, None));
    }
    let mut fields = Reader::new(value.value(der::SEQUENCE)?);
    let explicit = optional_skip(&mut fields, der::CONTEXT_0)?;
    let mapping = optional_skip(&mut fields, der::CONTEXT_1)?;
    fields.end()?;
    value.end()?;
    Ok((explicit, mapping))
}

/// The skip value that comes next, if it has this tag.
fn optional_skip(fields: &mut Reader, tag: u8) -> Result<Option<u8>, u8> {
    if !fields.has_next(tag) {
        return Ok(None);
    }
    Ok(Some(der::skip_value(fields.value(tag)?)?))
}

/// inhibitAnyPolicy.
fn read_inhibit_any(value: &[u8]) -> Result<Option<u8>, u8> {
    let mut value = Reader::new(value);
    if value.is_empty() {
        return Ok(None);
    }
    let skip = der::skip_value(value.value(der::INTEGER)?)?;
    value.end()?;
    Ok(Some(skip))
}

#[cfg(test)]
mod tests {
    use super::*;
    use crate::known_extensions::{P, Q};
    use crate::register::BYTES;
    use crate::repeats::{self, Likeness};
    use crate::tlv::Tlv;

    /// One policy, P.
    const ONE: &[u8] = &[0x30, 7, 0x30, 5, 6, 3, 0x2A, 3, 4];

    /// The places of a certificate with one policy.
    fn one_policy(self_issued: u16, policy: u16) -> [u16; PLACES] {
        let mut places = [0; PLACES];
        places[..7].copy_from_slice(&[self_issued, 1, 0, 0, 0, 0, policy]);
        places
    }

    #[test]
    fn short_slices_are_7_first() {
        let extensions = Extensions { policies: &[0], ..Extensions::default() };
        let (mut bytes, mut places) = (vec![0xEE; BYTES], [7; PLACES]);
        assert_eq!(read_into(extensions, &mut bytes[1..], &mut places), (7, 0));
        assert_eq!(read_into(extensions, &mut bytes, &mut places[1..]), (7, 0));
        assert_eq!(read_into(extensions, &mut [], &mut []), (7, 0));
        assert!(bytes.iter().all(|&byte| byte == 0xEE) && places == [7; PLACES]);
    }

    #[test]
    fn a_bad_register_is_20_before_the_values() {
        for policies in [&[][..], &[0], ONE] {
            let extensions = Extensions { policies, self_issued: 1, ..Extensions::default() };
            let (mut bytes, mut places) = (vec![0xEE; BYTES], [7; PLACES]);
            assert_eq!(read_into(extensions, &mut bytes, &mut places), (20, 0));
            assert!(bytes.iter().all(|&byte| byte == 0xEE) && places == [0; PLACES]);
        }
    }

    #[test]
    fn what_is_beyond_stays() {
        let (mut bytes, mut places) = (register::of(&[Q]).to_vec(), vec![7; PLACES + 2]);
        bytes.extend([0xEE; 3]);
        let extensions = Extensions { policies: ONE, self_issued: 2, ..Extensions::default() };
        assert_eq!(read_into(extensions, &mut bytes, &mut places), (0, 7));
        assert_eq!(places[..PLACES], one_policy(1, 3));
        assert_eq!((&places[PLACES..], &bytes[BYTES..]), (&[7, 7][..], &[0xEE; 3][..]));
        assert!(bytes[..BYTES] == register::of(&[Q, P])[..]);
        let extensions = Extensions { policies: &ONE[1..], self_issued: 2, ..extensions };
        assert_eq!(read_into(extensions, &mut bytes, &mut places), (13, 0));
        assert_eq!((&places[..PLACES], &places[PLACES..]), (&[0; PLACES][..], &[7, 7][..]));
        assert!(bytes[..BYTES] == register::of(&[Q, P])[..]);
    }

    #[test]
    fn calls_fill_a_register() {
        let mut bytes = vec![0; BYTES];
        for policy in 2..register::number(register::MOST) {
            let last = [policy / 128, policy % 128].map(|octet| octet as u8);
            let policies = [&[0x30, 8, 0x30, 6, 6, 4, 0x2B, 5], &last[..]].concat();
            let extensions = Extensions { policies: &policies, ..Extensions::default() };
            for _ in 0..2 {
                let mut places = [7; PLACES];
                assert_eq!(read_into(extensions, &mut bytes, &mut places), (0, 7));
                assert_eq!(places, one_policy(0, policy));
            }
        }
        assert_eq!(bytes[..2], [2, 0]);
        let extensions = Extensions { policies: ONE, ..Extensions::default() };
        let (before, mut places) = (bytes.clone(), [7; PLACES]);
        assert_eq!(read_into(extensions, &mut bytes, &mut places), (14, 0));
        assert!(bytes == before && places == [0; PLACES]);
    }

    #[test]
    fn every_two_pairs_of_a_full_list() {
        for alike in repeats::in_full_lists() {
            let [_, mappings, ..] = alike.draft().encode();
            let extensions = Extensions { mappings: &mappings, ..Extensions::default() };
            let (mut bytes, mut places) = (vec![0; BYTES], [7; PLACES]);
            let answer = read_into(extensions, &mut bytes, &mut places);
            if alike.likeness == Likeness::Same {
                assert_eq!(answer, (REPEATED_PAIR, 0), "{alike:?}");
                assert!(bytes.iter().all(|&byte| byte == 0) && places == [0; PLACES]);
            } else {
                assert_eq!(answer, (0, CERTIFICATE_HEAD + 2 * MAX_LIST), "{alike:?}");
            }
        }
    }

    #[test]
    fn the_longest_certificate() {
        const LIST: u16 = MAX_LIST as u16;
        let identifier = |kind, place| Tlv::identifier(&[0x2B, kind, place]);
        let policy = |place| Tlv::sequence(vec![identifier(1, place)]);
        let pair = |place| Tlv::sequence(vec![identifier(2, place), identifier(3, place)]);
        let extensions = Extensions {
            policies: &Tlv::sequence((0..LIST as u8).map(policy).collect()).encode(),
            mappings: &Tlv::sequence((0..LIST as u8).map(pair).collect()).encode(),
            constraints: &[0x30, 7, 0x80, 1, 9, 0x81, 2, 1, 0],
            inhibit_any: &[2, 1, 0],
            self_issued: 255,
        };
        let (mut bytes, mut places) = (vec![0; BYTES], [7; PLACES]);
        assert_eq!(read_into(extensions, &mut bytes, &mut places), (0, PLACES));
        let (head, lists) = places.split_at(CERTIFICATE_HEAD);
        assert_eq!(head, [1, LIST, LIST, 10, 256, 1]);
        let lists: Vec<&[u16]> = lists.chunks(MAX_LIST).collect();
        let numbers = |first, step| (first..).step_by(step).take(MAX_LIST);
        assert!(lists[0].iter().copied().eq(numbers(2, 1)));
        assert!(lists[1].iter().copied().eq(numbers(2 + LIST, 2)));
        assert!(lists[2].iter().copied().eq(numbers(3 + LIST, 2)));
        assert_eq!(bytes[..2], (3 * LIST).to_be_bytes());
    }
}
