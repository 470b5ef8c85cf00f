//! Decoded paths as records of numbers, for the proved program `path_check`,
//! and the line that it is expected to write for each. Unlike the records of
//! `record.rs` these have every place of a path, the unused ones too.

use crate::answer::{judge_path, Answer, PLACES};
use crate::path::{Certificate, Path, MAX_CERTIFICATES, MAX_LIST};
use crate::record::skip_number;
use crate::sheet::{self, LONGEST};

/// The places of a table and the bytes of a buffer, of which the first are
/// lent, and their old values.
pub const TABLE_PLACES: usize = PLACES + 8;
pub const BUFFER_BYTES: usize = LONGEST + 8;
const OLD_PLACE: u16 = 43_690;
const OLD_BYTE: u8 = 170;

/// The lengths of the tables and the buffer that are lent, at most their
/// places.
#[derive(Clone, Copy, Debug)]
pub struct Lengths {
    pub authority: usize,
    pub user: usize,
    pub buffer: usize,
}

/// Tables and a buffer that suffice, and no more.
pub const ENOUGH: Lengths = Lengths { authority: PLACES, user: PLACES, buffer: LONGEST };

/// A list's count, and its places: the policies, then what `unused` draws.
fn put_list(numbers: &mut Vec<u16>, list: &[u16], unused: &mut impl FnMut() -> u16) {
    let places = (0..MAX_LIST).map(|place| list.get(place).copied().unwrap_or_else(&mut *unused));
    numbers.extend(places);
}

/// The numbers of one place of a certificate.
fn put_certificate(
    numbers: &mut Vec<u16>,
    certificate: &Certificate,
    unused: &mut impl FnMut() -> u16,
) {
    let issuers: Vec<u16> = certificate.mappings.iter().map(|pair| pair.0).collect();
    let subjects: Vec<u16> = certificate.mappings.iter().map(|pair| pair.1).collect();
    numbers.push(u16::from(certificate.self_issued));
    numbers.push(certificate.policies.len() as u16);
    put_list(numbers, &certificate.policies, unused);
    numbers.push(certificate.mappings.len() as u16);
    put_list(numbers, &issuers, unused);
    put_list(numbers, &subjects, unused);
    numbers.push(skip_number(certificate.require_explicit_policy));
    numbers.push(skip_number(certificate.inhibit_policy_mapping));
    numbers.push(skip_number(certificate.inhibit_any_policy));
}

/// A record. A list longer than its places shows by its count alone, and every
/// unused place holds what `unused` draws, faults among them.
pub fn record(path: &Path, lengths: Lengths, unused: &mut impl FnMut() -> u16) -> Vec<u8> {
    let mut numbers: Vec<u16> =
        [lengths.authority, lengths.user, lengths.buffer].map(|length| length as u16).to_vec();
    numbers.push(u16::from(path.mapping_inhibit));
    numbers.push(u16::from(path.explicit_policy));
    numbers.push(u16::from(path.any_policy_inhibit));
    numbers.push(path.user.len() as u16);
    put_list(&mut numbers, &path.user, unused);
    numbers.push(path.certificates.len() as u16);
    for place in 0..MAX_CERTIFICATES {
        match path.certificates.get(place) {
            Some(certificate) => put_certificate(&mut numbers, certificate, unused),
            None => {
                let policies = vec![unused(); usize::from(unused()) % (2 * MAX_LIST)];
                let pairs = usize::from(unused()) % (2 * MAX_LIST);
                let mappings = vec![(unused(), unused()); pairs];
                let other = Certificate { policies, mappings, ..Certificate::default() };
                put_certificate(&mut numbers, &other, unused);
            }
        }
    }
    numbers.iter().flat_map(|number| number.to_be_bytes()).collect()
}

/// A digest of a table or buffer: another value at another place gives another
/// digest, but by chance.
fn digest<T: Copy + Into<u64>>(places: &[T]) -> u64 {
    places.iter().fold(0, |digest, &value| (digest * 31 + value.into() + 1) % 65_521)
}

/// The line expected for a record: what the judge and the writer answer, the
/// counters after the counts, and what they leave in the tables and in the buffer.
pub fn line(path: &Path, lengths: Lengths) -> String {
    let (mut authority, mut user) = ([OLD_PLACE; TABLE_PLACES], [OLD_PLACE; TABLE_PLACES]);
    let mut buffer = [OLD_BYTE; BUFFER_BYTES];
    let (a, u, b) = (lengths.authority, lengths.user, lengths.buffer);
    let Answer { number, place, counts, counters, .. } =
        judge_path(path, &mut authority[..a], &mut user[..u]);
    let (written, length) = sheet::write_into(path, &mut buffer[..b]);
    format!(
        "judge {number} {place} {} {} {} {} write {written} {length} {}\n",
        counts.map(|count| count.to_string()).join(" "),
        counters.map(|counter| counter.to_string()).join(" "),
        digest(&authority),
        digest(&user),
        digest(&buffer)
    )
}

/// A fault of a decoded path; those of a certificate name its place.
#[derive(Clone, Copy, Debug, PartialEq, Eq)]
pub enum Fault {
    NoCertificate,
    OneCertificateMore,
    OneUserMore,
    UserZero,
    OnePolicyMore(usize),
    PolicyZero(usize),
    PolicyRepeats(usize),
    OnePairMore(usize),
    IssuerZero(usize),
    SubjectZero(usize),
    PairRepeats(usize),
}

/// Every fault of a path of two certificates.
pub fn faults() -> Vec<Fault> {
    use Fault::*;
    let mut faults = vec![NoCertificate, OneCertificateMore, OneUserMore, UserZero];
    for place in 0..2 {
        faults.extend([OnePolicyMore(place), PolicyZero(place), PolicyRepeats(place)]);
        faults.extend([OnePairMore(place), IssuerZero(place), SubjectZero(place)]);
        faults.push(PairRepeats(place));
    }
    faults
}

/// A path of two certificates that has the given faults, in each list in the
/// order in which they are given.
pub fn with_faults(faults: &[Fault]) -> Path {
    let certificate =
        Certificate { policies: vec![5, 6], mappings: vec![(5, 6)], ..Certificate::default() };
    let mut certificates = vec![certificate; 2];
    let mut user = vec![5];
    let mut count = 2;
    for &fault in faults {
        match fault {
            Fault::NoCertificate => count = 0,
            Fault::OneCertificateMore => count = MAX_CERTIFICATES + 1,
            Fault::OneUserMore => user.resize(MAX_LIST + 1, 7),
            Fault::UserZero => user.push(0),
            Fault::OnePolicyMore(place) => {
                let policies = &mut certificates[place].policies;
                policies.extend((policies.len()..=MAX_LIST).map(|number| 100 + number as u16));
            }
            Fault::PolicyZero(place) => certificates[place].policies.push(0),
            Fault::PolicyRepeats(place) => certificates[place].policies.push(5),
            Fault::OnePairMore(place) => {
                let mappings = &mut certificates[place].mappings;
                mappings.extend((mappings.len()..=MAX_LIST).map(|number| (7, 100 + number as u16)));
            }
            Fault::IssuerZero(place) => certificates[place].mappings.push((0, 6)),
            Fault::SubjectZero(place) => certificates[place].mappings.push((5, 0)),
            Fault::PairRepeats(place) => certificates[place].mappings.push((5, 6)),
        }
    }
    certificates.resize(count, Certificate::default());
    Path { user, certificates, ..Path::default() }
}

#[cfg(test)]
mod tests {
    use super::*;
    use crate::known::{self, E_SHEET};

    fn refused(faults: &[Fault]) -> u8 {
        sheet::refusal(&with_faults(faults)).expect_err("a fault")
    }

    #[test]
    fn each_fault_alone() {
        let numbers: Vec<u8> = faults().into_iter().map(|fault| refused(&[fault])).collect();
        assert_eq!(numbers, [3, 3, 3, 4, 3, 4, 5, 3, 4, 4, 11, 3, 4, 5, 3, 4, 4, 11]);
        assert_eq!(sheet::refusal(&with_faults(&[])), Ok(()));
    }

    #[test]
    fn one_more_is_one_above_the_limit() {
        use Fault::*;
        let path =
            with_faults(&[OneCertificateMore, OneUserMore, OnePolicyMore(0), OnePairMore(1)]);
        assert_eq!(
            (path.certificates.len(), path.user.len()),
            (MAX_CERTIFICATES + 1, MAX_LIST + 1)
        );
        assert_eq!(path.certificates[0].policies.len(), MAX_LIST + 1);
        assert_eq!(path.certificates[1].mappings.len(), MAX_LIST + 1);
    }

    #[test]
    fn the_earlier_field_is_given() {
        use Fault::*;
        assert_eq!(refused(&[UserZero, NoCertificate]), 3);
        assert_eq!(refused(&[UserZero, OneUserMore]), 3);
        assert_eq!(refused(&[OnePolicyMore(0), UserZero]), 4);
        assert_eq!(refused(&[PolicyRepeats(0), OnePolicyMore(0)]), 3);
        assert_eq!(refused(&[OnePairMore(0), PolicyRepeats(0)]), 5);
        assert_eq!(refused(&[IssuerZero(0), PolicyRepeats(0)]), 5);
        assert_eq!(refused(&[SubjectZero(0), OnePairMore(0)]), 3);
        assert_eq!(refused(&[PolicyRepeats(1), SubjectZero(0)]), 4);
        assert_eq!(refused(&[PolicyZero(0), PolicyRepeats(0)]), 4);
        assert_eq!(refused(&[PolicyRepeats(0), PolicyZero(0)]), 5);
    }

    #[test]
    fn a_repeated_pair_is_given_at_its_second_subject() {
        use Fault::*;
        assert_eq!(refused(&[PairRepeats(0), NoCertificate]), 3);
        assert_eq!(refused(&[PairRepeats(0), OneUserMore]), 3);
        assert_eq!(refused(&[PairRepeats(0), UserZero]), 4);
        assert_eq!(refused(&[PairRepeats(0), PolicyZero(0)]), 4);
        assert_eq!(refused(&[PairRepeats(0), PolicyRepeats(0)]), 5);
        assert_eq!(refused(&[PairRepeats(0), OnePairMore(0)]), 3);
        assert_eq!(refused(&[IssuerZero(0), PairRepeats(0)]), 4);
        assert_eq!(refused(&[PairRepeats(0), IssuerZero(0)]), 11);
        assert_eq!(refused(&[SubjectZero(0), PairRepeats(0)]), 4);
        assert_eq!(refused(&[PairRepeats(0), SubjectZero(0)]), 11);
        for later in [OnePolicyMore, PolicyZero, PolicyRepeats, OnePairMore, IssuerZero] {
            assert_eq!(refused(&[later(1), PairRepeats(0)]), 11);
        }
        assert_eq!(refused(&[PairRepeats(1), SubjectZero(0)]), 4);
        assert_eq!(refused(&[PairRepeats(1), PairRepeats(0)]), 11);
    }

    /// The words of a line before the digests of the tables.
    fn first_words(path: &Path, lengths: Lengths) -> String {
        let line = line(path, lengths);
        let words: Vec<&str> = line.split_whitespace().collect();
        assert_eq!((words.len(), words[0], words[24]), (28, "judge", "write"));
        words[1..22].join(" ")
    }

    #[test]
    fn the_counters_stand_after_the_counts() {
        let e = sheet::read(&E_SHEET).unwrap();
        assert_eq!(first_words(&e, ENOUGH), "0 0 1 1 0 0 0 0 0 0 0 0 0 0 0 0 0 0 1 2 2");
        let short = Lengths { user: PLACES - 1, ..ENOUGH };
        assert_eq!(first_words(&e, short), format!("7 0{}", " 0".repeat(19)));
        let repeated = sheet::refusal(&with_faults(&[Fault::PairRepeats(1)]));
        assert_eq!(repeated, Err(11));
        let words = first_words(&with_faults(&[Fault::PairRepeats(1)]), ENOUGH);
        assert_eq!(words, format!("11 0{}", " 0".repeat(19)));
        for row in known::rows() {
            let words = first_words(&row.path, ENOUGH);
            let [explicit, mapping, any] = row.answer.counters;
            assert!(words.ends_with(&format!(" {explicit} {mapping} {any}")), "{}", row.name);
        }
    }

    #[test]
    fn a_record_has_every_place() {
        let certificate = 1 + (1 + MAX_LIST) + (1 + 2 * MAX_LIST) + 3;
        let numbers = 3 + 3 + (1 + MAX_LIST) + 1 + MAX_CERTIFICATES * certificate;
        for faults in [&[][..], &[Fault::OneCertificateMore], &[Fault::OnePolicyMore(1)]] {
            let record = record(&with_faults(faults), ENOUGH, &mut || 9);
            assert_eq!(record.len(), 2 * numbers);
        }
    }
}
