//! A path as a record: its numbers one after the other, with no unused places
//! between them. The layout is that of include/judge.h, whose words are quoted
//! here.

use crate::path::{pairs, Certificate, Path, MAX_CERTIFICATES, MAX_LIST};
use crate::sheet::{self, WRONG_COUNT};

/// The numbers of a record's head, before the user policies.
pub const HEAD: usize = 5;

/// The numbers of a certificate's head, before its lists.
pub const CERTIFICATE_HEAD: usize = 6;

/// "the places of the longest record"
pub const LONGEST: usize = HEAD + MAX_LIST + MAX_CERTIFICATES * (CERTIFICATE_HEAD + 3 * MAX_LIST);

/// The record of a path, "with flags of 0 and 1".
pub fn numbers(path: &Path) -> Vec<u16> {
    let mut numbers = vec![
        path.certificates.len() as u16,
        u16::from(path.mapping_inhibit),
        u16::from(path.explicit_policy),
        u16::from(path.any_policy_inhibit),
        path.user.len() as u16,
    ];
    numbers.extend(&path.user);
    for certificate in &path.certificates {
        numbers.extend([
            u16::from(certificate.self_issued),
            certificate.policies.len() as u16,
            certificate.mappings.len() as u16,
            skip_number(certificate.require_explicit_policy),
            skip_number(certificate.inhibit_policy_mapping),
            skip_number(certificate.inhibit_any_policy),
        ]);
        numbers.extend(&certificate.policies);
        numbers.extend(certificate.mappings.iter().map(|&(issuer, _)| issuer));
        numbers.extend(certificate.mappings.iter().map(|&(_, subject)| subject));
    }
    numbers
}

/// The places at which a path's certificates start in its record.
pub fn starts(path: &Path) -> Vec<usize> {
    let mut next = HEAD + path.user.len();
    let mut starts = Vec::new();
    for certificate in &path.certificates {
        starts.push(next);
        next += CERTIFICATE_HEAD + certificate.policies.len() + 2 * certificate.mappings.len();
    }
    starts
}

/// "0 if absent, else the value and 1"
pub fn skip_number(skip: Option<u8>) -> u16 {
    skip.map_or(0, |value| u16::from(value) + 1)
}

/// The skip value of a number: "a skip value above 255 counts as 255".
fn skip_of(number: u16) -> Option<u8> {
    number.checked_sub(1).map(|value| value.min(255) as u8)
}

/// The numbers of a record that are still to be read.
struct Reader<'a> {
    rest: &'a [u16],
}

impl<'a> Reader<'a> {
    /// The next numbers; 3 "where the record is too short for a head".
    fn head<const COUNT: usize>(&mut self) -> Result<[u16; COUNT], u8> {
        let (head, rest) = self.rest.split_first_chunk().ok_or(WRONG_COUNT)?;
        self.rest = rest;
        Ok(*head)
    }

    /// The next numbers, as many as a count says; 3 where the count is out of
    /// its limits or the record is too short for it.
    fn list(&mut self, count: u16) -> Result<&'a [u16], u8> {
        let count = usize::from(count);
        if count > MAX_LIST || count > self.rest.len() {
            return Err(WRONG_COUNT);
        }
        let (list, rest) = self.rest.split_at(count);
        self.rest = rest;
        Ok(list)
    }

    /// A certificate. The pairs' count is looked at after the policies, as in
    /// a sheet, and the record must have room for issuers and subjects before
    /// any of them is looked at.
    fn certificate(&mut self) -> Result<Certificate, u8> {
        let [self_issued, policies, count, explicit, mapping, any] = self.head()?;
        let policies = self.list(policies)?;
        sheet::policies_fault(policies)?;
        let issuers = self.list(count)?;
        let subjects = self.list(count)?;
        let mappings = pairs(issuers, subjects);
        sheet::pairs_fault(&mappings)?;
        Ok(Certificate {
            self_issued: self_issued != 0,
            policies: policies.to_vec(),
            mappings,
            require_explicit_policy: skip_of(explicit),
            inhibit_policy_mapping: skip_of(mapping),
            inhibit_any_policy: skip_of(any),
        })
    }
}

/// The path of a record, or its refusal: "3 where n or a count is out of its
/// limits or the record is too short for a head or for what a count says, 4
/// where a policy is 0, 5 where a policy repeats within one certificate's
/// policies, 11 where a pair repeats within one certificate's pairs, at its
/// second subject and after 4", in the sheet's field order. "Numbers after the
/// record never matter."
pub fn path_of(record: &[u16]) -> Result<Path, u8> {
    let mut reader = Reader { rest: record };
    let [n, mapping_inhibit, explicit_policy, any_policy_inhibit, users] = reader.head()?;
    if n == 0 || usize::from(n) > MAX_CERTIFICATES {
        return Err(WRONG_COUNT);
    }
    let user = reader.list(users)?;
    sheet::user_fault(user)?;
    Ok(Path {
        mapping_inhibit: mapping_inhibit != 0,
        explicit_policy: explicit_policy != 0,
        any_policy_inhibit: any_policy_inhibit != 0,
        user: user.to_vec(),
        certificates: (0..n).map(|_| reader.certificate()).collect::<Result<_, _>>()?,
    })
}

/// "Writes the sheet of a record's path": 7 first if the buffer does not hold
/// the longest sheet, then the record's refusals. Returns the number and the
/// sheet's length, 0 on refusal.
pub fn write_into(record: &[u16], buffer: &mut [u8]) -> (u8, usize) {
    sheet::fill(buffer, sheet::LONGEST, || path_of(record).map(|path| sheet::write(&path)))
}

/// "Reads a sheet into the record of its path": 7 first if there are fewer
/// places than the longest record has, then the sheet's refusals. Returns the
/// number and the places that the record takes, 0 on refusal.
pub fn read_into(sheet: &[u8], record: &mut [u16]) -> (u8, usize) {
    sheet::fill(record, LONGEST, || sheet::read(sheet).map(|path| numbers(&path)))
}

#[cfg(test)]
mod tests {
    use super::*;
    use crate::decoded::{faults, with_faults};
    use crate::known;
    use crate::random::{self, Full, Random};
    use crate::repeats::{self, Likeness};

    /// The limit of a list, and one more.
    const MOST: u16 = MAX_LIST as u16;
    const ONE_MORE: u16 = MOST + 1;

    /// One certificate's numbers after a head without user policies.
    fn with(certificate: &[u16]) -> Vec<u16> {
        [&[1, 0, 0, 0, 0], certificate].concat()
    }

    /// The record of case H with user 50, by hand.
    const H_50: [u16; 22] = [2, 0, 1, 0, 1, 50, 0, 1, 1, 0, 0, 0, 1, 50, 51, 0, 1, 0, 0, 0, 0, 51];

    #[test]
    fn h_has_the_record_of_the_header() {
        let rows = known::rows();
        let row = rows.iter().find(|row| row.name == "H user 50").unwrap();
        assert_eq!(numbers(&row.path), H_50);
        assert_eq!(path_of(&H_50), Ok(row.path.clone()));
    }

    #[test]
    fn known_paths_make_the_round_trip() {
        for row in known::rows() {
            assert_eq!(path_of(&numbers(&row.path)), Ok(row.path), "{}", row.name);
        }
    }

    #[test]
    fn the_certificates_of_h_start_after_the_head_and_after_each_other() {
        assert_eq!(starts(&path_of(&H_50).unwrap()), [6, 15]);
    }

    #[test]
    fn every_cut_is_too_short_and_what_follows_never_matters() {
        for length in 0..H_50.len() {
            assert_eq!(path_of(&H_50[..length]), Err(3), "{length}");
        }
        for more in [0, 1, 65_535] {
            let longer = [&H_50[..], &[more; LONGEST]].concat();
            assert_eq!(path_of(&longer), path_of(&H_50));
        }
    }

    #[test]
    fn any_flag_but_0_is_set() {
        for flag in [1, 2, 256, 65_535] {
            let record = [1, flag, flag, flag, 0, flag, 0, 0, 0, 0, 0];
            let path = path_of(&record).unwrap();
            assert!(path.mapping_inhibit && path.explicit_policy && path.any_policy_inhibit);
            assert!(path.certificates[0].self_issued);
            assert_eq!(numbers(&path), [1, 1, 1, 1, 0, 1, 0, 0, 0, 0, 0]);
        }
        for place in [1, 2, 3, 5] {
            let mut record = with(&[0; 6]);
            record[place] = 7;
            let mut expected = with(&[0; 6]);
            expected[place] = 1;
            assert_eq!(numbers(&path_of(&record).unwrap()), expected);
        }
    }

    #[test]
    fn skip_numbers() {
        for (number, value) in
            [(0, None), (1, Some(0)), (2, Some(1)), (256, Some(255)), (257, Some(255))]
        {
            assert_eq!(skip_of(number), value);
            assert_eq!(skip_number(value), number.min(256));
        }
        assert_eq!(skip_of(65_535), Some(255));
        let path = path_of(&with(&[0, 0, 0, 1, 257, 0])).unwrap();
        let certificate = &path.certificates[0];
        assert_eq!(certificate.require_explicit_policy, Some(0));
        assert_eq!(certificate.inhibit_policy_mapping, Some(255));
        assert_eq!(certificate.inhibit_any_policy, None);
    }

    #[test]
    fn counts_out_of_their_limits() {
        for n in [0, MAX_CERTIFICATES as u16 + 1, 65_535] {
            assert_eq!(path_of(&[&[n, 0, 0, 0, 0][..], &[0; LONGEST]].concat()), Err(3));
        }
        for count in [ONE_MORE, 2 * ONE_MORE, 65_535] {
            assert_eq!(path_of(&[&[1, 0, 0, 0, count][..], &[2; LONGEST]].concat()), Err(3));
            let policies: Vec<u16> = (2..).take(LONGEST).collect();
            let listed = [&[0, count, 0, 0, 0, 0][..], &policies].concat();
            assert_eq!(path_of(&with(&listed)), Err(3));
            let mapped = [&[0, 0, count, 0, 0, 0][..], &[2; LONGEST]].concat();
            assert_eq!(path_of(&with(&mapped)), Err(3));
        }
    }

    #[test]
    fn a_list_that_is_cut_is_3_before_its_own_faults() {
        assert_eq!(path_of(&[1, 0, 0, 0, 2, 0]), Err(3));
        assert_eq!(path_of(&[1, 0, 0, 0, 2, 0, 0]), Err(4));
        assert_eq!(path_of(&with(&[0, 3, 0, 0, 0, 0, 0, 0])), Err(3));
        assert_eq!(path_of(&with(&[0, 3, 0, 0, 0, 0, 5, 5])), Err(3));
        assert_eq!(path_of(&with(&[0, 3, 0, 0, 0, 0, 5, 5, 0])), Err(5));
        assert_eq!(path_of(&with(&[0, 3, 0, 0, 0, 0, 5, 0, 5])), Err(4));
        assert_eq!(path_of(&with(&[0, 0, 2, 0, 0, 0, 0, 7, 7])), Err(3));
        assert_eq!(path_of(&with(&[0, 0, 2, 0, 0, 0, 0, 7, 7, 7])), Err(4));
        assert_eq!(path_of(&with(&[0, 0, 3, 0, 0, 0, 5, 5, 5, 6, 6])), Err(3));
        assert_eq!(path_of(&with(&[0, 0, 3, 0, 0, 0, 5, 5, 5, 6, 6, 0])), Err(11));
        assert_eq!(path_of(&with(&[0, 0, 3, 0, 0, 0, 5, 5, 5, 6, 0, 6])), Err(4));
    }

    #[test]
    fn refused_rows_as_records() {
        for row in known::refused_rows() {
            assert_eq!(path_of(&numbers(&row.path)), Err(row.number), "{}", row.name);
        }
    }

    #[test]
    fn every_two_pairs_of_a_full_list() {
        for alike in repeats::in_full_lists() {
            let path = alike.path();
            let repeats = alike.likeness == Likeness::Same;
            let expected = if repeats { Err(11) } else { Ok(path.clone()) };
            assert_eq!(path_of(&numbers(&path)), expected, "{alike:?}");
        }
    }

    #[test]
    fn a_policy_at_fault_is_before_what_comes_later() {
        // The user policy, then no certificate.
        assert_eq!(path_of(&[1, 0, 0, 0, 1, 0]), Err(4));
        // The policies, then a pair count out of its limits, pairs that are
        // missing, and a second certificate that is missing.
        assert_eq!(path_of(&with(&[0, 1, ONE_MORE, 0, 0, 0, 0])), Err(4));
        assert_eq!(path_of(&with(&[0, 2, ONE_MORE, 0, 0, 0, 5, 5])), Err(5));
        assert_eq!(path_of(&with(&[0, 2, MOST, 0, 0, 0, 5, 5])), Err(5));
        assert_eq!(path_of(&with(&[0, 2, MOST, 0, 0, 0, 5, 6])), Err(3));
        let mut two = with(&[0, 0, 1, 0, 0, 0, 5, 0]);
        two[0] = 2;
        assert_eq!(path_of(&two), Err(4));
        let mut two = with(&[0, 0, 2, 0, 0, 0, 5, 5, 6, 6]);
        two[0] = 2;
        assert_eq!(path_of(&two), Err(11));
    }

    #[test]
    fn two_faults_are_refused_as_in_a_decoded_path() {
        for first in faults() {
            for second in faults() {
                let path = with_faults(&[first, second]);
                let expected = sheet::refusal(&path).map(|()| path.clone());
                assert_eq!(path_of(&numbers(&path)), expected, "{first:?} {second:?}");
            }
        }
    }

    #[test]
    fn the_longest_record() {
        let path = random::full(Full::Any, MAX_CERTIFICATES, &mut Random::new(1));
        let longest = numbers(&path);
        assert_eq!(longest.len(), LONGEST);
        assert_eq!(path_of(&longest), Ok(path.clone()));

        let mut record = [7; LONGEST + 1];
        let sheet = sheet::write(&path);
        assert_eq!(read_into(&sheet, &mut record), (0, LONGEST));
        assert_eq!((&record[..LONGEST], record[LONGEST]), (&longest[..], 7));
        let mut buffer = [7; sheet::LONGEST + 1];
        assert_eq!(write_into(&record, &mut buffer), (0, sheet::LONGEST));
        assert_eq!((&buffer[..sheet::LONGEST], buffer[sheet::LONGEST]), (&sheet[..], 7));
    }

    #[test]
    fn a_short_slice_is_7_first_and_a_refusal_leaves_it() {
        let mut record = [7; LONGEST];
        assert_eq!(read_into(&[], &mut record[1..]), (7, 0));
        assert_eq!(read_into(&[0x21], &mut record), (2, 0));
        assert_eq!(read_into(&known::REPEATED_PAIR_SHEET, &mut record), (11, 0));
        let mut buffer = [7; sheet::LONGEST];
        assert_eq!(write_into(&[], &mut buffer[1..]), (7, 0));
        assert_eq!(write_into(&[], &mut buffer), (3, 0));
        let repeated = with(&[0, 0, 2, 0, 0, 0, 5, 5, 6, 6]);
        assert_eq!(write_into(&repeated, &mut buffer), (11, 0));
        assert_eq!((record, buffer), ([7; LONGEST], [7; sheet::LONGEST]));
        assert_eq!(read_into(&known::E_SHEET, &mut record), (0, 14));
        assert_eq!(record[..15], [1, 0, 0, 0, 2, 30, 31, 0, 1, 0, 0, 0, 0, 1, 7]);
    }
}
