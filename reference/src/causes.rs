//! Why a sheet is answered 3 or 11, found by a walk over its fields that is
//! apart from the reader of `sheet.rs` and tests nothing else.

use crate::sheet;

/// What a sheet is answered 3 for, "n 0 or a present count of 0" (document 02,
/// Four), and what it is answered 11 for, "a pair repeated within one
/// certificate" (document 02, Six).
#[derive(Clone, Copy, Debug, PartialEq, Eq)]
pub enum Cause {
    NoCertificate,
    EmptyList,
    RepeatedPair,
}

impl Cause {
    /// The answer to a sheet that has this cause and no other fault before it.
    fn number(self) -> u8 {
        match self {
            Cause::NoCertificate | Cause::EmptyList => sheet::WRONG_COUNT,
            Cause::RepeatedPair => sheet::REPEATED_PAIR,
        }
    }
}

/// Why the walk goes no further: a cause, or none where the sheet ends.
type Stop = Option<Cause>;

/// The first cause that a sheet has, if it has one before it ends.
pub fn cause(sheet: &[u8]) -> Option<Cause> {
    Walk { sheet, bit: 0 }.path().err().flatten()
}

/// Whether the first cause of a sheet is that of its answer: 3 and 11 have
/// theirs, and a verdict, 1 and 6 have none. None where the answer says nothing
/// of causes: a sheet answered 2, 4, 5 or 7 may have any.
pub fn agrees(sheet: &[u8], number: u8) -> Option<bool> {
    let expected = match number {
        sheet::WRONG_EDITION | sheet::NO_POLICY | sheet::REPEATED_POLICY | sheet::TOO_SHORT => {
            return None
        }
        sheet::WRONG_COUNT | sheet::REPEATED_PAIR => Some(number),
        _ => None,
    };
    Some(cause(sheet).map(Cause::number) == expected)
}

/// A walk over a sheet, bit by bit.
struct Walk<'a> {
    sheet: &'a [u8],
    bit: usize,
}

impl Walk<'_> {
    /// The number in the next bits.
    fn number(&mut self, bits: usize) -> Result<usize, Stop> {
        let mut number = 0;
        for _ in 0..bits {
            let byte = *self.sheet.get(self.bit / 8).ok_or(None)?;
            number = 2 * number + usize::from(byte >> (7 - self.bit % 8) & 1);
            self.bit += 1;
        }
        Ok(number)
    }

    /// "edition, 4 bits, 1; n, 4 bits; the three flags [...]; user count, 5
    /// bits; then the user policies, 16 bits each"; then the certificates.
    fn path(&mut self) -> Result<(), Stop> {
        self.number(4)?;
        let n = self.number(4)?;
        if n == 0 {
            return Err(Some(Cause::NoCertificate));
        }
        self.number(3)?;
        self.bit += 16 * self.number(5)?;
        for _ in 0..n {
            self.number(1)?;
            self.bit += 16 * self.count()?;
            self.pairs()?;
            for _ in 0..3 {
                self.bit += 8 * self.number(1)?;
            }
        }
        Ok(())
    }

    /// "present, 1 bit, and if set a count (5 bits)"; 0 of what is absent.
    fn count(&mut self) -> Result<usize, Stop> {
        if self.number(1)? == 0 {
            return Ok(0);
        }
        match self.number(5)? {
            0 => Err(Some(Cause::EmptyList)),
            count => Ok(count),
        }
    }

    /// A count "and the pairs (16 and 16, issuer first)", each taken as one
    /// number of 32 bits.
    fn pairs(&mut self) -> Result<(), Stop> {
        let mut pairs = Vec::new();
        for _ in 0..self.count()? {
            let pair = self.number(16 + 16)?;
            if pairs.contains(&pair) {
                return Err(Some(Cause::RepeatedPair));
            }
            pairs.push(pair);
        }
        Ok(())
    }
}

/// The sheets answered 3 so far, by their cause.
#[derive(Default)]
pub struct Causes {
    pub no_certificate: usize,
    pub empty_list: usize,
}

impl Causes {
    /// Counts a sheet that is answered 3.
    pub fn count(&mut self, sheet: &[u8]) {
        match cause(sheet) {
            Some(Cause::NoCertificate) => self.no_certificate += 1,
            Some(Cause::EmptyList) => self.empty_list += 1,
            Some(Cause::RepeatedPair) | None => {}
        }
    }
}

#[cfg(test)]
mod tests {
    use super::*;
    use crate::known;
    use crate::path::{MAX_CERTIFICATES, MAX_LIST};
    use crate::random::{self, Full, Random};

    #[test]
    fn a_sheet_that_is_read_or_cut_has_no_cause() {
        let full = random::full(Full::Any, MAX_CERTIFICATES, &mut Random::new(1));
        let paths = known::rows().into_iter().map(|row| row.path);
        for path in paths.chain([full]) {
            let sheet = sheet::write(&path);
            for length in 0..=sheet.len() {
                assert_eq!(cause(&sheet[..length]), None);
            }
        }
    }

    #[test]
    fn each_cause() {
        assert_eq!(cause(&[0x10]), Some(Cause::NoCertificate));
        assert_eq!(cause(&[0x1F, MAX_LIST as u8, 0]), None);
        // Self-issued 0, policies present 1, count 0.
        assert_eq!(cause(&[0x11, 0, 0b0100_0000]), Some(Cause::EmptyList));
        // Policies absent, mappings present 1, count 0.
        assert_eq!(cause(&[0x11, 0, 0b0010_0000]), Some(Cause::EmptyList));
        assert_eq!(cause(&[0x11, 0, 0b0010_0001]), None);
    }

    /// Every present count of a full path in turn.
    #[test]
    fn every_empty_list_is_met() {
        let path = random::full(Full::Drawn, 3, &mut Random::new(2));
        let fields = sheet::fields(&path);
        let counts = (0..fields.len()).filter(|&place| fields[place].1 == 5);
        for place in counts.skip(1) {
            let mut fields = fields.clone();
            fields[place].0 = 0;
            let sheet = sheet::pack(&fields);
            assert_eq!(cause(&sheet), Some(Cause::EmptyList));
            assert_eq!(sheet::read(&sheet), Err(sheet::WRONG_COUNT));
        }
    }

    /// From the end of the second subject on, and not before.
    #[test]
    fn a_repeated_pair_is_met_when_its_second_subject_is_read() {
        for row in known::refused_rows() {
            let sheet = sheet::write(&row.path);
            let repeats = row.number == sheet::REPEATED_PAIR;
            for length in 0..=sheet.len() {
                let met = cause(&sheet[..length]) == Some(Cause::RepeatedPair);
                assert!(!repeats || met == (length >= row.bytes), "{} {length}", row.name);
            }
        }
    }

    #[test]
    fn answers_and_their_causes() {
        let repeated = known::REPEATED_PAIR_SHEET;
        let sheets = [(&[0x10][..], 3), (&[0x11, 0, 0x40], 3), (&repeated, 11), (&[], 1)];
        for (sheet, number) in sheets {
            for answer in [0, 1, 3, 6, 8, 9, 10, 11] {
                let holds = answer == number || number == 1 && !matches!(answer, 3 | 11);
                assert_eq!(agrees(sheet, answer), Some(holds), "{number} {answer}");
            }
            assert!([2, 4, 5, 7].into_iter().all(|answer| agrees(sheet, answer).is_none()));
        }
    }
}
