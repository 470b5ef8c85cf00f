//! The packed sheet: reader, writer, and the refusals of a decoded path.

use crate::path::{Certificate, Path, MAX_CERTIFICATES, MAX_LIST};

/// "the longest sheet is 2,929 bytes" (document 02, Four)
pub const LONGEST: usize = 2_929;

/// The bits of n and of a count: "n, 4 bits", "user count, 5 bits", "a count (5
/// bits)".
const N_BITS: usize = 4;
const COUNT_BITS: usize = 5;

/// "The field widths stay": no field can say more than the limits.
const _: () = assert!(MAX_CERTIFICATES == (1 << N_BITS) - 1 && MAX_LIST == (1 << COUNT_BITS) - 1);

/// "1: the sheet ends inside or before the next field"
pub const ENDS_EARLY: u8 = 1;
/// "2: edition is not 1"
pub const WRONG_EDITION: u8 = 2;
/// 3: on a sheet "only for n 0 or a present count of 0"; for "a path handed over
/// decoded, or the four values" also above the limits (document 02, Four)
pub const WRONG_COUNT: u8 = 3;
/// "4: a policy is 0, in any list"
pub const NO_POLICY: u8 = 4;
/// "5: a policy repeats within one certificate's policies"
pub const REPEATED_POLICY: u8 = 5;
/// "6: a fill bit is not zero, or bytes follow"
pub const NOT_ZERO_FILL: u8 = 6;
/// "7: a lent table is too short"
pub const TOO_SHORT: u8 = 7;
/// 11: "a pair repeated within one certificate" (document 02, Six)
pub const REPEATED_PAIR: u8 = 11;

/// "Bit-packed fields, most significant bit first, no gaps."
struct Reader<'a> {
    sheet: &'a [u8],
    position: usize,
}

impl Reader<'_> {
    /// Takes the next field of at most 16 bits; 1 if the sheet ends inside or
    /// before it.
    fn field(&mut self, width: usize) -> Result<u16, u8> {
        let end = self.position + width;
        if end > self.sheet.len() * 8 {
            return Err(ENDS_EARLY);
        }
        let touched = &self.sheet[self.position / 8..end.div_ceil(8)];
        let whole = touched.iter().fold(0u32, |bits, &byte| bits << 8 | u32::from(byte));
        let after = end.next_multiple_of(8) - end;
        self.position = end;
        Ok(((whole >> after) & ((1 << width) - 1)) as u16)
    }

    /// A field of one bit.
    fn flag(&mut self) -> Result<bool, u8> {
        Ok(self.field(1)? == 1)
    }

    /// A policy field: 4 if it is 0.
    fn policy(&mut self) -> Result<u16, u8> {
        match self.field(16)? {
            0 => Err(NO_POLICY),
            policy => Ok(policy),
        }
    }

    /// "present, 1 bit, and if set a count (5 bits)": 3 if the present count
    /// is 0. An absent list has the count 0.
    fn present_count(&mut self) -> Result<usize, u8> {
        if !self.flag()? {
            return Ok(0);
        }
        match usize::from(self.field(COUNT_BITS)?) {
            0 => Err(WRONG_COUNT),
            count => Ok(count),
        }
    }

    /// "for each skip value in the order above, present, 1 bit, and if set the
    /// value, 8 bits"
    fn skip(&mut self) -> Result<Option<u8>, u8> {
        Ok(if self.flag()? { Some(self.field(8)? as u8) } else { None })
    }

    /// "for each certificate: self-issued, 1 bit; policies present [...];
    /// mappings present [...]; then for each skip value"
    fn certificate(&mut self) -> Result<Certificate, u8> {
        let self_issued = self.flag()?;
        let count = self.present_count()?;
        let mut policies = Vec::with_capacity(count);
        for _ in 0..count {
            let policy = self.policy()?;
            if policies.contains(&policy) {
                return Err(REPEATED_POLICY);
            }
            policies.push(policy);
        }
        let count = self.present_count()?;
        let mut mappings = Vec::with_capacity(count);
        for _ in 0..count {
            let issuer = self.policy()?;
            let subject = self.policy()?;
            pair_fault(&mappings, (issuer, subject))?;
            mappings.push((issuer, subject));
        }
        Ok(Certificate {
            self_issued,
            policies,
            mappings,
            require_explicit_policy: self.skip()?,
            inhibit_policy_mapping: self.skip()?,
            inhibit_any_policy: self.skip()?,
        })
    }

    /// "zero bits to the end of the byte. Nothing follows."
    fn finish(&mut self) -> Result<(), u8> {
        let fill = self.position.next_multiple_of(8) - self.position;
        if self.field(fill)? != 0 || self.position != self.sheet.len() * 8 {
            return Err(NOT_ZERO_FILL);
        }
        Ok(())
    }
}

/// Reads a sheet "field by field, 1 before the field's own fault, 4 before 5;
/// then 6"; 11 is given "when its second subject policy is read, after 4"
/// (document 02, Six).
pub fn read(sheet: &[u8]) -> Result<Path, u8> {
    let mut reader = Reader { sheet, position: 0 };
    if reader.field(4)? != 1 {
        return Err(WRONG_EDITION);
    }
    let n = reader.field(N_BITS)?;
    if n == 0 {
        return Err(WRONG_COUNT);
    }
    let mapping_inhibit = reader.flag()?;
    let explicit_policy = reader.flag()?;
    let any_policy_inhibit = reader.flag()?;
    let user_count = reader.field(COUNT_BITS)?;
    let user = (0..user_count).map(|_| reader.policy()).collect::<Result<_, _>>()?;
    let certificates = (0..n).map(|_| reader.certificate()).collect::<Result<_, _>>()?;
    reader.finish()?;
    Ok(Path { mapping_inhibit, explicit_policy, any_policy_inhibit, user, certificates })
}

/// One field of a sheet: its value and its width in bits.
pub type Field = (u16, usize);

/// The fields of a path in the sheet's order, the fill not included. "a count
/// of 0 policies or pairs being absence"
pub fn fields(path: &Path) -> Vec<Field> {
    let mut fields = vec![
        (1, 4),
        (path.certificates.len() as u16, N_BITS),
        (u16::from(path.mapping_inhibit), 1),
        (u16::from(path.explicit_policy), 1),
        (u16::from(path.any_policy_inhibit), 1),
        (path.user.len() as u16, COUNT_BITS),
    ];
    fields.extend(path.user.iter().map(|&policy| (policy, 16)));
    for certificate in &path.certificates {
        fields.push((u16::from(certificate.self_issued), 1));
        put_present_count(&mut fields, certificate.policies.len());
        fields.extend(certificate.policies.iter().map(|&policy| (policy, 16)));
        put_present_count(&mut fields, certificate.mappings.len());
        for &(issuer, subject) in &certificate.mappings {
            fields.extend([(issuer, 16), (subject, 16)]);
        }
        put_skip(&mut fields, certificate.require_explicit_policy);
        put_skip(&mut fields, certificate.inhibit_policy_mapping);
        put_skip(&mut fields, certificate.inhibit_any_policy);
    }
    fields
}

/// "present, 1 bit, and if set a count (5 bits)"
fn put_present_count(fields: &mut Vec<Field>, count: usize) {
    fields.push((u16::from(count > 0), 1));
    if count > 0 {
        fields.push((count as u16, COUNT_BITS));
    }
}

/// "present, 1 bit, and if set the value, 8 bits"
fn put_skip(fields: &mut Vec<Field>, skip: Option<u8>) {
    fields.push((u16::from(skip.is_some()), 1));
    if let Some(value) = skip {
        fields.push((u16::from(value), 8));
    }
}

/// Packs fields "most significant bit first, no gaps", then "zero bits to the
/// end of the byte". Bits above a field's width are dropped.
pub fn pack(fields: &[Field]) -> Vec<u8> {
    let mut sheet = Vec::with_capacity(LONGEST);
    let (mut bits, mut held) = (0u32, 0);
    for &(value, width) in fields {
        bits = bits << width | u32::from(value) & ((1 << width) - 1);
        held += width;
        while held >= 8 {
            held -= 8;
            sheet.push((bits >> held) as u8);
        }
    }
    if held > 0 {
        sheet.push((bits << (8 - held)) as u8);
    }
    sheet
}

/// The sheet of a path, which is the path's own if `refusal` finds no fault.
pub fn write(path: &Path) -> Vec<u8> {
    pack(&fields(path))
}

/// "A path handed over decoded is refused by 3, 4 and 5 in the sheet's field
/// order, a count of 0 policies or pairs being absence"; by 3 where n is 0 or a
/// count is above its limit. It is refused by 11 too (document 02, Six).
pub fn refusal(path: &Path) -> Result<(), u8> {
    if path.certificates.is_empty() || path.certificates.len() > MAX_CERTIFICATES {
        return Err(WRONG_COUNT);
    }
    user_fault(&path.user)?;
    for certificate in &path.certificates {
        policies_fault(&certificate.policies)?;
        pairs_fault(&certificate.mappings)?;
    }
    Ok(())
}

/// The user list: 3 for its count, then 4 for its policies.
pub fn user_fault(list: &[u16]) -> Result<(), u8> {
    if list.len() > MAX_LIST {
        return Err(WRONG_COUNT);
    }
    if list.contains(&0) {
        return Err(NO_POLICY);
    }
    Ok(())
}

/// A certificate's policies: 3 for the count, then at each policy 4 before 5.
pub fn policies_fault(policies: &[u16]) -> Result<(), u8> {
    if policies.len() > MAX_LIST {
        return Err(WRONG_COUNT);
    }
    for (place, policy) in policies.iter().enumerate() {
        if *policy == 0 {
            return Err(NO_POLICY);
        }
        if policies[..place].contains(policy) {
            return Err(REPEATED_POLICY);
        }
    }
    Ok(())
}

/// A certificate's pairs: 3 for the count, then at each pair 4 for issuer or
/// subject before 11.
pub fn pairs_fault(pairs: &[(u16, u16)]) -> Result<(), u8> {
    if pairs.len() > MAX_LIST {
        return Err(WRONG_COUNT);
    }
    for (place, &(issuer, subject)) in pairs.iter().enumerate() {
        if issuer == 0 || subject == 0 {
            return Err(NO_POLICY);
        }
        pair_fault(&pairs[..place], (issuer, subject))?;
    }
    Ok(())
}

/// The fault of a pair as a whole, after those of its two policies: "a pair
/// repeated within one certificate is refused with 11" (document 02, Six). Given
/// are the pairs before it in its certificate.
pub fn pair_fault(before: &[(u16, u16)], pair: (u16, u16)) -> Result<(), u8> {
    if before.contains(&pair) {
        return Err(REPEATED_PAIR);
    }
    Ok(())
}

/// Writes into a lent slice: 7 first if it has fewer than `least` places, then
/// the refusal. Returns the number and the length of what was written, "0 on
/// refusal". "On refusal the buffer is unchanged; otherwise it holds the sheet
/// first and every later byte is unchanged."
pub fn fill<T: Copy>(
    lent: &mut [T],
    least: usize,
    written: impl FnOnce() -> Result<Vec<T>, u8>,
) -> (u8, usize) {
    if lent.len() < least {
        return (TOO_SHORT, 0);
    }
    match written() {
        Ok(written) => {
            lent[..written.len()].copy_from_slice(&written);
            (0, written.len())
        }
        Err(number) => (number, 0),
    }
}

/// The writer: 7 first if the buffer does not hold the longest sheet, then the
/// path's refusals.
pub fn write_into(path: &Path, buffer: &mut [u8]) -> (u8, usize) {
    fill(buffer, LONGEST, || refusal(path).map(|()| write(path)))
}

/// Reads a sheet and writes its path again: the writer's 7 first, then the
/// reader's refusals.
pub fn rewrite(sheet: &[u8], buffer: &mut [u8]) -> (u8, usize) {
    fill(buffer, LONGEST, || read(sheet).map(|path| write(&path)))
}

#[cfg(test)]
mod tests {
    use super::*;
    use crate::known;
    use crate::repeats::{self, Likeness};

    fn with(certificate: Certificate) -> Path {
        Path { user: vec![1], certificates: vec![certificate], ..Path::default() }
    }

    #[test]
    fn e_has_the_written_sheet() {
        let rows = known::rows();
        let row = rows.iter().find(|row| row.name == "E").unwrap();
        assert_eq!(write(&row.path), known::E_SHEET);
        assert_eq!(read(&known::E_SHEET), Ok(row.path.clone()));
    }

    #[test]
    fn known_paths_make_the_round_trip() {
        for row in known::rows() {
            assert_eq!(refusal(&row.path), Ok(()));
            assert_eq!(read(&write(&row.path)), Ok(row.path), "{}", row.name);
        }
    }

    #[test]
    fn short_inputs() {
        assert_eq!(read(&[]), Err(1));
        assert_eq!(read(&[0x21]), Err(2));
        assert_eq!(read(&[0x01]), Err(2));
        assert_eq!(read(&[0x10]), Err(3));
        for n in 1..=MAX_CERTIFICATES as u8 {
            assert_eq!(read(&[0x10 | n]), Err(1));
        }
    }

    #[test]
    fn every_cut_of_e_ends_early() {
        for length in 0..known::E_SHEET.len() {
            assert_eq!(read(&known::E_SHEET[..length]), Err(1));
        }
    }

    #[test]
    fn counts_are_tested_before_what_they_count() {
        for count in 1..=MAX_LIST as u8 {
            assert_eq!(read(&[0x11, count]), Err(1));
            // Self-issued 0, policies present 1, the count.
            assert_eq!(read(&[0x11, 0, 0b0100_0000 | count << 1]), Err(1));
            // Policies absent, mappings present 1, the count.
            assert_eq!(read(&[0x11, 0, 0b0010_0000 | count]), Err(1));
        }
        assert_eq!(read(&[0x11, 0]), Err(1));
        // Self-issued 0, policies present 1, count 0.
        assert_eq!(read(&[0x11, 0, 0b0100_0000]), Err(3));
        // Policies absent, mappings present 1, count 0.
        assert_eq!(read(&[0x11, 0, 0b0010_0000]), Err(3));
    }

    #[test]
    fn every_count_up_to_its_limit_is_read() {
        for n in 1..=MAX_CERTIFICATES {
            let certificates = vec![Certificate::default(); n];
            let path = Path { certificates, ..Path::default() };
            assert_eq!(read(&write(&path)), Ok(path));
        }
        for count in 0..=MAX_LIST as u16 {
            let policies: Vec<u16> = (2..2 + count).collect();
            let mappings = policies.iter().map(|&policy| (policy, 2)).collect();
            let user = policies.clone();
            let certificate = Certificate { policies, mappings, ..Certificate::default() };
            let path = Path { user, ..with(certificate) };
            assert_eq!((read(&write(&path)), refusal(&path)), (Ok(path.clone()), Ok(())));
        }
    }

    #[test]
    fn a_field_that_is_cut_off_is_1_before_its_own_fault() {
        let zero = with(Certificate { policies: vec![0], ..Certificate::default() });
        let sheet = write(&zero);
        assert_eq!(read(&sheet), Err(4));
        // The policy field ends in the seventh byte.
        assert_eq!(read(&sheet[..7]), Err(4));
        assert_eq!(read(&sheet[..6]), Err(1));
    }

    #[test]
    fn the_issuer_is_a_field_before_the_subject() {
        let zero = with(Certificate { mappings: vec![(0, 7)], ..Certificate::default() });
        let sheet = write(&zero);
        // The issuer field ends with the seventh byte, the subject with the
        // ninth.
        assert_eq!(read(&sheet[..7]), Err(4));
        assert_eq!(read(&sheet[..6]), Err(1));
    }

    #[test]
    fn repeats_and_zeros() {
        let path = with(Certificate { policies: vec![5, 6, 5, 0], ..Certificate::default() });
        assert_eq!((read(&write(&path)), refusal(&path)), (Err(5), Err(5)));
        let path = with(Certificate { policies: vec![5, 6, 0, 5], ..Certificate::default() });
        assert_eq!((read(&write(&path)), refusal(&path)), (Err(4), Err(4)));
        let path = with(Certificate { mappings: vec![(5, 6), (5, 6)], ..Certificate::default() });
        assert_eq!((read(&write(&path)), refusal(&path)), (Err(11), Err(11)));
        let path = Path { user: vec![9, 9], ..with(Certificate::default()) };
        assert_eq!((read(&write(&path)), refusal(&path)), (Ok(path.clone()), Ok(())));
    }

    #[test]
    fn a_pair_twice_has_the_written_sheet() {
        let rows = known::refused_rows();
        assert_eq!((rows[0].name, rows[0].number), ("a pair twice", REPEATED_PAIR));
        assert_eq!(write(&rows[0].path), known::REPEATED_PAIR_SHEET);
    }

    /// "when its second subject policy is read": a sheet that ends before that
    /// is 1, and what comes after never matters.
    #[test]
    fn refused_rows_and_every_cut_of_them() {
        for row in known::refused_rows() {
            assert_eq!(refusal(&row.path), Err(row.number), "{}", row.name);
            let mut sheet = write(&row.path);
            for length in 0..=sheet.len() {
                let number = if length < row.bytes { ENDS_EARLY } else { row.number };
                assert_eq!(read(&sheet[..length]), Err(number), "{} {length}", row.name);
            }
            sheet[row.bytes..].fill(0xFF);
            sheet.push(0xFF);
            assert_eq!(read(&sheet), Err(row.number), "{}", row.name);
        }
    }

    #[test]
    fn every_two_pairs_of_a_full_list() {
        for alike in repeats::in_full_lists() {
            let path = alike.path();
            let (sheet, end) = (write(&path), alike.end());
            if alike.likeness != Likeness::Same {
                assert_eq!((read(&sheet), refusal(&path)), (Ok(path), Ok(())), "{alike:?}");
                continue;
            }
            assert_eq!((read(&sheet), refusal(&path)), (Err(11), Err(11)), "{alike:?}");
            assert_eq!((read(&sheet[..end]), read(&sheet[..end - 1])), (Err(11), Err(1)));
        }
    }

    #[test]
    fn a_refusal_leaves_the_buffer() {
        for row in known::refused_rows() {
            let mut buffer = [7; LONGEST];
            assert_eq!(write_into(&row.path, &mut buffer), (row.number, 0), "{}", row.name);
            assert_eq!(rewrite(&write(&row.path), &mut buffer), (row.number, 0), "{}", row.name);
            assert_eq!(write_into(&row.path, &mut buffer[1..]), (7, 0), "{}", row.name);
            assert_eq!(buffer, [7; LONGEST]);
        }
    }

    #[test]
    fn fill_and_what_follows() {
        let mut sheet = known::E_SHEET.to_vec();
        sheet.push(0);
        assert_eq!(read(&sheet), Err(6));
        sheet.pop();
        // E uses 75 bits: the last 5 are fill.
        for bit in 0..5 {
            sheet[9] = 1 << bit;
            assert_eq!(read(&sheet), Err(6));
        }
        // The last skip value is present, and its value is missing.
        sheet[9] = 0x20;
        assert_eq!(read(&sheet), Err(1));
    }

    #[test]
    fn counts_of_a_decoded_path() {
        assert_eq!(refusal(&Path::default()), Err(3));
        let certificates = vec![Certificate::default(); MAX_CERTIFICATES + 1];
        assert_eq!(refusal(&Path { certificates, ..Path::default() }), Err(3));
        let user = vec![0; MAX_LIST + 1];
        assert_eq!(refusal(&Path { user, ..with(Certificate::default()) }), Err(3));
        let policies = vec![0; MAX_LIST + 1];
        assert_eq!(refusal(&with(Certificate { policies, ..Certificate::default() })), Err(3));
        let mappings = vec![(0, 0); MAX_LIST + 1];
        assert_eq!(refusal(&with(Certificate { mappings, ..Certificate::default() })), Err(3));
    }

    #[test]
    fn the_longest_sheet() {
        let certificate = Certificate {
            self_issued: true,
            policies: (2..).take(MAX_LIST).collect(),
            mappings: (2..).take(MAX_LIST).map(|issuer| (issuer, 65_535)).collect(),
            require_explicit_policy: Some(255),
            inhibit_policy_mapping: Some(0),
            inhibit_any_policy: Some(128),
        };
        let path = Path {
            mapping_inhibit: true,
            explicit_policy: false,
            any_policy_inhibit: true,
            user: vec![65_535; MAX_LIST],
            certificates: vec![certificate; MAX_CERTIFICATES],
        };
        let mut buffer = [7; LONGEST + 1];
        assert_eq!(write_into(&path, &mut buffer), (0, LONGEST));
        assert_eq!(buffer[LONGEST], 7);
        assert_eq!(read(&buffer[..LONGEST]), Ok(path.clone()));
        assert_eq!(write_into(&path, &mut buffer[..LONGEST - 1]), (7, 0));
    }
}
