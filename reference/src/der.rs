//! DER (X.690): headers, identifiers and integers, read in one walk.

/// "13 for anything but DER of the stated type"
pub const NOT_DER: u8 = 13;

pub const INTEGER: u8 = 0x02;
pub const OBJECT_IDENTIFIER: u8 = 0x06;
pub const SEQUENCE: u8 = 0x30;
/// The context-specific tags of implicit integers.
pub const CONTEXT_0: u8 = 0x80;
pub const CONTEXT_1: u8 = 0x81;

/// The bit of an octet that says that others of its group follow: in a length,
/// in a subidentifier and in a tag number.
const MORE: u8 = 0x80;

/// The bits of a tag's leading octet that hold its number; all of them are set
/// where the number stands in the octets after it.
const TAG_NUMBER: u8 = 0x1F;

/// The octets of an enclosing value that are still to be read.
pub struct Reader<'a> {
    rest: &'a [u8],
}

impl<'a> Reader<'a> {
    pub fn new(octets: &'a [u8]) -> Reader<'a> {
        Reader { rest: octets }
    }

    pub fn is_empty(&self) -> bool {
        self.rest.is_empty()
    }

    /// Whether the next value has this tag.
    pub fn has_next(&self, tag: u8) -> bool {
        self.rest.first() == Some(&tag)
    }

    /// The content of the next value, whose tag is this one. "A length that
    /// overruns is 13, at its header": it may not pass the enclosing value's
    /// end.
    pub fn value(&mut self, tag: u8) -> Result<&'a [u8], u8> {
        match self.rest.split_first() {
            Some((&first, after_tag)) if first == tag => self.content(after_tag),
            _ => Err(NOT_DER),
        }
    }

    /// Passes over the next value, whatever its tag, "by tag and length only".
    pub fn any_value(&mut self) -> Result<(), u8> {
        let after_tag = after_any_tag(self.rest).ok_or(NOT_DER)?;
        self.content(after_tag)?;
        Ok(())
    }

    /// The content octets of an identifier, a part of the octets read.
    pub fn identifier(&mut self) -> Result<&'a [u8], u8> {
        let content = self.value(OBJECT_IDENTIFIER)?;
        if is_identifier(content) {
            Ok(content)
        } else {
            Err(NOT_DER)
        }
    }

    /// "octets after a value are 13, at its end"
    pub fn end(&self) -> Result<(), u8> {
        if self.is_empty() {
            Ok(())
        } else {
            Err(NOT_DER)
        }
    }

    /// The content of the value whose length starts these octets. What follows
    /// it is still to be read.
    fn content(&mut self, after_tag: &'a [u8]) -> Result<&'a [u8], u8> {
        let (length, octets) = length(after_tag).ok_or(NOT_DER)?;
        let (content, rest) = octets.split_at_checked(length).ok_or(NOT_DER)?;
        self.rest = rest;
        Ok(content)
    }
}

/// A length, and the octets after it. It is definite and in as few octets as
/// can be. One that no `usize` holds is none, as it overruns whatever there is.
fn length(octets: &[u8]) -> Option<(usize, &[u8])> {
    let (&first, rest) = octets.split_first()?;
    if first < MORE {
        return Some((usize::from(first), rest));
    }
    let (digits, rest) = rest.split_at_checked(usize::from(first - MORE))?;
    if *digits.first()? == 0 {
        return None;
    }
    let mut length = 0usize;
    for &digit in digits {
        length = length.checked_mul(256)? + usize::from(digit);
    }
    (length >= usize::from(MORE)).then_some((length, rest))
}

/// The octets after any tag. A number from 31 upward, and no other, stands in
/// octets of its own, seven bits in each, in as few as can be.
fn after_any_tag(octets: &[u8]) -> Option<&[u8]> {
    let (&leading, rest) = octets.split_first()?;
    if leading & TAG_NUMBER < TAG_NUMBER {
        return Some(rest);
    }
    let last = rest.iter().position(|&octet| octet < MORE)?;
    let minimal = if last == 0 { rest[0] >= TAG_NUMBER } else { rest[0] != MORE };
    minimal.then(|| &rest[last + 1..])
}

/// Whether these are the content octets of an identifier: one subidentifier or
/// more, each in as few octets as can be, the last one ended.
pub fn is_identifier(content: &[u8]) -> bool {
    let mut starts = true;
    for &octet in content {
        if starts && octet == MORE {
            return false;
        }
        starts = octet < MORE;
    }
    starts && !content.is_empty()
}

/// The skip value of an integer's content octets, in as few as can be and not
/// negative. "Skip values above 255 become 255."
pub fn skip_value(content: &[u8]) -> Result<u8, u8> {
    match *content {
        [value] if value < 0x80 => Ok(value),
        [0, value] if value >= 0x80 => Ok(value),
        [0, next, _, ..] if next >= 0x80 => Ok(255),
        [1..=0x7F, _, ..] => Ok(255),
        _ => Err(NOT_DER),
    }
}

#[cfg(test)]
mod tests {
    use super::*;

    /// The content of the one value with a tag that these octets are.
    fn only_value(tag: u8, octets: &[u8]) -> Result<&[u8], u8> {
        let mut reader = Reader::new(octets);
        let content = reader.value(tag)?;
        reader.end()?;
        Ok(content)
    }

    /// Whether the octets are one value, by tag and length.
    fn is_value(octets: &[u8]) -> bool {
        let mut reader = Reader::new(octets);
        reader.any_value().is_ok() && reader.is_empty()
    }

    #[test]
    fn short_lengths() {
        assert_eq!(only_value(0x30, &[0x30, 0]), Ok(&[][..]));
        assert_eq!(only_value(0x30, &[0x30, 2, 5, 0]), Ok(&[5, 0][..]));
        assert_eq!(only_value(0x30, &[]), Err(13));
        assert_eq!(only_value(0x30, &[0x30]), Err(13));
        assert_eq!(only_value(0x30, &[0x30, 2, 5]), Err(13));
        assert_eq!(only_value(0x30, &[0x30, 1, 5, 0]), Err(13));
        assert_eq!(only_value(0x30, &[0x31, 0]), Err(13));
    }

    #[test]
    fn long_lengths_are_minimal() {
        for (length, header) in [
            (127, &[0x30, 0x7F][..]),
            (128, &[0x30, 0x81, 0x80]),
            (255, &[0x30, 0x81, 0xFF]),
            (256, &[0x30, 0x82, 1, 0]),
            (65_535, &[0x30, 0x82, 0xFF, 0xFF]),
            (65_536, &[0x30, 0x83, 1, 0, 0]),
        ] {
            let content = vec![7; length];
            assert_eq!(only_value(0x30, &[header, &content].concat()), Ok(&content[..]));
            assert_eq!(only_value(0x30, &[header, &content[1..]].concat()), Err(13));
        }
        for (length, header) in [
            (0, &[0x30, 0x81, 0][..]),
            (127, &[0x30, 0x81, 0x7F]),
            (128, &[0x30, 0x82, 0, 0x80]),
            (255, &[0x30, 0x82, 0, 0xFF]),
            (256, &[0x30, 0x83, 0, 1, 0]),
        ] {
            assert_eq!(only_value(0x30, &[header, &vec![7; length]].concat()), Err(13));
        }
    }

    #[test]
    fn lengths_that_are_no_lengths() {
        // Indefinite, with the octets that end it.
        assert_eq!(only_value(0x30, &[0x30, 0x80, 5, 0, 0, 0]), Err(13));
        // Octets of the length itself are missing.
        assert_eq!(only_value(0x30, &[0x30, 0x81]), Err(13));
        assert_eq!(only_value(0x30, &[0x30, 0x82, 1]), Err(13));
        // From one octet to the most, all of the largest or of a value whose
        // low bits would fit.
        for octets in 1..=127u8 {
            for low in [0, 2, 0xFF] {
                let mut value = vec![0x30, 0x80 + octets];
                value.push(0xFF);
                value.resize(2 + usize::from(octets), low);
                value.extend([5, 0]);
                assert_eq!(only_value(0x30, &value), Err(13));
            }
        }
    }

    #[test]
    fn tags_of_any_value() {
        for leading in 0..=255u8 {
            assert_eq!(is_value(&[leading, 1, 0]), leading & 0x1F != 0x1F, "{leading:X}");
        }
        for (tag, holds) in [
            (&[0x1F, 0x1F][..], true),
            (&[0xBF, 0x7F], true),
            (&[0x1F, 0x81, 0x00], true),
            (&[0xFF, 0x81, 0x80, 0x80, 0x80, 0x80, 0x80, 0x80, 0x80, 0x80, 0x80, 0x00], true),
            (&[0x1F, 0xFF, 0x7F], true),
            (&[0x1F, 0x1E], false),
            (&[0x1F, 0x00], false),
            (&[0x1F, 0x80, 0x1F], false),
            (&[0x1F, 0x80, 0x80, 0x01], false),
        ] {
            assert_eq!(is_value(&[tag, &[1, 0]].concat()), holds, "{tag:X?}");
            assert!(!is_value(tag));
        }
        assert!(!is_value(&[0x1F]));
        assert!(!is_value(&[0x1F, 0x81, 0x80]));
        assert!(!is_value(&[0x05, 0x80, 0, 0]));
        assert!(!is_value(&[]));
        assert!(is_value(&[0, 0]));
    }

    #[test]
    fn identifiers() {
        for content in [
            &[0x55, 0x1D, 0x20, 0x00][..],
            &[0x00],
            &[0x7F],
            &[0x81, 0x00],
            &[0x2A, 0x81, 0x80, 0x00],
            &[0xFF, 0x80, 0x80, 0x80, 0x80, 0x80, 0x80, 0x80, 0x80, 0x80, 0x01],
        ] {
            assert!(is_identifier(content), "{content:X?}");
        }
        for content in [
            &[][..],
            &[0x80],
            &[0x80, 0x01],
            &[0x2A, 0x80, 0x01],
            &[0x2A, 0x03, 0x80, 0x80, 0x01],
            &[0x81],
            &[0x2A, 0x81],
            &[0x2A, 0x81, 0x80],
        ] {
            assert!(!is_identifier(content), "{content:X?}");
        }
        let mut reader = Reader::new(&[0x06, 2, 0x2A, 0x03, 0x06, 1, 0x80]);
        assert_eq!(reader.identifier(), Ok(&[0x2A, 0x03][..]));
        assert_eq!(reader.identifier(), Err(13));
    }

    #[test]
    fn skip_values() {
        for (content, value) in [
            (&[0][..], 0),
            (&[1], 1),
            (&[0x7F], 127),
            (&[0, 0x80], 128),
            (&[0, 0xFF], 255),
            (&[1, 0], 255),
            (&[1, 1], 255),
            (&[0x7F, 0xFF], 255),
            (&[0, 0x80, 0], 255),
            (&[1, 0, 0], 255),
            (&[1, 0, 0, 0, 0, 0, 0, 0, 0], 255),
            (&[0, 0xFF, 0xFF, 0xFF, 0xFF, 0xFF, 0xFF, 0xFF, 0xFF], 255),
            (&[0x12; 200], 255),
        ] {
            assert_eq!(skip_value(content), Ok(value), "{content:X?}");
        }
        for content in [
            &[][..],
            &[0x80],
            &[0xFF],
            &[0, 0],
            &[0, 0x7F],
            &[0, 0, 0x80],
            &[0, 0x7F, 0xFF],
            &[0x80, 0],
            &[0xFF, 0x7F],
            &[0xFF, 0x80],
            &[0xFF; 9],
        ] {
            assert_eq!(skip_value(content), Err(13), "{content:X?}");
        }
    }
}
