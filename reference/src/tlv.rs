//! Values to encode, each a tag, a length and a content, with faults where they
//! are wanted.

use crate::der::{OBJECT_IDENTIFIER, SEQUENCE};

/// A value. Its length is its own only where it is `Length::Minimal`.
#[derive(Clone, Debug)]
pub struct Tlv {
    pub tag: Vec<u8>,
    pub length: Length,
    pub content: Content,
}

/// How a length is written.
#[derive(Clone, Debug)]
pub enum Length {
    /// As DER has it.
    Minimal,
    /// In the long form, after so many zeros.
    Long(usize),
    /// The octet that says that the content ends with two zeros, and the zeros.
    Indefinite,
    /// As DER has it, of a content with so many octets more, or fewer.
    Off(isize),
    /// These octets, whatever the content.
    Octets(Vec<u8>),
}

/// Octets, or the values that they are made of.
#[derive(Clone, Debug)]
pub enum Content {
    Octets(Vec<u8>),
    Values(Vec<Tlv>),
}

impl Tlv {
    /// A value with a tag of one octet.
    pub fn octets(tag: u8, octets: &[u8]) -> Tlv {
        let content = Content::Octets(octets.to_vec());
        Tlv { tag: vec![tag], length: Length::Minimal, content }
    }

    pub fn identifier(content: &[u8]) -> Tlv {
        Tlv::octets(OBJECT_IDENTIFIER, content)
    }

    pub fn sequence(values: Vec<Tlv>) -> Tlv {
        let content = Content::Values(values);
        Tlv { tag: vec![SEQUENCE], length: Length::Minimal, content }
    }

    /// The octets of the value.
    pub fn encode(&self) -> Vec<u8> {
        let mut content = self.content_octets();
        let mut octets = self.tag.clone();
        match &self.length {
            Length::Minimal => octets.extend(minimal(content.len())),
            Length::Long(zeros) => octets.extend(long(content.len(), *zeros)),
            Length::Indefinite => {
                octets.push(0x80);
                content.extend([0, 0]);
            }
            Length::Off(by) => octets.extend(minimal(content.len().saturating_add_signed(*by))),
            Length::Octets(length) => octets.extend(length),
        }
        octets.extend(content);
        octets
    }

    /// The octets of its content.
    pub fn content_octets(&self) -> Vec<u8> {
        match &self.content {
            Content::Octets(octets) => octets.clone(),
            Content::Values(values) => values.iter().flat_map(Tlv::encode).collect(),
        }
    }

    /// The number of values from this one inward.
    pub fn count(&self) -> usize {
        1 + self.inner().iter().map(Tlv::count).sum::<usize>()
    }

    /// The value at a place, counted from this one, which is at 0, inward.
    pub fn nth(&mut self, place: usize) -> Option<&mut Tlv> {
        if place == 0 {
            return Some(self);
        }
        let mut place = place - 1;
        let Content::Values(values) = &mut self.content else {
            return None;
        };
        for value in values {
            let count = value.count();
            if place < count {
                return value.nth(place);
            }
            place -= count;
        }
        None
    }

    /// The values that the content is made of.
    fn inner(&self) -> &[Tlv] {
        match &self.content {
            Content::Values(values) => values,
            Content::Octets(_) => &[],
        }
    }
}

/// The octets of a number, the highest first, without zeros before it.
fn digits(number: usize) -> Vec<u8> {
    number.to_be_bytes().into_iter().skip_while(|&digit| digit == 0).collect()
}

/// The octets of a length, as few as can be.
fn minimal(length: usize) -> Vec<u8> {
    if length < 0x80 {
        vec![length as u8]
    } else {
        long(length, 0)
    }
}

/// The octets of a length in the long form, with zeros before it.
fn long(length: usize, zeros: usize) -> Vec<u8> {
    let digits = digits(length);
    let mut octets = vec![0x80 + (zeros + digits.len()) as u8];
    octets.resize(1 + zeros, 0);
    octets.extend(digits);
    octets
}

#[cfg(test)]
mod tests {
    use super::*;

    /// The header of a value of zeros.
    fn header(length: Length, zeros: usize) -> Vec<u8> {
        let value = Tlv { length, ..Tlv::octets(4, &vec![0; zeros]) };
        let mut octets = value.encode();
        octets.truncate(octets.len() - zeros);
        octets
    }

    #[test]
    fn lengths() {
        assert_eq!(header(Length::Minimal, 0), [4, 0]);
        assert_eq!(header(Length::Minimal, 127), [4, 0x7F]);
        assert_eq!(header(Length::Minimal, 128), [4, 0x81, 0x80]);
        assert_eq!(header(Length::Minimal, 256), [4, 0x82, 1, 0]);
        assert_eq!(header(Length::Long(0), 5), [4, 0x81, 5]);
        assert_eq!(header(Length::Long(2), 5), [4, 0x83, 0, 0, 5]);
        assert_eq!(header(Length::Long(1), 256), [4, 0x83, 0, 1, 0]);
        assert_eq!(header(Length::Off(1), 127), [4, 0x81, 0x80]);
        assert_eq!(header(Length::Off(-1), 128), [4, 0x7F]);
        assert_eq!(header(Length::Octets(vec![0x81]), 3), [4, 0x81]);
        let indefinite = Tlv { length: Length::Indefinite, ..Tlv::octets(0x24, &[4, 0]) };
        assert_eq!(indefinite.encode(), [0x24, 0x80, 4, 0, 0, 0]);
    }

    #[test]
    fn the_places_of_a_value() {
        let [first, second] = [0x2A, 0x2B].map(|octet| Tlv::identifier(&[octet]));
        let inner = Tlv::sequence(vec![first]);
        let mut whole = Tlv::sequence(vec![inner, second]);
        assert_eq!(whole.encode(), [0x30, 8, 0x30, 3, 6, 1, 0x2A, 6, 1, 0x2B]);
        assert_eq!(whole.count(), 4);
        let encoded: Vec<Vec<u8>> =
            (0..4).map(|place| whole.nth(place).unwrap().encode()).collect();
        assert_eq!(encoded[1..], [&[0x30, 3, 6, 1, 0x2A][..], &[6, 1, 0x2A], &[6, 1, 0x2B]]);
        assert!(whole.nth(4).is_none());
    }
}
