//! The register of policy identifiers. The layout is that of include/judge.h,
//! whose words are quoted here.

use crate::der;
use crate::path::ANY;

/// "20, where the register is not as said"
pub const BAD_REGISTER: u8 = 20;

/// "the number of entries, 0 to 512"
pub const MOST: usize = 512;

/// "the length of the entry at position k, 1 to 32"
pub const LONGEST: usize = 32;

/// "anyPolicy, 55 1D 20 00 hex, is always 1 and is no entry."
pub const ANY_POLICY: [u8; 4] = [0x55, 0x1D, 0x20, 0x00];

/// The bytes of the count, and of a position.
const WORD: usize = 2;

/// The bytes of an entry: its length, then its octets.
const ENTRY: usize = 1 + LONGEST;

/// Where the order stands, and the entries.
const ORDER: usize = WORD;
const ENTRIES: usize = ORDER + MOST * WORD;

/// "the bytes of a register"
pub const BYTES: usize = ENTRIES + MOST * ENTRY;

/// Where a place of the order stands.
pub fn order_start(place: usize) -> usize {
    ORDER + place * WORD
}

/// Where the entry at a position stands.
pub fn entry_start(position: usize) -> usize {
    ENTRIES + position * ENTRY
}

/// "The entry at position k has policy number k + 2."
pub fn number(position: usize) -> u16 {
    position as u16 + ANY + 1
}

/// A lent register that is as it should be.
pub struct Register<'r> {
    bytes: &'r mut [u8; BYTES],
    count: usize,
}

impl<'r> Register<'r> {
    /// Looks a register through once, in its order: "Each entry is valid
    /// content of a DER identifier, and no two are alike: in ascending order,
    /// octet by octet, each is above the one before it." Then no position
    /// stands twice in the order, and each entry has been looked at.
    pub fn open(bytes: &'r mut [u8; BYTES]) -> Result<Register<'r>, u8> {
        let count = get_word([bytes[0], bytes[1]]);
        if count > MOST {
            return Err(BAD_REGISTER);
        }
        let register = Register { bytes, count };
        let mut before: &[u8] = &[];
        for &position in register.order() {
            let entry = register.entry(position).ok_or(BAD_REGISTER)?;
            if entry <= before || entry == ANY_POLICY || !der::is_identifier(entry) {
                return Err(BAD_REGISTER);
            }
            before = entry;
        }
        Ok(register)
    }

    /// The number of entries.
    pub fn count(&self) -> usize {
        self.count
    }

    /// The positions of the entries in ascending order.
    fn order(&self) -> &[[u8; WORD]] {
        let (order, _) = self.bytes[ORDER..ENTRIES].as_chunks();
        &order[..self.count]
    }

    /// The octets of the entry at a position; none where no entry has this
    /// position, or its length is above 32.
    fn entry(&self, position: [u8; WORD]) -> Option<&[u8]> {
        let (entries, _) = self.bytes[ENTRIES..].as_chunks::<ENTRY>();
        let [length, octets @ ..] = entries[..self.count].get(get_word(position))?;
        octets.get(..usize::from(*length))
    }

    /// The place of an identifier in the order, or else the place at which it
    /// would be inserted.
    fn search(&self, identifier: &[u8]) -> Result<usize, usize> {
        self.order().binary_search_by(|&position| self.entry(position).cmp(&Some(identifier)))
    }

    /// The policy number of an identifier, if it is an entry.
    pub fn find(&self, identifier: &[u8]) -> Option<u16> {
        let place = self.search(identifier).ok()?;
        Some(number(get_word(self.order()[place])))
    }

    /// Enters an identifier that is new and for which there is room: "its entry
    /// is written, its position inserted in the order, and the number of
    /// entries raised; the other bytes of the register are as they were".
    pub fn enter(&mut self, identifier: &[u8]) {
        let (Ok(place) | Err(place)) = self.search(identifier);
        let position = self.count;
        put_entry(self.bytes, position, identifier);
        let later = order_start(place)..order_start(position);
        self.bytes.copy_within(later, order_start(place + 1));
        put_position(self.bytes, place, position);
        self.count += 1;
        put_count(self.bytes, self.count);
    }
}

/// A number of two bytes, "the high byte first".
fn get_word(word: [u8; WORD]) -> usize {
    usize::from(u16::from_be_bytes(word))
}

/// Writes such a number.
fn put_word(bytes: &mut [u8; BYTES], start: usize, number: usize) {
    bytes[start..start + WORD].copy_from_slice(&(number as u16).to_be_bytes());
}

/// Writes "the number of entries".
pub fn put_count(bytes: &mut [u8; BYTES], count: usize) {
    put_word(bytes, 0, count);
}

/// Writes "the position of the entry that is the i-th in ascending order".
pub fn put_position(bytes: &mut [u8; BYTES], place: usize, position: usize) {
    put_word(bytes, order_start(place), position);
}

/// Writes "the length of the entry at position k" and "its octets".
pub fn put_entry(bytes: &mut [u8; BYTES], position: usize, identifier: &[u8]) {
    let entry = &mut bytes[entry_start(position)..][..=identifier.len()];
    entry[0] = identifier.len() as u8;
    entry[1..].copy_from_slice(identifier);
}

/// Writes the register of identifiers, the first at position 0, and leaves the
/// bytes that never matter.
pub fn write<I: AsRef<[u8]>>(identifiers: &[I], bytes: &mut [u8; BYTES]) {
    let mut order: Vec<usize> = (0..identifiers.len()).collect();
    order.sort_by_key(|&position| identifiers[position].as_ref());
    put_count(bytes, identifiers.len());
    for (place, position) in order.into_iter().enumerate() {
        put_position(bytes, place, position);
    }
    for (position, identifier) in identifiers.iter().enumerate() {
        put_entry(bytes, position, identifier.as_ref());
    }
}

/// The register of identifiers, with zeros in the bytes that never matter.
pub fn of<I: AsRef<[u8]>>(identifiers: &[I]) -> Box<[u8; BYTES]> {
    let mut bytes = Box::new([0; BYTES]);
    write(identifiers, &mut bytes);
    bytes
}

/// The identifiers of a register that is as it should be, by position.
pub fn identifiers(bytes: &[u8; BYTES]) -> Vec<&[u8]> {
    let (entries, _) = bytes[ENTRIES..].as_chunks::<ENTRY>();
    let entries = &entries[..get_word([bytes[0], bytes[1]])];
    entries.iter().map(|entry| &entry[1..][..usize::from(entry[0])]).collect()
}

#[cfg(test)]
mod tests {
    use super::*;

    /// Three identifiers, of which the second is the least and the first the
    /// start of the last.
    const THREE: [&[u8]; 3] = [&[0x2A, 0x03], &[0x2A, 0x02, 0x7F], &[0x2A, 0x03, 0x00]];

    /// The same register byte by byte.
    fn three_by_hand() -> Box<[u8; BYTES]> {
        let mut bytes = Box::new([0; 17_922]);
        bytes[..8].copy_from_slice(&[0, 3, 0, 1, 0, 0, 0, 2]);
        bytes[1_026..1_029].copy_from_slice(&[2, 0x2A, 0x03]);
        bytes[1_059..1_063].copy_from_slice(&[3, 0x2A, 0x02, 0x7F]);
        bytes[1_092..1_096].copy_from_slice(&[3, 0x2A, 0x03, 0x00]);
        bytes
    }

    /// 512 identifiers, none of them with its neighbours in order.
    fn full() -> Vec<[u8; 3]> {
        (0..512u16).map(|k| k * 37 % 512).map(|k| [0x2B, (k / 8) as u8, (k % 8) as u8]).collect()
    }

    fn is_good(bytes: &[u8; BYTES]) -> bool {
        let mut copy = Box::new(*bytes);
        match Register::open(&mut copy) {
            Ok(_) => true,
            Err(number) => {
                assert_eq!(number, 20);
                false
            }
        }
    }

    #[test]
    fn the_layout_of_the_header() {
        assert_eq!((ORDER, ENTRIES, ENTRY, BYTES), (2, 1_026, 33, 17_922));
        assert_eq!(of(&THREE), three_by_hand());
        assert_eq!(identifiers(&of(&THREE)), THREE);
        let bytes = of(&full());
        assert_eq!(bytes[..2], [2, 0]);
        assert_eq!(bytes[17_889..17_893], [3, 0x2B, 59, 3]);
    }

    #[test]
    fn numbers_go_from_2_to_513() {
        let mut bytes = of(&full());
        let register = Register::open(&mut bytes).unwrap();
        assert_eq!(register.count(), 512);
        for (position, identifier) in (2..).zip(full()) {
            assert_eq!(register.find(&identifier), Some(position));
        }
        assert_eq!(register.find(&[0x2B, 0x3F, 0x08]), None);
        assert_eq!(register.find(&[0x2B, 0x3F]), None);
        assert_eq!(register.find(&[0x2B, 0x00, 0x00, 0x00]), None);
        assert_eq!(register.find(&[0x00]), None);
    }

    #[test]
    fn entering_one_by_one_gives_the_same_register() {
        let mut bytes = Box::new([0; BYTES]);
        let mut register = Register::open(&mut bytes).unwrap();
        for identifier in THREE {
            assert_eq!(register.find(identifier), None);
            register.enter(identifier);
        }
        assert_eq!(THREE.map(|identifier| register.find(identifier)), [Some(2), Some(3), Some(4)]);
        assert_eq!(bytes, three_by_hand());
        let mut bytes = Box::new([0; BYTES]);
        let mut register = Register::open(&mut bytes).unwrap();
        full().iter().for_each(|identifier| register.enter(identifier));
        assert_eq!(bytes, of(&full()));
        assert!(is_good(&bytes));
    }

    #[test]
    fn other_bytes_stay() {
        let mut bytes = Box::new([0xEE; BYTES]);
        write(&THREE[..2], &mut bytes);
        let mut expected = bytes.clone();
        expected[..8].copy_from_slice(&[0, 3, 0, 1, 0, 0, 0, 2]);
        expected[1_092..1_096].copy_from_slice(&[3, 0x2A, 0x03, 0x00]);
        Register::open(&mut bytes).unwrap().enter(THREE[2]);
        assert_eq!(bytes, expected);
    }

    #[test]
    fn entries_at_their_limits() {
        assert!(is_good(&[0; BYTES]));
        assert!(is_good(&of(&[[0x00]])));
        assert!(is_good(&of(&[[0x2A; 32]])));
        assert!(is_good(&of(&[[0x55, 0x1D, 0x20, 0x01]])));
        assert!(is_good(&of(&[&[0x55, 0x1D, 0x20][..], &[0x55, 0x1D, 0x20, 0x00, 0x00]])));
        let mut bytes = of(&full());
        assert!(is_good(&bytes));
        for count in [513, 514, 1_024, 0x8000, 65_535] {
            put_count(&mut bytes, count);
            assert!(!is_good(&bytes));
        }
    }

    #[test]
    fn bad_entries() {
        for position in 0..3 {
            for length in [0, 33, 34, 128, 255] {
                let mut bytes = three_by_hand();
                bytes[1_026 + 33 * position] = length;
                assert!(!is_good(&bytes), "{position} {length}");
            }
        }
        assert!(!is_good(&of(&[ANY_POLICY])));
        assert!(!is_good(&of(&[&[0x2A][..], &ANY_POLICY, &[0x7F]])));
        for octets in [&[0x80][..], &[0x80, 0x01], &[0x2A, 0x80, 0x01], &[0x2A, 0x81]] {
            assert!(!is_good(&of(&[octets])));
            assert!(!is_good(&of(&[&[0x00][..], octets, &[0xFF, 0x7F]])));
        }
        assert!(!is_good(&of(&[&[0x2A][..], &[0x2A]])));
        assert!(!is_good(&of(&[&[0x2A][..], &[0x2A, 0x01], &[0x2A]])));
    }

    #[test]
    fn bad_orders() {
        for order in [[0, 1, 2], [1, 2, 0], [2, 1, 0], [1, 0, 0], [1, 1, 2], [1, 0, 3], [1, 0, 512]]
        {
            let mut bytes = three_by_hand();
            for (place, position) in order.into_iter().enumerate() {
                put_position(&mut bytes, place, position);
            }
            assert!(!is_good(&bytes), "{order:?}");
        }
        // The high byte of a position counts.
        let mut bytes = three_by_hand();
        bytes[2] = 1;
        assert!(!is_good(&bytes));
    }

    #[test]
    fn bytes_beyond_never_matter() {
        let mut bytes = Box::new([0xEE; BYTES]);
        write(&THREE, &mut bytes);
        assert!(is_good(&bytes));
        put_count(&mut bytes, 4);
        assert!(!is_good(&bytes));
        put_count(&mut bytes, 2);
        assert!(is_good(&bytes));
        put_count(&mut bytes, 1);
        assert!(!is_good(&bytes));
    }
}
