//! Random records, most of them such as no sheet gives: with any numbers as
//! flags and skip values, with numbers after the record, cut, and at fault.

use crate::path::{Path, MAX_CERTIFICATES, MAX_LIST};
use crate::random::{self, Random};
use crate::record::{self, CERTIFICATE_HEAD};

/// Flags that are set: their lowest bit or their lowest byte may be 0.
const FLAGS: [u16; 6] = [1, 2, 255, 256, 32_768, 65_535];

/// Skip numbers: absent, small, and around the multiples of 256.
const SKIPS: [u16; 12] = [0, 1, 2, 3, 255, 256, 257, 258, 512, 513, 32_768, 65_535];

/// The limits of n and of a list.
const MOST: u16 = MAX_CERTIFICATES as u16;
const MOST_LISTED: u16 = MAX_LIST as u16;

/// Numbers to put in place of others: at the limits of counts, and faults.
pub const OTHERS: [u16; 9] = [0, 1, 2, MOST, MOST + 1, MOST_LISTED, MOST_LISTED + 1, 256, 65_535];

/// The record of a path, its flags and skip values written as any numbers, and
/// with numbers after it now and then.
pub fn odd(path: &Path, random: &mut Random) -> Vec<u16> {
    let mut record = record::numbers(path);
    let starts = record::starts(path);
    for place in (1..4).chain(starts.iter().copied()) {
        if record[place] != 0 {
            record[place] = random.pick(&FLAGS);
        }
    }
    for start in starts {
        for number in &mut record[start + 3..start + CERTIFICATE_HEAD] {
            if random.chance(8) {
                *number = random.pick(&SKIPS);
            }
        }
    }
    if random.chance(40) {
        record.extend(words(random.below(60), random));
    }
    record
}

/// So many random numbers.
pub fn words(length: usize, random: &mut Random) -> Vec<u16> {
    (0..length).map(|_| random.word()).collect()
}

/// So many random numbers that pass for counts or for policies more often
/// than not.
pub fn small_numbers(length: usize, random: &mut Random) -> Vec<u16> {
    let most = random.pick(&[2, 5, MAX_CERTIFICATES + 2, MAX_LIST + 2, 2 * MAX_LIST]);
    (0..length).map(|_| random.below(most) as u16).collect()
}

/// Another number at a random place: one of the record's own, so that policies
/// and pairs repeat, or one of `OTHERS`, or any.
pub fn change(record: &mut [u16], random: &mut Random) {
    if !record.is_empty() {
        let place = random.below(record.len());
        record[place] = match random.below(4) {
            0 => random.word(),
            1 => random.pick(&OTHERS),
            2 => 0,
            _ => random.pick(record),
        };
    }
}

/// The record without some of its last numbers.
fn cut(mut record: Vec<u16>, random: &mut Random) -> Vec<u16> {
    record.truncate(random.below(record.len()));
    record
}

/// The same, or the whole record more often than not.
fn cut_or_whole(record: Vec<u16>, random: &mut Random) -> Vec<u16> {
    if random.chance(30) {
        cut(record, random)
    } else {
        record
    }
}

/// A random record: well-formed, or damaged in one of the ways below, of which
/// two may come together.
pub fn record(random: &mut Random) -> Vec<u16> {
    match random.below(22) {
        0..=10 => odd(&random::path(random), random),
        11 => cut(odd(&random::path(random), random), random),
        12 => small_numbers(random.below(100), random),
        13..=15 => {
            let mut record = odd(&random::path(random), random);
            for _ in 0..random.between(1, 2) {
                change(&mut record, random);
            }
            record
        }
        16..=17 => {
            let mut path = random::path(random);
            random::repeat_pair(random, &mut path);
            if random.chance(25) {
                random::repeat_policy(random, &mut path);
            }
            let mut record = odd(&path, random);
            if random.chance(25) {
                change(&mut record, random);
            }
            cut_or_whole(record, random)
        }
        _ => {
            let record = odd(&random::overlong_path(random), random);
            cut_or_whole(record, random)
        }
    }
}

#[cfg(test)]
mod tests {
    use super::*;
    use crate::answer::NUMBERS;
    use crate::record::path_of;
    use crate::sheet;

    #[test]
    fn an_odd_record_is_its_path_but_for_skip_values() {
        let mut random = Random::new(3);
        for _ in 0..1_000 {
            let mut path = random::path(&mut random);
            let mut read = path_of(&odd(&path, &mut random)).unwrap();
            for certificate in path.certificates.iter_mut().chain(&mut read.certificates) {
                certificate.require_explicit_policy = None;
                certificate.inhibit_policy_mapping = None;
                certificate.inhibit_any_policy = None;
            }
            assert_eq!(read, path);
        }
    }

    #[test]
    fn a_faulty_path_has_the_same_refusal_as_a_record() {
        let mut random = Random::new(4);
        for _ in 0..1_000 {
            let path = random::overlong_path(&mut random);
            let refusal = path_of(&odd(&path, &mut random)).map(|_| ());
            assert_eq!(refusal, sheet::refusal(&path));
        }
    }

    #[test]
    fn random_records_get_every_refusal() {
        let mut random = Random::new(5);
        let mut times = [0; NUMBERS];
        for _ in 0..1_000 {
            let refused = path_of(&record(&mut random)).err().unwrap_or(0);
            times[usize::from(refused)] += 1;
        }
        assert!([0, 3, 4, 5, 11].into_iter().all(|number| times[number] >= 20), "{times:?}");
    }
}
