//! Records that no sheet gives, judged and written.

use reference::answer::NUMBERS;
use reference::path::{Path, MAX_CERTIFICATES, MAX_LIST};
use reference::random::FULL_KINDS;
use reference::random_record::{self, OTHERS};
use reference::repeats::Likeness;
use reference::{decoded, random, record};

use crate::run::{Run, BUFFERS};
use crate::{MORE, OFTEN};

/// The answers that a record can get.
const ANSWERS: [usize; 9] = [0, 3, 4, 5, 7, 8, 9, 10, 11];

/// The numbers put at two places at once.
const PAIRED: [u16; 3] = [0, 5, MAX_LIST as u16 + 1];

/// The records compared so far, by the answer expected.
#[derive(Default)]
struct Tally {
    times: [usize; NUMBERS],
}

impl Run {
    /// All families of records. Each answer must come up often.
    pub fn records(&mut self, records: u64) {
        let mut tally = Tally::default();
        self.damaged_records(&mut tally);
        self.two_faults(&mut tally);
        self.numbers_of_every_length(&mut tally);
        for _ in 0..records {
            let record = random_record::record(&mut self.random);
            self.record(&record, &mut tally);
        }
        println!("records: {}", tally.times.iter().sum::<usize>());
        for number in ANSWERS {
            self.often(number, tally.times[number], OFTEN, "records");
        }
    }

    /// One record, one set of tables and one buffer.
    fn record(&mut self, record: &[u16], tally: &mut Tally) {
        let lengths = self.draw_lengths();
        let answer = self.judge_record(record, lengths);
        tally.times[usize::from(answer.number)] += 1;
        let length = self.draw_length(&BUFFERS);
        self.write_record(record, length);
    }

    /// One record cut at every length, the whole too.
    fn every_cut(&mut self, record: &[u16], tally: &mut Tally) {
        for length in 0..=record.len() {
            self.record(&record[..length], tally);
        }
    }

    /// The records of a dozen paths: every cut, also with a number at fault and
    /// with a pair twice, and each of a few other numbers at every place.
    fn damaged_records(&mut self, tally: &mut Tally) {
        for path in self.dozen() {
            let record = random_record::odd(&path, &mut self.random);
            self.every_cut(&record, tally);
            let mut faulty = record::numbers(&path);
            random_record::change(&mut faulty, &mut self.random);
            self.every_cut(&faulty, tally);
            let mut repeated = path.clone();
            random::add_pair_like(&mut self.random, &mut repeated, Likeness::Same);
            self.every_cut(&record::numbers(&repeated), tally);
            for place in 0..record.len() {
                self.others_at(&record, place, tally);
            }
        }
    }

    /// Other numbers at one place of a record: a few, and the one before it.
    fn others_at(&mut self, record: &[u16], place: usize, tally: &mut Tally) {
        let before = place.checked_sub(1).map(|before| record[before]);
        for other in OTHERS.into_iter().chain(before) {
            let mut damaged = record.to_vec();
            damaged[place] = other;
            self.record(&damaged, tally);
        }
    }

    /// Every two faults at once: of a decoded path, with every cut as a third;
    /// and of single numbers.
    fn two_faults(&mut self, tally: &mut Tally) {
        for first in decoded::faults() {
            for second in decoded::faults() {
                let path = decoded::with_faults(&[first, second]);
                self.every_cut(&record::numbers(&path), tally);
            }
        }
        self.two_numbers(&decoded::with_faults(&[]), tally);
    }

    /// Each of a few numbers at every two places of a path's record.
    fn two_numbers(&mut self, path: &Path, tally: &mut Tally) {
        let record = record::numbers(path);
        for second in 0..record.len() {
            for first in 0..second {
                for one in PAIRED {
                    for other in PAIRED {
                        let mut damaged = record.clone();
                        (damaged[first], damaged[second]) = (one, other);
                        self.record(&damaged, tally);
                    }
                }
            }
        }
    }

    /// Random numbers of every length to some more than the longest record: any,
    /// small ones, small ones after the head of a path, and full records cut or
    /// lengthened.
    fn numbers_of_every_length(&mut self, tally: &mut Tally) {
        for length in 0..=record::LONGEST + MORE {
            let any = random_record::words(length, &mut self.random);
            self.record(&any, tally);
            let small = random_record::small_numbers(length, &mut self.random);
            self.record(&small, tally);
            let mut headed = record::numbers(&random::path(&mut self.random));
            headed.truncate(self.random.between(1, 20));
            headed.extend(small);
            headed.truncate(length);
            self.record(&headed, tally);
            let kind = self.random.pick(&FULL_KINDS);
            let path = random::full(kind, MAX_CERTIFICATES, &mut self.random);
            let mut full = record::numbers(&path);
            full.extend(any);
            full.truncate(length);
            self.record(&full, tally);
        }
    }
}
