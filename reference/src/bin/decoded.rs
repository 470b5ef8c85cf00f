//! Writes records of decoded paths, and the lines that the proved program
//! `path_check` is expected to write for them.
//!
//! Arguments: the folder for the files `stdin` and `stdout`; the seed (1); the
//! number of random paths (20000). With no random path they are the files
//! stored in crates/path_check.

use std::path::PathBuf;
use std::{env, fs, io};

use reference::answer::PLACES;
use reference::decoded::{self, Fault, Lengths, BUFFER_BYTES, ENOUGH, TABLE_PLACES};
use reference::known;
use reference::path::{Path, MAX_CERTIFICATES, MAX_LIST};
use reference::random::{self, Random, FULL_KINDS};
use reference::sheet::LONGEST;

/// The records and lines so far.
struct Files {
    random: Random,
    count: u16,
    records: Vec<u8>,
    lines: String,
}

impl Files {
    /// One path, with old values and faults in its unused places.
    fn add(&mut self, path: &Path, lengths: Lengths) {
        let random = &mut self.random;
        let mut unused = || random.pick(&[0, 1, 5, 5, 6, MAX_LIST as u16 + 1, 65_535]);
        self.records.extend(decoded::record(path, lengths, &mut unused));
        self.lines += &decoded::line(path, lengths);
        self.count += 1;
    }

    /// One path with tables and a buffer that suffice, that are one place
    /// short, and that are longer.
    fn add_lengths(&mut self, path: &Path) {
        self.add(path, ENOUGH);
        self.add(path, Lengths { authority: PLACES - 1, ..ENOUGH });
        self.add(path, Lengths { user: PLACES - 1, buffer: LONGEST - 1, ..ENOUGH });
        let more = Lengths { authority: TABLE_PLACES, user: PLACES + 1, buffer: BUFFER_BYTES };
        self.add(path, more);
    }

    /// The stored files: the known paths, one of them with each length, each
    /// fault, and two faults at once.
    fn stored(&mut self) {
        for path in known_paths() {
            self.add(&path, ENOUGH);
        }
        self.add_lengths(&known::rows()[0].path);
        for fault in decoded::faults() {
            self.add(&decoded::with_faults(&[fault]), ENOUGH);
        }
        let few = [
            Fault::UserZero,
            Fault::OnePolicyMore(0),
            Fault::PolicyRepeats(0),
            Fault::OnePairMore(0),
            Fault::PairRepeats(0),
            Fault::SubjectZero(0),
            Fault::PolicyRepeats(1),
        ];
        for (place, &first) in few.iter().enumerate() {
            for &second in &few[place + 1..] {
                self.add(&decoded::with_faults(&[first, second]), ENOUGH);
            }
        }
    }

    /// The known paths, full ones, and every one and every two faults, all
    /// with each length.
    fn each_length(&mut self) {
        for path in known_paths() {
            self.add_lengths(&path);
        }
        for kind in FULL_KINDS {
            let path = random::full(kind, MAX_CERTIFICATES, &mut self.random);
            self.add_lengths(&path);
        }
        for first in decoded::faults() {
            for second in decoded::faults() {
                let both = [first, second];
                let faults = if first == second { &both[..1] } else { &both[..] };
                self.add_lengths(&decoded::with_faults(faults));
            }
        }
    }

    /// A random path, faulty more often than not, with random lengths.
    fn random_path(&mut self) {
        let random = &mut self.random;
        let path =
            if random.chance(40) { random::path(random) } else { random::overlong_path(random) };
        let length = |random: &mut Random, exact: usize, most: usize| {
            random.pick(&[0, exact - 1, exact, exact, exact, exact, exact + 1, most])
        };
        let lengths = Lengths {
            authority: length(random, PLACES, TABLE_PLACES),
            user: length(random, PLACES, TABLE_PLACES),
            buffer: length(random, LONGEST, BUFFER_BYTES),
        };
        self.add(&path, lengths);
    }
}

/// The known paths, those that are refused too.
fn known_paths() -> Vec<Path> {
    let refused = known::refused_rows().into_iter().map(|row| row.path);
    known::rows().into_iter().map(|row| row.path).chain(refused).collect()
}

fn main() -> io::Result<()> {
    let mut arguments = env::args().skip(1);
    let folder = PathBuf::from(arguments.next().expect("a folder"));
    let mut numbers = arguments.map(|word| word.parse::<u64>().expect("a number"));
    let seed = numbers.next().unwrap_or(1);
    let paths = numbers.next().unwrap_or(20_000);
    let random = Random::new(seed);
    let mut files = Files { random, count: 0, records: Vec::new(), lines: String::new() };
    if paths == 0 {
        files.stored();
    } else {
        files.each_length();
    }
    for _ in 0..paths {
        files.random_path();
    }
    let mut input = files.count.to_be_bytes().to_vec();
    input.extend(files.records);
    fs::write(folder.join("stdin"), input)?;
    fs::write(folder.join("stdout"), files.lines)?;
    println!("seed {seed}, {} decoded paths", files.count);
    Ok(())
}
