//! Extensions: the proved reader against the plain one.

use std::{fs, io};

use reference::extensions::{self, Extensions, ANSWERS, PLACES};
use reference::judge::{self, Written};
use reference::known_extensions::{self, Row, STANDINGS};
use reference::lent::Lent;
use reference::random::Random;
use reference::random_extensions::{self, Input, Registers, Value};
use reference::register::{self, entry_start, order_start, BYTES};
use reference::{extension_faults, x509};

use crate::run::{hex, Run};

/// The least number of random inputs that each answer must get.
const OFTEN: usize = 1_000;

/// The folder of real certificates.
const CERTIFICATES: &str = concat!(env!("CARGO_MANIFEST_DIR"), "/../examples/certificates");

/// The identifiers of the qualifiers of RFC 5280, which must be among the real
/// ones.
const CPS: [u8; 8] = [0x2B, 0x06, 0x01, 0x05, 0x05, 0x07, 0x02, 0x01];
const USER_NOTICE: [u8; 8] = [0x2B, 0x06, 0x01, 0x05, 0x05, 0x07, 0x02, 0x02];

/// Lengths of lent registers.
const REGISTERS: [usize; 5] = [0, BYTES - 1, BYTES, BYTES + 1, 20_000];

/// Lengths of lent certificates.
const LENT_PLACES: [usize; 5] = [0, PLACES - 1, PLACES, PLACES + 1, 2 * PLACES];

/// What the plain reader answers and leaves.
pub struct Expected {
    pub number: u8,
    length: usize,
    register: Vec<u8>,
    certificate: Vec<u16>,
}

impl Expected {
    /// Whether it is what a row says.
    fn shows(&self, row: &Row) -> bool {
        self.number == row.number
            && self.register == register::of(&row.entered())[..]
            && self.certificate[..self.length] == row.certificate
            && self.certificate[self.length..].iter().all(|&place| place == 0)
    }
}

/// An input in words and hex; of its register the length and the count.
fn describe(input: &Input) -> String {
    let values = input.values.each_ref().map(|value| hex(value.octets()));
    let Input { self_issued, register, places, .. } = input;
    let (bytes, values) = (register.len(), values.join(" | "));
    let count = hex(&register[..bytes.min(2)]);
    format!("{places} places, register {bytes} bytes, count {count}, flag {self_issued}: {values}")
}

/// The real certificates: each file's name and octets.
fn certificate_files() -> io::Result<Vec<(String, Vec<u8>)>> {
    let mut files = Vec::new();
    for entry in fs::read_dir(CERTIFICATES)? {
        let path = entry?.path();
        if path.extension().is_some_and(|extension| extension == "der") {
            files.push((path.display().to_string(), fs::read(&path)?));
        }
    }
    files.sort();
    Ok(files)
}

/// The values of a certificate's extensions, each with the octets that follow it
/// in the certificate.
fn real_values(certificate: &[u8]) -> Result<[Value; 4], u8> {
    let values = x509::policy_extensions(certificate)?;
    Ok(values.map(|value| {
        if value.is_empty() {
            return Value::default();
        }
        let start = value.as_ptr() as usize - certificate.as_ptr() as usize;
        Value { buffer: certificate[start..].to_vec(), length: value.len() }
    }))
}

impl Run {
    /// All families of inputs. Each answer must come up often.
    pub fn extensions(&mut self, inputs: u64) {
        let mut times = [0; 21];
        self.known_extensions();
        self.damaged_extensions();
        self.damaged_registers();
        self.certificates();
        let mut registers = Registers::new(&mut self.random);
        for _ in 0..inputs {
            let input = random_extensions::input(&mut self.random, &mut registers);
            let expected = self.read_extensions(&input);
            times[usize::from(expected.number)] += 1;
            if expected.number == 0 {
                registers.keep(&expected.register);
            }
        }
        for number in ANSWERS.map(usize::from) {
            self.often(number, times[number], OFTEN, "random extensions");
        }
    }

    /// One input: the proved reader against the plain one. The result, every
    /// byte of the register and every place of the certificate are compared, and
    /// the values and all guards with what they were.
    pub fn read_extensions(&mut self, input: &Input) -> Expected {
        let random = &mut self.random;
        let mut lend = |buffer: &[u8], length| Lent::part(buffer, length, random, Random::byte);
        let mut values = input.values.each_ref().map(|value| lend(&value.buffer, value.length));
        let mut register = lend(&input.register, input.register.len());
        let mut certificate = Lent::new(input.places, random, Random::word);

        let [policies, mappings, constraints, inhibit_any] =
            values.each_mut().map(|value| &*value.slice());
        let self_issued = input.self_issued;
        let lent = Extensions { policies, mappings, constraints, inhibit_any, self_issued };
        let got = judge::read_extensions(lent, register.slice(), certificate.slice());

        let (mut bytes, mut places) = (register.old(), certificate.old());
        let (number, length) = extensions::read_into(input.extensions(), &mut bytes, &mut places);
        let same = [
            ("result", got == Written { number, length }),
            ("register", register.holds(&bytes)),
            ("certificate", certificate.holds(&places)),
            ("values", values.iter().all(Lent::is_unchanged)),
        ];
        let what = || {
            let differing = same.iter().filter(|(_, same)| !same).map(|&(part, _)| part);
            let (parts, input) = (differing.collect::<Vec<_>>().join(", "), describe(input));
            format!("read_extensions differs, {parts}: {got:?}, plain {number} {length}, {input}")
        };
        self.check::<u8>(same.iter().all(|&(_, same)| same), what, &[]);
        Expected { number, length, register: bytes, certificate: places }
    }

    /// The worked values, also with all lengths of registers and certificates,
    /// and with bad registers.
    fn known_extensions(&mut self) {
        let rows = [known_extensions::read_rows(), known_extensions::refused_rows()].concat();
        for row in &rows {
            let input = row.input();
            let expected = self.read_extensions(&input);
            let what = || format!("extensions, row {}", row.name);
            self.check::<u8>(expected.shows(row), what, &[]);
            for length in REGISTERS {
                let mut register = input.register.clone();
                register.resize(length, 0xEE);
                for places in LENT_PLACES {
                    self.read_extensions(&Input {
                        register: register.clone(),
                        places,
                        ..input.clone()
                    });
                }
            }
            let mut register = register::of(&row.standing.identifiers());
            extension_faults::spoil_register(&mut self.random, &mut register);
            self.read_extensions(&Input { register: register.to_vec(), ..input });
        }
    }

    /// Every one-bit damage and every cut of the worked values that are read,
    /// with each register.
    fn damaged_extensions(&mut self) {
        for row in known_extensions::read_rows() {
            for standing in STANDINGS {
                self.damaged_values(&Row { standing, ..row.clone() }.input());
            }
        }
    }

    /// Every one-bit damage and every cut of the values of an input. The octets
    /// that a cut takes off still follow the value.
    pub fn damaged_values(&mut self, input: &Input) {
        let mut damaged = input.clone();
        for (place, value) in input.values.iter().enumerate() {
            for bit in 0..value.length * 8 {
                let mask = 0x80 >> (bit % 8);
                damaged.values[place].buffer[bit / 8] ^= mask;
                self.read_extensions(&damaged);
                damaged.values[place].buffer[bit / 8] ^= mask;
            }
            for length in 0..value.length {
                damaged.values[place].length = length;
                self.read_extensions(&damaged);
            }
            damaged.values[place].length = value.length;
        }
    }

    /// Every one-bit damage of a register's count, of its first places in the
    /// order and of its first entries, some of which may not be in use, and some
    /// one-bit damage of the rest.
    fn damaged_registers(&mut self) {
        for row in known_extensions::read_rows() {
            let mut damaged = row.input();
            let first = (0..order_start(3)).chain(entry_start(0)..entry_start(3));
            let mut bits: Vec<usize> = first.flat_map(|byte| 8 * byte..8 * byte + 8).collect();
            bits.extend((0..200).map(|_| self.random.below(8 * BYTES)));
            for bit in bits {
                damaged.register[bit / 8] ^= 0x80 >> (bit % 8);
                self.read_extensions(&damaged);
                damaged.register[bit / 8] ^= 0x80 >> (bit % 8);
            }
        }
    }

    /// The real certificates, one after another with one register, and every
    /// one-bit damage and every cut of their values.
    fn certificates(&mut self) {
        let files = certificate_files().unwrap_or_default();
        let what = || format!("no certificates (*.der) in {CERTIFICATES}");
        self.check::<u8>(!files.is_empty(), what, &[]);
        let mut register = vec![0; BYTES];
        let mut policies = Vec::new();
        let mut present = [false; 4];
        for (name, octets) in &files {
            let read = real_values(octets);
            self.check(read.is_ok(), || format!("no certificate: {name}"), octets);
            let Ok(values) = read else { continue };
            for (present, value) in present.iter_mut().zip(&values) {
                *present |= value.length > 0;
            }
            policies.extend_from_slice(values[0].octets());
            let input = Input { values, self_issued: 0, register, places: PLACES };
            register = self.read_extensions(&input).register;
            self.damaged_values(&input);
        }
        println!("real certificates: {}", files.len());
        let qualified = [CPS, USER_NOTICE]
            .iter()
            .all(|qualifier| policies.windows(qualifier.len()).any(|octets| octets == qualifier));
        let whole = qualified && present == [true; 4];
        let what = || format!("of the real values one is missing: {present:?}, {qualified}");
        self.check::<u8>(whole, what, &[]);
    }
}
