//! Pairs that repeat within one certificate, and pairs that almost do: on sheets,
//! in records and in extensions. And which numbers are refusals.

use reference::answer::Answer;
use reference::beside::{JUDGE_RECORD, JUDGE_SHEET};
use reference::lent::{Lengths, ENOUGH};
use reference::random_extensions::Input;
use reference::register::BYTES;
use reference::repeats::{self, Alike, Likeness};
use reference::sheet::{self, ENDS_EARLY, LONGEST, REPEATED_PAIR};
use reference::{judge, known, known_extensions, record};

use crate::run::{Judgement, Run};
use crate::DAMAGE_CAP;

impl Run {
    /// All families of repeats.
    pub fn repeats(&mut self) {
        self.refusals();
        self.refused_rows();
        for alike in repeats::in_full_lists() {
            self.alike(&alike);
            self.alike_in_extensions(&alike);
        }
        for row in known_extensions::refused_rows() {
            if row.number == REPEATED_PAIR {
                self.damaged_values(&row.input());
            }
        }
    }

    /// Every number: whether the judge refuses with it.
    fn refusals(&mut self) {
        for number in 0..=u8::MAX {
            let expected = Answer::bare(number, 0).is_refusal();
            let what = || format!("refuses differs, expected {expected}, of the number");
            self.check(judge::refuses(number) == expected, what, &[number]);
        }
    }

    /// The known paths that are refused, as sheets and as records, with all
    /// lengths, every cut, every one-bit damage and a byte more.
    fn refused_rows(&mut self) {
        for row in known::refused_rows() {
            let (sheet, record) = (sheet::write(&row.path), record::numbers(&row.path));
            let refused = Answer::bare(row.number, 0);
            let judgement = Judgement::of(&JUDGE_SHEET, &sheet, ENOUGH, &mut self.random);
            self.check(judgement.shows(&refused), || format!("row {}", row.name), &sheet);
            let judgement = Judgement::of(&JUDGE_RECORD, &record, ENOUGH, &mut self.random);
            self.check(judgement.shows(&refused), || format!("row {}", row.name), &record);
            self.all_lengths(&sheet);
            for lengths in Lengths::all() {
                self.judge_record(&record, lengths);
            }
            self.write_record(&record, LONGEST);
            for length in 0..=sheet.len() {
                let number = if length < row.bytes { ENDS_EARLY } else { row.number };
                self.answered_with(&sheet[..length], Some(number), row.name);
            }
            for bit in 0..sheet.len() * 8 {
                let mut damaged = sheet.clone();
                damaged[bit / 8] ^= 0x80 >> (bit % 8);
                self.once(&damaged, DAMAGE_CAP);
            }
            self.byte_more(&sheet);
        }
    }

    /// One sheet that is refused with a number, or gets a verdict.
    fn answered_with(&mut self, sheet: &[u8], refusal: Option<u8>, name: &str) {
        self.once(sheet, DAMAGE_CAP);
        let answer = self.judge(sheet, ENOUGH, DAMAGE_CAP);
        let refused = answer.is_refusal().then_some(answer.number);
        let what = || format!("{name}: answered {}, not {refusal:?}", answer.number);
        self.check(refused == refusal, what, sheet);
    }

    /// Two pairs of a full list, on a sheet and in a record. Of the same pair the
    /// sheet is also cut after the second subject, and a byte before its end.
    fn alike(&mut self, alike: &Alike) {
        let (path, end) = (alike.path(), alike.end());
        let (sheet, record) = (sheet::write(&path), record::numbers(&path));
        let same = alike.likeness == Likeness::Same;
        let name = format!("{:?} at {}", alike.likeness, alike.place);
        self.answered_with(&sheet, same.then_some(REPEATED_PAIR), &name);
        if same {
            self.answered_with(&sheet[..end], Some(REPEATED_PAIR), &name);
            self.answered_with(&sheet[..end - 1], Some(ENDS_EARLY), &name);
        }
        let answer = self.judge_record(&record, ENOUGH);
        self.check(answer.is_refusal() == same, || format!("{name}, record"), &record);
        self.write_record(&record, LONGEST);
    }

    /// The same two pairs in extensions.
    fn alike_in_extensions(&mut self, alike: &Alike) {
        let input = Input::new(alike.draft().encode(), 0, &[0; BYTES]);
        let expected = self.read_extensions(&input);
        let same = alike.likeness == Likeness::Same;
        let what = || format!("{:?} at {} in extensions", alike.likeness, alike.place);
        self.check::<u8>((expected.number == REPEATED_PAIR) == same, what, &[]);
    }
}
