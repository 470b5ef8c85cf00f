//! The proved functions that judge, each beside the plain one.

use crate::answer::{self, Answer};
use crate::judge::{self, Judging};

/// A function of the library that judges sheets or records, and the plain one
/// that is held beside it.
pub struct Judges<I> {
    pub name: &'static str,
    pub proved: Judging<I>,
    pub plain: fn(&[I], &mut [u16], &mut [u16]) -> Answer,
}

pub const JUDGE_SHEET: Judges<u8> =
    Judges { name: "judge_sheet", proved: judge::judge_sheet, plain: answer::judge_sheet };

pub const JUDGE_RECORD: Judges<u16> =
    Judges { name: "judge_record", proved: judge::judge_record, plain: answer::judge_record };
