//! The proved judge, called through its C functions.

use crate::extensions::Extensions;

extern "C" {
    fn skandrulo_judge_sheet(
        sheet: *const u8,
        sheet_len: usize,
        authority: *mut u16,
        authority_len: usize,
        user: *mut u16,
        user_len: usize,
        counts: *mut u16,
        counts_len: usize,
        counters: *mut u16,
        counters_len: usize,
    ) -> u32;

    fn skandrulo_refuses(number: u8) -> u8;

    fn skandrulo_rewrite_sheet(
        sheet: *const u8,
        sheet_len: usize,
        buffer: *mut u8,
        buffer_len: usize,
    ) -> u32;

    fn skandrulo_judge_record(
        record: *const u16,
        record_len: usize,
        authority: *mut u16,
        authority_len: usize,
        user: *mut u16,
        user_len: usize,
        counts: *mut u16,
        counts_len: usize,
        counters: *mut u16,
        counters_len: usize,
    ) -> u32;

    fn skandrulo_write_record(
        record: *const u16,
        record_len: usize,
        buffer: *mut u8,
        buffer_len: usize,
    ) -> u32;

    fn skandrulo_read_record(
        sheet: *const u8,
        sheet_len: usize,
        record: *mut u16,
        record_len: usize,
    ) -> u32;

    fn skandrulo_read_extensions(
        policies: *const u8,
        policies_len: usize,
        mappings: *const u8,
        mappings_len: usize,
        constraints: *const u8,
        constraints_len: usize,
        inhibit_any: *const u8,
        inhibit_any_len: usize,
        self_issued: u8,
        reg: *mut u8,
        reg_len: usize,
        certificate: *mut u16,
        certificate_len: usize,
    ) -> u32;
}

/// The number and place that the proved judge returned.
#[derive(Clone, Copy, Debug, PartialEq, Eq)]
pub struct Judged {
    pub number: u8,
    pub place: usize,
}

impl Judged {
    /// The number and place of a returned value.
    pub(crate) fn of(packed: u32) -> Judged {
        let (number, place) = unpack(packed);
        Judged { number, place }
    }
}

/// The number that the proved reader or writer returned, and the length of
/// what it wrote: a sheet's bytes, or the places of a record or a certificate.
#[derive(Clone, Copy, Debug, PartialEq, Eq)]
pub struct Written {
    pub number: u8,
    pub length: usize,
}

/// A function below that judges: what is judged, then the authority table, the
/// user table, the counts and the counters.
pub type Judging<I> = fn(&[I], &mut [u16], &mut [u16], &mut [u16], &mut [u16]) -> Judged;

/// A function below that reads one slice and writes another.
pub type Writing<I, O> = fn(&[I], &mut [O]) -> Written;

/// A function of the library that judges.
type Judge<I> = unsafe extern "C" fn(
    *const I,
    usize,
    *mut u16,
    usize,
    *mut u16,
    usize,
    *mut u16,
    usize,
    *mut u16,
    usize,
) -> u32;

/// A function of the library that reads one slice and writes another.
type Write<I, O> = unsafe extern "C" fn(*const I, usize, *mut O, usize) -> u32;

/// Judges a sheet. The sets stand in `authority` and `user`, the depth counts
/// in the first `answer::DEPTHS` places of `counts`, and the counters explicit_policy,
/// policy_mapping and inhibit_anyPolicy in the first `answer::COUNTERS` places of
/// `counters`.
pub fn judge_sheet(
    sheet: &[u8],
    authority: &mut [u16],
    user: &mut [u16],
    counts: &mut [u16],
    counters: &mut [u16],
) -> Judged {
    judge(skandrulo_judge_sheet, sheet, authority, user, counts, counters)
}

/// Judges the path of a record, in the same way.
pub fn judge_record(
    record: &[u16],
    authority: &mut [u16],
    user: &mut [u16],
    counts: &mut [u16],
    counters: &mut [u16],
) -> Judged {
    judge(skandrulo_judge_record, record, authority, user, counts, counters)
}

/// Whether the judge of sheets, records or pieces refuses with this number; reading extensions refuses with each but 0.
pub fn refuses(number: u8) -> bool {
    // SAFETY: the function takes a number, and no pointer.
    let refuses = unsafe { skandrulo_refuses(number) };
    assert!(refuses <= 1, "skandrulo_refuses({number}) is {refuses}");
    refuses == 1
}

/// Reads a sheet and writes its path again into `buffer`.
pub fn rewrite_sheet(sheet: &[u8], buffer: &mut [u8]) -> Written {
    write(skandrulo_rewrite_sheet, sheet, buffer)
}

/// Writes the sheet of a record's path into `buffer`.
pub fn write_record(record: &[u16], buffer: &mut [u8]) -> Written {
    write(skandrulo_write_record, record, buffer)
}

/// Reads a sheet and puts the record of its path into `record`.
pub fn read_record(sheet: &[u8], record: &mut [u16]) -> Written {
    write(skandrulo_read_record, sheet, record)
}

/// Reads a certificate's extensions. The certificate stands in the first places
/// of `certificate`, which needs `extensions::PLACES`; the register, which needs
/// `register::BYTES`, gains what is new.
pub fn read_extensions(
    extensions: Extensions,
    register: &mut [u8],
    certificate: &mut [u16],
) -> Written {
    let Extensions { policies, mappings, constraints, inhibit_any, self_issued } = extensions;
    // SAFETY: each pointer is passed with the length of the slice it comes
    // from, the slices that are written overlap no other, and the function
    // keeps none of them.
    let packed = unsafe {
        skandrulo_read_extensions(
            policies.as_ptr(),
            policies.len(),
            mappings.as_ptr(),
            mappings.len(),
            constraints.as_ptr(),
            constraints.len(),
            inhibit_any.as_ptr(),
            inhibit_any.len(),
            self_issued,
            register.as_mut_ptr(),
            register.len(),
            certificate.as_mut_ptr(),
            certificate.len(),
        )
    };
    let (number, length) = unpack(packed);
    Written { number, length }
}

/// Calls a function of the library that judges.
fn judge<I>(
    function: Judge<I>,
    input: &[I],
    authority: &mut [u16],
    user: &mut [u16],
    counts: &mut [u16],
    counters: &mut [u16],
) -> Judged {
    // SAFETY: each pointer is passed with the length of the slice it comes
    // from, the slices do not overlap, and the function keeps none of them.
    let packed = unsafe {
        function(
            input.as_ptr(),
            input.len(),
            authority.as_mut_ptr(),
            authority.len(),
            user.as_mut_ptr(),
            user.len(),
            counts.as_mut_ptr(),
            counts.len(),
            counters.as_mut_ptr(),
            counters.len(),
        )
    };
    Judged::of(packed)
}

/// Calls a function of the library that reads one slice and writes another.
fn write<I, O>(function: Write<I, O>, input: &[I], output: &mut [O]) -> Written {
    // SAFETY: as above.
    let packed =
        unsafe { function(input.as_ptr(), input.len(), output.as_mut_ptr(), output.len()) };
    let (number, length) = unpack(packed);
    Written { number, length }
}

/// Parts a returned value: number + 256 * the other part.
fn unpack(packed: u32) -> (u8, usize) {
    ((packed % 256) as u8, (packed / 256) as usize)
}
