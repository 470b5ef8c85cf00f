//! The proved judge of sheets that arrive in pieces, called through its C
//! functions.
//!
//! `Pieces` owns its state. The functions below it take a state that the caller
//! keeps, which must have `pieces::STATE` bytes.

use crate::judge::Judged;
use crate::pieces::STATE;

extern "C" {
    fn skandrulo_fresh(state: *mut u8, state_len: usize) -> u32;

    fn skandrulo_feed(state: *mut u8, state_len: usize, piece: *const u8, piece_len: usize) -> u32;

    fn skandrulo_finish(
        state: *mut u8,
        state_len: usize,
        authority: *mut u16,
        authority_len: usize,
        user: *mut u16,
        user_len: usize,
        counts: *mut u16,
        counts_len: usize,
        counters: *mut u16,
        counters_len: usize,
    ) -> u32;
}

/// A sheet that arrives in pieces.
#[derive(Clone)]
pub struct Pieces {
    state: [u8; STATE],
}

impl Pieces {
    /// No piece has come yet.
    pub fn new() -> Pieces {
        let mut state = [0; STATE];
        let number = fresh(&mut state);
        debug_assert_eq!(number, 0);
        Pieces { state }
    }

    /// Takes the next piece, which may be empty. Any piece is taken; refusals
    /// are the finish's.
    pub fn feed(&mut self, piece: &[u8]) {
        let number = feed(&mut self.state, piece);
        debug_assert_eq!(number, 0);
    }

    /// Judges the pieces joined together, as `judge::judge_sheet` judges a whole
    /// sheet. Then no piece has come yet, whatever was answered.
    pub fn finish(
        &mut self,
        authority: &mut [u16],
        user: &mut [u16],
        counts: &mut [u16],
        counters: &mut [u16],
    ) -> Judged {
        finish(&mut self.state, authority, user, counts, counters)
    }

    /// The bytes of the state.
    pub fn state(&self) -> &[u8; STATE] {
        &self.state
    }
}

impl Default for Pieces {
    fn default() -> Pieces {
        Pieces::new()
    }
}

/// Makes a state fresh. Returns 0, or 7 where it has another number of bytes
/// than `pieces::STATE`.
pub fn fresh(state: &mut [u8]) -> u32 {
    // SAFETY: the pointer is passed with the length of the slice it comes from,
    // and the function does not keep it.
    unsafe { skandrulo_fresh(state.as_mut_ptr(), state.len()) }
}

/// Has a state take a piece. Returns 0, or 7 in the same way.
pub fn feed(state: &mut [u8], piece: &[u8]) -> u32 {
    // SAFETY: each pointer is passed with the length of the slice it comes
    // from, the slices do not overlap, and the function keeps none of them.
    unsafe { skandrulo_feed(state.as_mut_ptr(), state.len(), piece.as_ptr(), piece.len()) }
}

/// Finishes the sheet that a state keeps. The state is fresh then, unless it has
/// another number of bytes.
pub fn finish(
    state: &mut [u8],
    authority: &mut [u16],
    user: &mut [u16],
    counts: &mut [u16],
    counters: &mut [u16],
) -> Judged {
    // SAFETY: as above.
    let packed = unsafe {
        skandrulo_finish(
            state.as_mut_ptr(),
            state.len(),
            authority.as_mut_ptr(),
            authority.len(),
            user.as_mut_ptr(),
            user.len(),
            counts.as_mut_ptr(),
            counts.len(),
            counters.as_mut_ptr(),
            counters.len(),
        )
    };
    Judged::of(packed)
}
