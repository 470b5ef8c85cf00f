//! Sheets that arrive in pieces, from document 02's request Five. The bytes of
//! the lent state are those of include/judge.h, whose words are quoted here too.

use std::mem;

use crate::answer::{self, Answer};
use crate::sheet::LONGEST;

/// "The first two are the number of bytes kept, the high byte first"
pub const HEAD: usize = 2;

/// "It keeps the first SKANDRULO_SHEET_BYTES + 1 bytes"
pub const KEPT: usize = LONGEST + 1;

/// "The bytes of a state that keeps a sheet which arrives in pieces."
pub const STATE: usize = HEAD + KEPT;

/// "all of them 0 when it is fresh"
pub const FRESH: [u8; STATE] = [0; STATE];

/// A judge that "is fed pieces, empty ones included, and answers when told that
/// the sheet is finished". It keeps all bytes, however many, and is fresh by
/// default.
#[derive(Clone, Debug, Default, PartialEq, Eq)]
pub struct Fed {
    bytes: Vec<u8>,
}

impl Fed {
    /// What a state stands for, whatever its bytes are: "a number above the
    /// places counts as all of them".
    pub fn of_state(state: &[u8; STATE]) -> Fed {
        let (head, places) = state.split_at(HEAD);
        let number = 256 * usize::from(head[0]) + usize::from(head[1]);
        Fed { bytes: places[..number.min(KEPT)].to_vec() }
    }

    /// Takes a piece. "a sheet that is already faulty still takes further
    /// pieces"
    pub fn feed(&mut self, piece: &[u8]) {
        self.bytes.extend_from_slice(piece);
    }

    /// The pieces so far, joined together.
    pub fn joined(&self) -> &[u8] {
        &self.bytes
    }

    /// "the answer and every lent table equal those of the whole sheet in one
    /// call"; "After a finish the state is as fresh."
    pub fn finish(&mut self, authority: &mut [u16], user: &mut [u16]) -> Answer {
        answer::judge_sheet(&mem::take(&mut self.bytes), authority, user)
    }

    /// The bytes of the lent state: the number of bytes kept, "then these
    /// follow, and zeros after them".
    pub fn state(&self) -> [u8; STATE] {
        let kept = &self.bytes[..self.bytes.len().min(KEPT)];
        let mut state = FRESH;
        state[..HEAD].copy_from_slice(&(kept.len() as u16).to_be_bytes());
        state[HEAD..][..kept.len()].copy_from_slice(kept);
        state
    }
}

#[cfg(test)]
mod tests {
    use super::*;
    use crate::answer::PLACES;
    use crate::known::{self, E_SHEET};
    use crate::path::MAX_CERTIFICATES;
    use crate::random::{self, Random, FULL_KINDS};
    use crate::random_pieces::{self, WAYS};
    use crate::sheet;

    /// An answer, and the tables as they are left.
    type Left = (Answer, Vec<u16>, Vec<u16>);

    /// What is left of tables of nines, all of which suffice.
    fn left(judge: impl FnOnce(&mut [u16], &mut [u16]) -> Answer) -> Left {
        let (mut authority, mut user) = (vec![9; PLACES], vec![9; PLACES]);
        let answer = judge(&mut authority, &mut user);
        (answer, authority, user)
    }

    fn of_whole(sheet: &[u8]) -> Left {
        left(|authority, user| answer::judge_sheet(sheet, authority, user))
    }

    fn of_finish(fed: &mut Fed) -> Left {
        left(|authority, user| fed.finish(authority, user))
    }

    /// The figures as include/judge.h writes them.
    #[test]
    fn figures_of_a_state() {
        assert_eq!((HEAD, KEPT, STATE), (2, 2_930, 2_932));
    }

    #[test]
    fn e_in_pieces() {
        let mut fed = Fed::default();
        for piece in [&E_SHEET[..3], &[], &E_SHEET[3..4], &E_SHEET[4..]] {
            fed.feed(piece);
        }
        assert_eq!(fed.joined(), E_SHEET);
        let state = fed.state();
        assert_eq!((&state[..4], &state[11..13]), (&[0, 10, 0x11, 0x02][..], &[0x00, 0][..]));
        assert_eq!(of_finish(&mut fed), of_whole(&E_SHEET));
        assert_eq!((fed.state(), fed), (FRESH, Fed::default()));
    }

    #[test]
    fn no_piece_and_empty_pieces_are_the_empty_sheet() {
        let mut fed = Fed::default();
        assert_eq!(of_finish(&mut fed).0, Answer::bare(sheet::ENDS_EARLY, 0));
        fed.feed(&[]);
        assert_eq!(fed.state(), FRESH);
        assert_eq!(of_finish(&mut fed), of_whole(&[]));
    }

    #[test]
    fn known_paths_cut_in_every_way() {
        let mut random = Random::new(1);
        let mut fed = Fed::default();
        for row in known::rows() {
            let sheet = sheet::write(&row.path);
            for way in WAYS {
                for piece in way.cut(&sheet, &mut random) {
                    fed.feed(piece);
                }
                assert_eq!(of_finish(&mut fed).0, row.answer, "{} {way:?}", row.name);
            }
        }
        for row in known::refused_rows() {
            let sheet = sheet::write(&row.path);
            for way in WAYS {
                for piece in way.cut(&sheet, &mut random) {
                    fed.feed(piece);
                }
                let refused = (Answer::bare(row.number, 0), vec![9; PLACES], vec![9; PLACES]);
                assert_eq!(of_finish(&mut fed), refused, "{} {way:?}", row.name);
            }
        }
    }

    #[test]
    fn short_tables_come_first_and_the_state_is_fresh_then() {
        let too_long = vec![0x11; 2 * STATE];
        for sheet in [&E_SHEET[..], &[0x21], &[], &too_long] {
            let mut fed = Fed::default();
            fed.feed(sheet);
            let (mut authority, mut user) = ([9; PLACES], [9; PLACES]);
            let answer = fed.finish(&mut authority, &mut user[1..]);
            assert_eq!(answer, Answer::bare(sheet::TOO_SHORT, 0));
            assert_eq!((authority, user), ([9; PLACES], [9; PLACES]));
            assert_eq!(fed, Fed::default());
        }
    }

    /// "no byte after those changes an answer"
    #[test]
    fn what_is_kept_gets_the_answer_of_all() {
        let mut random = Random::new(2);
        let mut overfull = 0;
        for _ in 0..2_000 {
            let mut fed = Fed::default();
            fed.feed(&random_pieces::sheet(&mut random));
            overfull += usize::from(fed.joined().len() > KEPT);
            let mut kept = Fed::of_state(&fed.state());
            assert_eq!(of_finish(&mut kept), of_finish(&mut fed));
        }
        assert!(overfull >= 100, "{overfull}");
    }

    /// One byte fewer than is kept would not do: the longest sheet and one with
    /// a byte more have different answers.
    #[test]
    fn the_longest_sheet_and_more() {
        let mut random = Random::new(3);
        for kind in FULL_KINDS {
            let mut fed = Fed::default();
            fed.feed(&sheet::write(&random::full(kind, MAX_CERTIFICATES, &mut random)));
            assert_eq!(of_finish(&mut fed.clone()).0.number, 0);
            for bytes in [1, 1, 1, 4_000] {
                fed.feed(&vec![0; bytes]);
                assert_eq!(fed.state()[..HEAD], (KEPT as u16).to_be_bytes());
                assert_eq!(of_finish(&mut fed.clone()).0.number, sheet::NOT_ZERO_FILL);
            }
        }
    }

    #[test]
    fn what_states_stand_for() {
        let mut state = [7; STATE];
        for (head, number) in [
            ([0, 0], 0),
            ([1, 2], 258),
            ([0x0B, 0x71], LONGEST),
            ([0x0B, 0x72], KEPT),
            ([0x0B, 0x73], KEPT),
            ([0xFF, 0xFF], KEPT),
        ] {
            state[..HEAD].copy_from_slice(&head);
            assert_eq!(Fed::of_state(&state).joined(), vec![7; number]);
        }
    }

    #[test]
    fn a_state_stands_for_what_it_keeps() {
        let mut random = Random::new(4);
        for _ in 0..1_000 {
            let fed = Fed::of_state(&random_pieces::state(&mut random));
            assert_eq!(Fed::of_state(&fed.state()), fed);
        }
    }
}
