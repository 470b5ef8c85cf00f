//! An independent second judge of certificate policy paths, written from
//! documents 01 and 02 and RFC 9618 alone, and a reader of certificates'
//! extensions, written from document 02, RFC 5280, X.690 and include/judge.h.

pub mod answer;
#[cfg(feature = "library")]
pub mod beside;
pub mod causes;
pub mod counters;
pub mod decoded;
pub mod der;
pub mod draft;
pub mod everyday;
pub mod extension_faults;
pub mod extensions;
pub mod graph;
pub mod harm;
#[cfg(feature = "library")]
pub mod judge;
#[cfg(feature = "library")]
pub mod judge_pieces;
pub mod known;
pub mod known_extensions;
pub mod lent;
pub mod path;
pub mod pieces;
pub mod random;
pub mod random_extensions;
pub mod random_pieces;
pub mod random_record;
pub mod record;
pub mod recount;
pub mod register;
pub mod repeats;
pub mod sheet;
pub mod stack;
pub mod tlv;
pub mod tree;
pub mod x509;
