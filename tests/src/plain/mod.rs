//! Document 01, with requests 1, 2, 4, 6, 8 and 9 of document 02, as plainly as can be, written from the papers and
//! not from the proved definitions: their rules, document 001's letters (docs/FORMAT.md), the published
//! specifications of XXH64 and MessagePack.

pub mod deposit;
pub mod form;
pub mod identifier;
pub mod lookup;
pub mod msgpack;
pub mod pack;
pub mod pack_list;
pub mod pipe;
pub mod record;
pub mod value;
pub mod writer;

#[path = "../../../bench/plain.rs"]
pub mod xxh64;

/// The longest pack.
pub const LIMIT: u64 = 4_294_967_295;

/// The number of a refusal.
pub type Number = u8;
