//! Rascal's lowering to action bytes, verified, for Rust programs: write a script file with [`ScriptWriter`], compile it
//! with `compile`, read action bytes with `read`. The two calls need the feature `linked` (see `abi.rs`).

#[cfg(feature = "linked")]
mod abi;
mod refusal;
mod script_writer;

#[cfg(feature = "linked")]
pub use abi::{compile, compile_into, compile_within, read, read_into};
pub use refusal::Refusal;
pub use script_writer::{ScriptWriter, StringIndex, kind};

/// Words that a list slice must have; the lists stand in them.
pub const LIST_WORDS: usize = 16_384;

/// Words of a list slice in which a script is compiled the quickest: in fewer, lowering works beside the slice, and copies
/// the lists.
pub const WORK_WORDS: usize = 20_480;

/// What the compile call leaves: the action bytes, and the words of the list slice.
#[derive(Debug, Clone, PartialEq, Eq)]
pub struct Compiled {
    pub bytes: Vec<u8>,
    pub lists: Vec<u32>,
}
