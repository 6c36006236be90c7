//! Runs Rascal's own lowering on script files, and says what document 01 says of each file: its lists, its action bytes,
//! or its refusal; and compares the verified code with it.

pub mod action_reader;
pub mod action_writer;
pub mod answer;
pub mod check;
pub mod comparison;
pub mod damage;
pub mod from_tree;
pub mod generated;
pub mod kinds;
#[cfg(feature = "verified")]
pub mod library;
pub mod list_slice;
pub mod listing;
pub mod lists;
pub mod lower;
pub mod node;
pub mod program;
pub mod properties;
pub mod random;
pub mod random_bytes;
pub mod random_scripts;
pub mod random_texts;
pub mod shrink;
pub mod shrink_bytes;
pub mod shrink_script;
pub mod sides;
pub mod text;
pub mod to_tree;

use lists::Lists;

/// Words that a list slice must have at document 01's limits.
pub const LIST_WORDS: usize = list_words(LIMITS);
/// The output that the programs lend.
pub const ROOM: usize = 65_536;
/// An output for scripts whose pool overflows too: their bytes are more than the programs lend.
pub const WIDE_ROOM: usize = 4 * ROOM;

/// How many actions, push values and labels a script may have.
pub type Limits = counted::Counts;

/// Document 01's.
pub const LIMITS: Limits = Limits { actions: 1_024, values: 2_048, labels: 1_024 };

/// The words that a list slice must have: four for each unit of the limits.
pub const fn list_words(limits: Limits) -> usize {
    4 * (limits.actions + limits.values + limits.labels)
}

/// The lists of a script file, or its refusal of 4, 1, 2, 3, 5 to 8.
pub fn lower_within(limits: Limits, file: &[u8]) -> Result<Lists, u8> {
    let script = check::check(file)?;
    let statements = to_tree::statements(&script);
    lower::lower(limits, &statements)
}

/// The lists and bytes of a script file, or its refusal, for a list slice and an output of these lengths.
pub fn compile_within(limits: Limits, file: &[u8], words: usize, room: usize) -> Result<(Lists, Vec<u8>), u8> {
    if words < list_words(limits) {
        return Err(13);
    }
    let lists = lower_within(limits, file)?;
    let bytes = action_writer::write(&lists, room)?;
    Ok((lists, bytes))
}

/// The lists of action bytes, by place, or refusal 13 or 14.
pub fn read_within(limits: Limits, bytes: &[u8], words: usize) -> Result<Lists, u8> {
    if words < list_words(limits) {
        return Err(13);
    }
    action_reader::read(limits, bytes).ok_or(14)
}

pub fn lower_file(file: &[u8]) -> Result<Lists, u8> {
    lower_within(LIMITS, file)
}

pub fn compile(file: &[u8], words: usize, room: usize) -> Result<(Lists, Vec<u8>), u8> {
    compile_within(LIMITS, file, words, room)
}

pub fn read(bytes: &[u8], words: usize) -> Result<Lists, u8> {
    read_within(LIMITS, bytes, words)
}
