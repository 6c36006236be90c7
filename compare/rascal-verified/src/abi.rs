//! The C functions of the static library, and the two calls over them.

use crate::{Compiled, LIST_WORDS, Refusal, WORK_WORDS};

// Each slice is its first element and its length; what is lent may not overlap. The word returned is the length, or `u64::MAX` less the refusal's number
// (crates/rascal_c/src/lib.rt).
unsafe extern "C" {
    fn rascal_compile(
        file: *const u8,
        file_length: usize,
        lists: *mut u32,
        list_words: usize,
        output: *mut u8,
        output_length: usize,
    ) -> u64;
    fn rascal_read(bytes: *const u8, length: usize, lists: *mut u32, list_words: usize) -> u64;
}

fn result(word: u64) -> Result<usize, Refusal> {
    match u64::MAX - word {
        number @ 0..=255 => Err(Refusal::new(number as u8)),
        _ => Ok(word as usize),
    }
}

/// Compiles a script file into slices that are lent: the number of action bytes at the start of the output. The rest of the
/// output and of the list slice is zeros; after a refusal all of both.
pub fn compile_into(file: &[u8], lists: &mut [u32], output: &mut [u8]) -> Result<usize, Refusal> {
    // Each pointer is that of a live slice of the length beside it, and no two of them overlap.
    result(unsafe {
        rascal_compile(file.as_ptr(), file.len(), lists.as_mut_ptr(), lists.len(), output.as_mut_ptr(), output.len())
    })
}

/// Reads action bytes into a list slice that is lent: the number of bytes read, which is all of them.
pub fn read_into(bytes: &[u8], lists: &mut [u32]) -> Result<usize, Refusal> {
    // As above.
    result(unsafe { rascal_read(bytes.as_ptr(), bytes.len(), lists.as_mut_ptr(), lists.len()) })
}

/// Compiles a script file into an output of this many bytes at most.
pub fn compile_within(file: &[u8], room: usize) -> Result<Compiled, Refusal> {
    let mut lists = vec![0; WORK_WORDS];
    let mut bytes = vec![0; room];
    let length = compile_into(file, &mut lists, &mut bytes)?;
    lists.truncate(LIST_WORDS);
    bytes.truncate(length);
    Ok(Compiled { bytes, lists })
}

/// Compiles a script file, with 65,536 bytes of output first and, while these are too few, with sixteen times as many, up to
/// what any script needs: no list is longer than what 1,024 records of 65,538 bytes take.
pub fn compile(file: &[u8]) -> Result<Compiled, Refusal> {
    const MOST: usize = 1_024 * 65_538 + 1;
    let mut room = 65_536;
    loop {
        match compile_within(file, room) {
            Err(Refusal { number: 12, .. }) if room < MOST => room = MOST.min(16 * room),
            other => return other,
        }
    }
}

/// The words of the lists that action bytes stand for.
pub fn read(bytes: &[u8]) -> Result<Vec<u32>, Refusal> {
    let mut lists = vec![0; LIST_WORDS];
    read_into(bytes, &mut lists).map(|_| lists)
}
