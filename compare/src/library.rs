//! The verified static library's answers as text, from slices that are full of ones before each call.

use crate::{LIMITS, LIST_WORDS, WIDE_ROOM, answer, check, list_slice};
use rascal_verified::{WORK_WORDS, compile_into, read_into};

/// In a list slice of one or the other length, by the file's length, since lowering works in the slice itself if it can.
pub fn compiled(file: &[u8]) -> String {
    let list_words = if file.len() % 8 < 4 { LIST_WORDS } else { WORK_WORDS };
    let (mut words, mut output) = (vec![u32::MAX; list_words], vec![u8::MAX; WIDE_ROOM]);
    match compile_into(file, &mut words, &mut output) {
        Ok(length) => {
            let rest = output.split_off(length);
            let behind = words.split_off(LIST_WORDS);
            let lists = check::check(file).ok().and_then(|script| list_slice::compiled(LIMITS, &words, &script));
            lists
                .filter(|_| is_zeros(&rest) && is_zeros(&behind))
                .map_or_else(not_laid_out, |lists| answer::compiled(&Ok((lists, output))))
        }
        Err(refusal) if is_zeros(&words) && is_zeros(&output) => answer::compiled(&Err(refusal.number)),
        Err(_) => not_laid_out(),
    }
}

pub fn read(bytes: &[u8]) -> String {
    let mut words = vec![u32::MAX; LIST_WORDS];
    match read_into(bytes, &mut words) {
        Ok(length) => {
            let lists = list_slice::read(LIMITS, &words, bytes).filter(|_| length == bytes.len());
            lists.map_or_else(not_laid_out, |lists| answer::listed(&Ok(lists)))
        }
        Err(refusal) if is_zeros(&words) => answer::listed(&Err(refusal.number)),
        Err(_) => not_laid_out(),
    }
}

fn is_zeros<T: PartialEq + Default>(slice: &[T]) -> bool {
    slice.iter().all(|x| *x == T::default())
}

fn not_laid_out() -> String {
    "slices that are not as docs/LISTS.md says\n".to_string()
}
