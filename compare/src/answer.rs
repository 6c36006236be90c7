//! Answers as text: what `oracle` and the programs of the repository print below a file's name.

use crate::listing::listing;
use crate::lists::Lists;
use crate::text::hex;

/// Lists and bytes of a script file, or its refusal.
pub type Compiled = Result<(Lists, Vec<u8>), u8>;

pub fn listed(lists: &Result<Lists, u8>) -> String {
    match lists {
        Ok(lists) => listing(lists),
        Err(number) => format!("refused {number}\n"),
    }
}

pub fn compiled(answer: &Compiled) -> String {
    match answer {
        Ok((lists, bytes)) => format!("{}bytes {} {}\n", listing(lists), bytes.len(), hex(bytes)),
        Err(number) => format!("refused {number}\n"),
    }
}

/// As compile_files prints it: of more than 20,000 bytes only their number and sum.
pub fn compiled_in_short(answer: &Compiled) -> String {
    match answer {
        Ok((_, bytes)) if bytes.len() > 20_000 => format!("length {} sum {}\n", bytes.len(), sum(bytes)),
        _ => compiled(answer),
    }
}

fn sum(bytes: &[u8]) -> u32 {
    bytes.iter().fold(1, |sum, &b| (sum * 31 + b as u32) % 65_521)
}
