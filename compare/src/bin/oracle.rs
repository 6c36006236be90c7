//! What Rascal's lowering and document 01 give for script files and action bytes.
//!
//!   oracle list FILE            what the listing program prints for a script file (`-` is standard input): over 65,536 bytes
//!                               refusal 4
//!   oracle bytes FILE           its action bytes in hex
//!   oracle read FILE            the listing by place of action bytes
//!   oracle lower < LINES        for each line `NAME BYTES`: `NAME`, then the listing or `refused N`; 9 to 12 not applied
//!   oracle compile < LINES      the same with 9 to 12, for an output of 65,536 bytes; after the listing `bytes N HEX`, and for
//!                               more than 20,000 bytes only `length N sum S`
//!   oracle reads < LINES        the same for action bytes: the listing by place or `refused 14`
//!   oracle short < LINES        for each line one line: `NAME refused N` or `NAME LISTS BYTES`, two numbers of 64 bits that
//!                               stand for the listing and the bytes
//!   oracle check < LINES        for each line `NAME N`: 0 for an accepted script file, or 4, 1, 2, 3
//!
//! `oracle limits A V L ...` does the same with other limits on actions, push values and labels.
//!
//! BYTES are two hex digits a byte; `@PART*COUNT:` is PART and then COUNT more bytes of its repetition.

use compare::answer::{compiled_in_short, listed};
use compare::listing::listing;
use compare::text::{hex, lines};
use compare::{LIMITS, Limits, ROOM, check, list_words};
use std::io::{BufWriter, Read, Write, stdin, stdout};

/// The longest file that the listing program takes.
const LISTED: usize = 65_536;

fn main() {
    let arguments: Vec<String> = std::env::args().skip(1).collect();
    let arguments: Vec<&str> = arguments.iter().map(String::as_str).collect();
    let (limits, arguments) = match arguments[..] {
        ["limits", a, v, l, ..] => {
            let number = |text: &str| text.parse::<usize>().expect("a number");
            (Limits { actions: number(a), values: number(v), labels: number(l) }, &arguments[4..])
        }
        _ => (LIMITS, &arguments[..]),
    };
    let words = list_words(limits);
    let lower_file = |file: &[u8]| compare::lower_within(limits, file);
    let compile = |file: &[u8]| compare::compile_within(limits, file, words, ROOM);
    let read = |bytes: &[u8]| compare::read_within(limits, bytes, words);
    match *arguments {
        ["list", file] => {
            let file = content(file);
            print!("{}", listed(&if file.len() > LISTED { Err(4) } else { compile(&file).map(|c| c.0) }));
        }
        ["bytes", file] => match compile(&content(file)) {
            Ok((_, bytes)) => println!("{}", hex(&bytes)),
            Err(n) => println!("refused {n}"),
        },
        ["read", file] => print!("{}", listed(&read(&content(file)))),
        ["lower"] => each(|file| format!("\n{}", listed(&lower_file(file)))),
        ["compile"] => each(|file| format!("\n{}", compiled_in_short(&compile(file)))),
        ["reads"] => each(|bytes| format!("\n{}", listed(&read(bytes)))),
        ["short"] => each(|file| match compile(file) {
            Ok((lists, bytes)) => format!(" {:016x} {:016x}\n", digest(listing(&lists).as_bytes()), digest(&bytes)),
            Err(n) => format!(" refused {n}\n"),
        }),
        ["check"] => each(|file| format!(" {}\n", check::check(file).err().unwrap_or(0))),
        _ => {
            eprintln!("oracle list FILE | bytes FILE | read FILE | lower | compile | reads | short | check");
            std::process::exit(2);
        }
    }
}

fn content(name: &str) -> Vec<u8> {
    let mut bytes = Vec::new();
    if name == "-" {
        stdin().read_to_end(&mut bytes).unwrap();
        return bytes;
    }
    std::fs::read(name).unwrap_or_else(|e| panic!("{name}: {e}"))
}

fn each(answer: impl Fn(&[u8]) -> String) {
    let mut out = BufWriter::new(stdout().lock());
    for (name, bytes) in lines(stdin().lock()) {
        write!(out, "{name}{}", answer(&bytes)).unwrap();
    }
}

/// FNV-1a, 64 bits.
fn digest(bytes: &[u8]) -> u64 {
    bytes.iter().fold(0xcbf2_9ce4_8422_2325, |h, &b| (h ^ b as u64).wrapping_mul(0x0100_0000_01b3))
}
