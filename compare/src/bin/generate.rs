//! generate KIND SEED COUNT: random files of a seed, a line `NAME BYTES` each, damaged copies after each original.
//!
//! KIND is `scripts`, `overflow` (scripts that fill the pool), `idle` (scripts in which much generates nothing), `texts`
//! (scripts with strings of any characters, damaged in them) or `bytes` (action bytes).

use compare::generated::{Kind, files};
use compare::text::encode;
use std::io::{BufWriter, Write, stdout};

fn main() {
    let arguments: Vec<String> = std::env::args().skip(1).collect();
    let [kind, seed, count] = &arguments[..] else { panic!("generate KIND SEED COUNT") };
    let kind = Kind::named(kind).expect("scripts, overflow, idle, texts or bytes");
    let (seed, count) = (seed.parse().expect("a seed"), count.parse().expect("a count"));
    let mut out = BufWriter::new(stdout().lock());
    for file in files(kind, seed, count) {
        writeln!(out, "{} {}", file.name, encode(&file.bytes)).unwrap();
    }
}
