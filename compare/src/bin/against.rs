//! against KIND [SEED COUNT] [with PROGRAM [ARGUMENT]...]: compares the verified code with Rascal.
//!
//! KIND is `scripts`, `overflow` (scripts that fill the pool), `idle` (scripts in which much generates nothing), `texts`
//! (scripts with strings of any characters, damaged in them) or `bytes` (action bytes). The files are COUNT random ones of the seed or, without a seed, lines `NAME BYTES` on standard input. The verified side is the program, for instance
//! crates/compile_files/out/compile_files or crates/read_files/out/read_files, or else the static library (feature `verified`).
//!
//! Prints what the files come to. At the first difference it stops, makes the file smaller while the difference shows, prints
//! it as a line that `oracle` takes, with both answers, and fails.

use compare::comparison::{Difference, compare};
use compare::generated::{File, Kind, State, files};
use compare::shrink::shrink;
use compare::sides::Sides;
use compare::text::{encode, lines};
use std::io::stdin;

fn main() {
    let arguments: Vec<String> = std::env::args().skip(1).collect();
    let mut parts = arguments.splitn(2, |a| a == "with");
    let (what, program) = (parts.next().unwrap(), parts.next());
    let kind = what.first().and_then(|kind| Kind::named(kind)).expect("scripts, overflow, idle, texts or bytes");
    let sides = match program {
        Some(command) => Sides::with_program(kind, command.to_vec()),
        None => library(kind),
    };
    let files: Box<dyn Iterator<Item = File>> = match what {
        [_, seed, count] => Box::new(files(kind, seed.parse().expect("a seed"), count.parse().expect("a count"))),
        [_] => Box::new(lines(stdin().lock()).map(|(name, bytes)| File { name, bytes, state: State::Given })),
        _ => panic!("against KIND [SEED COUNT] [with PROGRAM [ARGUMENT]...]"),
    };
    let (counts, difference) = compare(&sides, kind, files);
    for (state, counts) in counts {
        println!("{state:?}: {counts}");
    }
    match difference {
        None => println!("no difference"),
        Some(difference) => {
            report(&sides, kind, difference);
            std::process::exit(1);
        }
    }
}

#[cfg(feature = "verified")]
fn library(kind: Kind) -> Sides {
    Sides::with_library(kind)
}

#[cfg(not(feature = "verified"))]
fn library(_: Kind) -> Sides {
    panic!("name a program, or build with the feature `verified`")
}

fn report(sides: &Sides, kind: Kind, found: Difference) {
    println!("difference in {}, {} bytes", found.name, found.file.len());
    let small = shrink(sides, kind, found.file);
    let (mut rascal, mut verified) = sides.both(&small);
    if rascal == verified {
        println!("it shows only after the files before it");
        (rascal, verified) = (found.rascal, found.verified);
    }
    println!("{} {}", found.name, encode(&small));
    print!("Rascal:\n{rascal}verified:\n{verified}");
}
