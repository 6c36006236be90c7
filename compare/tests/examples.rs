//! The examples of the repository: lists, bytes and refusals, by Rascal and, with the feature `verified`, by the library.

use compare::answer::listed;
use compare::lists::Lists;
use compare::{LIST_WORDS, ROOM, compile, read};
use rascal_verified::Refusal;
use std::path::PathBuf;

/// Name, script file and listing of each.
fn examples() -> Vec<(String, Vec<u8>, String)> {
    let folder = PathBuf::from(concat!(env!("CARGO_MANIFEST_DIR"), "/../examples"));
    let mut all = vec![];
    for entry in folder.read_dir().unwrap() {
        let script = entry.unwrap().path();
        if script.extension().is_some_and(|e| e == "script") {
            let listing = std::fs::read_to_string(script.with_extension("listing")).unwrap();
            all.push((script.file_stem().unwrap().to_string_lossy().into_owned(), std::fs::read(&script).unwrap(), listing));
        }
    }
    all.sort();
    all
}

/// Each example compiles to Rascal's lists and bytes, and to its listing; its bytes are read as these lists.
fn all_agree(compiles: impl Fn(&[u8]) -> Result<(Lists, Vec<u8>), Refusal>, reads: impl Fn(&[u8]) -> Result<Lists, Refusal>) {
    let mut refusals = vec![];
    for (name, script, listing) in examples() {
        let answer = compiles(&script);
        assert_eq!(answer.clone().map_err(|r| r.number), compile(&script, LIST_WORDS, ROOM), "{name}");
        let lists = match answer {
            Ok((lists, bytes)) => {
                assert_eq!(reads(&bytes), Ok(lists.by_place()), "{name}");
                Ok(lists)
            }
            Err(refusal) => {
                refusals.push((name.clone(), refusal.to_string()));
                Err(refusal.number)
            }
        };
        assert_eq!(listed(&lists), listing, "{name}");
    }
    let expected = [
        ("s7_two_defaults", "refused 6: a switch has a second default"),
        ("s8_negated", "refused 7: -2147483648 is negated"),
        ("s9_null_set", "refused 5: a direct value is set, or a property is deleted, called or constructed"),
    ];
    assert_eq!(refusals, expected.map(|(name, text)| (name.to_string(), text.to_string())));
    assert_eq!(
        reads(&[]).map_err(|r| r.to_string()),
        Err("refused 14: no list within the limits writes to these bytes".to_string())
    );
}

#[test]
fn rascal_on_every_example() {
    assert!(examples().len() > 12);
    all_agree(
        |script| compile(script, LIST_WORDS, ROOM).map_err(Refusal::new),
        |bytes| read(bytes, LIST_WORDS).map_err(Refusal::new),
    );
}

#[cfg(feature = "verified")]
mod library {
    use super::*;
    use compare::comparison::compare;
    use compare::generated::{Kind, files};
    use compare::sides::Sides;
    use compare::{LIMITS, check, list_slice};
    use rascal_verified::WORK_WORDS;

    #[test]
    fn the_library_on_every_example() {
        let lists = |script: &[u8], words: &[u32]| list_slice::compiled(LIMITS, words, &check::check(script).ok()?);
        all_agree(
            |script| rascal_verified::compile(script).map(|c| (lists(script, &c.lists).unwrap(), c.bytes)),
            |bytes| rascal_verified::read(bytes).map(|words| list_slice::read(LIMITS, &words, bytes).unwrap()),
        );
    }

    #[test]
    fn the_slices_that_it_asks_for() {
        for (name, script, listing) in examples() {
            if listing.starts_with("refused") {
                continue;
            }
            let compiled = rascal_verified::compile(&script).unwrap();
            let length = compiled.bytes.len();
            assert_eq!(rascal_verified::compile_within(&script, length), Ok(compiled.clone()), "{name}");
            assert_eq!(rascal_verified::compile_within(&script, length - 1), Err(Refusal::new(12)), "{name}");
            let mut words = vec![1; LIST_WORDS - 1];
            assert_eq!(rascal_verified::compile_into(&script, &mut words, &mut [1; ROOM]), Err(Refusal::new(13)), "{name}");
            assert_eq!(rascal_verified::read_into(&compiled.bytes, &mut words), Err(Refusal::new(13)), "{name}");
        }
    }

    #[test]
    fn list_slices_of_any_length() {
        for (name, script, _) in examples() {
            let compiled = |length: usize| {
                let (mut words, mut output) = (vec![1; length], vec![1; ROOM]);
                let answer = rascal_verified::compile_into(&script, &mut words, &mut output);
                assert!(words.split_off(LIST_WORDS).iter().all(|&word| word == 0), "{name}");
                (answer, words, output)
            };
            let least = compiled(LIST_WORDS);
            for length in [LIST_WORDS + 1, WORK_WORDS - 1, WORK_WORDS, WORK_WORDS + 1] {
                assert_eq!(compiled(length), least, "{name}");
            }
        }
    }

    #[test]
    fn the_library_on_random_files() {
        for kind in [Kind::Scripts, Kind::Overflow, Kind::Idle, Kind::Texts, Kind::Bytes] {
            let difference = compare(&Sides::with_library(kind), kind, files(kind, 9, 3_000)).1;
            assert!(difference.is_none(), "{}", difference.unwrap().name);
        }
    }
}
