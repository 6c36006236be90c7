//! What a run counts, and that it finds and shrinks the first difference where a side is wrong on purpose.

use compare::comparison::compare;
use compare::generated::{Kind, State, files};
use compare::kinds::TERNARY;
use compare::lists::{Act, List};
use compare::shrink::shrink;
use compare::sides::{Sides, rascal_read};
use compare::{LIST_WORDS, WIDE_ROOM, answer, check, compile, lower_file, read};

fn rascal_compiled(file: &[u8]) -> String {
    answer::compiled(&compile(file, LIST_WORDS, WIDE_ROOM))
}

/// The smallest file that is found where the verified side gives another answer to such files.
fn smallest(kind: Kind, rascal: fn(&[u8]) -> String, wrong: fn(&[u8]) -> bool) -> Vec<u8> {
    let answer = move |file: &[u8]| if wrong(file) { "another answer\n".to_string() } else { rascal(file) };
    let sides = Sides::of(rascal, answer);
    let (_, difference) = compare(&sides, kind, files(kind, 5, 6_000));
    let small = shrink(&sides, kind, difference.expect("a difference").file);
    assert!(wrong(&small));
    small
}

#[test]
fn a_run_without_a_difference_counts_what_it_compares() {
    let sides = Sides::of(rascal_compiled, rascal_compiled);
    for (kind, originals, overflow) in [(Kind::Scripts, 1_000, 10), (Kind::Overflow, 100, 80), (Kind::Idle, 1_000, 0)] {
        let (counts, difference) = compare(&sides, kind, files(kind, 5, 3 * originals));
        assert!(difference.is_none());
        let (whole, damaged) = (&counts[&State::Undamaged], &counts[&State::Damaged]);
        assert_eq!(whole.files, originals);
        assert!(whole.overflow >= overflow && !whole.refused.contains_key(&1), "{whole}");
        assert!(damaged.files > originals && damaged.refused[&1] > originals, "{damaged}");
        assert_eq!(counts.values().map(|c| c.files).sum::<usize>(), 3 * originals);
    }
}

#[test]
fn texts_compile_and_most_damaged_ones_are_not_utf8() {
    let sides = Sides::of(rascal_compiled, rascal_compiled);
    let (counts, difference) = compare(&sides, Kind::Texts, files(Kind::Texts, 5, 4_000));
    assert!(difference.is_none());
    let (whole, damaged) = (&counts[&State::Undamaged], &counts[&State::Damaged]);
    assert!(whole.files == 1_000 && whole.refused.is_empty(), "{whole}");
    assert!(damaged.refused[&2] > 1_000, "{damaged}");
}

#[test]
fn a_length_that_is_wrong_with_a_ternary() {
    fn one_more(file: &[u8]) -> String {
        let mut compiled = compile(file, LIST_WORDS, WIDE_ROOM);
        if let Ok((_, bytes)) = &mut compiled
            && check::check(file).is_ok_and(|script| script.records.iter().any(|r| r.kind == TERNARY))
        {
            bytes.push(0);
        }
        answer::compiled(&compiled)
    }
    let sides = Sides::of(rascal_compiled, one_more);
    let (_, difference) = compare(&sides, Kind::Scripts, files(Kind::Scripts, 5, 6_000));
    let small = shrink(&sides, Kind::Scripts, difference.unwrap().file);
    let script = check::check(&small).ok().unwrap();
    assert!(script.records.len() <= 6 && script.strings.len() <= 1, "{:?}", script.records);
}

#[test]
fn a_script_whose_pool_overflows() {
    let small = smallest(Kind::Overflow, rascal_compiled, |file| lower_file(file).is_ok_and(|lists| lists.overflow()));
    let script = check::check(&small).ok().unwrap();
    assert!(script.records.len() <= 5 && script.strings.len() <= 2, "{:?}", script.records);
}

#[test]
fn records_that_are_no_tree() {
    let no_tree = |file: &[u8]| check::areas(file).is_some_and(|(_, records)| check::children(&records).is_none());
    let small = smallest(Kind::Scripts, rascal_compiled, no_tree);
    assert!(small.len() <= 40, "{small:?}");
}

#[test]
fn bytes_that_are_no_records() {
    let other_edition = |file: &[u8]| file.len() > 20 && file.last_chunk().is_some_and(|word| u32::from_le_bytes(*word) != 1);
    let small = smallest(Kind::Scripts, rascal_compiled, other_edition);
    assert!(small.len() == 21 && small.iter().all(|&b| b == 0), "{small:?}");
}

#[test]
fn a_branch_in_a_function_of_action_bytes() {
    fn has_if(list: &List) -> bool {
        list.actions.iter().any(|act| matches!(act, Act::If(_)))
    }
    let small =
        smallest(Kind::Bytes, rascal_read, |row| read(row, LIST_WORDS).is_ok_and(|lists| lists.0[1..].iter().any(has_if)));
    let lists = read(&small, LIST_WORDS).unwrap();
    let count: usize = lists.0.iter().map(|list| list.actions.len()).sum();
    assert!(count <= 3 && small.len() <= 22, "{small:?}");
}

#[test]
fn action_bytes_without_lists() {
    let small = smallest(Kind::Bytes, rascal_read, |row| row.last().is_some_and(|&b| b != 0));
    assert!(small.len() == 1, "{small:?}");
}

/// `oracle` answers lines as the programs of the repository do.
#[test]
fn a_program_as_the_verified_side() {
    let oracle = |call: &str| vec![env!("CARGO_BIN_EXE_oracle").to_string(), call.to_string()];
    for (kind, call) in [
        (Kind::Scripts, "compile"),
        (Kind::Overflow, "compile"),
        (Kind::Idle, "compile"),
        (Kind::Texts, "compile"),
        (Kind::Bytes, "reads"),
    ] {
        let sides = Sides::with_program(kind, oracle(call));
        assert!(compare(&sides, kind, files(kind, 6, 900)).1.is_none());
    }
    // `lower` prints no bytes, so every script that compiles differs; the smallest has no statements.
    let sides = Sides::with_program(Kind::Scripts, oracle("lower"));
    let (_, difference) = compare(&sides, Kind::Scripts, files(Kind::Scripts, 6, 900));
    let small = shrink(&sides, Kind::Scripts, difference.unwrap().file);
    assert_eq!(small, compare::node::file::<&str>(&[], vec![]));
}
