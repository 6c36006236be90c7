//! bench [PART]: the time from a script file to its action bytes or its refusal, for scripts of several shapes: rows of
//! docs/SPEED.md, the best of several runs, in microseconds. PART is a part of the rows' names.
//!
//! Rascal's time is that of its lowering with the check, the tree, the flat lists and the bytes of this folder. The verified
//! column needs the feature `verified`; the slices are lent once and used in every run.

use compare::kinds::*;
use compare::node::*;
use compare::{LIST_WORDS, ROOM, WIDE_ROOM, compile};
use std::hint::black_box;
use std::time::Instant;

/// A script of this many actions, of common statements.
fn common(actions: usize) -> Vec<Node> {
    let mut out = vec![];
    let mut used = 1;
    for n in 0.. {
        let (statement, more) = match n % 4 {
            0 => (run(assign(name(0), binary(0, name(1), integer(80)))), 5),
            1 => (if_then(name(0), run(call(name(2), vec![string(3), integer(1)])), None), 7),
            2 => (while_loop(binary(27, name(0), integer(9)), run(unary(3, 0, name(0)))), 12),
            _ => (run(assign(field(name(0), string(1)), integer(2))), 4),
        };
        if used + more > actions {
            break;
        }
        used += more;
        out.push(statement);
    }
    out.extend(vec![run(node(PLAY, [])); actions - used]);
    out
}

type Shape = (String, Vec<u8>);

fn shape<S: AsRef<[u8]>>(name: impl Into<String>, strings: &[S], statements: Vec<Node>) -> Shape {
    (name.into(), file(strings, statements))
}

/// An array of this many different strings of 35 bytes.
fn pooled(count: u32) -> (Vec<String>, Vec<Node>) {
    ((0..count).map(|i| format!("{i:035}")).collect(), array((0..count).map(string).collect()))
}

fn array(values: Vec<Node>) -> Vec<Node> {
    vec![run(node(INIT_ARRAY, [list(values)]))]
}

/// A function with this body in compound assignments of so many levels, each of which generates its left side twice.
fn again(levels: u32, body: Vec<Node>) -> Vec<Node> {
    vec![run((0..levels).fold(function(0, 0, 0, &[], body), |e, _| binary(2, field(e, integer(1)), integer(2))))]
}

/// So many Voids, which generate nothing.
fn voids(count: usize) -> Vec<Node> {
    vec![node(VOID, [integer(1)]); count]
}

const NONE: [&str; 0] = [];
const FEW: [&str; 4] = ["a", "b", "f", "text"];

fn shapes() -> Vec<Shape> {
    let (strings, pushes) = pooled(1_820);
    let left = (0..60).fold(name(0), |e, _| binary(2, field(e, integer(1)), integer(2)));
    let right = (0..100).fold(integer(1), |e, _| binary(2, name(0), e));
    let steps = (0..60).fold(name(0), |e, _| unary(3, 0, field(e, integer(1))));
    let inner = (0..20).fold(run(node(PLAY, [])), |e, _| run(function(0, 2, 3, &[(0, 1)], vec![e])));
    vec![
        shape("10 actions", &FEW, common(10)),
        shape("100 actions", &FEW, common(100)),
        shape("1,000 actions", &FEW, common(1_000)),
        shape("100 actions, each a play", &NONE, vec![run(node(PLAY, [])); 99]),
        shape("100 actions, names that are popped", &FEW, vec![run(name(0)); 33]),
        shape("100 actions, assignments of a number", &FEW, vec![run(assign(name(0), integer(1))); 33]),
        shape("full pool: 1,820 strings of 35 bytes", &strings, pushes),
        shape("2,048 values", &NONE, array(vec![integer(7); 2_047])),
        shape("1 MiB of records", &NONE, vec![node(BREAK, []); 52_426]),
        shape("compound assignments, 60 deep on the left", &FEW, vec![run(left)]),
        shape("compound assignments, 100 deep on the right", &FEW, vec![run(right)]),
        shape("increments, 60 deep", &FEW, vec![run(steps)]),
        shape("20 functions in each other", &FEW, vec![inner]),
    ]
}

/// So many blocks in each other around a statement.
fn nested(depth: usize, inside: Node) -> Node {
    (0..depth).fold(inside, |inner, _| block(vec![inner]))
}

/// What generates nothing, in functions that are generated again and again.
fn idle() -> Vec<Shape> {
    let void = || run(node(VOID, [integer(1)]));
    let void_statements = || voids(16_600).into_iter().map(run).collect::<Vec<_>>();
    let breaks = |count| vec![node(BREAK, []); count];
    let update = for_classic(None, vec![], voids(26_000), block(vec![]));
    let with_empty = |first: bool| {
        (0..40).fold(void(), |inner, _| block(if first { vec![block(vec![]), inner] } else { vec![inner, block(vec![])] }))
    };
    let with_break = (0..40).fold(void(), |inner, _| block(vec![node(BREAK, []), inner]));
    let mut play_first = breaks(50_000);
    play_first.insert(0, run(node(PLAY, [])));
    let mut function_first = void_statements();
    function_first.insert(0, run(function(1, 0, 0, &[], vec![])));
    let with_case = |mut elements: Vec<Node>, at: usize| {
        elements.insert(at, case(integer(1)));
        vec![switch(name(0), elements)]
    };
    vec![
        ("50,000 siblings in a function that is emitted", again(58, breaks(50_000))),
        ("25,000 empty blocks", again(58, vec![block(vec![]); 25_000])),
        ("620 blocks 41 deep", again(8, vec![nested(40, block(vec![])); 620])),
        ("10,000 blocks around a Void", again(58, vec![nested(1, void()); 10_000])),
        ("600 times 40 blocks in each other around a Void", again(8, vec![nested(40, void()); 600])),
        ("230 times 40 blocks in each other around 130 Breaks", again(8, vec![nested(40, block(breaks(130))); 230])),
        ("40 blocks in each other around a play and 50,000 Breaks", again(8, vec![nested(40, block(play_first))])),
        ("400 times 40 blocks, each with a Break and a block", again(8, vec![with_break; 400])),
        ("300 times 40 blocks, each with an empty block and a block", again(8, vec![with_empty(true); 300])),
        ("300 times 40 blocks, each with a block and an empty block", again(8, vec![with_empty(false); 300])),
        ("16,600 Voids as statements", again(58, void_statements())),
        ("16,600 Voids after a named function", again(58, function_first)),
        ("26,000 Voids in an array", again(58, array(voids(26_000)))),
        ("26,000 Voids in a loop's update", again(58, vec![update])),
        ("26,000 Voids returned", again(58, vec![node(RETURN, [list(voids(26_000))])])),
        ("a switch with 50,000 Breaks before its case", again(58, with_case(breaks(50_000), 50_000))),
        ("a switch with 25,000 plays before its case", again(58, with_case(vec![run(node(PLAY, [])); 25_000], 25_000))),
        ("a switch with a block of 50,000 Breaks before its case", again(58, with_case(vec![block(breaks(50_000))], 1))),
        ("a switch with 16,600 Voids before its case", again(58, with_case(void_statements(), 16_600))),
        ("a switch with 16,600 Voids after its case", again(58, with_case(void_statements(), 0))),
    ]
    .into_iter()
    .map(|(name, statements)| shape(format!("{name}, again and again"), &FEW, statements))
    .collect()
}

/// A text of about 1 MiB, whose next character an arbitrary number tells.
fn text(next: impl Fn(u32) -> char) -> String {
    let mut seed = 1u32;
    let mut out = String::new();
    while out.len() < 1_040_000 {
        seed = seed.wrapping_mul(1_664_525).wrapping_add(1_013_904_223);
        out.push(next(seed >> 16));
    }
    out
}

/// Strings: what is looked at when a file is checked, and found in the pool.
fn strings() -> Vec<Shape> {
    let unused = |name: &str, text: String| shape(format!("1 MiB of {name}"), &[text], vec![run(integer(1))]);
    let pushed = |name: &str, strings: &[String], times: u32| {
        let count = strings.len() as u32;
        shape(name, strings, array((0..times).map(|i| string(i % count)).collect()))
    };
    let pairs = |i: usize| (0..17).map(|k| if i >> (k % 11) & 1 == 1 { "Aa" } else { "BB" }).collect::<String>();
    let alike = |i: usize| "a".repeat(1_050) + &format!("{i:04}") + &"a".repeat(1_050);
    vec![
        unused("one string", "a".repeat(1_048_000)),
        unused("two-byte characters", "\u{e9}".repeat(524_000)),
        unused("three-byte characters", "\u{5b57}".repeat(349_000)),
        unused("four-byte characters", "\u{1f600}".repeat(262_000)),
        unused("text, each hundredth character of two bytes", ("a".repeat(99) + "\u{e9}").repeat(10_300)),
        unused("text, each two-hundredth character of two bytes", ("a".repeat(199) + "\u{e9}").repeat(5_150)),
        unused("text, each fortieth character of two bytes", ("a".repeat(39) + "\u{e9}").repeat(25_500)),
        unused("text, each fortieth character of four bytes", ("a".repeat(39) + "\u{1f600}").repeat(24_300)),
        unused("text, two neighbours in eighty characters of two bytes", ("a".repeat(78) + "\u{e9}\u{e9}").repeat(12_750)),
        unused("text, each second character of two bytes", "a\u{e9}".repeat(349_000)),
        unused("text, one character in twenty, at random, of two bytes", text(|n| if n % 20 == 0 { '\u{e9}' } else { 'a' })),
        unused("text, one character in forty, at random, of three bytes", text(|n| if n % 40 == 0 { '\u{5b57}' } else { 'a' })),
        unused(
            "two-byte characters, one character in seven, at random, a space",
            text(|n| if n % 7 == 0 { ' ' } else { '\u{e9}' }),
        ),
        unused("characters of one to four bytes, at random", text(|n| ['a', '\u{e9}', '\u{5b57}', '\u{1f600}'][n as usize % 4])),
        shape("260,000 empty strings", &vec![""; 260_000], vec![run(integer(1))]),
        shape("80,000 strings of 8 bytes", &vec!["abcdefgh"; 80_000], vec![run(integer(1))]),
        shape("80,000 strings of 4 two-byte characters", &vec!["\u{e9}\u{e8}\u{ea}\u{eb}"; 80_000], vec![run(integer(1))]),
        shape("20,000 strings of 13 three-byte characters", &vec!["\u{5b57}".repeat(13); 20_000], vec![run(integer(1))]),
        shape("45,000 strings of 4 four-byte characters", &vec!["\u{1f600}".repeat(4); 45_000], vec![run(integer(1))]),
        shape(
            "40,000 strings of 20 bytes, one character of two",
            &vec!["a clarity caf\u{e9} hall"; 40_000],
            vec![run(integer(1))],
        ),
        pushed("a string of 900,000 bytes, pushed 2,047 times", &["a".repeat(900_000)], 2_047),
        pushed("a string of 65,000 bytes, pushed 2,047 times", &["a".repeat(65_000)], 2_047),
        pushed("a string of 4,000 bytes, pushed 2,047 times", &["a".repeat(4_000)], 2_047),
        pushed("two strings of 40,000 bytes, pushed 2,047 times", &["a".repeat(40_000), "b".repeat(40_000)], 2_047),
        pushed("two equal strings of 30,000 bytes, pushed 2,047 times", &["a".repeat(30_000), "a".repeat(30_000)], 2_047),
        pushed(
            "30 strings of 2,104 bytes that differ in the middle, pushed 2,047 times",
            &(0..30).map(alike).collect::<Vec<_>>(),
            2_047,
        ),
        pushed("1,820 strings of Aa and BB", &(0..1_820).map(pairs).collect::<Vec<_>>(), 1_820),
        pushed("2,047 numbers as strings", &(0..2_047).map(|i| i.to_string()).collect::<Vec<_>>(), 2_047),
    ]
}

/// Twice as much in each row as in the one before.
fn growing() -> Vec<Shape> {
    let actions = [100, 200, 400, 800].map(|n| shape(format!("growth: {n} actions"), &FEW, common(n)));
    let records =
        [10_000, 20_000, 40_000].map(|n| shape(format!("growth: {} records", thousands(n)), &NONE, vec![node(BREAK, []); n - 1]));
    let strings = [400, 800, 1_600].map(|n| {
        let (strings, pushes) = pooled(n);
        shape(format!("growth: {} pooled strings of 35 bytes", thousands(n as usize)), &strings, pushes)
    });
    actions.into_iter().chain(records).chain(strings).collect()
}

/// The best time of several runs.
fn best<T>(mut work: impl FnMut() -> T) -> f64 {
    let begin = Instant::now();
    let mut best = f64::MAX;
    let mut runs = 0;
    while runs < 3 || begin.elapsed().as_millis() < 200 && runs < 1_000 {
        let start = Instant::now();
        black_box(work());
        best = best.min(start.elapsed().as_secs_f64());
        runs += 1;
    }
    best * 1e6
}

#[cfg(feature = "verified")]
fn verified(file: &[u8], room: usize) -> String {
    let (mut lists, mut output) = (vec![0; rascal_verified::WORK_WORDS], vec![0; room]);
    shown(best(|| rascal_verified::compile_into(file, &mut lists, &mut output)))
}

#[cfg(not(feature = "verified"))]
fn verified(_: &[u8], _: usize) -> String {
    "-".to_string()
}

fn thousands(n: usize) -> String {
    if n < 1_000 { n.to_string() } else { format!("{},{:03}", thousands(n / 1_000), n % 1_000) }
}

fn shown(time: f64) -> String {
    if time < 100.0 { format!("{time:.1}") } else { thousands(time.round() as usize) }
}

fn main() {
    let part = std::env::args().nth(1).unwrap_or_default();
    println!("| Script | Bytes | This repository | Rascal |\n|---|---:|---:|---:|");
    for (name, file) in
        shapes().into_iter().chain(idle()).chain(strings()).chain(growing()).filter(|(name, _)| name.contains(&part))
    {
        let answer = compile(&file, LIST_WORDS, WIDE_ROOM);
        let note = answer.as_ref().map_or_else(|number| format!(" (refusal {number})"), |_| String::new());
        // What the programs lend, where the bytes fit.
        let room = if answer.is_ok_and(|(_, bytes)| bytes.len() > ROOM) { WIDE_ROOM } else { ROOM };
        let rascal = shown(best(|| compile(&file, LIST_WORDS, room)));
        println!("| {name}{note} | {} | {} | {rascal} |", thousands(file.len()), verified(&file, room));
    }
}
