//! corpus FOLDER: writes the fixed corpus and its expected answers.
//!
//!   stdin, expected.lowering, expected.compile   script files
//!   large.stdin, large.expected.compile          script files whose listing has more than 30,000 characters
//!   bytes.stdin, bytes.expected                  action bytes
//!
//! Where an answer is written here it comes from document 01, and Rascal's answer must agree with it. The program fails if
//! some kind, operator, action code or refusal is not reached.

use compare::generated::{File, Kind, files as files_of};
use compare::kinds::*;
use compare::listing::listing;
use compare::lists::{Act, Lists, PLAIN, Target, Value};
use compare::node::*;
use compare::properties::{NEARLY, PROPERTIES};
use compare::text::{encode, hex};
use compare::{LIST_WORDS, ROOM, action_writer, answer, compile, lower_file, read};
use std::cell::RefCell;
use std::collections::{BTreeMap, BTreeSet};
use std::fmt::Write;

thread_local! {
    static STRINGS: RefCell<Vec<Vec<u8>>> = const { RefCell::new(vec![]) };
}

/// The index of a string in the script that is being made.
fn i(text: &str) -> u32 {
    STRINGS.with_borrow_mut(|all| {
        if let Some(at) = all.iter().position(|s| s == text.as_bytes()) {
            return at as u32;
        }
        all.push(text.as_bytes().to_vec());
        all.len() as u32 - 1
    })
}

/// A new string, even if there is an equal one.
fn fresh(text: &[u8]) -> u32 {
    STRINGS.with_borrow_mut(|all| {
        all.push(text.to_vec());
        all.len() as u32 - 1
    })
}

fn n(text: &str) -> Node {
    name(i(text))
}

fn s(text: &str) -> Node {
    string(i(text))
}

fn k(value: i32) -> Node {
    integer(value)
}

fn play() -> Node {
    run(node(PLAY, []))
}

fn plays(count: usize) -> Vec<Node> {
    vec![play(); count]
}

/// The expression's value is used.
fn used(e: Node) -> Node {
    run(assign(n("z"), e))
}

fn brk() -> Node {
    node(BREAK, [])
}

fn cont() -> Node {
    node(CONTINUE, [])
}

fn array(values: Vec<Node>) -> Node {
    node(INIT_ARRAY, [list(values)])
}

fn ret(values: Vec<Node>) -> Node {
    node(RETURN, [list(values)])
}

fn throw(values: Vec<Node>) -> Node {
    node(THROW, [list(values)])
}

fn fun(body: Vec<Node>) -> Node {
    function(0, 0, 0, &[], body)
}

fn named(text: &str, body: Vec<Node>) -> Node {
    run(function(i(text) + 1, 0, 0, &[], body))
}

fn goto(frame: Node, play: bool) -> Node {
    node(GOTO_FRAME, [frame]).words(play as u32, 0, 0)
}

fn voids(count: usize, leaf: Node) -> Node {
    (0..count).fold(leaf, |e, _| node(VOID, [e]))
}

fn blocks(count: usize, leaf: Node) -> Node {
    (0..count).fold(leaf, |e, _| block(vec![e]))
}

/// Input lines, and the answers to them.
#[derive(Default)]
struct Answers {
    stdin: String,
    lowering: String,
    compile: String,
}

#[derive(Default)]
struct Corpus {
    small: Answers,
    large: Answers,
    names: BTreeSet<String>,
    kinds: BTreeSet<u32>,
    operators: BTreeSet<(u32, u32, u32)>,
    codes: BTreeSet<u8>,
    values: BTreeSet<&'static str>,
    refusals: BTreeMap<u8, usize>,
    count: usize,
}

/// What document 01 says of a file, where it is written here.
enum Says<'a> {
    Refused(u8),
    Passes,
    Listing(&'a str),
    Bytes(&'a str),
    Rust,
}
use Says::*;

impl Corpus {
    fn file(&mut self, name: &str, says: Says, file: Vec<u8>) {
        assert!(self.names.insert(name.to_string()) && !name.contains(' '), "{name}");
        let lowered = lower_file(&file);
        let compiled = compile(&file, LIST_WORDS, ROOM);
        match says {
            Refused(number) => assert_eq!(compiled.as_ref().err(), Some(&number), "{name}"),
            Passes => assert_eq!(compiled.as_ref().err(), None, "{name}"),
            Listing(text) => assert_eq!(lowered.as_ref().map(listing), Ok(text.to_string()), "{name}"),
            Bytes(text) => assert_eq!(compiled.as_ref().map(|c| hex(&c.1)), Ok(text.to_lowercase().replace(' ', "")), "{name}"),
            Rust => {}
        }
        self.reach(&file, &lowered, compiled.as_ref().err().copied());
        if let Ok((lists, bytes)) = &compiled {
            assert_eq!(read(bytes, LIST_WORDS), Ok(lists.by_place()), "{name}");
        }
        let listed = answer::listed(&lowered);
        let out = if listed.len() > 30_000 { &mut self.large } else { &mut self.small };
        writeln!(out.stdin, "{name} {}", encode(&file)).unwrap();
        write!(out.lowering, "{name}\n{listed}").unwrap();
        write!(out.compile, "{name}\n{}", answer::compiled_in_short(&compiled)).unwrap();
        self.count += 1;
    }

    fn reach(&mut self, file: &[u8], lowered: &Result<Lists, u8>, refusal: Option<u8>) {
        if let Some(number) = refusal {
            *self.refusals.entry(number).or_default() += 1;
        }
        let Ok(lists) = lowered else { return };
        for r in compare::check::check(file).ok().unwrap().records {
            self.kinds.insert(r.kind);
            if matches!(r.kind, BINARY | UNARY | CONSTANT | FOR_IN) {
                self.operators.insert((r.kind, r.a, if matches!(r.kind, UNARY | FOR_IN) { r.b } else { 0 }));
            }
        }
        for act in lists.0.iter().flat_map(|l| &l.actions) {
            self.codes.insert(act.code());
            if let Act::Push(values) = act {
                for v in values {
                    self.values.insert(match v {
                        Value::String(_) => "string",
                        Value::Null => "null",
                        Value::Undefined => "undefined",
                        Value::Register(_) => "register",
                        Value::Bool(true) => "true",
                        Value::Bool(false) => "false",
                        Value::Float(_) => "float",
                        Value::Integer(_) => "integer",
                        Value::Constant(c) if *c < 256 => "constant of one byte",
                        Value::Constant(_) => "constant of two bytes",
                    });
                }
            }
        }
    }

    /// A script over the strings that were named since the last one.
    fn script(&mut self, name: &str, says: Says, statements: Vec<Node>) {
        let strings = STRINGS.take();
        self.file(name, says, file(&strings, statements));
    }

    fn rust(&mut self, name: &str, statements: Vec<Node>) {
        self.script(name, Rust, statements);
    }

    fn passes(&mut self, name: &str, statements: Vec<Node>) {
        self.script(name, Passes, statements);
    }

    fn refused(&mut self, name: &str, number: u8, statements: Vec<Node>) {
        self.script(name, Refused(number), statements);
    }

    /// A file whose parts are changed.
    fn broken(&mut self, name: &str, number: u8, statements: Vec<Node>, change: impl Fn(&mut Parts)) {
        let strings = STRINGS.take();
        let mut parts = Parts::new(&strings, &list(statements));
        change(&mut parts);
        self.file(name, Refused(number), parts.bytes());
    }

    fn everything_reached(&self) {
        let mut missing = vec![];
        for kind in (0..=15).chain(32..=77).chain(96..=101).filter(|&k| !is_refused(k)) {
            if !self.kinds.contains(&kind) {
                missing.push(format!("kind {kind}"));
            }
        }
        let operators = (0..43).map(|a| (BINARY, a, 0)).chain((0..6).map(|a| (CONSTANT, a, 0)));
        let operators = operators.chain([
            (UNARY, 0, 0),
            (UNARY, 1, 0),
            (UNARY, 2, 0),
            (UNARY, 3, 0),
            (UNARY, 3, 1),
            (UNARY, 4, 0),
            (UNARY, 4, 1),
            (UNARY, 5, 0),
        ]);
        for o in operators.chain([(FOR_IN, 0, 0), (FOR_IN, 0, 1), (FOR_IN, 0, 2), (FOR_IN, 1, 0)]) {
            if !self.operators.contains(&o) {
                missing.push(format!("{o:?}"));
            }
        }
        let codes = PLAIN.iter().map(|p| p.1).chain([0x81, 0x87, 0x88, 0x8C, 0x8E, 0x96, 0x99, 0x9B, 0x9D, 0x9F]);
        missing.extend(codes.filter(|c| !self.codes.contains(c)).map(|c| format!("code {c:02x}")));
        if self.values.len() != 10 {
            missing.push(format!("values: only {:?}", self.values));
        }
        missing.extend((1..=12).filter(|n| !self.refusals.contains_key(n)).map(|n| format!("refusal {n}")));
        assert!(missing.is_empty(), "not reached: {missing:?}");
    }
}

// ---------------------------------------------------------------- the scripts of document 01

fn known_scripts(c: &mut Corpus) {
    c.script("s1_empty", Bytes("88 02 00 00 00 00"), vec![]);
    c.script("s2_assign", Bytes("88 04 00 01 00 61 00 96 07 00 08 00 07 50 00 00 00 1D 00"), vec![run(assign(n("a"), k(80)))]);
    let s3 = "list 0 length 6\n0 ConstantPool 62\nloc0000:\n1 Push Constant 0\n2 GetVariable\n3 Not\n4 If loc0001\n5 Jump loc0000\nloc0001:\n";
    c.script("s3_while", Listing(s3), vec![while_loop(n("b"), block(vec![]))]);
    c.script(
        "s3_while_bytes",
        Bytes("88 04 00 01 00 62 00 96 02 00 08 00 1C 12 9D 02 00 05 00 99 02 00 EF FF 00"),
        vec![while_loop(n("b"), block(vec![]))],
    );
    let frames = [0, 1, 2, -1, i32::MIN].map(|f| run(goto(k(f), false)));
    c.script("s4_goto_frames", Listing("list 0 length 6\n0 ConstantPool\n1 GotoFrame 0\n2 GotoFrame 0\n3 GotoFrame 1\n4 GotoFrame 65534\n5 GotoFrame 65535\n"), frames.into());
    c.script("s5_lone_break", Bytes("88 02 00 00 00 00"), vec![brk()]);
    c.script("s6_switch_of_statements", Bytes("88 02 00 00 00 00"), vec![switch(n("a"), vec![play(), run(n("b"))])]);
    c.refused("s7_two_defaults", 6, vec![switch(k(1), vec![default(), default()])]);
    c.refused("s8_negated", 7, vec![run(unary(0, 0, k(i32::MIN)))]);
    c.refused("s9_null_set", 5, vec![run(assign(n("null"), k(1)))]);
    c.script(
        "s10_call",
        Listing("list 0 length 4\n0 ConstantPool 66\n1 Push Integer 2 Integer 1 Integer 2 Constant 0\n2 CallFunction\n3 Pop\n"),
        vec![run(call(n("f"), vec![k(1), k(2)]))],
    );
    c.script(
        "s11_ternary",
        Listing(
            "list 0 length 8\n0 ConstantPool 63\n1 Push Constant 0\n2 GetVariable\n3 If loc0001\n4 Push Integer 2\n5 Jump loc0000\nloc0001:\n6 Push Integer 1\nloc0000:\n7 Pop\n",
        ),
        vec![run(ternary(n("c"), k(1), k(2)))],
    );
    c.script(
        "s12_property",
        Listing("list 0 length 4\n0 ConstantPool -\n1 Push Constant 0 Integer 0\n2 GetProperty\n3 Pop\n"),
        vec![run(n("_X"))],
    );
}

// ---------------------------------------------------------------- kinds and operators

fn kinds(c: &mut Corpus) {
    let one = [
        ("ascii_to_char", ASCII_TO_CHAR),
        ("mb_ascii_to_char", MB_ASCII_TO_CHAR),
        ("call_frame", CALL_FRAME),
        ("type_of", TYPE_OF),
        ("void", VOID),
        ("get_variable", GET_VARIABLE),
        ("cast_to_integer", CAST_TO_INTEGER),
        ("cast_to_number", CAST_TO_NUMBER),
        ("cast_to_string", CAST_TO_STRING),
        ("string_length", STRING_LENGTH),
        ("mb_string_length", MB_STRING_LENGTH),
        ("char_to_ascii", CHAR_TO_ASCII),
        ("mb_char_to_ascii", MB_CHAR_TO_ASCII),
        ("get_target_path", GET_TARGET_PATH),
        ("trace", TRACE),
        ("remove_sprite", REMOVE_SPRITE),
        ("get_random_number", GET_RANDOM_NUMBER),
        ("delete", DELETE),
    ];
    for (word, kind) in one {
        c.rust(&format!("{word}_alone"), vec![run(node(kind, [n("a")]))]);
        c.rust(&format!("{word}_used"), vec![used(node(kind, [k(5)]))]);
    }
    let none = [
        ("get_time", GET_TIME),
        ("next_frame", NEXT_FRAME),
        ("previous_frame", PREVIOUS_FRAME),
        ("play", PLAY),
        ("stop", STOP),
        ("stop_sounds", STOP_SOUNDS),
        ("end_drag", END_DRAG),
        ("toggle_quality", TOGGLE_QUALITY),
    ];
    for (word, kind) in none {
        c.rust(&format!("{word}_alone"), vec![run(node(kind, []))]);
        c.rust(&format!("{word}_used"), vec![used(node(kind, []))]);
    }
    for (word, kind) in [("set_variable", SET_VARIABLE), ("cast_to_object", CAST_TO_OBJECT), ("field", FIELD)] {
        c.rust(&format!("{word}_alone"), vec![run(node(kind, [n("a"), s("b")]))]);
        c.rust(&format!("{word}_used"), vec![used(node(kind, [s("a"), n("b")]))]);
    }
    for (word, kind) in [("duplicate", DUPLICATE), ("substring", SUBSTRING), ("mb_substring", MB_SUBSTRING)] {
        c.rust(&format!("{word}_alone"), vec![run(node(kind, [n("a"), s("b"), k(3)]))]);
        c.rust(&format!("{word}_used"), vec![used(node(kind, [k(1), k(2), n("d")]))]);
    }
    for number in [0, 21, 22, -1, i32::MIN] {
        c.rust(&format!("get_property_{number}"), vec![run(node(GET_PROPERTY, [n("a")]).words(number as u32, 0, 0))]);
        c.rust(&format!("set_property_{number}"), vec![run(node(SET_PROPERTY, [n("a"), k(7)]).words(number as u32, 0, 0))]);
    }
    c.rust("set_property_used", vec![used(node(SET_PROPERTY, [n("a"), n("b")]).words(3, 0, 0))]);
    for lock in [0, 1] {
        c.rust(&format!("start_drag_lock_{lock}"), vec![run(node(START_DRAG, [n("a"), list(vec![])]).words(lock, 0, 0))]);
        let four = list(vec![k(1), n("b"), k(3), n("c")]);
        c.rust(&format!("start_drag_within_lock_{lock}"), vec![run(node(START_DRAG, [n("a"), four]).words(lock, 0, 0))]);
    }
    c.rust("start_drag_used", vec![used(node(START_DRAG, [n("a"), list(vec![k(1), k(2), k(3), k(4)])]).words(1, 0, 0))]);
    c.rust(
        "start_drag_after_values",
        vec![block(vec![ret(vec![k(1), k(2), k(3)]), run(node(START_DRAG, [n("a"), list(vec![])]))])],
    );
    for count in 0..4 {
        let fields = |c: usize| (0..c).map(|j| node(OBJECT_FIELD, [k(j as i32)]).words(i(["p", "q", "p"][j]), 0, 0)).collect();
        c.rust(&format!("object_of_{count}"), vec![run(node(INIT_OBJECT, [list(fields(count))]))]);
        c.rust(&format!("array_of_{count}"), vec![run(array((0..count as i32).map(k).collect()))]);
    }
    c.rust(
        "object_key_is_a_property_name",
        vec![run(node(INIT_OBJECT, [list(vec![node(OBJECT_FIELD, [n("_x")]).words(i("_x"), 0, 0)])]))],
    );
    c.rust("array_of_calls", vec![used(array(vec![call(n("f"), vec![]), call(n("g"), vec![k(1)]), n("h")]))]);
    c.rust("array_holds_nothing", vec![used(array(vec![voids(1, k(1)), k(2)]))]);
    c.rust(
        "declare",
        vec![declare(i("a"), None), declare(i("b"), Some(k(1))), declare(i("_x"), Some(n("null"))), declare(i("null"), None)],
    );
    c.rust("declare_function", vec![declare(i("a"), Some(fun(vec![ret(vec![])])))]);
    for count in 0..4 {
        let values = |c: usize| (0..c).map(|j| k(j as i32)).collect::<Vec<_>>();
        c.rust(&format!("return_of_{count}"), vec![ret(values(count))]);
        c.rust(&format!("throw_of_{count}"), vec![throw(values(count))]);
        c.rust(&format!("return_of_{count}_in_a_block"), vec![block(vec![ret(values(count))]), play()]);
        c.rust(&format!("return_of_{count}_in_a_loop"), vec![for_classic(None, vec![], vec![], ret(values(count))), play()]);
    }
    c.rust(
        "return_in_nested_blocks",
        vec![block(vec![ret(vec![k(1), k(2)]), block(vec![ret(vec![k(3), k(4), k(5)])])]), run(k(1))],
    );
    c.rust("blocks_empty", vec![block(vec![]), block(vec![block(vec![])])]);
}

/// Makes an expression over the strings of the script that is being made.
type Make = fn() -> Node;

/// An expression for each way in which a value is reached; the number is the refusal of setting it, or 0.
const PLACES: &[(&str, u8, Make)] = &[
    ("name", 0, || n("a")),
    ("member", 0, || field(n("a"), s("b"))),
    ("deep_member", 0, || field(field(n("a"), k(1)), call(n("f"), vec![]))),
    ("register", 0, || register(3)),
    ("property", 0, || n("_Alpha")),
    ("null", 5, || n("null")),
    ("undefined", 5, || n("undefined")),
    ("string", 5, || s("_x")),
    ("float", 5, || float(0x4000_0000_0000_0000)),
    ("integer", 5, || k(3)),
    ("true", 5, || boolean(true)),
    ("call", 5, || call(n("f"), vec![])),
    ("ternary", 5, || ternary(n("a"), n("b"), n("c"))),
    ("nothing", 5, || voids(1, k(1))),
];

const ASSIGNING: &[u32] = &[1, 2, 4, 6, 8, 10, 12, 14, 16, 18, 20, 22];

fn operators(c: &mut Corpus) {
    for o in 0..43 {
        c.rust(&format!("binary_{o}_alone"), vec![run(binary(o, n("a"), k(1)))]);
        c.rust(&format!("binary_{o}_used"), vec![used(binary(o, n("a"), n("b")))]);
    }
    for &(word, refusal, place) in PLACES {
        let says = || if refusal == 0 { Passes } else { Refused(refusal) };
        for o in [1, 2, 22] {
            c.script(&format!("assign_{o}_{word}_alone"), says(), vec![run(binary(o, place(), n("v")))]);
            c.script(&format!("assign_{o}_{word}_used"), says(), vec![used(binary(o, place(), k(4)))]);
        }
        for (step, o) in [("increment", 3), ("decrement", 4)] {
            for affix in [0, 1] {
                c.script(&format!("{step}_{affix}_{word}_alone"), says(), vec![run(unary(o, affix, place()))]);
                c.script(&format!("{step}_{affix}_{word}_used"), says(), vec![used(unary(o, affix, place()))]);
            }
        }
        let property = if word == "property" { 5 } else { 0 };
        let says = || if property == 0 { Passes } else { Refused(5) };
        c.script(&format!("get_{word}_alone"), Passes, vec![run(place())]);
        c.script(&format!("get_{word}_used"), Passes, vec![used(place())]);
        c.script(&format!("call_{word}"), says(), vec![run(call(place(), vec![k(1), n("p")]))]);
        c.script(&format!("new_{word}"), says(), vec![used(construct(place(), vec![k(1), n("p")]))]);
        c.script(&format!("delete_{word}"), says(), vec![run(node(DELETE, [place()]))]);
        c.script(&format!("negated_{word}"), Passes, vec![used(unary(0, 0, place()))]);
    }
    for &o in ASSIGNING {
        c.rust(
            &format!("assign_{o}_member_used_in_a_condition"),
            vec![while_loop(binary(o, field(register(1), s("m")), k(2)), brk())],
        );
    }
    c.rust("assign_chain", vec![run(assign(n("a"), assign(n("b"), assign(register(2), k(1)))))]);
    c.rust("assign_add_chain", vec![run(binary(2, n("a"), binary(2, field(n("b"), s("c")), binary(2, n("_y"), k(1)))))]);
    c.rust("assign_to_a_member_of_an_assignment", vec![run(binary(2, field(binary(2, n("a"), k(1)), s("b")), k(2)))]);
    for (word, o) in [("sub", 0), ("add", 1), ("bit_not", 2), ("logical_not", 5)] {
        c.passes(&format!("unary_{word}_alone"), vec![run(unary(o, 0, n("a")))]);
        c.passes(&format!("unary_{word}_used"), vec![used(unary(o, 0, n("a")))]);
        c.passes(&format!("unary_{word}_of_an_assignment"), vec![run(unary(o, 0, assign(n("a"), k(1))))]);
        c.passes(&format!("unary_{word}_of_a_step"), vec![run(unary(o, 0, unary(3, 0, n("a"))))]);
    }
    for value in [0, 1, -1, i32::MAX, i32::MIN + 1] {
        c.passes(&format!("negated_integer_{value}"), vec![used(unary(0, 0, k(value)))]);
    }
    let floats: [u64; 7] = [
        0,
        1 << 63,
        0x3FF8_0000_0000_0000,
        0x7FF0_0000_0000_0000,
        0x7FF8_0000_0000_0000,
        0xFFF8_0000_0000_0001,
        0x7FF0_0000_0000_0001,
    ];
    for bits in floats {
        let flipped = format!("list 0 length 3\n0 ConstantPool\n1 Push Float {:016x}\n2 Pop\n", bits ^ 1 << 63);
        c.script(&format!("negated_float_{bits:016x}"), Listing(&flipped), vec![run(unary(0, 0, float(bits)))]);
        let same = format!("list 0 length 3\n0 ConstantPool\n1 Push Float {bits:016x}\n2 Pop\n");
        c.script(&format!("float_{bits:016x}"), Listing(&same), vec![run(float(bits))]);
    }
    c.rust("negated_twice", vec![used(unary(0, 0, unary(0, 0, k(5))))]);
    c.passes("unary_plus_of_the_least_integer", vec![used(unary(1, 0, k(i32::MIN)))]);
    c.refused("negated_least_integer_used", 7, vec![used(unary(0, 0, k(i32::MIN)))]);
    c.passes("negated_negated_least_integer_is_never_reached", vec![run(voids(1, unary(0, 0, k(i32::MIN))))]);
}

// ---------------------------------------------------------------- the tracked size

/// A statement in a block in which five values are left: an action that takes too many of them leaves too few Pops.
fn after_values(statement: Node) -> Vec<Node> {
    vec![block(vec![throw((1..7).map(k).collect()), statement]), play()]
}

fn tracked_size(c: &mut Corpus) {
    for kind in (32..=77).filter(|&k| !is_refused(k)) {
        let Some((words, children)) = form(kind) else { continue };
        if words.contains('f') || !children.chars().all(|letter| letter == 'e') {
            continue;
        }
        let make = || Node { kind, a: 0, b: 0, c: 0, children: children.chars().map(|_| n("a")).collect() };
        c.rust(&format!("kind_{kind}_after_values"), after_values(run(make())));
        c.rust(&format!("kind_{kind}_used_after_values"), after_values(used(make())));
    }
    for o in 0..43 {
        c.rust(&format!("binary_{o}_after_values"), after_values(run(binary(o, n("a"), n("b")))));
    }
    for &(word, refusal, place) in PLACES {
        if word != "property" {
            c.rust(&format!("call_{word}_after_values"), after_values(run(call(place(), vec![k(1), n("p")]))));
            c.rust(&format!("new_{word}_after_values"), after_values(run(construct(place(), vec![k(1), n("p")]))));
            c.rust(&format!("delete_{word}_after_values"), after_values(run(node(DELETE, [place()]))));
        }
        c.rust(&format!("get_{word}_after_values"), after_values(run(place())));
        if refusal == 0 {
            c.rust(&format!("set_{word}_after_values"), after_values(run(assign(place(), k(1)))));
            c.rust(&format!("set_{word}_used_after_values"), after_values(used(assign(place(), k(1)))));
            c.rust(&format!("step_{word}_after_values"), after_values(run(unary(3, 0, place()))));
            c.rust(&format!("step_{word}_used_after_values"), after_values(used(unary(4, 0, place()))));
            c.rust(&format!("step_{word}_prefix_after_values"), after_values(used(unary(4, 1, place()))));
        }
    }
    let other: &[(&str, Make)] = &[
        ("negated", || run(unary(0, 0, n("a")))),
        ("bit_not", || run(unary(2, 0, n("a")))),
        ("logical_not", || run(unary(5, 0, n("a")))),
        ("array", || run(array(vec![k(1), k(2), k(3)]))),
        ("object", || run(node(INIT_OBJECT, [list(vec![node(OBJECT_FIELD, [k(1)]).words(i("p"), 0, 0)])]))),
        ("drag", || run(node(START_DRAG, [n("a"), list(vec![])]))),
        ("drag_within", || run(node(START_DRAG, [n("a"), list(vec![k(1), k(2), k(3), k(4)])]))),
        ("goto_frame", || run(goto(k(1), true))),
        ("goto_label", || run(goto(s("l"), true))),
        ("goto_name", || run(goto(n("a"), true))),
        ("function", || run(fun(vec![]))),
        ("function_named", || run(function(i("f") + 1, 0, 0, &[], vec![]))),
        ("function_of_registers", || run(function(0, 2, 0, &[], vec![]))),
        ("function_of_registers_named", || run(function(i("f") + 1, 2, 0, &[], vec![]))),
        ("function_of_an_empty_name", || run(function(i("") + 1, 2, 0, &[], vec![]))),
        ("ternary", || run(ternary(n("a"), k(1), k(2)))),
        ("ternary_of_nothing", || run(ternary(n("a"), voids(1, k(1)), voids(1, k(1))))),
        ("declare", || declare(i("a"), None)),
        ("declare_with_a_value", || declare(i("a"), Some(k(1)))),
        ("return", || ret(vec![k(1)])),
        ("return_of_none", || ret(vec![])),
        ("throw", || throw(vec![k(1)])),
        ("while", || while_loop(n("a"), play())),
        ("if", || if_then(n("a"), run(k(1)), Some(run(k(2))))),
        ("for_in_variable", || for_in(0, i("v"), n("o"), play())),
        ("for_in_declared", || for_in(1, i("v"), n("o"), play())),
        ("for_in_register", || for_in(2, 3, n("o"), play())),
        ("for_classic", || for_classic(Some(run(k(1))), vec![k(1), n("a")], vec![k(2), n("b")], play())),
        ("switch", || switch(n("a"), vec![case(k(1)), brk(), case(k(2)), default(), cont()])),
        ("break_in_a_loop", || while_loop(n("a"), block(vec![ret(vec![k(1), k(2)]), brk(), cont()]))),
    ];
    for (word, make) in other {
        c.rust(&format!("{word}_after_values"), after_values(make()));
    }
}

// ---------------------------------------------------------------- values that are used

/// An assignment leaves its value only where that is used.
fn q() -> Node {
    assign(n("q"), k(1))
}

fn children_are_used(c: &mut Corpus) {
    for kind in (32..=77).filter(|&k| !is_refused(k)) {
        let Some((_, children)) = form(kind) else { continue };
        for place in (0..children.len()).filter(|&p| children[p..].starts_with('e')) {
            let child = |at: usize, letter: char| match letter {
                'e' if at == place => q(),
                'e' => n("a"),
                _ => list(vec![]),
            };
            let make =
                || Node { kind, a: 0, b: 0, c: 0, children: children.chars().enumerate().map(|(at, l)| child(at, l)).collect() };
            c.rust(&format!("kind_{kind}_uses_child_{place}"), vec![run(make())]);
        }
    }
    for o in 0..43 {
        c.rust(&format!("binary_{o}_uses_its_right_side"), vec![run(binary(o, n("a"), q()))]);
        if !ASSIGNING.contains(&o) {
            c.rust(&format!("binary_{o}_uses_its_left_side"), vec![run(binary(o, q(), n("a")))]);
        }
    }
    let other: &[(&str, Make)] = &[
        ("return", || ret(vec![q(), n("a"), q()])),
        ("throw", || throw(vec![q(), n("a"), q()])),
        ("switch_target", || switch(q(), vec![case(k(1))])),
        ("case", || switch(n("a"), vec![case(q()), case(q())])),
        ("declaration", || declare(i("a"), Some(q()))),
        ("while", || while_loop(q(), play())),
        ("if", || if_then(q(), play(), None)),
        ("for_in", || for_in(0, i("v"), q(), play())),
        ("for_conditions", || for_classic(None, vec![q(), q()], vec![], play())),
        ("for_updates", || for_classic(None, vec![], vec![q(), q()], play())),
        ("argument", || run(call(n("f"), vec![q(), n("a"), q()]))),
        ("new_argument", || run(construct(n("f"), vec![q(), n("a"), q()]))),
        ("element", || run(array(vec![q(), n("a"), q()]))),
        ("object_field", || run(node(INIT_OBJECT, [list(vec![node(OBJECT_FIELD, [q()]).words(i("p"), 0, 0)])]))),
        ("constraint_0", || run(node(START_DRAG, [n("a"), list(vec![q(), k(1), k(2), k(3)])]))),
        ("constraint_1", || run(node(START_DRAG, [n("a"), list(vec![k(0), q(), k(2), k(3)])]))),
        ("constraint_2", || run(node(START_DRAG, [n("a"), list(vec![k(0), k(1), q(), k(3)])]))),
        ("constraint_3", || run(node(START_DRAG, [n("a"), list(vec![k(0), k(1), k(2), q()])]))),
        ("negation", || run(unary(0, 0, q()))),
        ("bit_not", || run(unary(2, 0, q()))),
        ("logical_not", || run(unary(5, 0, q()))),
        ("step_of_a_member", || run(unary(3, 0, field(q(), q())))),
        ("goto_frame", || run(goto(q(), true))),
        ("deleted_member", || run(node(DELETE, [field(q(), q())]))),
        ("function_body", || run(fun(vec![run(q()), ret(vec![q()])]))),
    ];
    for (word, make) in other {
        c.rust(&format!("{word}_is_used"), vec![make()]);
    }
}

// ---------------------------------------------------------------- names

fn names(c: &mut Corpus) {
    for (number, word) in PROPERTIES.iter().enumerate() {
        let text = format!("list 0 length 4\n0 ConstantPool -\n1 Push Constant 0 Integer {number}\n2 GetProperty\n3 Pop\n");
        c.script(&format!("property_{number}"), Listing(&text), vec![run(n(word))]);
        let odd: String =
            word.chars().enumerate().map(|(j, l)| if (j + number) % 2 == 0 { l.to_ascii_uppercase() } else { l }).collect();
        let text = format!("list 0 length 3\n0 ConstantPool -\n1 Push Constant 0 Integer {number} Integer 1\n2 SetProperty\n");
        c.script(&format!("property_{number}_set_in_odd_case"), Listing(&text), vec![run(assign(n(&odd), k(1)))]);
    }
    let others = [
        "_url2",
        "_ymous",
        "_ymousee",
        "_QUALIT",
        "_\u{212A}",
        "_ſoundbuftime",
        "_ｘ",
        "Null",
        "NULL",
        "nul",
        "nulll",
        "Undefined",
        "undefine",
        "undefinedd",
        "_X\u{301}",
    ];
    let none = [&["_", ""][..], &NEARLY, &others].concat();
    for (at, word) in none.into_iter().enumerate() {
        let shown = if word.is_empty() { "-".to_string() } else { hex(word.as_bytes()) };
        let text = format!("list 0 length 4\n0 ConstantPool {shown}\n1 Push Constant 0\n2 GetVariable\n3 Pop\n");
        c.script(&format!("no_property_{at}"), Listing(&text), vec![run(n(word))]);
    }
    c.script(
        "null_and_undefined",
        Listing("list 0 length 5\n0 ConstantPool\n1 Push Null\n2 Pop\n3 Push Undefined\n4 Pop\n"),
        vec![run(n("null")), run(n("undefined"))],
    );
    c.script(
        "null_as_a_string",
        Listing("list 0 length 3\n0 ConstantPool 6e756c6c\n1 Push Constant 0\n2 Pop\n"),
        vec![run(s("null"))],
    );
    c.script(
        "property_name_as_a_string",
        Listing("list 0 length 3\n0 ConstantPool 5f58\n1 Push Constant 0\n2 Pop\n"),
        vec![run(s("_X"))],
    );
    c.rust("property_name_declared", vec![declare(i("_x"), Some(k(1)))]);
    c.rust("property_name_of_a_function", vec![named("_x", vec![run(n("_x"))])]);
    c.rust("property_as_a_member_name", vec![run(field(n("a"), n("_x"))), run(field(n("a"), s("_x")))]);
    c.rust("property_in_get_variable", vec![run(node(GET_VARIABLE, [n("_x")])), run(node(GET_VARIABLE, [s("_x")]))]);
    c.rust("empty_string_shared_with_a_property", vec![run(s("")), run(n("_x")), run(s(""))]);
    c.rust("empty_name", vec![run(n("")), run(assign(n(""), k(1)))]);
    c.rust("letters_of_other_languages", vec![run(assign(n("größe"), s("€😀")))]);
}

// ---------------------------------------------------------------- frames

fn frames(c: &mut Corpus) {
    for frame in [0, 1, 2, 3, -1, -2, 65_535, 65_536, 65_537, -65_535, -65_536, i32::MAX, i32::MIN, i32::MIN + 1] {
        for play in [false, true] {
            c.rust(&format!("goto_frame_{frame}_{}", play as u8), vec![run(goto(k(frame), play))]);
        }
    }
    c.script(
        "goto_label_is_not_pooled",
        Listing("list 0 length 4\n0 ConstantPool 61\n1 GotoLabel 6c\n2 Push Constant 0\n3 Pop\n"),
        vec![run(goto(s("l"), false)), run(s("a"))],
    );
    c.script(
        "goto_label_of_a_pooled_string",
        Listing("list 0 length 5\n0 ConstantPool 6c\n1 Push Constant 0\n2 Pop\n3 GotoLabel 6c\n4 Play\n"),
        vec![run(s("l")), run(goto(s("l"), true))],
    );
    c.rust("goto_label_empty", vec![run(goto(s(""), true))]);
    c.rust("goto_frame_used", vec![used(goto(k(5), true)), used(goto(s("l"), true)), used(goto(n("l"), true))]);
    for play in [false, true] {
        c.rust(&format!("goto_name_{}", play as u8), vec![run(goto(n("a"), play))]);
        c.rust(&format!("goto_float_{}", play as u8), vec![run(goto(float(0x4000_0000_0000_0000), play))]);
        c.rust(&format!("goto_negated_{}", play as u8), vec![run(goto(unary(0, 0, k(1)), play))]);
        c.rust(&format!("goto_register_{}", play as u8), vec![run(goto(register(1), play))]);
        c.rust(&format!("goto_void_{}", play as u8), vec![run(goto(voids(1, k(1)), play))]);
    }
}

// ---------------------------------------------------------------- functions

fn functions(c: &mut Corpus) {
    for registers in [0, 1, 2, 3, 255] {
        c.rust(
            &format!("function_of_{registers}_registers"),
            vec![run(function(0, registers, 511, &[(i("p"), 0), (i("q"), 3)], vec![ret(vec![n("p")])]))],
        );
    }
    for bit in 0..9 {
        c.rust(&format!("function_mark_{bit}"), vec![used(function(0, 2, 1 << bit, &[], vec![]))]);
    }
    c.rust("function_marks_without_registers", vec![used(function(0, 1, 511, &[], vec![]))]);
    c.rust(
        "function_parameters",
        vec![used(function(0, 4, 0, &[(i("a"), 0), (i("b"), 1), (i("c"), 2), (i("d"), 256), (i("a"), 0)], vec![]))],
    );
    c.rust(
        "function_parameters_without_registers",
        vec![used(function(0, 0, 0, &[(i("a"), 9), (i(""), 0), (i("a"), 0)], vec![]))],
    );
    c.rust("function_of_a_property_parameter", vec![used(function(0, 0, 0, &[(i("_x"), 0)], vec![run(n("_x"))]))]);
    c.rust("function_unnamed_alone", vec![run(fun(vec![]))]);
    c.rust("function_named_alone", vec![named("f", vec![])]);
    c.rust("function_named_used", vec![used(function(i("f") + 1, 0, 0, &[], vec![]))]);
    c.rust("function_of_an_empty_name", vec![named("", vec![]), play()]);
    c.rust("function_of_an_empty_name_and_registers", vec![run(function(i("") + 1, 2, 0, &[], vec![]))]);
    c.rust("hoisted_at_the_top", vec![run(n("a")), named("f", vec![]), play(), named("g", vec![run(n("b"))])]);
    c.rust("hoisted_by_an_empty_name", vec![play(), named("", vec![])]);
    c.rust("not_hoisted_without_a_name", vec![play(), run(fun(vec![]))]);
    c.rust("not_hoisted_in_an_assignment", vec![play(), used(function(i("f") + 1, 0, 0, &[], vec![]))]);
    c.rust("hoisted_in_a_block", vec![block(vec![play(), named("f", vec![])]), named("g", vec![])]);
    c.rust("hoisted_in_a_function", vec![named("f", vec![play(), named("g", vec![play(), named("h", vec![])])])]);
    c.rust("not_hoisted_in_a_switch", vec![switch(k(1), vec![default(), play(), named("f", vec![]), play()])]);
    c.rust("hoisted_in_a_block_in_a_switch", vec![switch(k(1), vec![default(), block(vec![play(), named("f", vec![])])])]);
    c.rust("hoisting_decides_the_pool", vec![run(s("first")), named("f", vec![run(s("second"))])]);
    c.rust("hoisting_decides_the_labels", vec![while_loop(n("a"), brk()), named("f", vec![while_loop(n("b"), cont())])]);
    c.rust(
        "functions_in_functions",
        vec![used(fun(vec![used(fun(vec![used(fun(vec![play()]))])), used(fun(vec![]))])), used(fun(vec![]))],
    );
    c.rust(
        "function_numbers_go_by_their_ends",
        vec![run(call(fun(vec![run(fun(vec![]))]), vec![fun(vec![run(fun(vec![]))]), fun(vec![])]))],
    );
    c.rust("function_called", vec![run(call(fun(vec![]), vec![k(1)])), run(construct(fun(vec![]), vec![]))]);
    c.rust("function_deep", vec![(0..20).fold(play(), |e, _| run(fun(vec![e])))]);
    c.rust("function_leaves_values", vec![run(fun(vec![ret(vec![k(1), k(2)]), run(k(3))])), play()]);
    c.rust("function_body_breaks", vec![while_loop(n("a"), block(vec![run(fun(vec![brk(), cont()])), brk(), cont()]))]);
    c.rust("function_in_a_switch_breaks", vec![switch(n("a"), vec![case(k(1)), run(fun(vec![brk()])), brk()])]);
    c.rust("function_in_a_case_value", vec![switch(n("a"), vec![case(fun(vec![brk()])), brk()])]);
    c.rust(
        "function_with_a_loop_in_a_loop",
        vec![while_loop(n("a"), block(vec![used(fun(vec![while_loop(n("b"), brk()), brk()])), brk()]))],
    );
    c.rust(
        "function_labels_go_on",
        vec![if_then(n("a"), used(fun(vec![if_then(n("b"), play(), None)])), None), if_then(n("c"), play(), None)],
    );
    c.rust("function_emitted_again", vec![run(binary(2, field(fun(vec![while_loop(n("a"), brk())]), s("m")), k(1)))]);
    c.rust("function_pool_goes_on", vec![used(fun(vec![run(s("in"))])), run(s("out")), run(s("in"))]);
}

// ---------------------------------------------------------------- loops, branches, switches

fn flow(c: &mut Corpus) {
    for (word, make) in
        [("break", brk as Make), ("continue", cont), ("block", || block(vec![brk(), cont(), play()])), ("play", play)]
    {
        c.rust(&format!("while_{word}"), vec![while_loop(n("a"), make())]);
        for form in 0..3 {
            c.rust(&format!("for_in_{form}_{word}"), vec![for_in(form, if form == 2 { 7 } else { i("v") }, n("o"), make())]);
        }
        c.rust(
            &format!("for_classic_{word}"),
            vec![for_classic(
                Some(declare(i("j"), Some(k(0)))),
                vec![binary(27, n("j"), k(9))],
                vec![unary(3, 0, n("j"))],
                make(),
            )],
        );
        c.rust(&format!("for_ever_{word}"), vec![for_classic(None, vec![], vec![], make())]);
        c.rust(&format!("initialize_{word}"), vec![for_classic(Some(make()), vec![n("a")], vec![], play())]);
        c.rust(&format!("if_{word}"), vec![if_then(n("a"), make(), None)]);
        c.rust(&format!("if_else_{word}"), vec![if_then(n("a"), play(), Some(make()))]);
        c.rust(&format!("if_in_while_{word}"), vec![while_loop(n("a"), if_then(n("b"), make(), Some(make())))]);
        c.rust(
            &format!("switch_in_while_{word}"),
            vec![while_loop(n("a"), switch(n("b"), vec![case(k(1)), make(), default(), make()]))],
        );
        c.rust(&format!("while_in_switch_{word}"), vec![switch(n("b"), vec![case(k(1)), while_loop(n("a"), make()), make()])]);
        c.rust(
            &format!("after_a_loop_{word}"),
            vec![while_loop(n("a"), block(vec![while_loop(n("b"), play()), make()])), make()],
        );
    }
    for form in 0..2 {
        c.rust(&format!("for_in_{form}_of_a_property"), vec![for_in(form, i("_x"), n("o"), play())]);
        c.rust(&format!("for_in_{form}_in_a_loop"), vec![while_loop(n("a"), for_in(form, i("v"), n("o"), cont()))]);
    }
    c.refused("for_in_of_null", 5, vec![for_in(0, i("null"), n("o"), play())]);
    c.passes("for_in_of_declared_null", vec![for_in(1, i("null"), n("o"), play())]);
    c.rust("for_in_register_0", vec![for_in(2, 0, n("o"), play()), for_in(2, 255, n("o"), play())]);
    c.rust("for_in_leaves_values", vec![for_in(0, i("v"), n("o"), ret(vec![k(1), k(2), k(3)])), play()]);
    c.rust(
        "for_conditions",
        vec![for_classic(
            None,
            vec![n("a"), assign(n("b"), k(1)), unary(3, 0, n("d"))],
            vec![n("a"), assign(n("b"), k(1)), unary(3, 1, n("d"))],
            play(),
        )],
    );
    c.rust("for_condition_of_nothing", vec![for_classic(None, vec![voids(1, k(1))], vec![voids(1, k(1))], play())]);
    c.rust("for_condition_is_an_assignment", vec![for_classic(None, vec![assign(n("a"), k(1))], vec![], play())]);
    c.rust("while_condition_of_nothing", vec![while_loop(voids(1, k(1)), play())]);
    c.rust("condition_has_a_loop", vec![while_loop(fun(vec![while_loop(n("a"), brk())]), brk())]);
    c.rust(
        "values_left_before_a_loop",
        vec![block(vec![
            ret(vec![k(1), k(2)]),
            for_classic(None, vec![], vec![], ret(vec![k(3), k(4)])),
            for_in(0, i("v"), n("o"), play()),
        ])],
    );
    c.rust(
        "push_after_a_mark_is_new",
        vec![if_then(n("a"), run(s("b")), None), ret(vec![k(1)]), while_loop(n("a"), brk()), run(array(vec![k(1), k(2)]))],
    );
    c.rust("push_after_two_marks_is_new", vec![if_then(n("a"), if_then(n("b"), play(), None), None), run(k(1))]);
    c.rust("ternary_then_a_push", vec![used(array(vec![k(3), ternary(n("a"), k(1), k(2)), k(4)]))]);
    c.rust("ternary_in_a_call", vec![run(call(n("f"), vec![ternary(n("a"), k(1), k(2)), ternary(n("b"), k(3), k(4))]))]);
    c.rust(
        "ternary_nested",
        vec![used(ternary(ternary(n("a"), k(1), k(2)), ternary(n("b"), k(3), k(4)), ternary(n("c"), k(5), k(6))))],
    );
    c.rust("ternary_of_nothing", vec![used(ternary(n("a"), voids(1, k(1)), voids(1, k(2))))]);
    c.rust("ternary_of_calls", vec![run(ternary(call(n("f"), vec![]), call(n("g"), vec![]), call(n("h"), vec![])))]);
    c.rust("ternary_of_assignments", vec![run(ternary(n("a"), assign(n("b"), k(1)), assign(n("c"), k(2))))]);
    c.rust("logical_chain", vec![used(binary(31, binary(32, n("a"), n("b")), binary(31, n("c"), k(1))))]);
    c.rust("logical_then_a_push", vec![used(array(vec![k(3), binary(31, n("a"), k(1)), k(4), binary(32, n("b"), k(2)), k(5)]))]);
    c.rust("if_labels_after_the_condition", vec![if_then(ternary(n("a"), k(1), k(2)), play(), Some(play()))]);
    c.rust(
        "classic_label_after_initialize",
        vec![for_classic(
            Some(if_then(n("a"), brk(), None)),
            vec![ternary(n("b"), k(1), k(2))],
            vec![ternary(n("c"), k(3), k(4))],
            cont(),
        )],
    );
    c.rust("else_if", vec![if_then(n("a"), play(), Some(if_then(n("b"), play(), Some(if_then(n("c"), play(), None)))))]);
    c.rust("return_of_several_before_an_if", vec![block(vec![if_then(n("a"), ret(vec![k(1), k(2)]), None), run(k(1))])]);
    c.rust(
        "break_alone_everywhere",
        vec![brk(), cont(), block(vec![brk(), cont()]), if_then(n("a"), brk(), Some(cont())), run(fun(vec![brk(), cont()]))],
    );
}

fn switches(c: &mut Corpus) {
    c.rust("switch_empty", vec![switch(n("a"), vec![])]);
    c.rust("switch_default_only", vec![switch(n("a"), vec![default()])]);
    c.rust("switch_default_skips_its_target", vec![switch(call(n("f"), vec![k(1)]), vec![default(), play()])]);
    c.rust("switch_case_only", vec![switch(n("a"), vec![case(k(1))])]);
    c.rust(
        "switch_cases",
        vec![switch(n("a"), vec![case(k(1)), play(), brk(), case(s("b")), case(n("c")), play(), default(), play(), brk()])],
    );
    c.rust("switch_default_first", vec![switch(n("a"), vec![default(), play(), case(k(1)), run(n("b"))])]);
    c.rust("switch_default_between", vec![switch(n("a"), vec![case(k(1)), default(), case(k(2)), play(), brk()])]);
    c.rust("switch_skips_what_comes_first", vec![switch(n("a"), vec![play(), run(s("skipped")), case(k(1)), play()])]);
    c.rust("switch_skips_a_function", vec![switch(n("a"), vec![named("f", vec![run(s("skipped"))]), default(), play()])]);
    c.rust("switch_target_is_a_push", vec![switch(k(1), vec![case(k(1)), case(k(2)), case(k(3))])]);
    c.rust("switch_target_is_nothing", vec![switch(voids(1, k(1)), vec![case(voids(1, k(1)))])]);
    c.rust(
        "switch_case_makes_labels",
        vec![switch(ternary(n("a"), k(1), k(2)), vec![case(ternary(n("b"), k(1), k(2))), brk(), case(k(3))])],
    );
    c.rust(
        "switch_in_a_switch",
        vec![switch(
            n("a"),
            vec![case(k(1)), switch(n("b"), vec![case(k(2)), brk(), default(), brk()]), brk(), default(), play()],
        )],
    );
    c.rust("switch_break_is_put_back", vec![while_loop(n("a"), block(vec![switch(n("b"), vec![default(), brk()]), brk()]))]);
    c.rust("switch_continue_is_the_loops", vec![while_loop(n("a"), switch(n("b"), vec![default(), cont()]))]);
    c.rust("switch_continue_without_a_loop", vec![switch(n("b"), vec![default(), cont(), brk()])]);
    c.rust("switch_empty_in_a_loop_keeps_the_break", vec![while_loop(n("a"), block(vec![switch(n("b"), vec![brk()]), brk()]))]);
    c.rust("switch_leaves_values", vec![block(vec![switch(n("a"), vec![default(), ret(vec![k(1), k(2)])]), run(k(1))])]);
    c.rust("switch_many_cases", vec![switch(n("a"), (0..30).flat_map(|j| [case(k(j)), play()]).collect())]);
    c.refused("switch_two_defaults_after_cases", 6, vec![switch(n("a"), vec![case(k(1)), default(), play(), default()])]);
    c.refused("switch_three_defaults", 6, vec![switch(n("a"), vec![default(), default(), default()])]);
    c.passes(
        "switch_two_defaults_in_two",
        vec![switch(n("a"), vec![default(), switch(n("b"), vec![default()])]), switch(n("c"), vec![default()])],
    );
    c.refused("switch_two_defaults_in_a_function", 6, vec![run(fun(vec![switch(n("a"), vec![default(), default()])]))]);
    c.passes("switch_two_defaults_never_reached", vec![run(voids(1, fun(vec![switch(n("a"), vec![default(), default()])])))]);
    c.passes("switch_two_defaults_skipped", vec![switch(n("a"), vec![switch(n("b"), vec![default(), default()]), case(k(1))])]);
}

// ---------------------------------------------------------------- the pool

fn pool(c: &mut Corpus) {
    c.rust("pool_of_equal_strings", vec![run(string(fresh(b"same"))), run(string(fresh(b"same"))), run(name(fresh(b"same")))]);
    c.rust("pool_in_the_order_of_use", {
        i("a");
        vec![run(s("b")), run(s("a")), run(s("b"))]
    });
    c.rust("pool_leaves_unused_strings_out", {
        fresh(b"never");
        vec![run(string(fresh(b"used")))]
    });
    let strings = |count: usize| (0..count).map(|j| string(fresh(format!("s{j}").as_bytes()))).collect::<Vec<_>>();
    for count in [255, 256, 257, 258] {
        c.passes(&format!("pool_of_{count}"), vec![run(array(strings(count)))]);
    }
    // The total starts at 2: a string of 65,532 bytes fills the pool, one more byte does not fit.
    c.refused(
        "pool_filled_by_one_string",
        12,
        vec![run(string(fresh(&vec![b'f'; 65_532]))), run(s("outside")), run(s("outside"))],
    );
    c.refused("pool_too_short_for_one_string", 12, vec![run(string(fresh(&vec![b'f'; 65_533]))), run(s("inside"))]);
    let half = |letter: u8, length: usize| string(fresh(&vec![letter; length]));
    c.refused("pool_filled_by_two_strings", 12, vec![run(half(b'a', 32_000)), run(half(b'b', 33_531)), run(s("c"))]);
    c.refused(
        "pool_takes_a_short_string_after_a_long_one_failed",
        12,
        vec![run(half(b'a', 32_000)), run(half(b'b', 33_532)), run(s("c"))],
    );
    c.rust("pool_overflow", vec![run(half(b'a', 40_000)), run(half(b'b', 26_000)), run(s("short")), run(string(2))]);
}

// ---------------------------------------------------------------- limits

fn limits(c: &mut Corpus) {
    c.passes("actions_1024", plays(1_023));
    c.refused("actions_1025", 8, plays(1_024));
    c.passes("actions_1024_in_a_function", vec![run(fun(plays(1_020))), play()]);
    c.refused("actions_1025_by_the_function_itself", 8, vec![named("f", plays(1_023))]);
    c.passes("actions_1024_by_the_function_itself", vec![named("f", plays(1_022))]);
    c.refused("actions_1025_by_a_pop", 8, [plays(1_022), vec![run(k(1))]].concat());
    c.passes("actions_1024_by_a_pop", [plays(1_021), vec![run(k(1))]].concat());
    c.refused("actions_1025_by_a_push", 8, [plays(1_023), vec![ret(vec![])]].concat());
    c.refused("actions_1025_in_functions_side_by_side", 8, vec![named("f", plays(500)), named("g", plays(522))]);
    c.passes("actions_1024_in_functions_side_by_side", vec![named("f", plays(500)), named("g", plays(521))]);
    c.passes("actions_1024_with_a_last_push_that_merges", [plays(1_021), vec![throw(vec![k(1), k(2), k(3)])]].concat());
    let parted = || throw(vec![ternary(k(1), k(2), k(3)), k(4)]);
    c.passes("actions_1024_with_a_mark_between_pushes", [plays(1_016), vec![parted()]].concat());
    c.refused("actions_1025_with_a_mark_between_pushes", 8, [plays(1_017), vec![parted()]].concat());
    let sevens = |count: usize| array(vec![k(7); count]);
    c.passes("values_2048", vec![run(sevens(2_047))]);
    c.refused("values_2049", 8, vec![run(sevens(2_048))]);
    c.passes("values_2048_in_two_lists", vec![used(fun(vec![run(sevens(1_000))])), run(sevens(1_045))]);
    c.refused("values_2049_in_two_lists", 8, vec![used(fun(vec![run(sevens(1_000))])), run(sevens(1_046))]);
    c.refused("values_2049_in_a_function", 8, vec![run(fun(vec![run(sevens(2_048))]))]);
    c.passes("values_2048_of_registers", vec![throw(vec![register(1); 2_048])]);
    c.refused("values_2049_of_registers", 8, vec![throw(vec![register(1); 2_049])]);
    // An empty switch makes a label and emits nothing.
    let labels = |count: usize| vec![switch(k(0), vec![]); count];
    c.passes("labels_1024", labels(1_024));
    c.refused("labels_1025", 8, labels(1_025));
    c.passes("labels_1024_marked", [labels(1_022), vec![while_loop(k(1), brk())]].concat());
    c.refused("labels_1025_marked", 8, [labels(1_023), vec![while_loop(k(1), brk())]].concat());
    c.passes(
        "labels_1024_of_one_switch",
        vec![switch(k(0), vec![default()]), switch(k(1), (0..300).map(|j| case(k(j))).collect::<Vec<_>>())],
    );
    c.refused("labels_1025_of_one_switch", 8, vec![switch(k(0), vec![case(k(1)); 1_024])]);
    c.passes("labels_1024_of_one_switch_of_defaults", [labels(1_022), vec![switch(k(0), vec![default()])]].concat());
    c.refused("labels_1025_by_a_default", 8, [labels(1_023), vec![switch(k(0), vec![default()])]].concat());
    c.passes("labels_1024_in_functions", vec![named("f", labels(500)), named("g", labels(524))]);
    c.refused("labels_1025_in_functions", 8, vec![named("f", labels(500)), named("g", labels(525))]);
    c.refused("labels_1025_by_a_second_label_of_an_if", 8, [labels(1_023), vec![if_then(k(1), play(), Some(play()))]].concat());
    c.passes("labels_1024_by_an_if", [labels(1_023), vec![if_then(k(1), play(), None)]].concat());
    c.refused(
        "labels_1025_by_a_third_label_of_a_loop",
        8,
        [labels(1_022), vec![for_classic(None, vec![], vec![], play())]].concat(),
    );
    c.passes("labels_1024_by_a_loop", [labels(1_021), vec![for_classic(None, vec![], vec![], play())]].concat());
    c.passes("labels_1024_by_enumerate", [labels(1_022), vec![for_in(2, 1, k(1), play())]].concat());
    c.passes("labels_printed_in_three_digits_and_more", [labels(1_020), vec![while_loop(n("a"), brk())]].concat());
    // The root is at depth 1, its statement at 2, the leaf below `count` voids at count + 3.
    c.passes("depth_128", vec![run(voids(125, k(1)))]);
    c.refused("depth_129", 4, vec![run(voids(126, k(1)))]);
    c.passes("depth_128_of_type_ofs", vec![run((0..125).fold(k(1), |e, _| node(TYPE_OF, [e])))]);
    c.refused("depth_129_of_type_ofs", 4, vec![run((0..126).fold(k(1), |e, _| node(TYPE_OF, [e])))]);
    c.passes("depth_128_of_blocks", vec![blocks(63, brk())]);
    c.refused("depth_129_by_a_list", 4, vec![blocks(63, block(vec![]))]);
    c.refused("depth_129_by_absent", 4, vec![blocks(63, declare(i("a"), None))]);
    let functions = |count: usize| (0..count).fold(brk(), |e, _| run(fun(vec![e])));
    c.passes("depth_128_of_functions", vec![functions(42)]);
    c.refused("depth_131_of_functions", 4, vec![functions(43)]);
    c.refused("nested_assignments_of_42_levels", 8, vec![run((0..42).fold(k(1), |e, _| binary(2, field(e, k(1)), k(2))))]);
    c.refused("nested_steps_of_60_levels", 8, vec![run((0..60).fold(n("a"), |e, _| unary(3, 0, field(e, k(1)))))]);
}

// ---------------------------------------------------------------- orders of refusals

fn orders(c: &mut Corpus) {
    let set_null = || run(assign(n("null"), k(1)));
    let least = || run(unary(0, 0, k(i32::MIN)));
    let defaults = || switch(k(1), vec![default(), default()]);
    c.refused("order_5_before_6", 5, vec![set_null(), defaults()]);
    c.refused("order_5_before_7", 5, vec![set_null(), least()]);
    c.refused("order_5_before_8", 5, [vec![set_null()], plays(1_100)].concat());
    c.refused("order_6_before_5", 6, vec![defaults(), set_null()]);
    c.refused("order_6_before_7", 6, vec![defaults(), least()]);
    c.refused("order_6_before_8", 6, [vec![defaults()], plays(1_100)].concat());
    c.refused("order_7_before_5", 7, vec![least(), set_null()]);
    c.refused("order_7_before_6", 7, vec![least(), defaults()]);
    c.refused("order_7_before_8", 7, [vec![least()], plays(1_100)].concat());
    c.refused("order_8_before_5", 8, [plays(1_024), vec![set_null()]].concat());
    c.refused("order_8_before_6", 8, [plays(1_024), vec![defaults()]].concat());
    c.refused("order_8_before_7", 8, [plays(1_024), vec![least()]].concat());
    c.refused("order_8_by_labels_before_5", 8, [vec![switch(k(0), vec![]); 1_025], vec![set_null()]].concat());
    c.refused("order_8_by_values_before_7", 8, vec![run(array(vec![k(1); 2_049])), least()]);
    // 5 comes after the pushes of target and value: with room for them it is 5, else 8.
    c.refused("order_5_after_its_pushes", 5, [plays(1_022), vec![set_null()]].concat());
    c.refused("order_8_by_the_pushes_of_5", 8, [plays(1_023), vec![set_null()]].concat());
    // 7 comes before its push.
    c.refused("order_7_before_its_push", 7, [plays(1_023), vec![least()]].concat());
    c.refused("order_7_in_an_argument_before_5", 7, vec![run(assign(n("null"), unary(0, 0, k(i32::MIN))))]);
    c.refused("order_5_of_a_callee_after_7_in_an_argument", 7, vec![run(call(n("_x"), vec![unary(0, 0, k(i32::MIN))]))]);
    c.refused("order_5_in_the_last_argument", 5, vec![run(call(n("f"), vec![unary(0, 0, k(i32::MIN)), assign(k(1), k(2))]))]);
    // A switch makes all its labels before its target, and marks its Defaults after the conditions.
    c.refused("order_8_by_labels_before_a_switch_target", 8, vec![switch(unary(0, 0, k(i32::MIN)), vec![case(k(1)); 1_024])]);
    c.refused("order_7_in_a_case_before_6", 7, vec![switch(k(1), vec![default(), default(), case(unary(0, 0, k(i32::MIN)))])]);
    c.refused("order_6_before_7_in_a_later_statement", 6, vec![switch(k(1), vec![case(k(2)), default(), default(), least()])]);
    c.refused("order_7_between_two_defaults", 7, vec![switch(k(1), vec![default(), least(), default()])]);
    c.refused(
        "order_7_in_a_no_branch_before_5_in_a_yes_branch",
        7,
        vec![run(ternary(n("a"), assign(k(1), k(2)), unary(0, 0, k(i32::MIN))))],
    );
    c.refused("order_5_hoisted_before_7", 5, vec![least(), named("f", vec![set_null()])]);
    c.refused("order_7_not_hoisted_in_a_switch", 7, vec![switch(k(1), vec![default(), least(), named("f", vec![set_null()])])]);
    c.refused("order_8_in_a_function_before_5_after_it", 8, vec![run(fun(plays(1_024))), set_null()]);
    c.refused("order_8_at_the_end_of_a_function_before_5", 8, vec![run(fun(plays(1_023))), set_null()]);
    c.refused("order_5_after_a_function", 5, vec![run(fun(plays(1_000))), set_null()]);
    // Lowering before writing.
    let zero = || run(string(fresh(b"a\0b")));
    c.refused("order_5_before_9", 5, vec![zero(), set_null()]);
    c.refused("order_8_before_9", 8, [vec![zero()], plays(1_024)].concat());
    let long = || run(goto(string(fresh(&vec![b'L'; 65_535])), false));
    let far = || while_loop(k(1), run(goto(string(fresh(&vec![b'F'; 32_767])), false)));
    c.refused("order_9_before_10", 9, vec![long(), zero()]);
    c.refused("order_10_before_11", 10, vec![far(), long()]);
    c.refused("order_9_before_11", 9, vec![far(), zero()]);
    c.refused("order_11_before_12", 11, vec![far(), far()]);
    c.refused("order_9_before_12", 9, vec![run(goto(string(fresh(&vec![b'M'; 65_530])), false)), zero()]);
    // The file before all.
    let deep = || run(voids(126, k(1)));
    c.refused("order_3_before_4", 3, vec![deep(), node(TRY, [])]);
    c.refused("order_3_before_5", 3, vec![set_null(), node(WITH, [n("a"), play()])]);
    c.refused("order_4_before_5", 4, vec![set_null(), deep()]);
    c.refused("order_2_before_3", 2, vec![node(TRY, []), run(string(fresh(b"\xFF")))]);
    c.refused("order_2_before_4", 2, vec![deep(), run(string(fresh(b"\xFF")))]);
    c.refused("order_2_before_5", 2, vec![set_null(), run(string(fresh(b"\xC0\x80")))]);
    c.broken("order_1_before_2", 1, vec![brk(), run(string(fresh(b"\xFF")))], |p| p.records[0].a = 1);
    c.broken("order_1_before_3", 1, vec![brk(), node(TRY, [])], |p| p.records[0].a = 1);
    c.broken("order_1_before_4", 1, vec![brk(), deep()], |p| p.records[0].a = 1);
    c.broken("order_1_before_5", 1, vec![brk(), set_null()], |p| p.records[0].c = 1);
    c.broken("order_4_bytes_before_1", 4, vec![brk()], |p| {
        p.records[0].a = 1;
        p.string_bytes = vec![0; 1_048_576];
    });
    c.broken("order_4_bytes_before_2", 4, vec![run(s("a"))], |p| {
        p.string_bytes = vec![0xFF; 1_048_576];
        p.ends = vec![1_048_576];
    });
}

// ---------------------------------------------------------------- refusals 9 to 12

fn writing(c: &mut Corpus) {
    let zero = || fresh(b"a\0b");
    c.refused("zero_in_the_pool", 9, vec![run(string(zero()))]);
    c.refused("zero_in_a_name", 9, vec![run(name(zero()))]);
    c.refused("zero_in_a_goto_label", 9, vec![run(goto(string(zero()), false))]);
    c.refused("zero_in_a_function_name", 9, vec![run(function(zero() + 1, 0, 0, &[], vec![]))]);
    c.refused("zero_in_a_parameter", 9, vec![used(function(0, 0, 0, &[(zero(), 0)], vec![]))]);
    c.refused("zero_in_a_parameter_of_registers", 9, vec![used(function(0, 2, 0, &[(zero(), 0)], vec![]))]);
    c.refused("zero_in_a_declaration", 9, vec![declare(zero(), None)]);
    c.refused("zero_in_a_key", 9, vec![run(node(INIT_OBJECT, [list(vec![node(OBJECT_FIELD, [k(1)]).words(zero(), 0, 0)])]))]);
    c.refused("zero_alone", 9, vec![run(string(fresh(b"\0")))]);
    c.refused("zero_in_a_push_outside_the_pool", 9, vec![run(string(fresh(&[vec![b'z'; 65_534], vec![0]].concat())))]);
    c.passes("zero_in_an_unused_string", {
        zero();
        vec![play()]
    });
    c.passes("zero_in_a_string_never_emitted", vec![run(voids(1, string(zero())))]);
    let long = |length: usize| string(fresh(&vec![b'l'; length]));
    // Data of 65,535 bytes is one record's most; the whole is then over the output's 65,536.
    c.refused("goto_label_of_65535_bytes", 12, vec![run(goto(long(65_534), false))]);
    c.refused("goto_label_of_65536_bytes", 10, vec![run(goto(long(65_535), false))]);
    c.refused("push_of_65536_bytes", 10, vec![run(long(65_534))]);
    // Pool 5, record 3 + length + 1, End 1.
    c.passes("output_of_65536_bytes", vec![run(goto(long(65_526), false))]);
    c.refused("output_of_65537_bytes", 12, vec![run(goto(long(65_527), false))]);
    let two = |length: usize| vec![run(goto(long(length), false)), run(goto(string(0), false))];
    // A body of two records of 3 + length + 1 bytes.
    c.refused("body_of_65534_bytes", 12, vec![used(fun(two(32_763)))]);
    c.refused("body_of_65536_bytes", 10, vec![used(fun(two(32_764)))]);
    c.refused("body_of_65535_bytes", 12, vec![used(fun([two(32_763), vec![play()]].concat()))]);
    // Jump over a record of 3 + length + 1 bytes: `if` jumps forward over it, a loop jumps back over it and its own 5.
    c.passes("offset_32767", vec![if_then(k(1), run(goto(long(32_763), false)), None)]);
    c.refused("offset_32768", 11, vec![if_then(k(1), run(goto(long(32_764), false)), None)]);
    c.passes("offset_minus_32768", vec![for_classic(None, vec![], vec![], run(goto(long(32_759), false)))]);
    c.refused("offset_minus_32769", 11, vec![for_classic(None, vec![], vec![], run(goto(long(32_760), false)))]);
    c.refused("offset_32768_in_a_function", 11, vec![used(fun(vec![if_then(k(1), run(goto(long(32_764), false)), None)]))]);
    c.rust(
        "offset_over_a_function",
        vec![if_then(k(1), used(fun(vec![run(goto(s("label"), true)), while_loop(k(1), brk())])), None)],
    );
    c.rust("offset_of_nothing", vec![while_loop(k(1), block(vec![])), for_classic(None, vec![], vec![], block(vec![]))]);
}

// ---------------------------------------------------------------- refusals 1 to 4

fn files(c: &mut Corpus) {
    c.file("no_bytes", Refused(1), vec![]);
    c.file("nineteen_bytes", Refused(1), vec![0; 19]);
    c.file("zeros", Refused(1), vec![0; 40]);
    c.file("bytes_1048576", Refused(1), vec![0; 1_048_576]);
    c.file("bytes_1048577", Refused(4), vec![0; 1_048_577]);
    let a80 = || vec![run(assign(n("a"), k(80)))];
    for w in 0..5 {
        c.broken(&format!("trailer_word_{w}_one_more"), 1, a80(), |p| p.trailer[w] += 1);
        c.broken(&format!("trailer_word_{w}_one_less"), 1, a80(), |p| p.trailer[w] -= 1);
    }
    c.broken("edition_2", 1, a80(), |p| p.trailer[4] = 2);
    c.broken("ends_fall", 1, vec![run(s("abc")), run(s("de"))], |p| p.ends = vec![4, 3]);
    c.broken("last_end_too_small", 1, vec![run(s("abc")), run(s("de"))], |p| p.ends[1] = 4);
    c.broken("bytes_without_strings", 1, vec![brk()], |p| p.string_bytes = vec![b'a']);
    c.broken("no_records", 1, vec![], |p| {
        p.records.clear();
        p.set_trailer();
    });
    c.broken("root_is_no_list", 1, vec![], |p| p.records[0].kind = BREAK);
    c.broken("root_counts_one_more", 1, vec![brk()], |p| p.records[1].a = 2);
    c.broken("size_0", 1, vec![brk()], |p| p.records[0].size = 0);
    c.broken("size_too_large", 1, vec![brk()], |p| p.records[0].size = 2);
    c.broken("unknown_statement", 1, vec![brk()], |p| p.records[0].kind = 16);
    c.broken("unknown_expression", 1, vec![run(node(PLAY, []))], |p| p.records[0].kind = 78);
    c.broken("expression_as_a_statement", 1, vec![brk()], |p| p.records[0].kind = PLAY);
    c.broken("statement_as_an_expression", 1, vec![run(node(PLAY, []))], |p| p.records[0].kind = BREAK);
    c.broken("operator_43", 1, vec![run(binary(0, k(1), k(2)))], |p| p.records[2].a = 43);
    c.broken("affix_of_sub", 1, vec![run(unary(0, 0, n("a")))], |p| p.records[1].b = 1);
    c.broken("affix_2", 1, vec![run(unary(3, 0, n("a")))], |p| p.records[1].b = 2);
    c.broken("string_index_over_the_count", 1, vec![run(s("a"))], |p| p.records[0].b = 1);
    c.broken("boolean_2", 1, vec![run(boolean(true))], |p| p.records[0].b = 2);
    c.broken("register_256", 1, vec![run(register(1))], |p| p.records[0].b = 256);
    c.broken("register_count_256", 1, vec![run(fun(vec![]))], |p| p.records[2].b = 256);
    c.broken("marks_512", 1, vec![run(fun(vec![]))], |p| p.records[2].c = 512);
    c.broken("parameter_register_257", 1, vec![run(function(0, 0, 0, &[(i("p"), 0)], vec![]))], |p| p.records[0].b = 257);
    c.broken("unused_word", 1, vec![cont()], |p| p.records[0].b = 1);
    c.broken("three_constraints", 1, vec![run(node(START_DRAG, [k(1), list(vec![k(1), k(2), k(3), k(4)])]))], |p| {
        p.records.remove(1);
        p.records[4].a = 3;
        for r in &mut p.records[4..] {
            r.size -= 1;
        }
        p.set_trailer();
    });
    for (at, text) in
        [&b"\x80"[..], b"\xC0\x80", b"\xED\xA0\x80", b"\xF4\x90\x80\x80", b"\xE2\x82", b"a\xFF"].into_iter().enumerate()
    {
        c.refused(&format!("not_utf8_{at}"), 2, vec![run(string(fresh(text)))]);
        fresh(text);
        c.refused(&format!("not_utf8_{at}_unused"), 2, vec![play()]);
    }
    fresh(b"\xC3");
    fresh(b"\xA9");
    c.refused("not_utf8_cut_in_two", 2, vec![play()]);
    for (word, kind) in [
        ("try", TRY),
        ("wait_for_frame", WAIT_FOR_FRAME),
        ("tell_target", TELL_TARGET),
        ("inline_pcode", INLINE_PCODE),
        ("with", WITH),
    ] {
        c.refused(&format!("{word}_is_out"), 3, vec![node(kind, [n("a"), play()])]);
        c.refused(&format!("{word}_is_out_in_a_function"), 3, vec![run(fun(vec![node(kind, [])]))]);
        c.refused(
            &format!("{word}_is_out_where_nothing_is_emitted"),
            3,
            vec![run(voids(1, fun(vec![node(kind, []).words(9, 9, 9)])))],
        );
    }
    c.refused("get_url_is_out", 3, vec![run(node(GET_URL, [n("a"), n("b")]))]);
    c.refused(
        "get_url_is_out_over_anything",
        3,
        vec![run(node(GET_URL, [absent(), default(), list(vec![brk(), k(1)])]).words(7, 8, 9))],
    );
    c.broken("broken_below_what_is_out", 1, vec![node(TRY, [k(1)])], |p| p.records[0].c = 1);
}

// ---------------------------------------------------------------- action bytes

fn bytes_of_lists(c: &mut BytesCorpus) {
    let top = |acts: Vec<Act>| {
        let mut actions = vec![Act::ConstantPool(vec![b"a".to_vec(), vec![]])];
        actions.extend(acts);
        Lists(vec![compare::lists::List { actions, marks: vec![] }])
    };
    let put = |c: &mut BytesCorpus, word: &str, acts: Vec<Act>| {
        c.put(word, true, &action_writer::write(&top(acts), usize::MAX).unwrap())
    };
    for (word, code) in PLAIN {
        put(c, word, vec![Act::Plain(*code)]);
    }
    put(c, "goto_frame", vec![Act::GotoFrame(0), Act::GotoFrame(65_535)]);
    put(
        c,
        "two_pushes_side_by_side",
        vec![Act::Push(vec![Value::Null]), Act::Push(vec![Value::Undefined, Value::String(b"a".to_vec())])],
    );
    put(
        c,
        "every_value",
        vec![Act::Push(vec![
            Value::String(vec![]),
            Value::Null,
            Value::Undefined,
            Value::Register(255),
            Value::Bool(true),
            Value::Bool(false),
            Value::Float(0x7FF0_0000_0000_0001),
            Value::Integer(-5),
            Value::Constant(1),
        ])],
    );
    put(c, "jump_to_itself", vec![Act::Jump(Target::Place(1))]);
    put(c, "jump_to_the_start", vec![Act::If(Target::Place(0))]);
    put(c, "jump_to_the_end", vec![Act::Jump(Target::Place(2))]);
}

#[derive(Default)]
struct BytesCorpus {
    stdin: String,
    expected: String,
    names: BTreeSet<String>,
    count: usize,
    read: usize,
}

impl BytesCorpus {
    /// `good` is what document 01 says of the bytes.
    fn put(&mut self, name: &str, good: bool, bytes: &[u8]) {
        assert_eq!(read(bytes, LIST_WORDS).is_ok(), good, "{name}");
        self.rust(name, bytes);
    }

    fn rust(&mut self, name: &str, bytes: &[u8]) {
        assert!(self.names.insert(name.to_string()), "{name}");
        let lists = read(bytes, LIST_WORDS);
        if let Ok(lists) = &lists {
            assert_eq!(action_writer::write(lists, usize::MAX).as_deref(), Ok(bytes), "{name}");
            self.read += 1;
        }
        writeln!(self.stdin, "{name} {}", encode(bytes)).unwrap();
        write!(self.expected, "{name}\n{}", answer::listed(&lists)).unwrap();
        self.count += 1;
    }

    fn hex(&mut self, name: &str, good: bool, text: &str) {
        let bytes = compare::text::decode(&text.to_lowercase().replace(' ', "")).unwrap();
        self.put(name, good, &bytes);
    }
}

fn action_bytes() -> BytesCorpus {
    let mut c = BytesCorpus::default();
    bytes_of_lists(&mut c);
    let pool = "88 02 00 00 00";
    let pools = "88 06 00 02 00 61 00 62 00";
    let wrap = |middle: &str| format!("{pool} {middle} 00");
    c.hex("empty", false, "");
    c.hex("end_only", false, "00");
    c.hex("pool_only", true, &wrap(""));
    c.hex("no_end", false, pool);
    c.hex("byte_after_end", false, &format!("{pool} 00 00"));
    c.hex("action_after_end", false, &format!("{pool} 00 17"));
    c.hex("no_pool", false, "17 00");
    c.hex("pool_second", false, &format!("17 {pool} 00"));
    c.hex("two_pools", false, &format!("{pool} {pool} 00"));
    c.hex("pool_in_a_function", false, &wrap(&format!("9B 05 00 00 00 00 05 00 {pool}")));
    c.hex("pool_count_too_large", false, "88 04 00 02 00 61 00 00");
    c.hex("pool_count_too_small", false, "88 06 00 01 00 61 00 62 00 00");
    c.hex("pool_length_too_large", false, "88 03 00 00 00 00");
    c.hex("pool_length_too_small", false, "88 01 00 00 00 00");
    c.hex("pool_of_equal_strings", true, "88 06 00 02 00 61 00 61 00 00");
    c.hex("pool_of_empty_strings", true, "88 04 00 02 00 00 00 00");
    c.hex("pool_not_utf8", false, "88 04 00 01 00 FF 00 00");
    c.hex("pool_string_without_end", false, "88 03 00 01 00 61 00");
    for code in 1..=255u8 {
        let known = PLAIN.iter().any(|p| p.1 == code && code < 0x80);
        if !known && code < 0x80 {
            c.hex(&format!("code_{code:02x}_is_none"), false, &wrap(&format!("{code:02x}")));
        }
        if code >= 0x80 && ![0x81, 0x87, 0x88, 0x8C, 0x8E, 0x96, 0x99, 0x9B, 0x9D, 0x9E, 0x9F].contains(&code) {
            c.hex(&format!("code_{code:02x}_is_none"), false, &wrap(&format!("{code:02x} 00 00")));
        }
    }
    let cases: &[(&str, bool, &str)] = &[
        ("end_in_the_middle", false, "17 00 17"),
        ("call", true, "9E 00 00"),
        ("call_with_data", false, "9E 01 00 00"),
        ("call_cut", false, "9E 00"),
        ("goto_frame_short", false, "81 01 00 00"),
        ("goto_frame_long", false, "81 03 00 00 00 00"),
        ("store_register", true, "87 01 00 FF"),
        ("store_register_empty", false, "87 00 00"),
        ("store_register_long", false, "87 02 00 01 02"),
        ("goto_label", true, "8C 02 00 61 00"),
        ("goto_label_empty", true, "8C 01 00 00"),
        ("goto_label_without_end", false, "8C 01 00 61"),
        ("goto_label_of_two", false, "8C 04 00 61 00 62 00"),
        ("goto_label_not_utf8", false, "8C 03 00 C3 28 00"),
        ("goto_label_no_data", false, "8C 00 00"),
        ("goto_frame2_0", true, "9F 01 00 00"),
        ("goto_frame2_1", true, "9F 01 00 01"),
        ("goto_frame2_2", false, "9F 01 00 02"),
        ("goto_frame2_with_bias", false, "9F 03 00 02 00 00"),
        ("goto_frame2_long", false, "9F 02 00 00 00"),
        ("push_empty", false, "96 00 00"),
        ("push_type_1", false, "96 05 00 01 00 00 00 00"),
        ("push_type_10", false, "96 01 00 0A"),
        ("push_string", true, "96 03 00 00 61 00"),
        ("push_string_without_end", false, "96 02 00 00 61"),
        ("push_string_not_utf8", false, "96 03 00 00 80 00"),
        ("push_null", true, "96 01 00 02"),
        ("push_undefined", true, "96 01 00 03"),
        ("push_register", true, "96 02 00 04 07"),
        ("push_register_cut", false, "96 01 00 04"),
        ("push_bool_0", true, "96 02 00 05 00"),
        ("push_bool_1", true, "96 02 00 05 01"),
        ("push_bool_2", false, "96 02 00 05 02"),
        ("push_float", true, "96 09 00 06 01 02 03 04 05 06 07 08"),
        ("push_float_cut", false, "96 08 00 06 01 02 03 04 05 06 07"),
        ("push_integer", true, "96 05 00 07 FF FF FF FF"),
        ("push_integer_cut", false, "96 04 00 07 FF FF FF"),
        ("push_constant_of_an_empty_pool", false, "96 02 00 08 00"),
        ("push_wide_constant_below_256", false, "96 03 00 09 00 00"),
        ("push_value_over_the_length", false, "96 02 00 07 00 00 00 00"),
        ("push_length_over_the_end", false, "96 09 00 02"),
        ("jump_0", true, "99 02 00 00 00"),
        ("jump_to_itself_by_offset", true, "99 02 00 FB FF"),
        ("jump_to_the_pool", true, "99 02 00 F6 FF"),
        ("jump_before_all", false, "99 02 00 F5 FF"),
        ("jump_into_itself", false, "99 02 00 FC FF"),
        ("jump_behind_end", false, "99 02 00 01 00"),
        ("jump_far", false, "99 02 00 FF 7F"),
        ("jump_long", false, "99 03 00 00 00 00"),
        ("jump_short", false, "99 01 00 00"),
        ("if_0", true, "9D 02 00 00 00"),
        ("if_into_a_push", false, "9D 02 00 01 00 96 01 00 02"),
        ("if_over_a_push", true, "9D 02 00 04 00 96 01 00 02"),
        ("function", true, "9B 05 00 00 00 00 00 00"),
        ("function_named", true, "9B 08 00 66 00 01 00 70 00 00 00"),
        ("function_with_a_body", true, "9B 05 00 00 00 00 01 00 17"),
        ("function_body_over_the_end", false, "9B 05 00 00 00 00 02 00 17"),
        ("function_body_with_an_end", false, "9B 05 00 00 00 00 01 00 00"),
        ("function_body_cuts_a_record", false, "9B 05 00 00 00 00 02 00 96 01 00 02"),
        ("function_body_jumps_to_its_end", true, "9B 05 00 00 00 00 05 00 99 02 00 00 00"),
        ("function_body_jumps_out", false, "9B 05 00 00 00 00 05 00 99 02 00 01 00 17"),
        ("function_body_jumps_back_out", false, "17 9B 05 00 00 00 00 05 00 99 02 00 F3 FF"),
        ("jump_into_a_body", false, "99 02 00 08 00 9B 05 00 00 00 00 01 00 17"),
        ("jump_over_a_body", true, "99 02 00 09 00 9B 05 00 00 00 00 01 00 17"),
        ("function_counts_one_parameter_more", false, "9B 05 00 00 01 00 00 00"),
        ("function_counts_one_parameter_less", false, "9B 07 00 00 00 00 70 00 00 00"),
        ("function_name_not_utf8", false, "9B 06 00 FF 00 00 00 00 00"),
        ("function_data_too_long", false, "9B 06 00 00 00 00 00 00 00"),
        ("function2", true, "8E 08 00 00 00 00 02 00 00 00 00"),
        ("function2_of_1_register", false, "8E 08 00 00 00 00 01 00 00 00 00"),
        ("function2_of_0_registers", false, "8E 08 00 00 00 00 00 00 00 00 00"),
        ("function2_of_255_registers", true, "8E 08 00 00 00 00 FF 00 00 00 00"),
        ("function2_all_marks", true, "8E 08 00 00 00 00 02 FF 01 00 00"),
        ("function2_reserved_mark", false, "8E 08 00 00 00 00 02 FF 02 00 00"),
        ("function2_reserved_marks", false, "8E 08 00 00 00 00 02 00 80 00 00"),
        ("function2_with_a_parameter", true, "8E 0B 00 00 01 00 02 00 00 05 70 00 00 00"),
        ("function2_with_a_parameter_of_an_empty_name", true, "8E 0A 00 00 01 00 02 00 00 70 00 00 00"),
        ("function_in_a_function", true, "9B 05 00 00 00 00 09 00 9B 05 00 00 00 00 01 00 17 17"),
        ("function_reaches_over_its_outer_one", false, "9B 05 00 00 00 00 08 00 9B 05 00 00 00 00 01 00 17"),
    ];
    for (name, good, middle) in cases {
        c.hex(name, *good, &wrap(middle));
    }
    c.hex("constant_1_of_2", true, &format!("{pools} 96 02 00 08 01 00"));
    c.hex("constant_2_of_2", false, &format!("{pools} 96 02 00 08 02 00"));
    c.hex("constant_in_a_function", true, &format!("{pools} 9B 05 00 00 00 00 05 00 96 02 00 08 01 00"));
    let many = |count: usize| {
        format!("88 {} {} {}", hex(&((2 + count) as u16).to_le_bytes()), hex(&(count as u16).to_le_bytes()), "00".repeat(count))
    };
    c.hex("constant_255_of_256", true, &format!("{} 96 02 00 08 FF 00", many(256)));
    c.hex("constant_255_wide", false, &format!("{} 96 03 00 09 FF 00 00", many(256)));
    c.hex("constant_256_of_256", false, &format!("{} 96 03 00 09 00 01 00", many(256)));
    c.hex("constant_256_of_257", true, &format!("{} 96 03 00 09 00 01 00", many(257)));
    c.put("actions_1024", true, &[&[0x88, 2, 0, 0, 0][..], &[0x17; 1_023], &[0]].concat());
    c.put("actions_1025", false, &[&[0x88, 2, 0, 0, 0][..], &[0x17; 1_024], &[0]].concat());
    let push = |count: usize| [&[0x96][..], &(count as u16).to_le_bytes(), &vec![2; count]].concat();
    c.put("values_2048", true, &[&[0x88, 2, 0, 0, 0][..], &push(2_048), &[0]].concat());
    c.put("values_2049", false, &[&[0x88, 2, 0, 0, 0][..], &push(2_049), &[0]].concat());
    c.put("values_2048_in_two", true, &[&[0x88, 2, 0, 0, 0][..], &push(1_000), &push(1_048), &[0]].concat());
    c.put("values_2049_in_two", false, &[&[0x88, 2, 0, 0, 0][..], &push(1_001), &push(1_048), &[0]].concat());
    let nested = |levels: usize| {
        let mut body: Vec<u8> = vec![];
        for _ in 0..levels {
            body = [&[0x9B, 5, 0, 0, 0, 0][..], &(body.len() as u16).to_le_bytes(), &body].concat();
        }
        [&[0x88, 2, 0, 0, 0][..], &body, &[0]].concat()
    };
    c.put("functions_1023_deep", true, &nested(1_023));
    c.put("functions_1024_deep", false, &nested(1_024));
    for File { name, bytes, .. } in files_of(Kind::Bytes, 77, 2_000) {
        if bytes.len() < 160 {
            c.rust(&name, &bytes);
        }
    }
    c
}

fn main() {
    let folder = std::env::args().nth(1).expect("corpus FOLDER");
    let mut c = Corpus::default();
    for make in [
        known_scripts,
        kinds,
        operators,
        tracked_size,
        children_are_used,
        names,
        frames,
        functions,
        flow,
        switches,
        pool,
        limits,
        orders,
        writing,
        files,
    ] {
        make(&mut c);
    }
    for File { name, bytes, .. } in files_of(Kind::Scripts, 41, 900) {
        if bytes.len() < 1_500 && bytes.len() > 100 && compare::check::check(&bytes).is_ok() {
            c.file(&name, Rust, bytes);
        }
    }
    c.everything_reached();
    let b = action_bytes();
    let put = |name: &str, text: &str| std::fs::write(format!("{folder}/{name}"), text).unwrap();
    put("stdin", &c.small.stdin);
    put("expected.lowering", &c.small.lowering);
    put("expected.compile", &c.small.compile);
    put("large.stdin", &c.large.stdin);
    put("large.expected.compile", &c.large.compile);
    put("bytes.stdin", &b.stdin);
    put("bytes.expected", &b.expected);
    let refused: usize = c.refusals.values().sum();
    println!("{} script files: {} compile; refused {:?}", c.count, c.count - refused, c.refusals);
    println!("{} rows of action bytes: {} are read, {} are refused with 14", b.count, b.read, b.count - b.read);
}
