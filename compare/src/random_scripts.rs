//! Random script files of every kind.

use crate::generated;
use crate::kinds::*;
use crate::node::*;
use crate::properties::{NEARLY, PROPERTIES};
use crate::random::Random;
use crate::{LIMITS, lower_file};

const NAMES: &[&str] = &["a", "b", "c", "foo", "bar", "this", "i", "x", "_root", "_global", "Math", "é", "€uro", "😀"];

/// Names that a careless search could take for a property or for null and undefined, and the two themselves.
fn odd_names() -> Vec<&'static str> {
    let words = ["null", "undefined", "Null", "NULL", "Undefined", "nul", "undefine", "undefinedd", "", "_"];
    let more = ["_ｘ", "_url2", "_quali", "_highqualitY1", "_namE_", "\u{212A}", "_ſoundbuftime", "\0", "a\0b"];
    [&words[..], &NEARLY, &more].concat()
}

const INTEGERS: &[i32] =
    &[0, 1, 2, -1, -2, 5, 100, 255, 256, 257, 65_535, 65_536, 65_537, -65_535, -65_536, i32::MAX, i32::MIN + 1, 16_384];

const FLOATS: &[u64] = &[
    0,
    0x8000_0000_0000_0000,
    0x3FF8_0000_0000_0000,
    0x7FF0_0000_0000_0000,
    0xFFF0_0000_0000_0000,
    0x7FF8_0000_0000_0000,
    0x7FF0_0000_0000_0001,
    0xFFFF_FFFF_FFFF_FFFF,
    1,
    0x41EF_FFFF_FFE0_0000,
    0x0123_4567_89AB_CDEF,
];

/// Which file the maker makes.
#[derive(Debug, Clone, Copy, PartialEq, Eq)]
pub enum Sort {
    Common,
    Actions,
    Values,
    Labels,
    Depth,
    Pool,
    Overflow,
    Idle,
    Offset,
    Length,
    Refused,
}

pub struct Maker {
    pub r: Random,
    /// The sort of every file, where only one is wanted.
    only: Option<Sort>,
    pub strings: Vec<Vec<u8>>,
    left: isize,
    /// One in so many left sides, callees and so on is anything at all.
    wild: usize,
    in_loop: bool,
}

impl Maker {
    pub fn new(seed: u64, only: Option<Sort>) -> Maker {
        Maker { r: Random::new(seed), only, strings: vec![], left: 0, wild: 30, in_loop: false }
    }

    fn some_string(&mut self) -> Vec<u8> {
        let r = &mut self.r;
        match r.below(10) {
            0..=4 => r.pick(NAMES).as_bytes().to_vec(),
            5 | 6 => {
                let mut s = r.pick(&PROPERTIES).as_bytes().to_vec();
                if r.one_in(2) {
                    for b in &mut s {
                        if r.one_in(2) {
                            b.make_ascii_uppercase();
                        }
                    }
                }
                s
            }
            7 => r.pick(&odd_names()).as_bytes().to_vec(),
            8 => format!("n{}", r.below(1000)).into_bytes(),
            _ => vec![b'a' + r.below(26) as u8; r.below(40)],
        }
    }

    fn begin(&mut self) {
        self.left = self.r.pick(&[2, 5, 10, 20, 40, 80, 160]);
        self.wild = self.r.pick(&[3, 30, 1000, 1000]);
        let count = self.r.pick(&[0, 1, 2, 4, 8, 16]);
        self.strings = vec![];
        for _ in 0..count {
            let mut s = self.some_string();
            if s.contains(&0) && !self.r.one_in(6) {
                s = b"zero".to_vec();
            }
            self.strings.push(s);
        }
        self.in_loop = false;
    }

    /// A string's index; there is at least one where it is called.
    fn index(&mut self) -> u32 {
        self.r.below(self.strings.len()) as u32
    }

    fn integer(&mut self) -> i32 {
        match self.r.below(12) {
            0 => self.r.bits() as i32,
            1 if self.r.one_in(8) => i32::MIN,
            _ => self.r.pick(INTEGERS),
        }
    }

    fn leaf(&mut self) -> Node {
        match self.r.below(10) {
            0 | 1 if !self.strings.is_empty() => string(self.index()),
            2..=4 if !self.strings.is_empty() => name(self.index()),
            5 => {
                let bits = if self.r.one_in(4) { self.r.bits() } else { self.r.pick(FLOATS) };
                float(bits)
            }
            6 => boolean(self.r.one_in(2)),
            7 => register(self.r.pick(&[0, 1, 2, 3, 255])),
            8 => {
                let kind =
                    self.r.pick(&[GET_TIME, NEXT_FRAME, PREVIOUS_FRAME, PLAY, STOP, STOP_SOUNDS, END_DRAG, TOGGLE_QUALITY]);
                node(kind, [])
            }
            _ => integer(self.integer()),
        }
    }

    /// What can be assigned to: mostly a name, a member or a register.
    fn place(&mut self, depth: usize) -> Node {
        self.left -= 1;
        if self.r.one_in(self.wild) {
            return self.expression(depth);
        }
        match self.r.below(4) {
            0 => register(self.r.pick(&[0, 1, 2, 200])),
            1 if depth < 90 => field(self.expression(depth + 1), self.expression(depth + 1)),
            _ if !self.strings.is_empty() => {
                let i = self.index();
                let plain = !matches!(self.strings[i as usize].as_slice(), b"null" | b"undefined");
                if plain || self.r.one_in(self.wild) { name(i) } else { register(1) }
            }
            _ => register(5),
        }
    }

    /// What can be called: mostly not a property.
    fn callee(&mut self, depth: usize) -> Node {
        self.left -= 1;
        if self.r.one_in(self.wild) || self.strings.is_empty() {
            return self.expression(depth);
        }
        if depth < 90 && self.r.one_in(3) {
            return field(self.expression(depth + 1), self.expression(depth + 1));
        }
        let i = self.index();
        let property = PROPERTIES.iter().any(|p| p.as_bytes().eq_ignore_ascii_case(&self.strings[i as usize]));
        if property { string(i) } else { name(i) }
    }

    fn expressions(&mut self, depth: usize) -> Vec<Node> {
        let count = self.r.pick(&[0, 0, 1, 1, 2, 3, 5]);
        (0..count).map(|_| self.expression(depth)).collect()
    }

    fn statements(&mut self, depth: usize) -> Vec<Node> {
        let count = self.r.pick(&[0, 1, 1, 2, 3, 4]);
        (0..count).map(|_| self.statement(depth)).collect()
    }

    fn function(&mut self, depth: usize) -> Node {
        let outer = std::mem::replace(&mut self.in_loop, false);
        let body = self.statements(depth + 2);
        self.in_loop = outer;
        let mut parameters = vec![];
        let mut name = 0;
        if !self.strings.is_empty() {
            for _ in 0..self.r.pick(&[0, 0, 1, 2, 4]) {
                let i = self.index();
                parameters.push((i, self.r.pick(&[0, 0, 1, 2, 3, 256])));
            }
            if self.r.one_in(2) {
                name = self.index() + 1;
            }
        }
        let registers = self.r.pick(&[0, 0, 1, 2, 3, 4, 255]);
        let marks = if self.r.one_in(2) { self.r.below(512) } else { 0 };
        function(name, registers, marks as u32, &parameters, body)
    }

    fn expression(&mut self, depth: usize) -> Node {
        self.left -= 1;
        if self.left <= 0 || depth > 100 || self.r.one_in(5) {
            return self.leaf();
        }
        let d = depth + 1;
        match self.r.below(24) {
            0..=4 => {
                let operator = self.r.below(43) as u32;
                let assigns = operator < 23 && (operator == 1 || operator > 0 && operator.is_multiple_of(2));
                let left = if assigns { self.place(d) } else { self.expression(d) };
                binary(operator, left, self.expression(d))
            }
            5 | 6 => match self.r.below(6) {
                o @ (3 | 4) => {
                    let affix = self.r.below(2) as u32;
                    unary(o as u32, affix, self.place(d))
                }
                0 if self.r.one_in(2) => {
                    let value = if self.r.one_in(self.wild) { i32::MIN } else { self.integer() };
                    unary(0, 0, integer(value))
                }
                o => unary(o as u32, 0, self.expression(d)),
            },
            7 | 8 => {
                let arguments = self.expressions(d + 1);
                let callee = self.callee(d);
                node(if self.r.one_in(3) { NEW } else { CALL }, [callee, list(arguments)])
            }
            9 => ternary(self.expression(d), self.expression(d), self.expression(d)),
            10 => field(self.expression(d), self.expression(d)),
            11 => {
                if self.strings.is_empty() || self.r.one_in(2) {
                    return node(INIT_ARRAY, [list(self.expressions(d + 1))]);
                }
                let mut fields = vec![];
                for _ in 0..self.r.below(4) {
                    let key = self.index();
                    fields.push(node(OBJECT_FIELD, [self.expression(d + 2)]).words(key, 0, 0));
                }
                node(INIT_OBJECT, [list(fields)])
            }
            12 | 13 => self.function(d),
            14 => {
                let frame = match self.r.below(3) {
                    0 => integer(self.integer()),
                    1 if !self.strings.is_empty() => string(self.index()),
                    _ => self.expression(d),
                };
                node(GOTO_FRAME, [frame]).words(self.r.below(2) as u32, 0, 0)
            }
            15 => {
                let limits = if self.r.one_in(2) { (0..4).map(|_| self.expression(d + 1)).collect() } else { vec![] };
                let target = self.expression(d);
                node(START_DRAG, [target, list(limits)]).words(self.r.below(2) as u32, 0, 0)
            }
            16 => {
                let number = self.integer() as u32;
                if self.r.one_in(2) {
                    node(GET_PROPERTY, [self.expression(d)]).words(number, 0, 0)
                } else {
                    node(SET_PROPERTY, [self.expression(d), self.expression(d)]).words(number, 0, 0)
                }
            }
            17 => {
                let of = if self.r.one_in(2) { self.callee(d) } else { self.place(d) };
                node(DELETE, [of])
            }
            18 => {
                let kind = self.r.pick(&[DUPLICATE, SUBSTRING, MB_SUBSTRING]);
                node(kind, [self.expression(d), self.expression(d), self.expression(d)])
            }
            19 => {
                let kind = self.r.pick(&[SET_VARIABLE, CAST_TO_OBJECT]);
                node(kind, [self.expression(d), self.expression(d)])
            }
            20 => node(VOID, [self.expression(d)]),
            _ => {
                let kind = self.r.pick(&[
                    ASCII_TO_CHAR,
                    MB_ASCII_TO_CHAR,
                    CALL_FRAME,
                    TYPE_OF,
                    GET_VARIABLE,
                    CAST_TO_INTEGER,
                    CAST_TO_NUMBER,
                    CAST_TO_STRING,
                    STRING_LENGTH,
                    MB_STRING_LENGTH,
                    CHAR_TO_ASCII,
                    MB_CHAR_TO_ASCII,
                    GET_TARGET_PATH,
                    TRACE,
                    REMOVE_SPRITE,
                    GET_RANDOM_NUMBER,
                ]);
                node(kind, [self.expression(d)])
            }
        }
    }

    fn looped(&mut self, depth: usize) -> Node {
        let outer = std::mem::replace(&mut self.in_loop, true);
        let body = self.statement(depth);
        self.in_loop = outer;
        body
    }

    fn switch(&mut self, d: usize) -> Node {
        let outer = std::mem::replace(&mut self.in_loop, true);
        let mut elements = vec![];
        let mut defaults = 0;
        for _ in 0..self.r.below(7) {
            elements.push(match self.r.below(5) {
                0 | 1 => case(self.expression(d + 2)),
                2 if defaults == 0 || self.r.one_in(self.wild) => {
                    defaults += 1;
                    default()
                }
                _ => self.statement(d + 1),
            });
        }
        self.in_loop = outer;
        switch(self.expression(d), elements)
    }

    fn statement(&mut self, depth: usize) -> Node {
        self.left -= 1;
        if self.left <= 0 || depth > 100 || self.in_loop && self.r.one_in(5) {
            return node(self.r.pick(&[BREAK, CONTINUE]), []);
        }
        let d = depth + 1;
        match self.r.below(20) {
            0 if !self.strings.is_empty() => {
                let value = if self.r.one_in(3) { None } else { Some(self.expression(d)) };
                declare(self.index(), value)
            }
            1 | 2 => {
                let kind = self.r.pick(&[RETURN, RETURN, THROW]);
                node(kind, [list(self.expressions(d + 1))])
            }
            3 | 4 => block(self.statements(d + 1)),
            5 | 6 => {
                let form = self.r.below(3) as u32;
                let variable = if form == 2 {
                    self.r.pick(&[0, 1, 2, 255])
                } else if self.strings.is_empty() {
                    return self.statement(depth);
                } else {
                    self.index()
                };
                for_in(form, variable, self.expression(d), self.looped(d))
            }
            7 | 8 => {
                let initialize = if self.r.one_in(2) { Some(self.looped(d)) } else { None };
                let (condition, update) = (self.expressions(d + 1), self.expressions(d + 1));
                for_classic(initialize, condition, update, self.looped(d))
            }
            9 => while_loop(self.expression(d), self.looped(d)),
            10 | 11 => {
                let no = if self.r.one_in(2) { Some(self.statement(d)) } else { None };
                if_then(self.expression(d), self.statement(d), no)
            }
            12 | 13 => self.switch(d),
            14 => run(self.function(d + 1)),
            _ => run(self.expression(d)),
        }
    }

    /// A common script.
    fn script(&mut self) -> Vec<Node> {
        self.begin();
        let count = self.r.pick(&[0, 1, 1, 2, 3, 5, 8]);
        let mut statements = vec![];
        for _ in 0..count {
            self.left = self.left.max(3);
            statements.push(self.statement(2));
        }
        statements
    }

    /// A common script with as much more as reaches a limit, give or take a few.
    fn near_limit(&mut self, sort: Sort) -> Vec<Node> {
        let mut statements = self.script();
        let _ = lower_file(&file(&self.strings, statements.clone()));
        let used = counted::used();
        let around = self.r.below(7) as isize - 3;
        let more = |limit: usize, used: usize| (limit as isize - used as isize + around).max(0) as usize;
        let at = self.r.below(statements.len() + 1);
        let filler: Vec<Node> = match sort {
            Sort::Actions => (0..more(LIMITS.actions, used.actions)).map(|_| run(node(PLAY, []))).collect(),
            Sort::Labels => {
                // An empty switch makes a label and nothing else.
                (0..more(LIMITS.labels, used.labels)).map(|_| switch(integer(0), vec![])).collect()
            }
            _ => {
                // An array pushes its elements and their number.
                let elements = more(LIMITS.values, used.values + 1);
                vec![run(node(INIT_ARRAY, [list(vec![integer(7); elements])]))]
            }
        };
        statements.splice(at..at, filler);
        statements
    }

    fn deep(&mut self) -> Vec<Node> {
        let mut statements = self.script();
        self.left = 10;
        let mut inner = self.expression(100);
        let levels = self.r.pick(&[60, 100, 110, 118, 120, 121, 122, 123, 124, 125, 126, 127]);
        let kind = self.r.pick(&[VOID, TYPE_OF, TRACE, FIELD, CALL, FUNCTION, INIT_ARRAY, TERNARY]);
        let mut depth = 0;
        while depth < levels {
            inner = match kind {
                FIELD => field(inner, integer(1)),
                CALL => call(inner, vec![]),
                INIT_ARRAY => node(INIT_ARRAY, [list(vec![inner])]),
                FUNCTION => function(0, 0, 0, &[], vec![run(inner)]),
                TERNARY => ternary(integer(1), inner, integer(2)),
                kind => node(kind, [inner]),
            };
            depth += match kind {
                FUNCTION => 3,
                INIT_ARRAY => 2,
                _ => 1,
            };
        }
        statements.push(run(inner));
        statements
    }

    /// The index of a new string.
    fn add(&mut self, string: Vec<u8>) -> u32 {
        self.strings.push(string);
        self.strings.len() as u32 - 1
    }

    /// So many different strings, of this length where a number fits it.
    fn add_numbered(&mut self, count: usize, length: usize) {
        for i in 0..count {
            let mut s = format!("{i}:").into_bytes();
            s.resize(length.max(s.len()), b'p');
            self.strings.push(s);
        }
    }

    /// Many or long strings: the pool runs out, and indexes pass 255.
    fn pool(&mut self) -> Vec<Node> {
        self.begin();
        let (count, length) =
            self.r.pick(&[(300, 3), (400, 160), (260, 251), (900, 72), (3, 40_000), (2, 65_532), (2, 65_533), (4, 30_000)]);
        let first = self.strings.len();
        self.add_numbered(count, length);
        if self.r.one_in(3) {
            self.strings.push(vec![b'q'; self.r.pick(&[65_531, 65_532, 65_533, 65_534, 65_535, 65_536])]);
        }
        let total = self.strings.len();
        let mut statements = vec![];
        // Long strings are pushed a few times only: every push outside the pool holds a copy.
        let pushes = if length > 1000 { 6 } else { total - first + self.r.below(40) };
        for n in 0..pushes {
            let i = if n < total - first { first + n } else { self.r.below(total) };
            let leaf = if self.r.one_in(3) { name(i as u32) } else { string(i as u32) };
            statements.push(match self.r.below(6) {
                0 => declare(i as u32, None),
                1 => run(assign(name(i as u32), integer(1))),
                2 => run(node(INIT_ARRAY, [list(vec![leaf.clone(), string(0), leaf])])),
                _ => run(leaf),
            });
        }
        if statements.len() > 250 {
            // Few actions, so that the limits let it through.
            let values = (first..total).map(|i| string(i as u32)).collect();
            statements = vec![run(node(INIT_ARRAY, [list(values)]))];
        }
        statements
    }

    /// A common script after strings that leave the pool little room: of its own strings some join and some are pushed.
    fn overflow(&mut self) -> Vec<Node> {
        let mut statements = self.script();
        let first = self.strings.len();
        let count = self.r.pick(&[1, 2, 30]);
        // The total is 65,535 at the most; it starts at 2, and each string has a zero byte.
        let room = self.r.below(50);
        self.add_numbered(count, (65_533 - room) / count - 1);
        let fill = (first..self.strings.len()).map(|i| run(string(i as u32)));
        statements.splice(0..0, fill);
        for length in [80, self.r.below(60), self.r.below(60)] {
            let letter = b'a' + self.r.below(26) as u8;
            let i = self.add(vec![letter; length]);
            let push = if self.r.one_in(2) { string(i) } else { name(i) };
            statements.push(if self.r.one_in(4) { run(function(0, 0, 0, &[], vec![run(push)])) } else { run(push) });
        }
        statements
    }

    /// A row of statements, most of which generate nothing where Break and Continue have no label.
    fn idle_row(&mut self, depth: usize) -> Vec<Node> {
        if depth == 6 {
            self.begin();
        }
        let count = self.r.pick(&[0, 1, 2, 3, 5, 9]);
        (0..count).map(|_| self.idle_statement(depth)).collect()
    }

    fn idle_values(&mut self) -> Vec<Node> {
        let count = self.r.below(6);
        (0..count).map(|_| if self.r.one_in(3) { self.leaf() } else { node(VOID, [self.leaf()]) }).collect()
    }

    fn idle_statement(&mut self, depth: usize) -> Node {
        let choices = if depth == 0 { 6 } else { 18 };
        match self.r.below(choices) {
            0 | 1 => node(BREAK, []),
            2 => node(CONTINUE, []),
            3 => block(vec![]),
            4 => run(node(VOID, [self.leaf()])),
            5 => run(self.leaf()),
            6 => while_loop(self.leaf(), block(self.idle_row(depth - 1))),
            7 => {
                let mut elements = self.idle_row(depth - 1);
                for element in [case(self.leaf()), default()] {
                    if self.r.one_in(2) {
                        let at = self.r.below(elements.len() + 1);
                        elements.insert(at, element);
                    }
                }
                switch(self.leaf(), elements)
            }
            8 => {
                let named = if self.strings.is_empty() || self.r.one_in(2) { 0 } else { 1 + self.index() };
                run(function(named, 0, 0, &[], self.idle_row(depth - 1)))
            }
            9 => node(RETURN, [list(self.idle_values())]),
            10 => for_classic(None, self.idle_values(), self.idle_values(), block(self.idle_row(depth - 1))),
            11 => run(node(INIT_ARRAY, [list(self.idle_values())])),
            12 => run(call(self.leaf(), self.idle_values())),
            _ => block(self.idle_row(depth - 1)),
        }
    }

    /// A branch over a long record, near the reach of 16 bits.
    fn offset(&mut self) -> Vec<Node> {
        self.begin();
        let around = self.r.below(40);
        let at = self.add(vec![b'g'; 32_767 - 30 + around]);
        let go = run(node(GOTO_FRAME, [string(at)]));
        self.left = 8;
        let extra = self.statement(50);
        let body = if self.r.one_in(2) { go } else { block(vec![go, extra]) };
        let statement = match self.r.below(4) {
            0 => while_loop(boolean(true), body),
            1 => if_then(integer(1), body, None),
            2 => for_classic(None, vec![], vec![], body),
            _ => if_then(integer(1), node(BREAK, []), Some(body)),
        };
        if self.r.one_in(3) { vec![run(function(0, 2, 3, &[], vec![statement]))] } else { vec![statement] }
    }

    /// Records and bodies near 65,535 bytes, and outputs near 65,536.
    fn length(&mut self) -> Vec<Node> {
        self.begin();
        let around = self.r.below(30);
        let at = self.add(vec![b'l'; 65_535 - 25 + around]);
        match self.r.below(5) {
            0 => vec![run(node(GOTO_FRAME, [string(at)]))],
            1 => vec![run(function(at + 1, 0, 0, &[], vec![]))],
            2 => vec![run(function(0, 3, 9, &[(at, 2)], vec![node(BREAK, [])]))],
            3 => {
                // A body of two records that is too long only as a whole.
                *self.strings.last_mut().unwrap() = vec![b'l'; 32_760 + around / 2 - 8];
                let go = || run(node(GOTO_FRAME, [string(at)]));
                vec![run(function(0, 0, 0, &[], vec![go(), go()]))]
            }
            _ => vec![run(string(at)), run(string(at)), run(name(at))],
        }
    }

    /// A record that refusal 3 names, somewhere, over anything.
    fn refused(&mut self) -> Vec<Node> {
        let mut statements = self.script();
        let kind = self.r.pick(&[TRY, WAIT_FOR_FRAME, TELL_TARGET, INLINE_PCODE, WITH, GET_URL]);
        self.left = 10;
        let mut children = vec![];
        for _ in 0..self.r.below(4) {
            children.push(match self.r.below(6) {
                0 => list(vec![self.leaf(), absent(), default()]),
                1 => absent(),
                2 => case(self.expression(50)),
                3 => default(),
                4 => self.statement(50),
                _ => self.expression(50),
            });
        }
        let (a, b) = (self.r.bits() as u32, self.r.bits() as u32);
        let refused = Node { kind, a, b, c: 0, children };
        let refused = if kind == GET_URL { run(refused) } else { refused };
        let at = self.r.below(statements.len() + 1);
        statements.insert(at, if self.r.one_in(2) { block(vec![refused]) } else { refused });
        statements
    }

    fn sort(&mut self) -> Sort {
        if let Some(sort) = self.only {
            return sort;
        }
        match self.r.below(60) {
            0 | 1 => Sort::Actions,
            2 | 3 => Sort::Values,
            4 => Sort::Labels,
            5 | 6 => Sort::Depth,
            7 => Sort::Pool,
            8 => Sort::Offset,
            9 => Sort::Length,
            10 => Sort::Refused,
            _ => Sort::Common,
        }
    }

    fn parts(&mut self) -> Parts {
        let statements = match self.sort() {
            Sort::Common => self.script(),
            sort @ (Sort::Actions | Sort::Values | Sort::Labels) => self.near_limit(sort),
            Sort::Depth => self.deep(),
            Sort::Pool => self.pool(),
            Sort::Overflow => self.overflow(),
            Sort::Idle => self.idle_row(6),
            Sort::Offset => self.offset(),
            Sort::Length => self.length(),
            Sort::Refused => self.refused(),
        };
        Parts::new(&self.strings, &list(statements))
    }
}

impl generated::Maker for Maker {
    type Original = Parts;
    const COPIES: usize = 2;

    fn original(&mut self) -> Parts {
        self.parts()
    }

    fn bytes(original: &Parts) -> Vec<u8> {
        original.bytes()
    }

    fn damaged(&mut self, original: &Parts) -> Vec<u8> {
        self.damaged_copy(original)
    }
}
