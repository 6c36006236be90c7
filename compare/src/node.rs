//! Trees of records, and the bytes of a script file, whose parts can also be given instead of computed.

use crate::check::{self, Record};
use crate::kinds::*;

#[derive(Debug, Clone, PartialEq, Eq)]
pub struct Node {
    pub kind: u32,
    pub a: u32,
    pub b: u32,
    pub c: u32,
    pub children: Vec<Node>,
}

pub fn node<const N: usize>(kind: u32, children: [Node; N]) -> Node {
    Node { kind, a: 0, b: 0, c: 0, children: children.into() }
}

impl Node {
    pub fn words(mut self, a: u32, b: u32, c: u32) -> Node {
        (self.a, self.b, self.c) = (a, b, c);
        self
    }

    pub fn count(&self) -> usize {
        1 + self.children.iter().map(Node::count).sum::<usize>()
    }

    /// Each node, parents before their children.
    pub fn all(&self) -> Vec<&Node> {
        let mut all = vec![self];
        all.extend(self.children.iter().flat_map(Node::all));
        all
    }

    /// The node of this number in that order.
    pub fn at_mut(&mut self, number: usize) -> &mut Node {
        let Some(mut left) = number.checked_sub(1) else { return self };
        for child in &mut self.children {
            let count = child.count();
            if left < count {
                return child.at_mut(left);
            }
            left -= count;
        }
        panic!("a tree of fewer nodes")
    }

    pub fn each_mut(&mut self, change: &mut dyn FnMut(&mut Node)) {
        change(self);
        self.children.iter_mut().for_each(|child| child.each_mut(change));
    }
}

/// The tree of records, if their sizes are those of one tree.
pub fn tree(records: &[Record]) -> Option<Node> {
    let mut nodes: Vec<Option<Node>> = vec![];
    for (r, children) in records.iter().zip(check::children(records)?) {
        let children = children.into_iter().map(|c| nodes[c].take().unwrap()).collect();
        nodes.push(Some(Node { kind: r.kind, a: r.a, b: r.b, c: r.c, children }));
    }
    nodes.pop()?
}

pub fn list(children: Vec<Node>) -> Node {
    Node { kind: LIST, a: children.len() as u32, b: 0, c: 0, children }
}

pub fn absent() -> Node {
    node(ABSENT, [])
}

pub fn run(expression: Node) -> Node {
    node(EXPR, [expression])
}

pub fn string(index: u32) -> Node {
    node(CONSTANT, []).words(0, index, 0)
}

pub fn name(index: u32) -> Node {
    node(CONSTANT, []).words(1, index, 0)
}

pub fn float(bits: u64) -> Node {
    node(CONSTANT, []).words(2, bits as u32, (bits >> 32) as u32)
}

pub fn integer(value: i32) -> Node {
    node(CONSTANT, []).words(3, value as u32, 0)
}

pub fn boolean(value: bool) -> Node {
    node(CONSTANT, []).words(4, value as u32, 0)
}

pub fn register(number: u8) -> Node {
    node(CONSTANT, []).words(5, number as u32, 0)
}

pub fn binary(operator: u32, left: Node, right: Node) -> Node {
    node(BINARY, [left, right]).words(operator, 0, 0)
}

pub fn unary(operator: u32, affix: u32, value: Node) -> Node {
    node(UNARY, [value]).words(operator, affix, 0)
}

pub fn assign(left: Node, right: Node) -> Node {
    binary(1, left, right)
}

pub fn call(callee: Node, arguments: Vec<Node>) -> Node {
    node(CALL, [callee, list(arguments)])
}

pub fn construct(callee: Node, arguments: Vec<Node>) -> Node {
    node(NEW, [callee, list(arguments)])
}

pub fn field(object: Node, key: Node) -> Node {
    node(FIELD, [object, key])
}

pub fn block(statements: Vec<Node>) -> Node {
    node(BLOCK, [list(statements)])
}

/// A function: its name's index plus 1 or 0, registers, marks, parameters (name, register plus 1 or 0), body.
pub fn function(name: u32, registers: u32, marks: u32, parameters: &[(u32, u32)], body: Vec<Node>) -> Node {
    let parameters = parameters.iter().map(|&(n, r)| node(PARAMETER, []).words(n, r, 0)).collect();
    node(FUNCTION, [list(parameters), list(body)]).words(name, registers, marks)
}

pub fn case(value: Node) -> Node {
    node(CASE, [value])
}

pub fn default() -> Node {
    node(DEFAULT, [])
}

pub fn switch(target: Node, elements: Vec<Node>) -> Node {
    node(SWITCH, [target, list(elements)])
}

pub fn while_loop(condition: Node, body: Node) -> Node {
    node(WHILE, [condition, body])
}

pub fn if_then(condition: Node, yes: Node, no: Option<Node>) -> Node {
    node(IF, [condition, yes, no.unwrap_or_else(absent)])
}

pub fn for_in(form: u32, variable: u32, object: Node, body: Node) -> Node {
    node(FOR_IN, [object, body]).words(0, form, variable)
}

pub fn for_classic(initialize: Option<Node>, condition: Vec<Node>, update: Vec<Node>, body: Node) -> Node {
    node(FOR_IN, [initialize.unwrap_or_else(absent), list(condition), list(update), body]).words(1, 0, 0)
}

pub fn declare(name: u32, value: Option<Node>) -> Node {
    node(DECLARE, [value.unwrap_or_else(absent)]).words(name, 0, 0)
}

pub fn ternary(condition: Node, yes: Node, no: Node) -> Node {
    node(TERNARY, [condition, yes, no])
}

/// A file in parts: any of them can be changed before it is written.
#[derive(Debug, Clone)]
pub struct Parts {
    pub string_bytes: Vec<u8>,
    pub ends: Vec<u32>,
    pub records: Vec<Record>,
    pub trailer: [u32; 5],
}

fn put_records(node: &Node, out: &mut Vec<Record>) {
    let first = out.len();
    for child in &node.children {
        put_records(child, out);
    }
    let size = (out.len() - first + 1) as u32;
    out.push(Record { kind: node.kind, a: node.a, b: node.b, c: node.c, size });
}

impl Parts {
    pub fn new<S: AsRef<[u8]>>(strings: &[S], root: &Node) -> Parts {
        let mut records = vec![];
        put_records(root, &mut records);
        Parts::of_records(strings, records)
    }

    pub fn of_records<S: AsRef<[u8]>>(strings: &[S], records: Vec<Record>) -> Parts {
        let mut parts = Parts { string_bytes: vec![], ends: vec![], records, trailer: [0; 5] };
        for s in strings {
            parts.string_bytes.extend(s.as_ref());
            parts.ends.push(parts.string_bytes.len() as u32);
        }
        parts.set_trailer();
        parts
    }

    pub fn set_trailer(&mut self) {
        let records = self.records.len() as u32;
        let strings = self.ends.len() as u32;
        self.trailer = [20 * records, 20 * records + 4 * strings, records, strings, 1];
    }

    pub fn bytes(&self) -> Vec<u8> {
        let mut out = self.string_bytes.clone();
        let words = self.ends.iter().copied();
        let words = words.chain(self.records.iter().flat_map(|r| [r.kind, r.a, r.b, r.c, r.size]));
        for w in words.chain(self.trailer) {
            out.extend(w.to_le_bytes());
        }
        out
    }
}

/// The bytes of a script.
pub fn file<S: AsRef<[u8]>>(strings: &[S], statements: Vec<Node>) -> Vec<u8> {
    Parts::new(strings, &list(statements)).bytes()
}
