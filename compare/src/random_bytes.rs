//! Random action bytes: lists that keep the rules, and copies of their bytes with a field or a byte changed.

use crate::action_writer::write;
use crate::generated;
use crate::lists::*;
use crate::random::Random;

pub struct Maker {
    r: Random,
    lists: Lists,
    pool: usize,
    left: isize,
}

impl Maker {
    pub fn new(seed: u64) -> Maker {
        Maker { r: Random::new(seed), lists: Lists::default(), pool: 0, left: 0 }
    }

    fn string(&mut self) -> Vec<u8> {
        match self.r.below(6) {
            0 => vec![],
            1 => "é€😀".as_bytes().to_vec(),
            2 => vec![b'z'; self.r.below(300)],
            _ => self.r.pick(&["a", "b", "foo", "_x"]).as_bytes().to_vec(),
        }
    }

    fn value(&mut self) -> Value {
        match self.r.below(9) {
            0 => Value::String(self.string()),
            1 => Value::Null,
            2 => Value::Undefined,
            3 => Value::Register(self.r.bits() as u8),
            4 => Value::Bool(self.r.one_in(2)),
            5 => Value::Float(self.r.bits()),
            6 => Value::Integer(self.r.bits() as i32),
            _ if self.pool > 0 => Value::Constant(self.r.below(self.pool) as u16),
            _ => Value::Integer(0),
        }
    }

    fn values(&mut self) -> Vec<Value> {
        let count = 1 + self.r.below(4);
        (0..count).map(|_| self.value()).collect()
    }

    fn function(&mut self, depth: usize) -> Act {
        let two = self.r.one_in(2);
        let mut parameters = vec![];
        for _ in 0..self.r.below(4) {
            let name = self.string();
            parameters.push((name, if two { self.r.bits() as u8 } else { 0 }));
        }
        let marks = self.r.bits();
        let registers = two.then(|| (2 + self.r.below(254) as u8, std::array::from_fn(|bit| marks >> bit & 1 == 1)));
        let name = self.string();
        let list = self.list(depth + 1, false);
        self.lists.0.push(list);
        Act::Function(Function { name, parameters, list: self.lists.0.len() - 1, registers })
    }

    fn list(&mut self, depth: usize, top: bool) -> List {
        let mut actions = vec![];
        if top {
            let strings: Vec<Vec<u8>> = match self.r.below(8) {
                0 => (0..self.r.pick(&[255, 256, 257, 300, 700])).map(|i: usize| i.to_string().into_bytes()).collect(),
                1 => vec![vec![]; self.r.pick(&[1, 2, 400])],
                _ => (0..self.r.below(6)).map(|_| self.string()).collect(),
            };
            self.pool = strings.len();
            actions.push(Act::ConstantPool(strings));
        }
        let count = self.r.below(9);
        for _ in 0..count {
            self.left -= 1;
            if self.left < 0 {
                break;
            }
            actions.push(match self.r.below(14) {
                0 => Act::GotoFrame(self.r.bits() as u16),
                1 => Act::StoreRegister(self.r.bits() as u8),
                2 => Act::GotoLabel(self.string()),
                3 if depth < 40 => self.function(depth),
                4 | 5 => Act::Push(self.values()),
                6 | 7 => Act::Jump(Target::Place(0)),
                8 => Act::If(Target::Place(0)),
                9 => Act::GotoFrame2(0, self.r.one_in(2)),
                10 => Act::Plain(0x9E),
                _ => Act::Plain(self.r.pick(PLAIN).1),
            });
        }
        // Any place of the list will do for a branch.
        let places = actions.len() + 1;
        for act in &mut actions {
            if let Act::Jump(target) | Act::If(target) = act {
                *target = Target::Place(self.r.below(places));
            }
        }
        List { actions, marks: vec![] }
    }

    /// Functions in functions, as deep as the actions allow, give or take one.
    fn nested(&mut self) {
        let levels = self.r.pick(&[10, 200, 1_022, 1_023, 1_024]);
        self.lists = Lists(vec![List::default()]);
        let mut inner = List::default();
        for _ in 0..levels {
            self.lists.0.push(inner);
            let list = self.lists.0.len() - 1;
            inner = List {
                actions: vec![Act::Function(Function { name: vec![], parameters: vec![], list, registers: None })],
                marks: vec![],
            };
        }
        inner.actions.insert(0, Act::ConstantPool(vec![]));
        self.lists.0[0] = inner;
    }

    /// Actions and values near their limits.
    fn wide(&mut self) {
        let mut actions = vec![Act::ConstantPool(vec![])];
        if self.r.one_in(2) {
            let count = 1_020 + self.r.below(8);
            actions.extend((0..count).map(|_| Act::Plain(0x17)));
        } else {
            let count = 2_044 + self.r.below(8);
            let cut = 1 + self.r.below(count - 1);
            actions.push(Act::Push(vec![Value::Null; cut]));
            actions.push(Act::Push(vec![Value::Undefined; count - cut]));
        }
        self.lists = Lists(vec![List { actions, marks: vec![] }]);
    }

    fn valid(&mut self) -> Vec<u8> {
        loop {
            self.lists = Lists(vec![List::default()]);
            self.left = self.r.pick(&[3, 10, 30, 100]);
            match self.r.below(40) {
                0 => self.nested(),
                1 => self.wide(),
                _ => {
                    let top = self.list(0, true);
                    self.lists.0[0] = top;
                }
            }
            if let Ok(bytes) = write(&self.lists, usize::MAX) {
                return bytes;
            }
        }
    }

    fn damage(&mut self, b: &mut Vec<u8>) {
        if b.is_empty() {
            return;
        }
        let i = self.r.below(b.len());
        match self.r.below(12) {
            0 | 1 => b[i] ^= 1 << self.r.below(8),
            2 => b[i] = b[i].wrapping_add(1),
            3 => b[i] = b[i].wrapping_sub(1),
            4 => {
                b[i] = self
                    .r
                    .pick(&[0, 1, 2, 8, 9, 0x88, 0x96, 0x99, 0x9B, 0x8E, 0x9D, 0x9E, 0x9F, 0x8C, 0x81, 0x87, 0x17, 0x0A, 0xFF])
            }
            5 => b.truncate(i),
            6 => {
                b.remove(i);
            }
            7 => b.insert(i, self.r.pick(&[0, 0x17, 0x96, 1, 255])),
            8 => {
                let part = b[i..(i + 1 + self.r.below(6)).min(b.len())].to_vec();
                b.splice(i..i, part);
            }
            9 => {
                // A record in between: an action without operands, a pool, an End, an empty push.
                let record: &[u8] =
                    self.r.pick(&[&[0x17], &[0x88, 2, 0, 0, 0], &[0], &[0x96, 0, 0], &[0x99, 2, 0, 0, 0], &[0x9E, 0, 0]]);
                b.splice(i..i, record.iter().copied());
            }
            10 => b.push(self.r.pick(&[0, 0x17])),
            _ => {
                // A branch's offset, a record's length or a body's, where the code of one stands.
                let codes = [0x99, 0x9D, 0x96, 0x9B, 0x8E, 0x88, 0x8C];
                let found: Vec<usize> = (0..b.len().saturating_sub(5)).filter(|&k| codes.contains(&b[k])).collect();
                if !found.is_empty() {
                    let k = self.r.pick(&found) + self.r.pick(&[1, 3]);
                    let by = self.r.pick(&[1u16, 2, 5, 0u16.wrapping_sub(1), 0u16.wrapping_sub(5), 256, 0x8000]);
                    let v = u16::from_le_bytes([b[k], b[k + 1]]).wrapping_add(by).to_le_bytes();
                    (b[k], b[k + 1]) = (v[0], v[1]);
                }
            }
        }
    }
}

impl generated::Maker for Maker {
    type Original = Vec<u8>;
    const COPIES: usize = 3;

    fn original(&mut self) -> Vec<u8> {
        self.valid()
    }

    fn bytes(original: &Vec<u8>) -> Vec<u8> {
        original.clone()
    }

    fn damaged(&mut self, original: &Vec<u8>) -> Vec<u8> {
        let mut copy = original.clone();
        for _ in 0..self.r.pick(&[1, 1, 1, 2, 3]) {
            self.damage(&mut copy);
        }
        copy
    }
}
