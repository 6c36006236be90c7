//! Lists of action bytes, from document 01, 'Action bytes' and 'A list': exactly the bytes that some list within the limits
//! writes to are read.

use crate::Limits;
use crate::lists::{Act, Function, List, Lists, Target, Value, plain_name};

pub fn read(limits: Limits, bytes: &[u8]) -> Option<Lists> {
    let mut reader = Reader { limits, bytes, lists: Lists(vec![List::default()]), actions: 0, values: 0, pool: 0 };
    // The End byte is the last one; every other byte is the top list's body.
    let body = bytes.len().checked_sub(1)?;
    if bytes[body] != 0 {
        return None;
    }
    let top = reader.top(body)?;
    reader.lists.0[0] = top;
    Some(reader.lists)
}

struct Reader<'a> {
    limits: Limits,
    bytes: &'a [u8],
    lists: Lists,
    actions: usize,
    values: usize,
    pool: usize,
}

/// A body whose records are not all read yet.
struct Open {
    end: usize,
    list: List,
    starts: Vec<usize>,
    /// Branches: index of the action, byte it lands at.
    branches: Vec<(usize, i64)>,
}

impl Open {
    fn new(end: usize) -> Open {
        Open { end, list: List::default(), starts: vec![], branches: vec![] }
    }

    /// The list, if each branch lands on a start of its own records or at the end.
    fn close(mut self) -> Option<List> {
        self.starts.push(self.end);
        for (i, lands) in self.branches {
            let place = usize::try_from(lands).ok().and_then(|at| self.starts.binary_search(&at).ok())?;
            let (Act::Jump(target) | Act::If(target)) = &mut self.list.actions[i] else { unreachable!() };
            *target = Target::Place(place);
        }
        Some(self.list)
    }
}

impl<'a> Reader<'a> {
    /// Reads the records up to `end` without recursion: bodies can nest a thousand deep.
    fn top(&mut self, end: usize) -> Option<List> {
        let mut at = 0;
        let mut open = vec![Open::new(end)];
        let mut first = true;
        loop {
            let now = open.last_mut().unwrap();
            if at == now.end {
                let list = open.pop().unwrap().close()?;
                let Some(outer) = open.last_mut() else {
                    return (!first).then_some(list);
                };
                self.lists.0.push(list);
                let number = self.lists.0.len() - 1;
                let Some(Act::Function(f)) = outer.list.actions.last_mut() else { unreachable!() };
                f.list = number;
                continue;
            }
            let end = now.end;
            now.starts.push(at);
            let record = self.record(at, end)?;
            self.actions += 1;
            if self.actions > self.limits.actions || self.values > self.limits.values {
                return None;
            }
            // The pool is the first action of the top list, and no other.
            if matches!(record.act, Act::ConstantPool(_)) != first {
                return None;
            }
            first = false;
            let now = open.last_mut().unwrap();
            if let Some(lands) = record.lands {
                now.branches.push((now.list.actions.len(), lands));
            }
            now.list.actions.push(record.act);
            at = record.after;
            if let Some(length) = record.body {
                if length > end - at {
                    return None;
                }
                open.push(Open::new(at + length));
            }
        }
    }

    fn record(&mut self, at: usize, end: usize) -> Option<Record> {
        let code = self.bytes[at];
        if code < 0x80 {
            plain_name(code)?;
            return Some(Record { act: Act::Plain(code), after: at + 1, body: None, lands: None });
        }
        if end - at < 3 {
            return None;
        }
        let length = u16::from_le_bytes([self.bytes[at + 1], self.bytes[at + 2]]) as usize;
        let after = at + 3 + length;
        if after > end {
            return None;
        }
        let mut data = Data(&self.bytes[at + 3..after]);
        let mut body = None;
        let mut lands = None;
        let act = match code {
            0x81 => Act::GotoFrame(data.u16()?),
            0x87 => Act::StoreRegister(data.u8()?),
            0x88 => {
                let count = data.u16()?;
                let mut strings = Vec::new();
                for _ in 0..count {
                    strings.push(data.string()?);
                }
                self.pool = strings.len();
                Act::ConstantPool(strings)
            }
            0x8C => Act::GotoLabel(data.string()?),
            0x96 => Act::Push(self.values(&mut data)?),
            0x99 | 0x9D => {
                lands = Some(after as i64 + data.u16()? as i16 as i64);
                let target = Target::Place(0);
                if code == 0x99 { Act::Jump(target) } else { Act::If(target) }
            }
            0x8E | 0x9B => {
                let (function, length) = data.function(code == 0x8E)?;
                body = Some(length);
                Act::Function(function)
            }
            0x9E => Act::Plain(0x9E),
            0x9F => Act::GotoFrame2(0, data.bool()?),
            _ => return None,
        };
        data.0.is_empty().then_some(Record { act, after, body, lands })
    }

    fn values(&mut self, data: &mut Data) -> Option<Vec<Value>> {
        let mut values = Vec::new();
        while !data.0.is_empty() {
            values.push(match data.u8()? {
                0 => Value::String(data.string()?),
                2 => Value::Null,
                3 => Value::Undefined,
                4 => Value::Register(data.u8()?),
                5 => Value::Bool(data.bool()?),
                6 => Value::Float(u64::from_le_bytes(data.take()?)),
                7 => Value::Integer(i32::from_le_bytes(data.take()?)),
                8 => self.constant(data.u8()? as usize)?,
                9 => self.constant(data.u16().filter(|&c| c > 255)? as usize)?,
                _ => return None,
            });
            self.values += 1;
        }
        (!values.is_empty()).then_some(values)
    }

    fn constant(&self, index: usize) -> Option<Value> {
        (index < self.pool).then_some(Value::Constant(index as u16))
    }
}

struct Record {
    act: Act,
    after: usize,
    body: Option<usize>,
    lands: Option<i64>,
}

/// What is left of a record's data.
struct Data<'a>(&'a [u8]);

impl Data<'_> {
    fn take<const N: usize>(&mut self) -> Option<[u8; N]> {
        let (first, rest) = self.0.split_first_chunk::<N>()?;
        self.0 = rest;
        Some(*first)
    }

    fn u8(&mut self) -> Option<u8> {
        self.take::<1>().map(|b| b[0])
    }

    fn u16(&mut self) -> Option<u16> {
        self.take().map(u16::from_le_bytes)
    }

    fn bool(&mut self) -> Option<bool> {
        self.u8().filter(|&b| b < 2).map(|b| b == 1)
    }

    fn string(&mut self) -> Option<Vec<u8>> {
        let end = self.0.iter().position(|&b| b == 0)?;
        let text = std::str::from_utf8(&self.0[..end]).ok()?;
        self.0 = &self.0[end + 1..];
        Some(text.as_bytes().to_vec())
    }

    /// A function's record, with its body's length.
    fn function(&mut self, two: bool) -> Option<(Function, usize)> {
        let name = self.string()?;
        let count = self.u16()?;
        let mut registers = None;
        if two {
            let many = self.u8().filter(|&n| n >= 2)?;
            let flags = self.u16().filter(|&f| f < 512)?;
            registers = Some((many, std::array::from_fn(|bit| flags >> bit & 1 == 1)));
        }
        let mut parameters = Vec::new();
        for _ in 0..count {
            let register = if two { self.u8()? } else { 0 };
            parameters.push((self.string()?, register));
        }
        let length = self.u16()? as usize;
        Some((Function { name, parameters, list: 0, registers }, length))
    }
}
