//! Action bytes of lists, from document 01, 'Action bytes': refusals 9 to 12, each over all records.

use crate::lists::{Act, List, Lists, Value};

/// The bytes, or the first of 9, 10, 11, 12 that holds.
pub fn write(lists: &Lists, room: usize) -> Result<Vec<u8>, u8> {
    if lists.0.iter().any(|l| l.actions.iter().any(has_zero_byte)) {
        return Err(9);
    }
    let sizes = Sizes::of(lists);
    let too_long = |list: &List| list.actions.iter().any(|a| data_length(a) > 65_535);
    if lists.0.iter().any(too_long) || sizes.body[1..].iter().any(|&n| n > 65_535) {
        return Err(10);
    }
    for (n, list) in lists.0.iter().enumerate() {
        for (i, act) in list.actions.iter().enumerate() {
            if let Some(offset) = sizes.offset(list, n, i, act)
                && !(-32_768..=32_767).contains(&offset)
            {
                return Err(11);
            }
        }
    }
    if sizes.body[0] + 1 > room {
        return Err(12);
    }
    let mut out = Vec::with_capacity(sizes.body[0] + 1);
    put_list(&mut out, lists, 0, &sizes);
    out.push(0);
    Ok(out)
}

/// Where each place of each list begins in its body.
struct Sizes {
    starts: Vec<Vec<usize>>,
    body: Vec<usize>,
}

impl Sizes {
    /// A function's list has a smaller number than the one that holds it, and the top list is last.
    fn of(lists: &Lists) -> Sizes {
        let count = lists.0.len();
        let mut sizes = Sizes { starts: vec![vec![]; count], body: vec![0; count] };
        for n in (1..count).chain([0]) {
            let mut at = 0;
            let mut starts = vec![0];
            for act in &lists.0[n].actions {
                at += record_length(act);
                if let Act::Function(f) = act {
                    at += sizes.body[f.list];
                }
                starts.push(at);
            }
            sizes.starts[n] = starts;
            sizes.body[n] = at;
        }
        sizes
    }

    fn offset(&self, list: &List, n: usize, i: usize, act: &Act) -> Option<i64> {
        let (Act::Jump(target) | Act::If(target)) = act else { return None };
        let place = list.place(*target).expect("a label that its list does not mark");
        Some(self.starts[n][place] as i64 - self.starts[n][i + 1] as i64)
    }
}

fn has_zero_byte(act: &Act) -> bool {
    let zero = |s: &Vec<u8>| s.contains(&0);
    match act {
        Act::ConstantPool(strings) => strings.iter().any(zero),
        Act::GotoLabel(name) => zero(name),
        Act::Function(f) => zero(&f.name) || f.parameters.iter().any(|p| zero(&p.0)),
        Act::Push(values) => values.iter().any(|v| matches!(v, Value::String(s) if zero(s))),
        _ => false,
    }
}

fn value_length(value: &Value) -> usize {
    1 + match value {
        Value::String(s) => s.len() + 1,
        Value::Null | Value::Undefined => 0,
        Value::Register(_) | Value::Bool(_) => 1,
        Value::Float(_) => 8,
        Value::Integer(_) => 4,
        Value::Constant(c) => 1 + (*c > 255) as usize,
    }
}

/// Bytes of data, the length field and a function's body not counted.
fn data_length(act: &Act) -> usize {
    match act {
        Act::Plain(_) => 0,
        Act::GotoFrame(_) | Act::Jump(_) | Act::If(_) => 2,
        Act::StoreRegister(_) | Act::GotoFrame2(..) => 1,
        Act::ConstantPool(strings) => 2 + strings.iter().map(|s| s.len() + 1).sum::<usize>(),
        Act::GotoLabel(name) => name.len() + 1,
        Act::Push(values) => values.iter().map(value_length).sum(),
        Act::Function(f) => {
            let names = f.name.len() + 1 + f.parameters.iter().map(|p| p.0.len() + 1).sum::<usize>();
            names + if f.registers.is_some() { 2 + 1 + 2 + f.parameters.len() + 2 } else { 2 + 2 }
        }
    }
}

fn record_length(act: &Act) -> usize {
    match act {
        Act::Plain(code) if *code < 0x80 => 1,
        _ => 3 + data_length(act),
    }
}

fn put_list(out: &mut Vec<u8>, lists: &Lists, n: usize, sizes: &Sizes) {
    let list = &lists.0[n];
    for (i, act) in list.actions.iter().enumerate() {
        put_act(out, sizes, list, n, i, act);
        if let Act::Function(f) = act {
            put_list(out, lists, f.list, sizes);
        }
    }
}

fn put_string(out: &mut Vec<u8>, s: &[u8]) {
    out.extend(s);
    out.push(0);
}

fn put16(out: &mut Vec<u8>, n: usize) {
    out.extend(u16::try_from(n).unwrap().to_le_bytes());
}

fn put_act(out: &mut Vec<u8>, sizes: &Sizes, list: &List, n: usize, i: usize, act: &Act) {
    out.push(act.code());
    if act.code() < 0x80 {
        return;
    }
    put16(out, data_length(act));
    match act {
        Act::Plain(_) => {}
        Act::GotoFrame(frame) => put16(out, *frame as usize),
        Act::StoreRegister(register) => out.push(*register),
        Act::ConstantPool(strings) => {
            put16(out, strings.len());
            strings.iter().for_each(|s| put_string(out, s));
        }
        Act::GotoLabel(name) => put_string(out, name),
        Act::Push(values) => values.iter().for_each(|v| put_value(out, v)),
        Act::Jump(_) | Act::If(_) => {
            let offset = sizes.offset(list, n, i, act).unwrap();
            out.extend((offset as i16).to_le_bytes());
        }
        Act::GotoFrame2(_, play) => out.push(*play as u8),
        Act::Function(f) => {
            put_string(out, &f.name);
            put16(out, f.parameters.len());
            if let Some((registers, marks)) = f.registers {
                let flags = marks.iter().enumerate().fold(0, |sum, (bit, &m)| sum | (m as usize) << bit);
                out.push(registers);
                put16(out, flags);
            }
            for (name, register) in &f.parameters {
                if f.registers.is_some() {
                    out.push(*register);
                }
                put_string(out, name);
            }
            put16(out, sizes.body[f.list]);
        }
    }
}

fn put_value(out: &mut Vec<u8>, value: &Value) {
    match value {
        Value::String(s) => {
            out.push(0);
            put_string(out, s);
        }
        Value::Null => out.push(2),
        Value::Undefined => out.push(3),
        Value::Register(r) => out.extend([4, *r]),
        Value::Bool(b) => out.extend([5, *b as u8]),
        Value::Float(bits) => {
            out.push(6);
            out.extend(bits.to_le_bytes());
        }
        Value::Integer(i) => {
            out.push(7);
            out.extend(i.to_le_bytes());
        }
        Value::Constant(c) if *c < 256 => out.extend([8, *c as u8]),
        Value::Constant(c) => {
            out.push(9);
            out.extend(c.to_le_bytes());
        }
    }
}
