//! The words of a list slice (docs/LISTS.md), read back as lists.

use crate::check::Script;
use crate::kinds::{FUNCTION, PARAMETER};
use crate::lists::{Act, Function, List, Lists, Target, Value, plain_name};
use crate::{Limits, action_reader, list_words};

/// What string and function references stand for.
enum Source<'a> {
    File(&'a Script<'a>),
    Bytes(&'a [u8], Lists),
}

const MARK: u32 = 0x101;

/// The lists of a compiled file, if the words are laid out as the page says.
pub fn compiled(limits: Limits, words: &[u32], script: &Script) -> Option<Lists> {
    lists(limits, words, &Source::File(script))
}

/// The lists of bytes that were read. Functions and the pool are looked up in the bytes.
pub fn read(limits: Limits, words: &[u32], bytes: &[u8]) -> Option<Lists> {
    let lists_of_bytes = action_reader::read(limits, bytes)?;
    lists(limits, words, &Source::Bytes(bytes, lists_of_bytes))
}

fn lists(limits: Limits, words: &[u32], source: &Source) -> Option<Lists> {
    let entries = limits.actions + limits.values + limits.labels;
    let (labels_at, ends_at) = (3 * entries, 3 * entries + limits.labels);
    let pool_at = ends_at + limits.actions;
    if words.len() < list_words(limits) {
        return None;
    }
    let ends = &words[ends_at..pool_at];
    let count = ends.iter().rposition(|&e| e != 0)? + 1;
    let mut all = vec![];
    let mut from = 0;
    for &end in &ends[..count] {
        let end = end as usize;
        if end < from || end > entries {
            return None;
        }
        all.push(list(&words[3 * from..3 * end], &words[pool_at..pool_at + limits.values], source)?);
        from = end;
    }
    let top = all.pop()?;
    all.insert(0, top);
    let lists = Lists(all);
    let rest_is_zero = words[3 * from..labels_at].iter().chain(&words[list_words(limits)..]).all(|&w| w == 0);
    let pooled = match lists.0[0].actions.first()? {
        Act::ConstantPool(strings) if matches!(source, Source::File(_)) => strings.len(),
        _ => 0,
    };
    let pool_ends = words[pool_at + pooled..pool_at + limits.values].iter().all(|&w| w == 0);
    (rest_is_zero && pool_ends && label_words(&lists, limits) == words[labels_at..ends_at]).then_some(lists)
}

/// Each label's place plus 1, or 0.
fn label_words(lists: &Lists, limits: Limits) -> Vec<u32> {
    let mut out = vec![0; limits.labels];
    for &(label, place) in lists.0.iter().flat_map(|l| &l.marks) {
        if let Some(word) = out.get_mut(label as usize) {
            *word = place as u32 + 1;
        }
    }
    out
}

/// A list from its entries, the last one first.
fn list(words: &[u32], pool: &[u32], source: &Source) -> Option<List> {
    let mut list = List::default();
    for entry in words.chunks_exact(3).rev() {
        let (code, first, second) = (entry[0], entry[1], entry[2]);
        match code {
            MARK if matches!(source, Source::File(_)) && second == 0 => list.marks.push((first, list.actions.len())),
            0x110..=0x118 => list.actions.push(Act::Push(vec![value(code - 0x110, first, second, source)?])),
            0x120..=0x128 => match list.actions.last_mut() {
                Some(Act::Push(values)) => values.push(value(code - 0x120, first, second, source)?),
                _ => return None,
            },
            0x100 => list.actions.push(Act::Function(source.function(first, second)?)),
            _ if second != 0 => return None,
            _ => list.actions.push(act(code, first, pool, source)?),
        }
    }
    Some(list)
}

fn act(code: u32, first: u32, pool: &[u32], source: &Source) -> Option<Act> {
    let target = match source {
        Source::File(_) => Target::Label(first),
        Source::Bytes(..) => Target::Place(first as usize),
    };
    Some(match code {
        0x81 => Act::GotoFrame(first.try_into().ok()?),
        0x87 => Act::StoreRegister(first.try_into().ok()?),
        0x88 => Act::ConstantPool(source.pool(first, pool)?),
        0x8C => Act::GotoLabel(source.string(first)?),
        0x99 => Act::Jump(target),
        0x9D => Act::If(target),
        0x9F => Act::GotoFrame2(0, bool_of(first)?),
        _ if first != 0 => return None,
        _ => {
            let code = code.try_into().ok()?;
            plain_name(code)?;
            Act::Plain(code)
        }
    })
}

fn bool_of(word: u32) -> Option<bool> {
    (word < 2).then_some(word == 1)
}

fn value(sort: u32, first: u32, second: u32, source: &Source) -> Option<Value> {
    if sort == 6 {
        return Some(Value::Float((second as u64) << 32 | first as u64));
    }
    if second != 0 {
        return None;
    }
    Some(match sort {
        0 => Value::String(source.string(first)?),
        2 if first == 0 => Value::Null,
        3 if first == 0 => Value::Undefined,
        4 => Value::Register(first.try_into().ok()?),
        5 => Value::Bool(bool_of(first)?),
        7 => Value::Integer(first as i32),
        8 => Value::Constant(first.try_into().ok()?),
        _ => return None,
    })
}

impl Source<'_> {
    fn string(&self, reference: u32) -> Option<Vec<u8>> {
        match self {
            Source::File(_) if reference == u32::MAX => Some(vec![]),
            Source::File(script) => script.strings.get(reference as usize).map(|s| s.as_bytes().to_vec()),
            Source::Bytes(bytes, _) => {
                let rest = bytes.get(reference as usize..)?;
                Some(rest[..rest.iter().position(|&b| b == 0)?].to_vec())
            }
        }
    }

    fn pool(&self, first: u32, pool: &[u32]) -> Option<Vec<Vec<u8>>> {
        match self {
            Source::File(_) => pool.get(..first as usize)?.iter().map(|&r| self.string(r)).collect(),
            Source::Bytes(_, lists) if first == 0 => match lists.0[0].actions.first()? {
                Act::ConstantPool(strings) => Some(strings.clone()),
                _ => None,
            },
            Source::Bytes(..) => None,
        }
    }

    fn function(&self, list: u32, reference: u32) -> Option<Function> {
        match self {
            Source::File(script) => function_of(script, list, reference as usize),
            Source::Bytes(_, lists) => {
                // The function of that list number; the position of its record is not compared.
                let all = lists.0.iter().flat_map(|l| &l.actions);
                let mut found = all.filter_map(|a| if let Act::Function(f) = a { Some(f) } else { None });
                found.find(|f| f.list == list as usize).cloned()
            }
        }
    }
}

fn function_of(script: &Script, list: u32, record: usize) -> Option<Function> {
    let r = script.records.get(record).filter(|r| r.kind == FUNCTION)?;
    let text = |index: u32| script.strings[index as usize].as_bytes().to_vec();
    let two = r.b > 1;
    let parameter = |&c: &usize| {
        let p = script.records[c];
        debug_assert_eq!(p.kind, PARAMETER);
        (text(p.a), if two { p.b.saturating_sub(1) as u8 } else { 0 })
    };
    Some(Function {
        name: r.a.checked_sub(1).map(text).unwrap_or_default(),
        parameters: script.children[script.children[record][0]].iter().map(parameter).collect(),
        list: list as usize,
        registers: two.then(|| (r.b as u8, std::array::from_fn(|bit| r.c >> bit & 1 == 1))),
    })
}
