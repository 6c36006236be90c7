//! Whether bytes are a script file, from document 01, 'The script file': refusals 4, 1, 2, 3, 4.

use crate::kinds::*;

#[derive(Debug, Clone, Copy, PartialEq, Eq)]
pub struct Record {
    pub kind: u32,
    pub a: u32,
    pub b: u32,
    pub c: u32,
    pub size: u32,
}

/// An accepted file: strings, records, and each record's children.
pub struct Script<'a> {
    pub strings: Vec<&'a str>,
    pub records: Vec<Record>,
    pub children: Vec<Vec<usize>>,
}

impl Script<'_> {
    pub fn root(&self) -> usize {
        self.records.len() - 1
    }
}

const MOST_BYTES: usize = 1_048_576;
const MOST_DEPTH: usize = 128;

fn word(bytes: &[u8], at: usize) -> u32 {
    u32::from_le_bytes([bytes[at], bytes[at + 1], bytes[at + 2], bytes[at + 3]])
}

pub fn check(file: &[u8]) -> Result<Script<'_>, u8> {
    if file.len() > MOST_BYTES {
        return Err(4);
    }
    let (strings, records) = areas(file).ok_or(1)?;
    let children = children(&records).ok_or(1)?;
    for i in 0..records.len() {
        if !record_holds(&records, &children, i, strings.len()) {
            return Err(1);
        }
    }
    let root = records.len() - 1;
    if records[root].kind != LIST || !children[root].iter().all(|&c| is_statement(records[c].kind)) {
        return Err(1);
    }
    let mut texts = Vec::with_capacity(strings.len());
    for s in strings {
        texts.push(std::str::from_utf8(s).map_err(|_| 2)?);
    }
    if records.iter().any(|r| is_refused(r.kind)) {
        return Err(3);
    }
    if depth(&children) > MOST_DEPTH {
        return Err(4);
    }
    Ok(Script { strings: texts, records, children })
}

/// The strings' bytes and the records, if the areas touch and the ends are right.
pub fn areas(file: &[u8]) -> Option<(Vec<&[u8]>, Vec<Record>)> {
    let at = file.len().checked_sub(20)?;
    let trailer: Vec<u64> = (0..5).map(|i| word(file, at + 4 * i) as u64).collect();
    let [to_records, to_ends, count, strings, edition] = trailer[..] else { return None };
    if edition != 1 || to_records != 20 * count || to_ends != to_records + 4 * strings || to_ends > at as u64 {
        return None;
    }
    let first_end = at - to_ends as usize;
    let first_record = at - to_records as usize;
    let mut texts = Vec::new();
    let mut from = 0;
    for i in 0..strings as usize {
        let to = word(file, first_end + 4 * i) as usize;
        if to < from || to > first_end {
            return None;
        }
        texts.push(&file[from..to]);
        from = to;
    }
    if from != first_end {
        return None;
    }
    let records = (0..count as usize)
        .map(|i| {
            let w = |j: usize| word(file, first_record + 20 * i + 4 * j);
            Record { kind: w(0), a: w(1), b: w(2), c: w(3), size: w(4) }
        })
        .collect();
    Some((texts, records))
}

/// Each record's children in order, if the sizes part the records and the last one holds all.
pub fn children(records: &[Record]) -> Option<Vec<Vec<usize>>> {
    let mut open: Vec<usize> = Vec::new();
    let mut all = Vec::with_capacity(records.len());
    for (i, r) in records.iter().enumerate() {
        let mut left = (r.size as usize).checked_sub(1)?;
        let mut mine = Vec::new();
        while left > 0 {
            let c = open.pop()?;
            left = left.checked_sub(records[c].size as usize)?;
            mine.push(c);
        }
        mine.reverse();
        all.push(mine);
        open.push(i);
    }
    (open.len() == 1).then_some(all)
}

fn depth(children: &[Vec<usize>]) -> usize {
    let mut depths = vec![0; children.len()];
    for (i, mine) in children.iter().enumerate() {
        depths[i] = 1 + mine.iter().map(|&c| depths[c]).max().unwrap_or(0);
    }
    depths[children.len() - 1]
}

/// Whether a record keeps its own rule: its words, and the number and sorts of its children.
fn record_holds(records: &[Record], children: &[Vec<usize>], i: usize, strings: usize) -> bool {
    let r = records[i];
    let mine = &children[i];
    let strings = strings as u32;
    if is_refused(r.kind) {
        return true;
    }
    if r.kind == LIST {
        return r.a as usize == mine.len() && r.b == 0 && r.c == 0;
    }
    let has = |forms: &str| sorts(records, children, mine, forms);
    match r.kind {
        FOR_IN => match (r.a, r.b) {
            (0, 0 | 1) => r.c < strings && has("es"),
            (0, 2) => r.c < 256 && has("es"),
            (1, 0) => r.c == 0 && has("Sxxs"),
            _ => false,
        },
        CONSTANT => {
            mine.is_empty()
                && match r.a {
                    0 | 1 => r.b < strings && r.c == 0,
                    2 => true,
                    3 => r.c == 0,
                    4 => r.b < 2 && r.c == 0,
                    5 => r.b < 256 && r.c == 0,
                    _ => false,
                }
        }
        UNARY => {
            let affixes = match r.a {
                0 | 1 | 2 | 5 => 1,
                3 | 4 => 2,
                _ => 0,
            };
            r.b < affixes && r.c == 0 && has("e")
        }
        _ => {
            let Some((words, forms)) = form(r.kind) else { return false };
            let fits = |(letter, w): (char, u32)| match letter {
                '0' => w == 0,
                's' => w < strings,
                'b' => w < 2,
                'n' => true,
                'o' => w < 43,
                'f' => w <= strings,
                'r' => w < 256,
                'm' => w < 512,
                'p' => w < 257,
                _ => unreachable!(),
            };
            words.chars().zip([r.a, r.b, r.c]).all(fits) && has(forms)
        }
    }
}

fn sorts(records: &[Record], children: &[Vec<usize>], mine: &[usize], forms: &str) -> bool {
    if mine.len() != forms.len() {
        return false;
    }
    forms.chars().zip(mine).all(|(letter, &c)| {
        let kind = records[c].kind;
        let list = |test: fn(u32) -> bool| kind == LIST && children[c].iter().all(|&x| test(records[x].kind));
        match letter {
            'e' => is_expression(kind),
            's' => is_statement(kind),
            'E' => is_expression(kind) || kind == ABSENT,
            'S' => is_statement(kind) || kind == ABSENT,
            'x' => list(is_expression),
            't' => list(is_statement),
            'w' => list(|k| is_statement(k) || k == CASE || k == DEFAULT),
            'F' => list(|k| k == OBJECT_FIELD),
            'P' => list(|k| k == PARAMETER),
            'd' => list(is_expression) && matches!(children[c].len(), 0 | 4),
            _ => unreachable!(),
        }
    })
}
