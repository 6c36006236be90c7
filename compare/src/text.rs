//! Bytes as text: two hex digits a byte; `@PART*COUNT:` is PART and then COUNT more bytes of its repetition.

use std::fmt::Write;
use std::io::BufRead;

/// Name and bytes of each line `NAME BYTES`. Panics at a line that is not well written.
pub fn lines(input: impl BufRead) -> impl Iterator<Item = (String, Vec<u8>)> {
    input.lines().map(|line| {
        let line = line.unwrap();
        let (name, text) = line.split_once(' ').unwrap_or((&line, ""));
        (name.to_string(), decode(text).unwrap_or_else(|| panic!("{name}: not well written")))
    })
}

pub fn hex(bytes: &[u8]) -> String {
    let digit = |n: u8| b"0123456789abcdef"[n as usize] as char;
    bytes.iter().flat_map(|b| [digit(b >> 4), digit(b & 15)]).collect()
}

pub fn decode(text: &str) -> Option<Vec<u8>> {
    let text = text.as_bytes();
    let digit = |c: u8| (c as char).to_digit(16).filter(|_| !c.is_ascii_uppercase()).map(|d| d as u8);
    let mut out = Vec::new();
    let mut part = 0;
    let mut at = 0;
    while at < text.len() {
        match text[at] {
            b'@' => {
                part = out.len();
                at += 1;
            }
            b'*' => {
                let end = at + text[at..].iter().position(|&c| c == b':')?;
                let count: usize = std::str::from_utf8(&text[at + 1..end]).ok()?.parse().ok()?;
                let unit = out.len() - part;
                if unit == 0 {
                    return None;
                }
                for _ in 0..count {
                    out.push(out[out.len() - unit]);
                }
                part = out.len();
                at = end + 1;
            }
            c => {
                out.push(digit(c)? << 4 | digit(*text.get(at + 1)?)?);
                at += 2;
            }
        }
    }
    Some(out)
}

/// The text of bytes, with long repetitions of units of up to 100 bytes in short.
pub fn encode(bytes: &[u8]) -> String {
    let mut out = String::new();
    let mut plain = 0;
    let mut at = 0;
    while at < bytes.len() {
        match repetition(bytes, at) {
            Some((unit, count)) => {
                out += &hex(&bytes[plain..at]);
                write!(out, "@{}*{count}:", hex(&bytes[at..at + unit])).unwrap();
                at += unit + count;
                plain = at;
            }
            None => at += 1,
        }
    }
    out + &hex(&bytes[plain..])
}

/// The unit that repeats from here on and saves the most, with the bytes it repeats for, if that is shorter than the bytes.
fn repetition(bytes: &[u8], at: usize) -> Option<(usize, usize)> {
    let mut best: Option<(usize, usize, usize)> = None;
    for unit in [1, 4, 6, 20, 40, 60, 80, 100] {
        if at + 2 * unit > bytes.len() || bytes[at + unit] != bytes[at] {
            continue;
        }
        let count = (at + unit..bytes.len()).take_while(|&i| bytes[i] == bytes[i - unit]).count();
        let saved = (2 * count).saturating_sub(9);
        if count > 24 && best.is_none_or(|b| saved > b.2) {
            best = Some((unit, count, saved));
        }
    }
    best.map(|(unit, count, _)| (unit, count))
}
