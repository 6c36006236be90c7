//! Damaged copies of script files.

use crate::check::Record;
use crate::kinds::*;
use crate::node::Parts;
use crate::random_scripts::Maker;

impl Maker {
    fn some_word(&mut self, old: u32) -> u32 {
        let strings = self.strings.len() as u32;
        match self.r.below(14) {
            0 => old.wrapping_add(1),
            1 => old.wrapping_sub(1),
            2 => old ^ 1 << self.r.below(32),
            3 => strings,
            4 => strings + 1,
            5 => u32::MAX,
            6 => self.r.pick(&[42, 43, 255, 256, 257, 511, 512]),
            7 => self.r.below(110) as u32,
            _ => self.r.below(7) as u32,
        }
    }

    /// A copy with a few fields or bytes changed; it may still be a script file.
    pub fn damaged_copy(&mut self, parts: &Parts) -> Vec<u8> {
        let mut p = parts.clone();
        for _ in 0..self.r.pick(&[1, 1, 1, 2]) {
            self.damage(&mut p);
        }
        let mut bytes = p.bytes();
        if self.r.one_in(3) {
            self.damage_bytes(&mut bytes);
        }
        bytes
    }

    fn damage(&mut self, p: &mut Parts) {
        if p.records.is_empty() {
            return;
        }
        let i = self.r.below(p.records.len());
        let j = self.r.below(p.records.len());
        match self.r.below(16) {
            0..=4 => {
                let r = &mut p.records[i];
                let mut words = [r.kind, r.a, r.b, r.c, r.size];
                let k = self.r.pick(&[0, 1, 1, 1, 2, 2, 3, 4]);
                words[k] = self.some_word(words[k]);
                p.records[i] = Record { kind: words[0], a: words[1], b: words[2], c: words[3], size: words[4] };
            }
            5 => p.records.swap(i, j),
            6 => {
                let size = p.records[i].size;
                p.records[i] = Record { size, ..p.records[j] };
            }
            7 => {
                p.records.remove(i);
                p.set_trailer();
            }
            8 => {
                let copy = p.records[j];
                p.records.insert(i, copy);
                p.set_trailer();
            }
            9 => {
                let k = self.r.below(5);
                p.trailer[k] = match self.r.below(4) {
                    0 => self.some_word(p.trailer[k]),
                    1 => p.trailer[k].wrapping_add(4),
                    2 => p.trailer[k].wrapping_sub(20),
                    _ => p.trailer[k].wrapping_add(1 << 30),
                };
            }
            10 if !p.ends.is_empty() => {
                let k = self.r.below(p.ends.len());
                p.ends[k] = self.some_word(p.ends[k]);
            }
            11 if !p.ends.is_empty() => {
                // A string boundary moves, within what the ends allow.
                let k = self.r.below(p.ends.len());
                let low = if k == 0 { 0 } else { p.ends[k - 1] };
                let high = if k + 1 == p.ends.len() { p.ends[k] } else { p.ends[k + 1] };
                p.ends[k] = low + self.r.below(high.saturating_sub(low) as usize + 1) as u32;
            }
            12 if !p.string_bytes.is_empty() => {
                let k = self.r.below(p.string_bytes.len());
                p.string_bytes[k] = self.r.bits() as u8;
            }
            13 => {
                // Scalars that stay within their types.
                let r = &mut p.records[i];
                match r.kind {
                    BINARY => r.a = self.r.below(43) as u32,
                    CONSTANT if r.a == 3 => r.b = self.r.bits() as u32,
                    CONSTANT if r.a < 2 => r.a ^= 1,
                    FUNCTION => r.b = self.r.below(256) as u32,
                    GOTO_FRAME | START_DRAG => r.a ^= 1,
                    BREAK | CONTINUE => r.kind ^= 1,
                    _ => {}
                }
            }
            14 => {
                if p.records[i].size == 1 && is_expression(p.records[i].kind) {
                    p.records[i] = Record { kind: GET_TIME, a: 0, b: 0, c: 0, size: 1 };
                }
            }
            _ => p.records[i].kind = self.r.pick(&[9, 10, 14, 15, 16, 31, 32, 53, 77, 78, 95, 96, 97, 98, 99, 100, 101, 102]),
        }
    }

    fn damage_bytes(&mut self, bytes: &mut Vec<u8>) {
        if bytes.is_empty() {
            return;
        }
        let i = self.r.below(bytes.len());
        match self.r.below(6) {
            0 | 1 => bytes[i] ^= 1 << self.r.below(8),
            2 => bytes.truncate(i),
            3 => {
                bytes.remove(i);
            }
            4 => bytes.insert(i, self.r.pick(&[0, 1, 255])),
            _ => {
                bytes.drain(..i.min(20));
            }
        }
    }
}
