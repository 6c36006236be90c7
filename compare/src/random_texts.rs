//! Random script files whose strings are texts of characters of one to four bytes, and copies in which bytes of a text are changed.

use crate::generated;
use crate::node::*;
use crate::random::Random;

/// The first and the last characters of each form of UTF-8, and one between them.
const CHARACTERS: [&[char]; 4] = [
    &['\u{1}', 'a', '\u{7f}'],
    &['\u{80}', '\u{e9}', '\u{7ff}'],
    &['\u{800}', '\u{fff}', '\u{1000}', '\u{5b57}', '\u{cfff}', '\u{d000}', '\u{d7ff}', '\u{e000}', '\u{ffff}'],
    &['\u{10000}', '\u{1f600}', '\u{3ffff}', '\u{40000}', '\u{fffff}', '\u{100000}', '\u{10ffff}'],
];

/// The first and the last bytes of each range of the grammar, and those beside them.
const BYTES: &[u8] = &[
    0x01, 0x7F, 0x80, 0x8F, 0x90, 0x9F, 0xA0, 0xBF, 0xC0, 0xC1, 0xC2, 0xDF, 0xE0, 0xE1, 0xEC, 0xED, 0xEE, 0xEF, 0xF0, 0xF1, 0xF3,
    0xF4, 0xF5, 0xFF,
];

pub struct Maker(Random);

impl Maker {
    pub fn new(seed: u64) -> Maker {
        Maker(Random::new(seed))
    }

    /// Runs of characters of one width; in some texts ASCII is rare, and in some all else.
    fn text(&mut self) -> Vec<u8> {
        let r = &mut self.0;
        let (length, run, rare) = (r.pick(&[8, 40, 150, 600]), r.pick(&[1, 2, 8, 40, 150]), r.pick(&[1, 3, 20]));
        let mut out = String::new();
        while out.len() < length {
            let width = if r.one_in(rare) { r.below(4) } else { 0 };
            for _ in 0..1 + r.below(run) {
                out.push(r.pick(CHARACTERS[width]));
            }
        }
        out.into_bytes()
    }

    fn damage(&mut self, text: &mut Vec<u8>) {
        let r = &mut self.0;
        let i = r.below(text.len());
        match r.below(8) {
            0 => text[i] ^= 1 << r.below(8),
            1 => drop(text.remove(i)),
            2 => text.insert(i, r.pick(BYTES)),
            3 => text.truncate(i.max(1)),
            _ => text[i] = r.pick(BYTES),
        }
    }
}

impl generated::Maker for Maker {
    type Original = Vec<Vec<u8>>;
    const COPIES: usize = 3;

    fn original(&mut self) -> Self::Original {
        (0..1 + self.0.below(3)).map(|_| self.text()).collect()
    }

    fn bytes(texts: &Self::Original) -> Vec<u8> {
        file(texts, (0..texts.len() as u32).map(|i| run(string(i))).collect())
    }

    fn damaged(&mut self, texts: &Self::Original) -> Vec<u8> {
        let mut texts = texts.clone();
        for _ in 0..self.0.pick(&[1, 1, 2]) {
            let i = self.0.below(texts.len());
            self.damage(&mut texts[i]);
        }
        Self::bytes(&texts)
    }
}
