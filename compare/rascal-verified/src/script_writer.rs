use std::collections::HashMap;

/// Kinds of records.
pub mod kind {
    macro_rules! kinds {
        ($($name:ident $number:literal),* $(,)?) => { $(pub const $name: u32 = $number;)* };
    }
    kinds! {
        DECLARE 0, RETURN 1, THROW 2, EXPR 3, BLOCK 4, FOR_IN 5, WHILE 6, IF 7, BREAK 8, CONTINUE 9, TRY 10, WAIT_FOR_FRAME 11,
        TELL_TARGET 12, INLINE_PCODE 13, WITH 14, SWITCH 15,
        CONSTANT 32, CALL 33, NEW 34, DUPLICATE_MOVIE_CLIP 35, ASCII_TO_CHAR 36, MB_ASCII_TO_CHAR 37, CALL_FRAME 38, GET_TIME 39,
        BINARY_OPERATOR 40, UNARY_OPERATOR 41, TERNARY 42, INIT_OBJECT 43, INIT_ARRAY 44, FIELD 45, TYPE_OF 46, DELETE 47,
        VOID 48, FUNCTION 49, GET_VARIABLE 50, SET_VARIABLE 51, GOTO_FRAME 52, GET_URL 53, CAST_TO_INTEGER 54,
        CAST_TO_NUMBER 55, CAST_TO_STRING 56, CAST_TO_OBJECT 57, STRING_LENGTH 58, MB_STRING_LENGTH 59, CHAR_TO_ASCII 60,
        MB_CHAR_TO_ASCII 61, SUBSTRING 62, MB_SUBSTRING 63, NEXT_FRAME 64, PREVIOUS_FRAME 65, PLAY 66, STOP 67, STOP_SOUNDS 68,
        START_DRAG 69, END_DRAG 70, GET_TARGET_PATH 71, TRACE 72, REMOVE_SPRITE 73, GET_RANDOM_NUMBER 74, GET_PROPERTY 75,
        SET_PROPERTY 76, TOGGLE_QUALITY 77,
        ABSENT 96, LIST 97, OBJECT_FIELD 98, PARAMETER 99, CASE 100, DEFAULT 101,
    }
}

/// A string of the script file that is being written.
#[derive(Debug, Clone, Copy, PartialEq, Eq)]
pub struct StringIndex(pub u32);

/// Writes a script file, children first: each node takes the last subtrees that no node has taken yet as its children.
///
/// ```
/// use rascal_verified::{ScriptWriter, kind};
/// let mut w = ScriptWriter::new();
/// let a = w.string("a");
/// w.node(kind::CONSTANT, [1, a.0, 0], 0);
/// w.node(kind::CONSTANT, [3, 80, 0], 0);
/// w.node(kind::BINARY_OPERATOR, [1, 0, 0], 2);
/// w.node(kind::EXPR, [0; 3], 1);
/// assert_eq!(w.finish().len(), 1 + 4 + 5 * 20 + 20);
/// ```
#[derive(Debug, Default)]
pub struct ScriptWriter {
    strings: Vec<u8>,
    ends: Vec<u32>,
    indexes: HashMap<String, StringIndex>,
    records: Vec<[u32; 5]>,
    /// Sizes of the subtrees that have no parent yet.
    open: Vec<u32>,
}

impl ScriptWriter {
    pub fn new() -> Self {
        Self::default()
    }

    /// The index of a string; equal strings are held once.
    pub fn string(&mut self, text: &str) -> StringIndex {
        if let Some(&index) = self.indexes.get(text) {
            return index;
        }
        let index = StringIndex(self.ends.len() as u32);
        self.strings.extend(text.as_bytes());
        self.ends.push(self.strings.len() as u32);
        self.indexes.insert(text.to_string(), index);
        index
    }

    /// A record with its words a, b, c over the last `children` subtrees. Panics if there are fewer.
    pub fn node(&mut self, kind: u32, words: [u32; 3], children: usize) {
        assert!(children <= self.open.len(), "a node of {children} children over {} subtrees", self.open.len());
        let size = 1 + self.open.drain(self.open.len() - children..).sum::<u32>();
        let [a, b, c] = words;
        self.records.push([kind, a, b, c, size]);
        self.open.push(size);
    }

    /// A record without words.
    pub fn plain(&mut self, kind: u32, children: usize) {
        self.node(kind, [0; 3], children);
    }

    /// A list of the last `count` subtrees.
    pub fn list(&mut self, count: usize) {
        self.node(kind::LIST, [count as u32, 0, 0], count);
    }

    /// A missing optional child.
    pub fn absent(&mut self) {
        self.plain(kind::ABSENT, 0);
    }

    /// The file, whose statements are the subtrees that no node has taken.
    pub fn finish(mut self) -> Vec<u8> {
        self.list(self.open.len());
        let (records, strings) = (self.records.len() as u32, self.ends.len() as u32);
        let trailer = [20 * records, 20 * records + 4 * strings, records, strings, 1];
        let words = self.ends.iter().chain(self.records.iter().flatten()).chain(&trailer);
        let mut file = self.strings;
        for word in words {
            file.extend(word.to_le_bytes());
        }
        file
    }
}
