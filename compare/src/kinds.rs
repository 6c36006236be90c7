//! Kinds of records, by their places in Rascal's enums.

pub const DECLARE: u32 = 0;
pub const RETURN: u32 = 1;
pub const THROW: u32 = 2;
pub const EXPR: u32 = 3;
pub const BLOCK: u32 = 4;
pub const FOR_IN: u32 = 5;
pub const WHILE: u32 = 6;
pub const IF: u32 = 7;
pub const BREAK: u32 = 8;
pub const CONTINUE: u32 = 9;
pub const TRY: u32 = 10;
pub const WAIT_FOR_FRAME: u32 = 11;
pub const TELL_TARGET: u32 = 12;
pub const INLINE_PCODE: u32 = 13;
pub const WITH: u32 = 14;
pub const SWITCH: u32 = 15;

pub const CONSTANT: u32 = 32;
pub const CALL: u32 = 33;
pub const NEW: u32 = 34;
pub const DUPLICATE: u32 = 35;
pub const ASCII_TO_CHAR: u32 = 36;
pub const MB_ASCII_TO_CHAR: u32 = 37;
pub const CALL_FRAME: u32 = 38;
pub const GET_TIME: u32 = 39;
pub const BINARY: u32 = 40;
pub const UNARY: u32 = 41;
pub const TERNARY: u32 = 42;
pub const INIT_OBJECT: u32 = 43;
pub const INIT_ARRAY: u32 = 44;
pub const FIELD: u32 = 45;
pub const TYPE_OF: u32 = 46;
pub const DELETE: u32 = 47;
pub const VOID: u32 = 48;
pub const FUNCTION: u32 = 49;
pub const GET_VARIABLE: u32 = 50;
pub const SET_VARIABLE: u32 = 51;
pub const GOTO_FRAME: u32 = 52;
pub const GET_URL: u32 = 53;
pub const CAST_TO_INTEGER: u32 = 54;
pub const CAST_TO_NUMBER: u32 = 55;
pub const CAST_TO_STRING: u32 = 56;
pub const CAST_TO_OBJECT: u32 = 57;
pub const STRING_LENGTH: u32 = 58;
pub const MB_STRING_LENGTH: u32 = 59;
pub const CHAR_TO_ASCII: u32 = 60;
pub const MB_CHAR_TO_ASCII: u32 = 61;
pub const SUBSTRING: u32 = 62;
pub const MB_SUBSTRING: u32 = 63;
pub const NEXT_FRAME: u32 = 64;
pub const PREVIOUS_FRAME: u32 = 65;
pub const PLAY: u32 = 66;
pub const STOP: u32 = 67;
pub const STOP_SOUNDS: u32 = 68;
pub const START_DRAG: u32 = 69;
pub const END_DRAG: u32 = 70;
pub const GET_TARGET_PATH: u32 = 71;
pub const TRACE: u32 = 72;
pub const REMOVE_SPRITE: u32 = 73;
pub const GET_RANDOM_NUMBER: u32 = 74;
pub const GET_PROPERTY: u32 = 75;
pub const SET_PROPERTY: u32 = 76;
pub const TOGGLE_QUALITY: u32 = 77;

pub const ABSENT: u32 = 96;
pub const LIST: u32 = 97;
pub const OBJECT_FIELD: u32 = 98;
pub const PARAMETER: u32 = 99;
pub const CASE: u32 = 100;
pub const DEFAULT: u32 = 101;

pub fn is_statement(kind: u32) -> bool {
    kind <= 15
}

pub fn is_expression(kind: u32) -> bool {
    (32..=77).contains(&kind)
}

/// Kinds that get refusal 3.
pub fn is_refused(kind: u32) -> bool {
    (10..=14).contains(&kind) || kind == GET_URL
}

/// The words and the children of a kind, for the kinds that have one form. A word is `0` unused, `s` a string, `b` a bool,
/// `n` any number, `o` a binary operator, `f` a string plus 1 or 0, `r` a byte, `m` nine marks, `p` a byte plus 1 or 0.
/// A child is `e` an expression, `s` a statement, `E` and `S` the same or absent, `x` a list of expressions, `t` of
/// statements, `w` of a switch's elements, `F` of object fields, `P` of parameters, `d` of 0 or 4 expressions.
pub fn form(kind: u32) -> Option<(&'static str, &'static str)> {
    Some(match kind {
        DECLARE => ("s00", "E"),
        RETURN | THROW => ("000", "x"),
        EXPR => ("000", "e"),
        BLOCK => ("000", "t"),
        WHILE => ("000", "es"),
        IF => ("000", "esS"),
        BREAK | CONTINUE => ("000", ""),
        SWITCH => ("000", "ew"),
        CALL | NEW => ("000", "ex"),
        BINARY => ("o00", "ee"),
        INIT_OBJECT => ("000", "F"),
        INIT_ARRAY => ("000", "x"),
        FUNCTION => ("frm", "Pt"),
        GOTO_FRAME => ("b00", "e"),
        START_DRAG => ("b00", "ed"),
        GET_PROPERTY => ("n00", "e"),
        SET_PROPERTY => ("n00", "ee"),
        GET_TIME | NEXT_FRAME | PREVIOUS_FRAME | PLAY | STOP | STOP_SOUNDS | END_DRAG | TOGGLE_QUALITY => ("000", ""),
        ASCII_TO_CHAR | MB_ASCII_TO_CHAR | CALL_FRAME | TYPE_OF | DELETE | VOID | GET_VARIABLE | CAST_TO_INTEGER
        | CAST_TO_NUMBER | CAST_TO_STRING | STRING_LENGTH | MB_STRING_LENGTH | CHAR_TO_ASCII | MB_CHAR_TO_ASCII
        | GET_TARGET_PATH | TRACE | REMOVE_SPRITE | GET_RANDOM_NUMBER => ("000", "e"),
        FIELD | SET_VARIABLE | CAST_TO_OBJECT => ("000", "ee"),
        DUPLICATE | TERNARY | SUBSTRING | MB_SUBSTRING => ("000", "eee"),
        ABSENT | DEFAULT => ("000", ""),
        CASE => ("000", "e"),
        OBJECT_FIELD => ("s00", "e"),
        PARAMETER => ("sp0", ""),
        _ => return None,
    })
}
