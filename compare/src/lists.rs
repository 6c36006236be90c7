//! Action lists, flat, each with its number: 0 is the top list, function lists are numbered as they finish.

use rascal::{Action, Actions, PushValue};

#[derive(Debug, Clone, PartialEq, Eq)]
pub enum Value {
    String(Vec<u8>),
    Null,
    Undefined,
    Register(u8),
    Bool(bool),
    Float(u64),
    Integer(i32),
    Constant(u16),
}

/// Where a branch leads: a label of its list, or a place in it.
#[derive(Debug, Clone, Copy, PartialEq, Eq)]
pub enum Target {
    Label(u32),
    Place(usize),
}

#[derive(Debug, Clone, PartialEq, Eq)]
pub struct Function {
    pub name: Vec<u8>,
    /// Name and register; DefineFunction has no registers.
    pub parameters: Vec<(Vec<u8>, u8)>,
    pub list: usize,
    /// Register count and marks of a DefineFunction2.
    pub registers: Option<(u8, [bool; 9])>,
}

#[derive(Debug, Clone, PartialEq, Eq)]
pub enum Act {
    Plain(u8),
    GotoFrame(u16),
    StoreRegister(u8),
    ConstantPool(Vec<Vec<u8>>),
    GotoLabel(Vec<u8>),
    Function(Function),
    Push(Vec<Value>),
    Jump(Target),
    If(Target),
    GotoFrame2(u16, bool),
}

impl Act {
    /// The code of its record.
    pub fn code(&self) -> u8 {
        match self {
            Act::Plain(code) => *code,
            Act::GotoFrame(_) => 0x81,
            Act::StoreRegister(_) => 0x87,
            Act::ConstantPool(_) => 0x88,
            Act::GotoLabel(_) => 0x8C,
            Act::Function(Function { registers: Some(_), .. }) => 0x8E,
            Act::Push(_) => 0x96,
            Act::Jump(_) => 0x99,
            Act::Function(_) => 0x9B,
            Act::If(_) => 0x9D,
            Act::GotoFrame2(..) => 0x9F,
        }
    }
}

#[derive(Debug, Clone, PartialEq, Eq, Default)]
pub struct List {
    pub actions: Vec<Act>,
    /// Label and place, in the order of marking.
    pub marks: Vec<(u32, usize)>,
}

impl List {
    pub fn place(&self, target: Target) -> Option<usize> {
        match target {
            Target::Place(place) => Some(place),
            Target::Label(label) => self.marks.iter().find(|m| m.0 == label).map(|m| m.1),
        }
    }
}

#[derive(Debug, Clone, PartialEq, Eq, Default)]
pub struct Lists(pub Vec<List>);

impl Lists {
    /// Whether a string is pushed that is not in the pool: it did not fit.
    pub fn overflow(&self) -> bool {
        let pushes_string = |a: &Act| matches!(a, Act::Push(values) if values.iter().any(|v| matches!(v, Value::String(_))));
        self.0.iter().flat_map(|l| &l.actions).any(pushes_string)
    }

    /// Branches name their places; marks go.
    pub fn by_place(&self) -> Lists {
        let resolve = |list: &List| {
            let place = |t: &Target| Target::Place(list.place(*t).expect("a label that its list does not mark"));
            let one = |a: &Act| match a {
                Act::Jump(t) => Act::Jump(place(t)),
                Act::If(t) => Act::If(place(t)),
                other => other.clone(),
            };
            List { actions: list.actions.iter().map(one).collect(), marks: vec![] }
        };
        Lists(self.0.iter().map(resolve).collect())
    }
}

macro_rules! plain_actions {
    ($($name:ident $code:literal),* $(,)?) => {
        /// Actions without operands and their codes; Call is among them, with an empty length field.
        pub const PLAIN: &[(&str, u8)] = &[$((stringify!($name), $code)),*];

        fn plain(action: &Action) -> Option<u8> {
            match action {
                $(Action::$name => Some($code),)*
                _ => None,
            }
        }
    };
}

plain_actions! {
    NextFrame 0x04, PrevFrame 0x05, Play 0x06, Stop 0x07, ToggleQuality 0x08, StopSounds 0x09, Subtract 0x0B, Multiply 0x0C,
    Divide 0x0D, And 0x10, Or 0x11, Not 0x12, StringEquals 0x13, StringLength 0x14, StringExtract 0x15, Pop 0x17,
    ToInteger 0x18, GetVariable 0x1C, SetVariable 0x1D, StringAdd 0x21, GetProperty 0x22, SetProperty 0x23, CloneSprite 0x24,
    RemoveSprite 0x25, Trace 0x26, StartDrag 0x27, EndDrag 0x28, StringLess 0x29, Throw 0x2A, CastOp 0x2B, RandomNumber 0x30,
    MBStringLength 0x31, CharToAscii 0x32, AsciiToChar 0x33, GetTime 0x34, MBStringExtract 0x35, MBCharToAscii 0x36,
    MBAsciiToChar 0x37, Delete 0x3A, Delete2 0x3B, DefineLocal 0x3C, CallFunction 0x3D, Return 0x3E, Modulo 0x3F,
    NewObject 0x40, DefineLocal2 0x41, InitArray 0x42, InitObject 0x43, TypeOf 0x44, TargetPath 0x45, Add2 0x47, Less2 0x48,
    Equals2 0x49, ToNumber 0x4A, ToString 0x4B, PushDuplicate 0x4C, GetMember 0x4E, SetMember 0x4F, Increment 0x50,
    Decrement 0x51, CallMethod 0x52, NewMethod 0x53, InstanceOf 0x54, Enumerate2 0x55, BitAnd 0x60, BitOr 0x61, BitXor 0x62,
    BitLShift 0x63, BitRShift 0x64, BitURShift 0x65, StrictEquals 0x66, Greater 0x67, StringGreater 0x68, Call 0x9E,
}

pub fn plain_name(code: u8) -> Option<&'static str> {
    PLAIN.iter().find(|p| p.1 == code).map(|p| p.0)
}

/// Rascal's nested lists, made flat.
pub fn from_actions(actions: &Actions) -> Lists {
    let mut lists = Lists(vec![List::default()]);
    let top = flat(actions, &mut lists);
    lists.0[0] = top;
    lists
}

fn label(name: &str) -> u32 {
    let digits = name.strip_prefix("loc").expect("a label's name");
    u32::from_str_radix(digits, 16).expect("a label's number")
}

fn flat(actions: &Actions, lists: &mut Lists) -> List {
    let mut list = List::default();
    for action in actions.actions() {
        list.actions.push(act(action, lists));
    }
    for (name, &place) in actions.label_positions().iter() {
        list.marks.push((label(name), place));
    }
    list
}

/// The number of a function's list: it finishes after those inside it.
fn body(actions: &Actions, lists: &mut Lists) -> usize {
    let list = flat(actions, lists);
    lists.0.push(list);
    lists.0.len() - 1
}

fn act(action: &Action, lists: &mut Lists) -> Act {
    if let Some(code) = plain(action) {
        return Act::Plain(code);
    }
    match action {
        Action::GotoFrame(frame) => Act::GotoFrame(*frame),
        Action::StoreRegister(register) => Act::StoreRegister(*register),
        Action::ConstantPool(strings) => Act::ConstantPool(strings.iter().map(|s| s.as_bytes().to_vec()).collect()),
        Action::GotoLabel(name) => Act::GotoLabel(name.as_bytes().to_vec()),
        Action::DefineFunction { name, params, actions } => Act::Function(Function {
            name: name.as_bytes().to_vec(),
            parameters: params.iter().map(|p| (p.as_bytes().to_vec(), 0)).collect(),
            list: body(actions, lists),
            registers: None,
        }),
        Action::DefineFunction2 {
            name,
            params,
            actions,
            register_count,
            preload_this,
            suppress_this,
            preload_arguments,
            suppress_arguments,
            preload_super,
            suppress_super,
            preload_root,
            preload_parent,
            preload_global,
        } => Act::Function(Function {
            name: name.as_bytes().to_vec(),
            parameters: params.iter().map(|p| (p.name.as_bytes().to_vec(), p.register)).collect(),
            list: body(actions, lists),
            registers: Some((
                *register_count,
                [
                    *preload_this,
                    *suppress_this,
                    *preload_arguments,
                    *suppress_arguments,
                    *preload_super,
                    *suppress_super,
                    *preload_root,
                    *preload_parent,
                    *preload_global,
                ],
            )),
        }),
        Action::Push(values) => Act::Push(values.iter().map(value).collect()),
        Action::Jump(name) => Act::Jump(Target::Label(label(name))),
        Action::If(name) => Act::If(Target::Label(label(name))),
        Action::GotoFrame2 { scene_bias, play } => Act::GotoFrame2(*scene_bias, *play),
        other => panic!("lowering gave {other}"),
    }
}

fn value(value: &PushValue) -> Value {
    match value {
        PushValue::Null => Value::Null,
        PushValue::Undefined => Value::Undefined,
        PushValue::String(s) => Value::String(s.as_bytes().to_vec()),
        PushValue::Integer(i) => Value::Integer(*i),
        PushValue::Float(f) => Value::Float(f.to_bits()),
        PushValue::True => Value::Bool(true),
        PushValue::False => Value::Bool(false),
        PushValue::Register(r) => Value::Register(*r),
        PushValue::Constant(c) => Value::Constant(*c),
    }
}
