//! From an accepted script file to Rascal's tree.

use crate::check::Script;
use crate::kinds::*;
use rascal::Spanned;
use rascal::hir::*;

pub fn statements(script: &Script) -> Vec<StatementKind> {
    Reader { script }.list(script.root(), Reader::statement)
}

struct Reader<'a> {
    script: &'a Script<'a>,
}

const BINARY_OPERATORS: [BinaryOperator; 43] = {
    use BinaryOperator::*;
    [
        Add,
        Assign,
        AddAssign,
        Sub,
        SubAssign,
        Divide,
        DivideAssign,
        Multiply,
        MultiplyAssign,
        Modulo,
        ModuloAssign,
        BitAnd,
        BitAndAssign,
        BitOr,
        BitOrAssign,
        BitXor,
        BitXorAssign,
        BitShiftLeft,
        BitShiftLeftAssign,
        BitShiftRight,
        BitShiftRightAssign,
        BitShiftRightUnsigned,
        BitShiftRightUnsignedAssign,
        Equal,
        StrictEqual,
        NotEqual,
        StrictNotEqual,
        LessThan,
        LessThanEqual,
        GreaterThan,
        GreaterThanEqual,
        LogicalAnd,
        LogicalOr,
        InstanceOf,
        StringEqual,
        StringGreaterThan,
        StringGreaterThanEqual,
        StringLessThan,
        StringLessThanEqual,
        StringNotEqual,
        BooleanAnd,
        BooleanOr,
        StringAdd,
    ]
};

impl Reader<'_> {
    fn list<T>(&self, i: usize, one: fn(&Self, usize) -> T) -> Vec<T> {
        self.script.children[i].iter().map(|&c| one(self, c)).collect()
    }

    fn string(&self, index: u32) -> String {
        self.script.strings[index as usize].to_string()
    }

    fn child(&self, i: usize, n: usize) -> usize {
        self.script.children[i][n]
    }

    fn is_absent(&self, i: usize) -> bool {
        self.script.records[i].kind == ABSENT
    }

    fn boxed(&self, i: usize, n: usize) -> Box<Expr> {
        Box::new(self.expression(self.child(i, n)))
    }

    fn body(&self, i: usize, n: usize) -> Box<StatementKind> {
        Box::new(self.statement(self.child(i, n)))
    }

    fn statement(&self, i: usize) -> StatementKind {
        let r = self.script.records[i];
        match r.kind {
            DECLARE => {
                let value = self.child(i, 0);
                StatementKind::Declare(Box::new(Declaration {
                    name: Spanned::of(self.string(r.a)),
                    value: (!self.is_absent(value)).then(|| self.expression(value)),
                    type_name: None,
                }))
            }
            RETURN => StatementKind::Return(self.list(self.child(i, 0), Self::expression)),
            THROW => StatementKind::Throw(self.list(self.child(i, 0), Self::expression)),
            EXPR => StatementKind::Expr(self.expression(self.child(i, 0))),
            BLOCK => StatementKind::Block(self.list(self.child(i, 0), Self::statement)),
            FOR_IN if r.a == 0 => StatementKind::ForIn {
                condition: ForCondition::Enumerate {
                    target: match r.b {
                        2 => EnumeratorTarget::Register(r.c as u8),
                        b => EnumeratorTarget::Variable { name: self.string(r.c), declare: b == 1 },
                    },
                    object: self.expression(self.child(i, 0)),
                },
                body: self.body(i, 1),
            },
            FOR_IN => {
                let initialize = self.child(i, 0);
                StatementKind::ForIn {
                    condition: ForCondition::Classic {
                        initialize: (!self.is_absent(initialize)).then(|| Box::new(self.statement(initialize))),
                        condition: self.list(self.child(i, 1), Self::expression),
                        update: self.list(self.child(i, 2), Self::expression),
                    },
                    body: self.body(i, 3),
                }
            }
            WHILE => StatementKind::While { condition: self.expression(self.child(i, 0)), body: self.body(i, 1) },
            IF => {
                let no = self.child(i, 2);
                StatementKind::If {
                    condition: self.expression(self.child(i, 0)),
                    yes: self.body(i, 1),
                    no: (!self.is_absent(no)).then(|| Box::new(self.statement(no))),
                }
            }
            BREAK => StatementKind::Break,
            CONTINUE => StatementKind::Continue,
            SWITCH => StatementKind::Switch {
                target: self.expression(self.child(i, 0)),
                elements: self.list(self.child(i, 1), Self::element),
            },
            kind => unreachable!("{kind}"),
        }
    }

    fn element(&self, i: usize) -> SwitchElement {
        match self.script.records[i].kind {
            CASE => SwitchElement::Case(self.expression(self.child(i, 0))),
            DEFAULT => SwitchElement::Default,
            _ => SwitchElement::Statement(self.statement(i)),
        }
    }

    fn field(&self, i: usize) -> (String, Expr) {
        (self.string(self.script.records[i].a), self.expression(self.child(i, 0)))
    }

    fn parameter(&self, i: usize) -> FunctionArgument {
        let r = self.script.records[i];
        FunctionArgument { name: self.string(r.a), type_name: None, register: r.b.checked_sub(1).map(|x| x as u8) }
    }

    fn function(&self, i: usize) -> Function {
        let r = self.script.records[i];
        let mark = |bit: u32| r.c >> bit & 1 == 1;
        Function {
            signature: FunctionSignature {
                name: r.a.checked_sub(1).map(|x| Spanned::of(self.string(x))),
                args: self.list(self.child(i, 0), Self::parameter),
                return_type: None,
            },
            body: self.list(self.child(i, 1), Self::statement),
            scope: Default::default(),
            register_count: r.b as u8,
            preload_this: mark(0),
            suppress_this: mark(1),
            preload_arguments: mark(2),
            suppress_arguments: mark(3),
            preload_super: mark(4),
            suppress_super: mark(5),
            preload_root: mark(6),
            preload_parent: mark(7),
            preload_global: mark(8),
        }
    }

    fn constant(&self, i: usize) -> ConstantKind {
        let r = self.script.records[i];
        match r.a {
            0 => ConstantKind::String(self.string(r.b)),
            1 => ConstantKind::Identifier(self.string(r.b)),
            2 => ConstantKind::Float(f64::from_bits((r.c as u64) << 32 | r.b as u64)),
            3 => ConstantKind::Integer(r.b as i32),
            4 => ConstantKind::Boolean(r.b == 1),
            _ => ConstantKind::Register(r.b as u8),
        }
    }

    fn unary(&self, i: usize) -> UnaryOperator {
        let r = self.script.records[i];
        let affix = if r.b == 1 { Affix::Prefix } else { Affix::Postfix };
        match r.a {
            0 => UnaryOperator::Sub,
            1 => UnaryOperator::Add,
            2 => UnaryOperator::BitNot,
            3 => UnaryOperator::Increment(affix),
            4 => UnaryOperator::Decrement(affix),
            _ => UnaryOperator::LogicalNot,
        }
    }

    fn expression(&self, i: usize) -> Expr {
        let r = self.script.records[i];
        let e = |n: usize| self.boxed(i, n);
        let args = |n: usize| self.list(self.child(i, n), Self::expression);
        Spanned::of(match r.kind {
            CONSTANT => ExprKind::Constant(self.constant(i)),
            CALL => ExprKind::Call { name: e(0), args: args(1) },
            NEW => ExprKind::New { name: e(0), args: args(1) },
            DUPLICATE => ExprKind::DuplicateMovieClip { source: e(0), target: e(1), depth: e(2) },
            ASCII_TO_CHAR => ExprKind::AsciiToChar(e(0)),
            MB_ASCII_TO_CHAR => ExprKind::MBAsciiToChar(e(0)),
            CALL_FRAME => ExprKind::CallFrame(e(0)),
            GET_TIME => ExprKind::GetTime,
            BINARY => ExprKind::BinaryOperator(BINARY_OPERATORS[r.a as usize], e(0), e(1)),
            UNARY => ExprKind::UnaryOperator(self.unary(i), e(0)),
            TERNARY => ExprKind::Ternary { condition: e(0), yes: e(1), no: e(2) },
            INIT_OBJECT => ExprKind::InitObject(self.list(self.child(i, 0), Self::field)),
            INIT_ARRAY => ExprKind::InitArray(args(0)),
            FIELD => ExprKind::Field(e(0), e(1)),
            TYPE_OF => ExprKind::TypeOf(e(0)),
            DELETE => ExprKind::Delete(e(0)),
            VOID => ExprKind::Void(e(0)),
            FUNCTION => ExprKind::Function(Box::new(self.function(i))),
            GET_VARIABLE => ExprKind::GetVariable(e(0)),
            SET_VARIABLE => ExprKind::SetVariable(e(0), e(1)),
            GOTO_FRAME => ExprKind::GotoFrame(e(0), r.a == 1),
            CAST_TO_INTEGER => ExprKind::CastToInteger(e(0)),
            CAST_TO_NUMBER => ExprKind::CastToNumber(e(0)),
            CAST_TO_STRING => ExprKind::CastToString(e(0)),
            CAST_TO_OBJECT => ExprKind::CastToObject { class: e(0), object: e(1) },
            STRING_LENGTH => ExprKind::StringLength(e(0)),
            MB_STRING_LENGTH => ExprKind::MBStringLength(e(0)),
            CHAR_TO_ASCII => ExprKind::CharToAscii(e(0)),
            MB_CHAR_TO_ASCII => ExprKind::MBCharToAscii(e(0)),
            SUBSTRING => ExprKind::Substring { string: e(0), start: e(1), length: e(2) },
            MB_SUBSTRING => ExprKind::MBSubstring { string: e(0), start: e(1), length: e(2) },
            NEXT_FRAME => ExprKind::NextFrame,
            PREVIOUS_FRAME => ExprKind::PreviousFrame,
            PLAY => ExprKind::Play,
            STOP => ExprKind::Stop,
            STOP_SOUNDS => ExprKind::StopSounds,
            START_DRAG => {
                let mut limits = args(1).into_iter().map(Box::new);
                ExprKind::StartDrag {
                    target: e(0),
                    lock: r.a == 1,
                    constraints: match (limits.next(), limits.next(), limits.next(), limits.next()) {
                        (Some(a), Some(b), Some(c), Some(d)) => Some((a, b, c, d)),
                        _ => None,
                    },
                }
            }
            END_DRAG => ExprKind::EndDrag,
            GET_TARGET_PATH => ExprKind::GetTargetPath(e(0)),
            TRACE => ExprKind::Trace(e(0)),
            REMOVE_SPRITE => ExprKind::RemoveSprite(e(0)),
            GET_RANDOM_NUMBER => ExprKind::GetRandomNumber(e(0)),
            GET_PROPERTY => ExprKind::GetProperty(e(0), r.a as i32),
            SET_PROPERTY => ExprKind::SetProperty(e(0), r.a as i32, e(1)),
            TOGGLE_QUALITY => ExprKind::ToggleQuality,
            kind => unreachable!("{kind}"),
        })
    }
}
