//! From Rascal's tree to a script file. What refusal 3 names is written as its kind alone.

use rascal::hir::*;
use rascal_verified::{ScriptWriter, kind};

pub fn script_file(statements: &[StatementKind]) -> Vec<u8> {
    let mut w = Writer(ScriptWriter::new());
    for s in statements {
        w.statement(s);
    }
    w.0.finish()
}

struct Writer(ScriptWriter);

impl Writer {
    fn string(&mut self, text: &str) -> u32 {
        self.0.string(text).0
    }

    fn expressions(&mut self, all: &[Expr]) {
        all.iter().for_each(|e| self.expression(e));
        self.0.list(all.len());
    }

    fn statements(&mut self, all: &[StatementKind]) {
        all.iter().for_each(|s| self.statement(s));
        self.0.list(all.len());
    }

    fn optional(&mut self, statement: &Option<Box<StatementKind>>) {
        match statement {
            Some(s) => self.statement(s),
            None => self.0.absent(),
        }
    }

    fn statement(&mut self, statement: &StatementKind) {
        match statement {
            StatementKind::Declare(d) => {
                match &d.value {
                    Some(value) => self.expression(value),
                    None => self.0.absent(),
                }
                let name = self.string(&d.name.value);
                self.0.node(kind::DECLARE, [name, 0, 0], 1);
            }
            StatementKind::Return(all) => {
                self.expressions(all);
                self.0.plain(kind::RETURN, 1);
            }
            StatementKind::Throw(all) => {
                self.expressions(all);
                self.0.plain(kind::THROW, 1);
            }
            StatementKind::Expr(e) => {
                self.expression(e);
                self.0.plain(kind::EXPR, 1);
            }
            StatementKind::Block(all) => {
                self.statements(all);
                self.0.plain(kind::BLOCK, 1);
            }
            StatementKind::ForIn { condition, body } => self.for_in(condition, body),
            StatementKind::While { condition, body } => {
                self.expression(condition);
                self.statement(body);
                self.0.plain(kind::WHILE, 2);
            }
            StatementKind::If { condition, yes, no } => {
                self.expression(condition);
                self.statement(yes);
                self.optional(no);
                self.0.plain(kind::IF, 3);
            }
            StatementKind::Break => self.0.plain(kind::BREAK, 0),
            StatementKind::Continue => self.0.plain(kind::CONTINUE, 0),
            StatementKind::Try(_) => self.0.plain(kind::TRY, 0),
            StatementKind::WaitForFrame { .. } => self.0.plain(kind::WAIT_FOR_FRAME, 0),
            StatementKind::TellTarget { .. } => self.0.plain(kind::TELL_TARGET, 0),
            StatementKind::InlinePCode(_) => self.0.plain(kind::INLINE_PCODE, 0),
            StatementKind::With { .. } => self.0.plain(kind::WITH, 0),
            StatementKind::Switch { target, elements } => {
                self.expression(target);
                for element in elements {
                    match element {
                        SwitchElement::Case(value) => {
                            self.expression(value);
                            self.0.plain(kind::CASE, 1);
                        }
                        SwitchElement::Default => self.0.plain(kind::DEFAULT, 0),
                        SwitchElement::Statement(s) => self.statement(s),
                    }
                }
                self.0.list(elements.len());
                self.0.plain(kind::SWITCH, 2);
            }
        }
    }

    fn for_in(&mut self, condition: &ForCondition, body: &StatementKind) {
        match condition {
            ForCondition::Enumerate { target, object } => {
                let (form, variable) = match target {
                    EnumeratorTarget::Variable { name, declare } => (*declare as u32, self.string(name)),
                    EnumeratorTarget::Register(register) => (2, *register as u32),
                };
                self.expression(object);
                self.statement(body);
                self.0.node(kind::FOR_IN, [0, form, variable], 2);
            }
            ForCondition::Classic { initialize, condition, update } => {
                self.optional(initialize);
                self.expressions(condition);
                self.expressions(update);
                self.statement(body);
                self.0.node(kind::FOR_IN, [1, 0, 0], 4);
            }
        }
    }

    /// A record over expressions alone.
    fn over(&mut self, kind: u32, words: [u32; 3], all: &[&Expr]) {
        all.iter().for_each(|e| self.expression(e));
        self.0.node(kind, words, all.len());
    }

    fn constant(&mut self, constant: &ConstantKind) {
        let words = match constant {
            ConstantKind::String(s) => [0, self.string(s), 0],
            ConstantKind::Identifier(s) => [1, self.string(s), 0],
            ConstantKind::Float(f) => [2, f.to_bits() as u32, (f.to_bits() >> 32) as u32],
            ConstantKind::Integer(i) => [3, *i as u32, 0],
            ConstantKind::Boolean(b) => [4, *b as u32, 0],
            ConstantKind::Register(r) => [5, *r as u32, 0],
        };
        self.0.node(kind::CONSTANT, words, 0);
    }

    fn function(&mut self, f: &Function) {
        for argument in &f.signature.args {
            let name = self.string(&argument.name);
            let register = argument.register.map_or(0, |r| r as u32 + 1);
            self.0.node(kind::PARAMETER, [name, register, 0], 0);
        }
        self.0.list(f.signature.args.len());
        self.statements(&f.body);
        let name = f.signature.name.as_ref().map_or(0, |n| self.string(&n.value) + 1);
        let marks = [
            f.preload_this,
            f.suppress_this,
            f.preload_arguments,
            f.suppress_arguments,
            f.preload_super,
            f.suppress_super,
            f.preload_root,
            f.preload_parent,
            f.preload_global,
        ];
        let marks = marks.iter().enumerate().fold(0, |sum, (bit, &m)| sum | (m as u32) << bit);
        self.0.node(kind::FUNCTION, [name, f.register_count as u32, marks], 2);
    }

    fn expression(&mut self, expression: &Expr) {
        use ExprKind::*;
        let none = [0; 3];
        match &expression.value {
            Constant(c) => self.constant(c),
            Call { name, args } => {
                self.expression(name);
                self.expressions(args);
                self.0.plain(kind::CALL, 2);
            }
            New { name, args } => {
                self.expression(name);
                self.expressions(args);
                self.0.plain(kind::NEW, 2);
            }
            DuplicateMovieClip { source, target, depth } => self.over(kind::DUPLICATE_MOVIE_CLIP, none, &[source, target, depth]),
            AsciiToChar(e) => self.over(kind::ASCII_TO_CHAR, none, &[e]),
            MBAsciiToChar(e) => self.over(kind::MB_ASCII_TO_CHAR, none, &[e]),
            CallFrame(e) => self.over(kind::CALL_FRAME, none, &[e]),
            GetTime => self.0.plain(kind::GET_TIME, 0),
            BinaryOperator(operator, left, right) => self.over(kind::BINARY_OPERATOR, [*operator as u32, 0, 0], &[left, right]),
            UnaryOperator(operator, e) => self.over(kind::UNARY_OPERATOR, unary(*operator), &[e]),
            Ternary { condition, yes, no } => self.over(kind::TERNARY, none, &[condition, yes, no]),
            InitObject(fields) => {
                for (key, value) in fields {
                    self.expression(value);
                    let key = self.string(key);
                    self.0.node(kind::OBJECT_FIELD, [key, 0, 0], 1);
                }
                self.0.list(fields.len());
                self.0.plain(kind::INIT_OBJECT, 1);
            }
            InitArray(all) => {
                self.expressions(all);
                self.0.plain(kind::INIT_ARRAY, 1);
            }
            Field(object, field) => self.over(kind::FIELD, none, &[object, field]),
            TypeOf(e) => self.over(kind::TYPE_OF, none, &[e]),
            Delete(e) => self.over(kind::DELETE, none, &[e]),
            Void(e) => self.over(kind::VOID, none, &[e]),
            Function(f) => self.function(f),
            GetVariable(e) => self.over(kind::GET_VARIABLE, none, &[e]),
            SetVariable(name, value) => self.over(kind::SET_VARIABLE, none, &[name, value]),
            GotoFrame(e, play) => self.over(kind::GOTO_FRAME, [*play as u32, 0, 0], &[e]),
            GetUrl { .. } => self.0.plain(kind::GET_URL, 0),
            CastToInteger(e) => self.over(kind::CAST_TO_INTEGER, none, &[e]),
            CastToNumber(e) => self.over(kind::CAST_TO_NUMBER, none, &[e]),
            CastToString(e) => self.over(kind::CAST_TO_STRING, none, &[e]),
            CastToObject { class, object } => self.over(kind::CAST_TO_OBJECT, none, &[class, object]),
            StringLength(e) => self.over(kind::STRING_LENGTH, none, &[e]),
            MBStringLength(e) => self.over(kind::MB_STRING_LENGTH, none, &[e]),
            CharToAscii(e) => self.over(kind::CHAR_TO_ASCII, none, &[e]),
            MBCharToAscii(e) => self.over(kind::MB_CHAR_TO_ASCII, none, &[e]),
            Substring { string, start, length } => self.over(kind::SUBSTRING, none, &[string, start, length]),
            MBSubstring { string, start, length } => self.over(kind::MB_SUBSTRING, none, &[string, start, length]),
            NextFrame => self.0.plain(kind::NEXT_FRAME, 0),
            PreviousFrame => self.0.plain(kind::PREVIOUS_FRAME, 0),
            Play => self.0.plain(kind::PLAY, 0),
            Stop => self.0.plain(kind::STOP, 0),
            StopSounds => self.0.plain(kind::STOP_SOUNDS, 0),
            StartDrag { target, lock, constraints } => {
                self.expression(target);
                match constraints {
                    Some((a, b, c, d)) => self.over(kind::LIST, [4, 0, 0], &[a, b, c, d]),
                    None => self.0.list(0),
                }
                self.0.node(kind::START_DRAG, [*lock as u32, 0, 0], 2);
            }
            EndDrag => self.0.plain(kind::END_DRAG, 0),
            GetTargetPath(e) => self.over(kind::GET_TARGET_PATH, none, &[e]),
            Trace(e) => self.over(kind::TRACE, none, &[e]),
            RemoveSprite(e) => self.over(kind::REMOVE_SPRITE, none, &[e]),
            GetRandomNumber(e) => self.over(kind::GET_RANDOM_NUMBER, none, &[e]),
            GetProperty(e, number) => self.over(kind::GET_PROPERTY, [*number as u32, 0, 0], &[e]),
            SetProperty(e, number, value) => self.over(kind::SET_PROPERTY, [*number as u32, 0, 0], &[e, value]),
            ToggleQuality => self.0.plain(kind::TOGGLE_QUALITY, 0),
        }
    }
}

fn unary(operator: UnaryOperator) -> [u32; 3] {
    match operator {
        UnaryOperator::Sub => [0, 0, 0],
        UnaryOperator::Add => [1, 0, 0],
        UnaryOperator::BitNot => [2, 0, 0],
        UnaryOperator::Increment(affix) => [3, affix as u32, 0],
        UnaryOperator::Decrement(affix) => [4, affix as u32, 0],
        UnaryOperator::LogicalNot => [5, 0, 0],
    }
}
