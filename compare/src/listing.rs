//! The listing of document 01. In a list by place a branch names its place in decimal.

use crate::lists::{Act, List, Lists, Target, Value, plain_name};
use crate::text::hex;
use std::fmt::Write;

pub fn listing(lists: &Lists) -> String {
    let mut out = String::new();
    for (n, list) in lists.0.iter().enumerate() {
        writeln!(out, "list {n} length {}", list.actions.len()).unwrap();
        put_list(&mut out, list);
    }
    out
}

fn put_list(out: &mut String, list: &List) {
    let mut marks: Vec<Vec<u32>> = vec![vec![]; list.actions.len() + 1];
    for &(label, place) in &list.marks {
        marks[place].push(label);
    }
    for (i, here) in marks.iter().enumerate() {
        for label in here {
            writeln!(out, "loc{label:04x}:").unwrap();
        }
        if let Some(act) = list.actions.get(i) {
            writeln!(out, "{i} {}", line(act)).unwrap();
        }
    }
}

fn string(bytes: &[u8]) -> String {
    if bytes.is_empty() { "-".to_string() } else { hex(bytes) }
}

fn target(target: &Target) -> String {
    match target {
        Target::Label(label) => format!("loc{label:04x}"),
        Target::Place(place) => place.to_string(),
    }
}

fn value(value: &Value) -> String {
    match value {
        Value::String(s) => format!("String {}", string(s)),
        Value::Null => "Null".to_string(),
        Value::Undefined => "Undefined".to_string(),
        Value::Register(r) => format!("Register {r}"),
        Value::Bool(true) => "True".to_string(),
        Value::Bool(false) => "False".to_string(),
        Value::Float(bits) => format!("Float {bits:016x}"),
        Value::Integer(i) => format!("Integer {i}"),
        Value::Constant(c) => format!("Constant {c}"),
    }
}

fn line(act: &Act) -> String {
    let mut words: Vec<String> = Vec::new();
    match act {
        Act::Plain(code) => words.push(plain_name(*code).unwrap().to_string()),
        Act::GotoFrame(frame) => words.push(format!("GotoFrame {frame}")),
        Act::StoreRegister(register) => words.push(format!("StoreRegister {register}")),
        Act::ConstantPool(strings) => {
            words.push("ConstantPool".to_string());
            words.extend(strings.iter().map(|s| string(s)));
        }
        Act::GotoLabel(name) => words.push(format!("GotoLabel {}", string(name))),
        Act::Push(values) => {
            words.push("Push".to_string());
            words.extend(values.iter().map(value));
        }
        Act::Jump(t) => words.push(format!("Jump {}", target(t))),
        Act::If(t) => words.push(format!("If {}", target(t))),
        Act::GotoFrame2(bias, play) => words.push(format!("GotoFrame2 {bias} {}", *play as u8)),
        Act::Function(f) => {
            let two = f.registers.is_some();
            words.push(if two { "DefineFunction2" } else { "DefineFunction" }.to_string());
            words.push(string(&f.name));
            for (name, register) in &f.parameters {
                words.push(string(name));
                if two {
                    words.push(register.to_string());
                }
            }
            words.push(f.list.to_string());
            if let Some((registers, marks)) = f.registers {
                words.push(registers.to_string());
                words.extend(marks.iter().map(|&m| (m as u8).to_string()));
            }
        }
    }
    words.join(" ")
}
