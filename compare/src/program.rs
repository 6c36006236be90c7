//! A program that answers lines `NAME BYTES` on its standard input, as compile_files and read_files do.

use crate::text::encode;
use std::io::Write;
use std::process::{Command, Stdio};

/// The longest text that these programs take at once.
const LONGEST: usize = 2_097_151;

/// What the program prints below each file's name.
pub fn answers(command: &[String], files: &[&[u8]]) -> Vec<String> {
    let mut all = vec![];
    while all.len() < files.len() {
        let mut text = String::new();
        let mut count = 0;
        for file in &files[all.len()..] {
            let line = format!("{} {}\n", name(count), encode(file));
            if count > 0 && text.len() + line.len() > LONGEST {
                break;
            }
            text += &line;
            count += 1;
        }
        all.extend(parted(&run(command, &text), count));
    }
    all
}

fn name(number: usize) -> String {
    format!("file{number}")
}

fn run(command: &[String], text: &str) -> String {
    let (stdin, stdout) = (Stdio::piped(), Stdio::piped());
    let started = Command::new(&command[0]).args(&command[1..]).stdin(stdin).stdout(stdout).spawn();
    let mut child = started.unwrap_or_else(|e| panic!("{}: {e}", command[0]));
    let mut input = child.stdin.take().unwrap();
    let output = std::thread::scope(|scope| {
        // A program that stops early leaves answers out, which is seen in its output.
        scope.spawn(move || input.write_all(text.as_bytes()).ok());
        child.wait_with_output().unwrap()
    });
    String::from_utf8_lossy(&output.stdout).into_owned()
}

/// The lines below each name.
fn parted(output: &str, count: usize) -> Vec<String> {
    let mut answers: Vec<String> = vec![];
    for line in output.lines() {
        if answers.len() < count && line == name(answers.len()) {
            answers.push(String::new());
        } else if let Some(answer) = answers.last_mut() {
            *answer += line;
            answer.push('\n');
        }
    }
    answers.resize(count, "no answer\n".to_string());
    answers
}
