//! The two sides of a comparison: each answers a file with text, and the texts must be the same.

use crate::generated::Kind;
use crate::{LIST_WORDS, ROOM, answer, compile, program, read};

/// Answers files, in their order.
type Answers = Box<dyn Fn(&[&[u8]]) -> Vec<String>>;

pub struct Sides {
    pub rascal: fn(&[u8]) -> String,
    pub verified: Answers,
}

impl Sides {
    /// The verified side is a program that answers lines, as compile_files and read_files do.
    pub fn with_program(kind: Kind, command: Vec<String>) -> Sides {
        let rascal = match kind {
            Kind::Bytes => rascal_read,
            Kind::Scripts | Kind::Overflow | Kind::Idle | Kind::Texts => {
                |file: &[u8]| answer::compiled_in_short(&compile(file, LIST_WORDS, ROOM))
            }
        };
        Sides { rascal, verified: Box::new(move |files| program::answers(&command, files)) }
    }

    /// The verified side is the static library.
    #[cfg(feature = "verified")]
    pub fn with_library(kind: Kind) -> Sides {
        use crate::{WIDE_ROOM, library};
        match kind {
            Kind::Bytes => Sides::of(rascal_read, library::read),
            Kind::Scripts | Kind::Overflow | Kind::Idle | Kind::Texts => {
                Sides::of(|file| answer::compiled(&compile(file, LIST_WORDS, WIDE_ROOM)), library::compiled)
            }
        }
    }

    /// The verified side answers file by file.
    pub fn of(rascal: fn(&[u8]) -> String, verified: impl Fn(&[u8]) -> String + 'static) -> Sides {
        Sides { rascal, verified: Box::new(move |files| files.iter().map(|file| verified(file)).collect()) }
    }

    /// Rascal's answer and the verified one.
    pub fn both(&self, file: &[u8]) -> (String, String) {
        ((self.rascal)(file), (self.verified)(&[file]).remove(0))
    }

    /// The first of the files with a difference.
    pub fn first_different(&self, files: &[Vec<u8>]) -> Option<usize> {
        let slices: Vec<&[u8]> = files.iter().map(Vec::as_slice).collect();
        let verified = (self.verified)(&slices);
        (0..files.len()).find(|&i| verified[i] != (self.rascal)(slices[i]))
    }
}

pub fn rascal_read(bytes: &[u8]) -> String {
    answer::listed(&read(bytes, LIST_WORDS))
}
