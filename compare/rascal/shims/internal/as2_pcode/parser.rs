// Inline p-code is refused before lowering; its text is never parsed.
use super::lexer::tokens::Token;
use super::pcode::Actions;

pub type Tokens<'a> = [Token<'a>];

#[derive(Debug)]
pub struct PCodeError<'a>(&'a str);

impl<'a> PCodeError<'a> {
    pub fn from_parse(_: &'a str, _: &'a str, error: PCodeError<'a>) -> Self {
        error
    }
}

impl std::fmt::Display for PCodeError<'_> {
    fn fmt(&self, f: &mut std::fmt::Formatter<'_>) -> std::fmt::Result {
        f.write_str(self.0)
    }
}

pub fn parse_actions<'a>(_: &Tokens<'a>) -> Result<Actions, PCodeError<'a>> {
    panic!("inline p-code is not parsed")
}
