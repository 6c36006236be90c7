/// Why a call gave no result.
#[derive(Debug, Clone, Copy, PartialEq, Eq)]
pub struct Refusal {
    pub number: u8,
    pub message: &'static str,
}

impl Refusal {
    pub fn new(number: u8) -> Refusal {
        let message = match number {
            1 => "a rule of the script file is broken",
            2 => "a string of the script file is not UTF-8",
            3 => "the script uses try, with, tellTarget, waitForFrame, inline p-code or getURL",
            4 => "the script file has more than 1,048,576 bytes, or its tree is deeper than 128",
            5 => "a direct value is set, or a property is deleted, called or constructed",
            6 => "a switch has a second default",
            7 => "-2147483648 is negated",
            8 => "more than 1,024 actions, 2,048 push values or 1,024 labels",
            9 => "a string has a zero byte",
            10 => "a record or a function's body has more than 65,535 bytes",
            11 => "a branch leads further than 16 bits reach",
            12 => "the output is too short",
            13 => "the list slice is too short",
            14 => "no list within the limits writes to these bytes",
            _ => "a refusal of no known number",
        };
        Refusal { number, message }
    }
}

impl std::fmt::Display for Refusal {
    fn fmt(&self, f: &mut std::fmt::Formatter<'_>) -> std::fmt::Result {
        write!(f, "refused {}: {}", self.number, self.message)
    }
}

impl std::error::Error for Refusal {}
