pub mod tokens {
    // The keywords that name an operator, and one that does not.
    #[derive(Debug, Clone, Copy, PartialEq)]
    pub enum Keyword {
        InstanceOf,
        Eq,
        Gt,
        Ge,
        Lt,
        Le,
        Ne,
        And,
        Or,
        Add,
        Other,
    }
}
