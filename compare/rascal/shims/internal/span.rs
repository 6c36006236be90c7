// Spans without places.

#[derive(Debug, Clone, Copy, PartialEq, Eq, Hash, Default)]
pub struct Span;

#[derive(Debug, Clone, Copy, PartialEq, Eq, Default)]
pub struct FileId(u32);

impl FileId {
    pub fn new(id: u32) -> Self {
        FileId(id)
    }
}

#[derive(Debug, Clone, PartialEq, Default)]
pub struct Spanned<T> {
    pub span: Span,
    pub value: T,
}

impl<T> Spanned<T> {
    pub fn of(value: T) -> Self {
        Spanned { span: Span, value }
    }
}

impl<T> std::ops::Deref for Spanned<T> {
    type Target = T;
    fn deref(&self) -> &T {
        &self.value
    }
}
