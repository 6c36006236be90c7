// Lists are made with `vec!`; theirs is the counted one.
macro_rules! vec {
    ($($item:expr),* $(,)?) => {
        counted::Vec::of([$($item),*])
    };
}

pub mod as2;
pub mod as2_codegen;
pub mod as2_pcode;
pub mod span;
