//! Rascal's lowering, built from its own files (see `build.rs`), with the names that the comparison uses.

#![allow(dead_code, unused_imports, unused_macros, non_camel_case_types)]

include!(concat!(env!("OUT_DIR"), "/tree/root.rs"));

pub use internal::as2::hir;
pub use internal::as2_codegen::script_to_actions;
pub use internal::as2_pcode::{Action, Actions, FunctionParam, PushValue};
pub use internal::span::{Span, Spanned};

impl counted::Element for Action {
    fn joins() {
        counted::action();
    }
}

impl counted::Element for PushValue {
    fn joins() {
        counted::value();
    }
}

impl counted::Element for FunctionParam {}
