//! Runs Rascal's `script_to_actions`, and gives its panics their refusals.

use crate::Limits;
use crate::lists::{Lists, from_actions};
use counted::OverLimit;
use rascal::hir::StatementKind;
use std::any::Any;
use std::cell::Cell;
use std::panic::{AssertUnwindSafe, catch_unwind, resume_unwind};
use std::sync::Once;

thread_local! {
    static RUNNING: Cell<bool> = const { Cell::new(false) };
}

static QUIET: Once = Once::new();

/// Panics of lowering are answers, so they print nothing.
fn quiet() {
    QUIET.call_once(|| {
        let other = std::panic::take_hook();
        std::panic::set_hook(Box::new(move |info| {
            if !RUNNING.get() {
                other(info);
            }
        }));
    });
}

/// Rascal's nested actions within the limits, or the first of 5 to 8.
pub fn actions(limits: Limits, statements: &[StatementKind]) -> Result<rascal::Actions, u8> {
    quiet();
    counted::start(limits);
    RUNNING.set(true);
    let result = catch_unwind(AssertUnwindSafe(|| rascal::script_to_actions(statements)));
    RUNNING.set(false);
    result.map_err(refusal)
}

pub fn lower(limits: Limits, statements: &[StatementKind]) -> Result<Lists, u8> {
    actions(limits, statements).map(|a| from_actions(&a))
}

fn refusal(payload: Box<dyn Any + Send>) -> u8 {
    if payload.is::<OverLimit>() {
        return 8;
    }
    let text = match (payload.downcast_ref::<&str>(), payload.downcast_ref::<String>()) {
        (Some(text), _) => text,
        (_, Some(text)) => text.as_str(),
        _ => resume_unwind(payload),
    };
    match text {
        "Label already exists" => 6,
        "attempt to negate with overflow" => 7,
        "not implemented: Cannot set a direct value"
        | "not implemented: Cannot get-and-set a direct value"
        | "not implemented: Cannot get-and-set a special property"
        | "not implemented: Cannot call new on a special property"
        | "not implemented: Cannot call a special property" => 5,
        _ => {
            eprintln!("Rascal panicked: {text}");
            resume_unwind(payload)
        }
    }
}
