//! What outcomes are held against. What is asserted takes an outcome by value: a test that hands each call's outcome on has
//! no branch and nothing left to drop, so its proof is short.

use crate::asserts::check;
use jsonpath_select::{JsonPathError, document_to_text};
use serde_json::Value;
use std::process::Abort;

pub const NO_PATH: &str = "no path is set";

pub const NO_VALUE: &str = "no value is set";

pub const BAD_PATH: &str = "a text is no path";

pub const BAD_VALUE: &str = "a text is no document, or a document no such type";

pub const NO_MEMORY: &str = "memory is refused";

/// Asserts that a document prints as this text.
pub fn prints(rt: &(impl Abort + AllocGlobal), value: &Value, want: &str) {
    says(rt, document_to_text(rt.alloc(), value), want);
}

/// Asserts that a call made a document, and how it prints.
pub fn becomes<E: Drop>(rt: &(impl Abort + AllocGlobal), made: Result<Value, E>, want: &str) {
    match made {
        Ok(value) => prints(rt, &value, want),
        Err(_refused) => check!(rt; false, want),
    }
}

/// Asserts that a document is held, and how it prints.
pub fn is_held(rt: &(impl Abort + AllocGlobal), value: Option<Value>, want: &str) {
    match value {
        Some(value) => prints(rt, &value, want),
        None => check!(rt; false, want),
    }
}

/// Asserts that there is an answer, and which text it is.
pub fn says<E: Drop>(rt: &impl Abort, answer: Result<String, E>, want: &str) {
    match answer {
        Ok(text) => check!(rt; text.as_str() == want, want),
        Err(_refused) => check!(rt; false, want),
    }
}

/// Asserts that a call was done.
pub fn works<T: Drop, E: Drop>(rt: &impl Abort, outcome: Result<T, E>) {
    match outcome {
        Ok(_done) => {}
        Err(_refused) => check!(rt; false),
    }
}

// Why a call was refused.
fn reason(error: &JsonPathError) -> &'static str {
    match error {
        JsonPathError::EmptyPath => NO_PATH,
        JsonPathError::EmptyValue => NO_VALUE,
        JsonPathError::Path(_) => BAD_PATH,
        JsonPathError::Serde(_) => BAD_VALUE,
        JsonPathError::OutOfMemory => NO_MEMORY,
    }
}

/// Asserts why a call was refused.
pub fn refuses<T: Drop>(rt: &impl Abort, outcome: Result<T, JsonPathError>, why: &str) {
    match outcome {
        Ok(_done) => check!(rt; false, why),
        Err(error) => is_refusal(rt, &error, why),
    }
}

/// Asserts which refusal it is.
pub fn is_refusal(rt: &impl Abort, error: &JsonPathError, why: &str) {
    check!(rt; reason(error) == why, why);
}
