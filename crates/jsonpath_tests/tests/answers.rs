//! Documents that tests begin with, and what answers are held against.

use crate::asserts::check;
use crate::outcomes::says;
use jsonpath_nodes::Spot;
use jsonpath_select::{JsonPathError, list_to_text};
use serde_json::Value;
use std::process::Abort;

pub fn document(rt: &(impl Abort + AllocGlobal), text: &str) -> Value {
    Value::from_str(rt.alloc(), text).expect(rt, "a document")
}

/// Asserts that there is an answer, and that its values print as this text.
pub fn selects(
    rt: &(impl Abort + AllocGlobal),
    found: Result<Vec<&Value>, JsonPathError>,
    want: &str,
) {
    let values = found.expect(rt, "an answer");
    says(rt, list_to_text(rt.alloc(), values.as_slice()), want);
}

/// Asserts that there are spots, and that the values there print as this text.
pub fn finds(
    rt: &(impl Abort + AllocGlobal),
    found: Result<Vec<Spot<'_>>, JsonPathError>,
    want: &str,
) {
    let spots = found.expect(rt, "an answer");
    let values = spots.iter().map(|spot| spot.value());
    let values = values
        .collect::<Vec<&Value>>(rt.alloc())
        .expect(rt, "values");
    says(rt, list_to_text(rt.alloc(), values.as_slice()), want);
}

/// Asserts that a text is found, and which it is.
pub fn says_some<E: Drop>(rt: &impl Abort, answer: Result<Option<String>, E>, want: &str) {
    match answer {
        Ok(Some(text)) => check!(rt; text.as_str() == want, want),
        _other => check!(rt; false, want),
    }
}

/// Asserts that there is an answer, and that it is this one.
pub fn gives<T: PartialEq + Drop, E: Drop>(
    rt: &impl Abort,
    answer: Result<T, E>,
    want: T,
    row: &str,
) {
    match answer {
        Ok(found) => check!(rt; found == want, row),
        Err(_refused) => check!(rt; false, row),
    }
}

/// Asserts that there is an answer of so many.
pub fn counts<T: Drop>(rt: &impl Abort, found: Result<Vec<T>, JsonPathError>, want: usize) {
    match found {
        Ok(values) => check!(rt; values.len() == want),
        Err(_refused) => check!(rt; false),
    }
}

/// Asserts that a call was refused.
pub fn fails<T: Drop, E: Drop>(rt: &impl Abort, outcome: Result<T, E>) {
    match outcome {
        Ok(_done) => check!(rt; false),
        Err(_refused) => {}
    }
}

/// Asserts that a path text is refused, and how the message shows it.
pub fn marks<T: Drop>(rt: &impl Abort, outcome: Result<T, JsonPathError>, shown: &str) {
    match outcome {
        Err(JsonPathError::Path(text)) => check!(rt; text.as_str() == shown, shown),
        _other => check!(rt; false, shown),
    }
}

/// Asserts how an error prints.
pub fn tells(rt: &(impl Abort + AllocGlobal), error: &JsonPathError, want: &str) {
    says(rt, format!(in rt.alloc(); "{error}"), want);
}

/// Whether a path is missing.
pub fn lacks_path<T>(outcome: &Result<T, JsonPathError>) -> bool {
    matches!(outcome, Err(JsonPathError::EmptyPath))
}

/// Whether a value is missing.
pub fn lacks_value<T>(outcome: &Result<T, JsonPathError>) -> bool {
    matches!(outcome, Err(JsonPathError::EmptyValue))
}

/// Whether a text is no document, or a document no such type.
pub fn is_serde_refusal<T>(outcome: &Result<T, JsonPathError>) -> bool {
    matches!(outcome, Err(JsonPathError::Serde(_)))
}
