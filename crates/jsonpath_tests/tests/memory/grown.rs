//! What outcomes are held against where one growth of memory may be refused in a run: a call answers in full, or wants
//! memory and is then the only one that does.

use crate::asserts::check;
use jsonpath_lib::{JsonPathError, Spot, document_to_text, list_to_text};
use serde_json::Value;
use std::alloc::Global;
use std::process::Abort;

/// Asserts that memory was wanted, and that no call before was refused.
pub(crate) fn once(rt: &impl Abort, refused: &mut u8, error: &JsonPathError) {
    check!(rt; matches!(error, JsonPathError::OutOfMemory));
    check!(rt; *refused == 0, "a second refusal");
    *refused = 1;
}

/// Asserts that a call was done, or is the only one that was refused.
pub(crate) fn done<T: Drop>(rt: &impl Abort, refused: &mut u8, outcome: Result<T, JsonPathError>) {
    match outcome {
        Ok(_done) => {}
        Err(error) => once(rt, refused, &error),
    }
}

/// Asserts which values are found.
pub(crate) fn values(
    rt: &(impl Abort + AllocGlobal),
    refused: &mut u8,
    found: Result<Vec<&Value>, JsonPathError>,
    text: &str,
) {
    match found {
        Ok(values) => check!(rt; has_list(rt.alloc(), values.as_slice(), text), text),
        Err(error) => once(rt, refused, &error),
    }
}

/// Asserts that spots are found, of which values.
pub(crate) fn spots(
    rt: &(impl Abort + AllocGlobal),
    refused: &mut u8,
    found: Result<Vec<Spot<'_>>, JsonPathError>,
    numbers: &[u64],
) {
    match found {
        Ok(spots) => check!(rt; stand_at(spots.as_slice(), numbers)),
        Err(error) => once(rt, refused, &error),
    }
}

fn stand_at(spots: &[Spot<'_>], numbers: &[u64]) -> bool {
    let mut are_same = spots.len() == numbers.len();
    for (spot, number) in spots.iter().zip(numbers.iter()) {
        are_same = are_same && spot.value().as_u64() == Some(*number);
    }
    are_same
}

/// Asserts that something is found, or nothing.
pub(crate) fn some<T: Drop>(
    rt: &impl Abort,
    refused: &mut u8,
    found: Result<Vec<T>, JsonPathError>,
    is_some: bool,
) {
    match found {
        Ok(found) => check!(rt; found.is_empty() != is_some),
        Err(error) => once(rt, refused, &error),
    }
}

/// Asserts which text it is.
pub(crate) fn text(
    rt: &impl Abort,
    refused: &mut u8,
    answer: Result<String, JsonPathError>,
    want: &str,
) {
    match answer {
        Ok(text) => check!(rt; text.as_str() == want, want),
        Err(error) => once(rt, refused, &error),
    }
}

/// Whether the values print as this text.
pub(crate) fn has_list(alloc: Global, values: &[&Value], text: &str) -> bool {
    for _ in 0..2u8 {
        if let Ok(found) = list_to_text(alloc, values) {
            return found.as_str() == text;
        }
    }
    false
}

/// Whether the document prints as this text.
pub(crate) fn has_document(alloc: Global, value: &Value, text: &str) -> bool {
    for _ in 0..2u8 {
        if let Ok(found) = document_to_text(alloc, value) {
            return found.as_str() == text;
        }
    }
    false
}

/// Asserts which document is there.
pub(crate) fn is_now(rt: &(impl Abort + AllocGlobal), document: &Value, text: &str) {
    check!(rt; has_document(rt.alloc(), document, text), text);
}

/// Asserts that a document is held, and which.
pub(crate) fn is_held(rt: &(impl Abort + AllocGlobal), held: Option<Value>, text: &str) -> Value {
    let value = held.expect(rt, "a document");
    is_now(rt, &value, text);
    value
}
