//! Documents and locations that tests of steps begin with, and what spots and values are held against.

use crate::asserts::check;
use jsonpath_nodes::{LocStep, Location, NoMemory, Spot, ValueWalker};
use serde_json::Value;
use std::alloc::{AllocError, Global};
use std::process::Abort;

// The texts of the values at some spots, a blank between two.
pub(crate) fn texts(alloc: Global, spots: &[Spot<'_>]) -> Result<String, AllocError> {
    let mut out = String::new(alloc);
    for spot in spots {
        if !out.is_empty() {
            out.push(' ')?;
        }
        out.push_str(spot.value().to_string(alloc)?.as_str())?;
    }
    Ok(out)
}

// Asserts that there was memory, and that the values at the spots have these texts.
pub(crate) fn shows(
    rt: &(impl Abort + AllocGlobal),
    found: Result<Vec<Spot<'_>>, NoMemory>,
    want: &str,
) {
    let spots = found.expect(rt, "spots");
    let text = texts(rt.alloc(), spots.as_slice()).expect(rt, "texts");
    check!(rt; text.as_str() == want);
}

// Asserts that a value has this text.
pub(crate) fn has_text(rt: &(impl Abort + AllocGlobal), value: &Value, want: &str) {
    let text = value.to_string(rt.alloc()).expect(rt, "a text");
    check!(rt; text.as_str() == want);
}

pub(crate) fn document(rt: &(impl Abort + AllocGlobal), text: &str) -> Value {
    Value::from_str(rt.alloc(), text).expect(rt, "a document")
}

// The steps of a text such as `a/0/b`; digits are an index.
pub(crate) fn steps_of(alloc: Global, text: &str) -> Result<Vec<LocStep>, AllocError> {
    let mut steps = Vec::new(alloc);
    for part in text.split('/') {
        match part.parse::<usize>() {
            Ok(i) => steps.push(LocStep::Index(i))?,
            Err(_) => {
                if !part.is_empty() {
                    steps.push(LocStep::Name(String::from_str(alloc, part)?))?;
                }
            }
        }
    }
    Ok(steps)
}

pub(crate) fn at(rt: &(impl Abort + AllocGlobal), text: &str) -> Location {
    Location::from_steps(steps_of(rt.alloc(), text).expect(rt, "steps"))
}

// What a union selects below the root.
pub(crate) fn union_below<'a>(
    rt: &(impl Abort + AllocGlobal),
    doc: &'a Value,
    indexes: &[i64],
) -> Vec<Spot<'a>> {
    let root = [Spot::root(rt.alloc(), doc)];
    let below = ValueWalker::below(rt.alloc(), &root).expect(rt, "spots");
    ValueWalker::next_with_nums(rt.alloc(), below.as_slice(), indexes).expect(rt, "spots")
}
