//! Updates at locations: one after another, and many at once.

use crate::asserts::check;
use crate::nodes::documents::{at, document, has_text, union_below};
use jsonpath_nodes::{compute_paths, delete_at, replace_at, take_at_once, update_at};
use serde_json::Value;

#[test]
fn updates(rt: HostRuntime) {
    let mut doc = document(&rt, "{\"a\":[1,2,3]}");
    let nine = &mut |_: Value| Some(Value::from(9u64));
    check!(rt; matches!(update_at(&mut doc, &at(&rt, "a/1"), nine), Ok(true)));
    let none = &mut |_: Value| None;
    check!(rt; matches!(update_at(&mut doc, &at(&rt, "a/b"), none), Ok(false)));
    has_text(&rt, &doc, "{\"a\":[1,9,3]}");
}

#[test]
fn replacements(rt: HostRuntime) {
    let mut doc = document(&rt, "{\"a\":[1,9,3]}");
    let mut calls = 0u8;
    replace_at(
        &mut doc,
        &[at(&rt, "a/0"), at(&rt, "a/2")],
        &mut |value: Value| {
            calls = calls.wrapping_add(1);
            value.as_u64().map(|n| Value::from(n.wrapping_mul(2)))
        },
    );
    check!(rt; calls == 2);
    has_text(&rt, &doc, "{\"a\":[2,9,6]}");
}

#[test]
fn removals(rt: HostRuntime) {
    let mut doc = document(&rt, "{\"a\":[2,9,6]}");
    replace_at(
        &mut doc,
        &[at(&rt, "a/0"), at(&rt, "a/2")],
        &mut |_: Value| None,
    );
    has_text(&rt, &doc, "{\"a\":[9,6]}");
}

#[test]
fn removals_at_once(rt: HostRuntime) {
    let mut doc = document(&rt, "{\"a\":[2,9,6]}");
    let found = union_below(&rt, &doc, &[2, 0]);
    let paths = compute_paths(rt.alloc(), found.as_slice()).expect(&rt, "locations");
    drop(found);
    check!(rt; take_at_once(&mut doc, paths.as_slice()).is_ok());
    has_text(&rt, &doc, "{\"a\":[9]}");
}

#[test]
fn deletions(rt: HostRuntime) {
    let mut doc = document(&rt, "{\"a\":[9]}");
    delete_at(&mut doc, &[at(&rt, "a/0"), at(&rt, "")]);
    has_text(&rt, &doc, "{\"a\":[null]}");
}
