//! One value put at all that a path selects.

use crate::answers::document;
use crate::outcomes::{NO_PATH, NO_VALUE, is_held, prints, refuses, works};
use jsonpath_lib::{AnyPath, JsonSelectorMut, Parser, SelectorMut, compile_path};
use serde_json::Value;
use std::process::Abort;

// Each way to set: by a compiled path, a path that owns its text, and the two types that hold a document.
fn sets(rt: &(impl Abort + AllocGlobal), path: &str, json: &str, new: &str, after: &str) {
    let alloc = rt.alloc();
    let new = document(rt, new);
    let mut changed = document(rt, json);
    let node = Parser::compile(alloc, path).expect(rt, "a path");
    works(rt, node.set_in(alloc, &mut changed, &new));
    prints(rt, &changed, after);
    let compiled = compile_path(alloc, path).expect(rt, "a path");
    let mut changed = document(rt, json);
    works(rt, compiled.set_in(alloc, &mut changed, &new));
    prints(rt, &changed, after);
    holders_set(rt, path, json, &new, after);
}

fn holders_set(rt: &(impl Abort + AllocGlobal), path: &str, json: &str, new: &Value, after: &str) {
    let alloc = rt.alloc();
    let mut held = SelectorMut::new();
    held.value(document(rt, json));
    works(rt, held.set_path(alloc, path));
    works(rt, held.set_in_place(alloc, new));
    is_held(rt, held.take(), after);
    let compiled = compile_path(alloc, path).expect(rt, "a path");
    let mut held = JsonSelectorMut::new(alloc, compiled).expect(rt, "a selector");
    held.value(document(rt, json));
    works(rt, held.set_in_place(alloc, new));
    is_held(rt, held.take(), after);
}

#[test]
fn values_are_set_at_the_topmost(rt: HostRuntime) {
    for (path, json, new, after) in [
        ("$.a", "{\"a\":1,\"b\":2}", "[3]", "{\"a\":[3],\"b\":2}"),
        (
            "$..a",
            "{\"a\":{\"a\":1},\"b\":{\"a\":2}}",
            "{\"a\":0}",
            "{\"a\":{\"a\":0},\"b\":{\"a\":{\"a\":0}}}",
        ),
        ("$..*", "[1,[2],{\"a\":3}]", "[9]", "[[9],[9],[9]]"),
        ("$[0,0]", "[1,2]", "null", "[null,2]"),
        ("$[2:0]", "[1,2,3]", "0", "[1,2,3]"),
        ("$", "[1]", "2", "[1]"),
        ("$.zz", "{\"a\":1}", "2", "{\"a\":1}"),
        (
            "$[?(@.a > 1)].a",
            "[{\"a\":1},{\"a\":2},{\"a\":3}]",
            "0",
            "[{\"a\":1},{\"a\":0},{\"a\":0}]",
        ),
    ] {
        sets(&rt, path, json, new, after);
    }
}

#[test]
fn what_is_missing_for_setting_is_named(rt: HostRuntime) {
    let alloc = rt.alloc();
    let mut held = SelectorMut::new();
    refuses(&rt, held.set_in_place(alloc, &Value::Null), NO_PATH);
    works(&rt, held.set_path(alloc, "$"));
    refuses(&rt, held.set_in_place(alloc, &Value::Null), NO_VALUE);
}
