//! Updates by what is kept: each kind of update, by each kept path and each update type.

use crate::answers::document;
use crate::asserts::check;
use crate::outcomes::{NO_PATH, becomes, is_held, is_refusal, prints, works};
use jsonpath_lib::{
    AnyPath, Compiled, JsonSelectorMut, Parser, PathCompiled, SelectorMut, TryFault, compile_path,
};
use serde_json::Value;
use std::process::Abort;

const JSON: &str = "[{\"a\":1},{\"a\":2},3]";

const NULLED: &str = "[{\"a\":null},{\"a\":null},3]";

const FIRST_NULLED: &str = "[{\"a\":null},{\"a\":2},3]";

const SET: &str = "[{\"a\":true},{\"a\":true},3]";

const REMOVED: &str = "[{},{},3]";

fn gone(_old: Value) -> Option<Value> {
    None
}

// Null for a number below 2; any other number is refused.
fn below_two(old: &Value) -> Result<Option<Value>, u8> {
    match old.as_u64() {
        Some(0 | 1) => Ok(Some(Value::Null)),
        _ => Err(7),
    }
}

// Asserts that a closure was not asked, and why.
fn is_unasked(rt: &impl Abort, tried: Result<(), TryFault<u8>>, why: &str) {
    match tried {
        Err(TryFault::Unasked(error)) => is_refusal(rt, &error, why),
        _other => check!(rt; false, why),
    }
}

// Asserts that a closure refused a value.
fn is_ended(rt: &impl Abort, tried: Result<(), TryFault<u8>>) {
    match tried {
        Err(TryFault::Refused(code)) => check!(rt; code == 7),
        _other => check!(rt; false),
    }
}

// Asserts what each kind of update by the path `$[*].a` leaves.
fn changes<P: AnyPath>(rt: &(impl Abort + AllocGlobal), path: &P) {
    let a = rt.alloc();
    let mut changed = document(rt, JSON);
    works(rt, path.delete_in(a, &mut changed));
    prints(rt, &changed, NULLED);
    let mut changed = document(rt, JSON);
    works(rt, path.remove_in(a, &mut changed));
    prints(rt, &changed, REMOVED);
    let mut changed = document(rt, JSON);
    works(rt, path.set_in(a, &mut changed, &Value::Bool(true)));
    prints(rt, &changed, SET);
    let mut changed = document(rt, JSON);
    works(rt, path.replace_in(a, &mut changed, &mut gone));
    prints(rt, &changed, REMOVED);
    let mut changed = document(rt, JSON);
    is_ended(rt, path.try_replace_in(a, &mut changed, &mut below_two));
    prints(rt, &changed, FIRST_NULLED);
}

#[test]
fn compiled_paths_change_documents(rt: HostRuntime) {
    let a = rt.alloc();
    changes(&rt, &compile_path(a, "$[*].a").expect(&rt, "a path"));
    changes(&rt, &Parser::compile(a, "$[*].a").expect(&rt, "a path"));
}

#[test]
fn kept_paths_change_documents(rt: HostRuntime) {
    let a = rt.alloc();
    let shared = PathCompiled::compile(a, "$[*].a").expect(&rt, "a path");
    changes(&rt, &shared);
    becomes(&rt, shared.delete(a, document(&rt, JSON)), NULLED);
    let owned = Compiled::compile(a, "$[*].a").expect(&rt, "a path");
    changes(&rt, &owned);
    becomes(
        &rt,
        owned.replace_with(a, document(&rt, JSON), &mut gone),
        REMOVED,
    );
}

#[test]
fn update_types_end_at_a_refusal(rt: HostRuntime) {
    let a = rt.alloc();
    let mut held = SelectorMut::new();
    is_unasked(&rt, held.try_replace_in_place(a, &mut below_two), NO_PATH);
    works(&rt, held.set_path(a, "$[*].a"));
    held.value(document(&rt, JSON));
    is_ended(&rt, held.try_replace_in_place(a, &mut below_two));
    is_held(&rt, held.take(), FIRST_NULLED);
    let path = compile_path(a, "$[0].a").expect(&rt, "a path");
    let mut held = JsonSelectorMut::new(a, path).expect(&rt, "a selector");
    held.value(document(&rt, JSON));
    works(&rt, held.try_replace_in_place(a, &mut below_two));
    is_held(&rt, held.take(), FIRST_NULLED);
}
