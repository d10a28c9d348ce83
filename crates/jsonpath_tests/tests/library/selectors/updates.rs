//! The update types: what they answer, what they hold, and what a refusal leaves.

use crate::answers::{counts, document, marks};
use crate::asserts::check;
use crate::outcomes::{NO_PATH, NO_VALUE, is_held, refuses, works};
use jsonpath_lib::{
    JsonPathError, JsonSelectorMut, Parser, PathParser, SelectorMut, compile_path, select,
};
use serde_json::{Map, Number, Value};
use std::alloc::{AllocError, Global};
use std::process::Abort;
use std::rc::Rc;

const FRIENDS: &str =
    "{\"school\":{\"friends\":[{\"name\":\"친구1\",\"age\":20},{\"name\":\"친구2\",\"age\":20}]},\"friends\":[{\"name\":\"친구3\",\"age\":30},{\"name\":\"친구4\"}]}";

const STORE: &str =
    "{\"store\":{\"book\":[{\"price\":895},{\"price\":1299},{\"price\":899},{\"price\":2299}],\"bicycle\":{\"price\":1995}}}";

fn path<'a>(rt: &(impl Abort + AllocGlobal), text: &'a str) -> PathParser<'a> {
    compile_path(rt.alloc(), text).expect(rt, "a path")
}

fn holder<'a>(rt: &(impl Abort + AllocGlobal), text: &'a str, json: &str) -> JsonSelectorMut<'a> {
    let mut held = JsonSelectorMut::new(rt.alloc(), path(rt, text)).expect(rt, "a selector");
    held.value(document(rt, json));
    held
}

fn deletes(rt: &(impl Abort + AllocGlobal), path: &str, json: &str, after: &str) {
    let mut held = holder(rt, path, json);
    works(rt, held.delete(rt.alloc()));
    is_held(rt, held.take(), after);
}

fn removes(rt: &(impl Abort + AllocGlobal), path: &str, json: &str, after: &str) {
    let mut held = holder(rt, path, json);
    works(rt, held.remove(rt.alloc()));
    is_held(rt, held.take(), after);
}

fn deletes_then_removes(
    alloc: Global,
    held: &mut SelectorMut,
    document: Value,
) -> Result<(), JsonPathError> {
    held.value(document)
        .str_path(alloc, "$.a")?
        .delete(alloc)?
        .str_path(alloc, "$.b")?
        .remove(alloc)?;
    Ok(())
}

fn sets_all(alloc: Global, held: &mut SelectorMut) -> Result<Option<Value>, JsonPathError> {
    let set = held.str_path(alloc, "$.*")?.set(alloc, &Value::Bool(true))?;
    Ok(set.take())
}

fn removes_then_replaces<'a>(
    alloc: Global,
    held: &mut JsonSelectorMut<'a>,
    second: PathParser<'a>,
) -> Result<(), JsonPathError> {
    held.remove(alloc)?
        .reset_parser(alloc, second)?
        .replace_with(alloc, &mut to_null)?;
    Ok(())
}

fn sets_by<'a>(
    alloc: Global,
    held: &mut JsonSelectorMut<'a>,
    path: PathParser<'a>,
) -> Result<Option<Value>, JsonPathError> {
    let set = held
        .reset_parser(alloc, path)?
        .set(alloc, &Value::Bool(false))?;
    Ok(set.take())
}

fn to_null(_old: Value) -> Option<Value> {
    Some(Value::Null)
}

#[test]
fn updates_chain(rt: HostRuntime) {
    let alloc = rt.alloc();
    let mut by_text = SelectorMut::new();
    let document = document(&rt, "{\"a\":1,\"b\":2}");
    works(&rt, deletes_then_removes(alloc, &mut by_text, document));
    becomes_held(&rt, sets_all(alloc, &mut by_text), "{\"a\":true}");
    let mut by_path = holder(&rt, "$[0]", "[1,2,3]");
    works(
        &rt,
        removes_then_replaces(alloc, &mut by_path, path(&rt, "$[1]")),
    );
    becomes_held(
        &rt,
        sets_by(alloc, &mut by_path, path(&rt, "$[0]")),
        "[false,null]",
    );
}

// Asserts that a call handed a document out, and how it prints.
fn becomes_held(
    rt: &(impl Abort + AllocGlobal),
    taken: Result<Option<Value>, JsonPathError>,
    want: &str,
) {
    match taken {
        Ok(held) => is_held(rt, held, want),
        Err(_refused) => check!(rt; false, want),
    }
}

#[test]
fn deletes_the_topmost(rt: HostRuntime) {
    for (path, json, after) in [
        (
            "$..[?(20 == @.age)]",
            FRIENDS,
            "{\"friends\":[{\"age\":30,\"name\":\"친구3\"},{\"name\":\"친구4\"}],\"school\":{\"friends\":[null,null]}}",
        ),
        (
            "$.store..price[?(@>1300)]",
            STORE,
            "{\"store\":{\"bicycle\":{\"price\":null},\"book\":[{\"price\":895},{\"price\":1299},{\"price\":899},{\"price\":null}]}}",
        ),
        (
            "$.store.book",
            STORE,
            "{\"store\":{\"bicycle\":{\"price\":1995},\"book\":null}}",
        ),
        ("$", "{\"a\":1}", "{\"a\":1}"),
        (
            "$..a",
            "{\"a\":{\"a\":1},\"b\":{\"a\":2}}",
            "{\"a\":null,\"b\":{\"a\":null}}",
        ),
        (
            "$..*",
            "{\"a\":[1,{\"b\":2}],\"c\":3}",
            "{\"a\":null,\"c\":null}",
        ),
        (
            "$..[?(@.a)]",
            "{\"x\":{\"a\":{\"a\":1}},\"y\":[{\"a\":2},3]}",
            "{\"x\":null,\"y\":[null,3]}",
        ),
    ] {
        deletes(&rt, path, json, after);
    }
}

#[test]
fn removes_at_once(rt: HostRuntime) {
    for (path, json, after) in [
        ("$[0,2]", "[1,2,3]", "[2]"),
        ("$[*]", "[1,2,3,4]", "[]"),
        ("$[0,0]", "[1,2]", "[2]"),
        ("$..[0,1]", "[[1,2],3,4]", "[4]"),
        ("$..a", "{\"a\":{\"a\":1},\"b\":2}", "{\"b\":2}"),
        ("$", "{\"a\":1}", "{\"a\":1}"),
        (
            "$.store..price[?(@>1300)]",
            STORE,
            "{\"store\":{\"bicycle\":{},\"book\":[{\"price\":895},{\"price\":1299},{\"price\":899},{}]}}",
        ),
    ] {
        removes(&rt, path, json, after);
    }
}

fn doubled(value: Value) -> Option<Value> {
    match value.as_u64() {
        Some(1) => None,
        Some(n) => Some(Value::Number(Number::from(n.wrapping_mul(2)))),
        None => None,
    }
}

fn replaces(rt: &(impl Abort + AllocGlobal), path: &str, json: &str, after: &str) {
    let mut held = holder(rt, path, json);
    let outcome = held.replace_with(rt.alloc(), &mut |value: Value| doubled(value));
    works(rt, outcome);
    is_held(rt, held.take(), after);
}

#[test]
fn replaces_one_after_another(rt: HostRuntime) {
    for (path, json, after) in [
        (
            "$..[?(@.age == 20)].age",
            FRIENDS,
            "{\"friends\":[{\"age\":30,\"name\":\"친구3\"},{\"name\":\"친구4\"}],\"school\":{\"friends\":[{\"age\":40,\"name\":\"친구1\"},{\"age\":40,\"name\":\"친구2\"}]}}",
        ),
        ("$[0,1]", "[1,2,3]", "[2,6]"),
        ("$..a", "{\"a\":{\"a\":1},\"b\":2}", "{\"b\":2}"),
        ("$[0,0]", "[1,2]", "[2]"),
        ("$[*]", "[1,1,1,1]", "[1,1]"),
        ("$..[0,1]", "[[1,2],3,1]", "[3]"),
        ("$", "{\"a\":1}", "{\"a\":1}"),
    ] {
        replaces(&rt, path, json, after);
    }
}

#[test]
fn closures_count_their_calls(rt: HostRuntime) {
    let mut calls = 0_u64;
    let mut held = holder(&rt, "$[0,2,0]", "[1,2,3]");
    let outcome = held.replace_with(
        rt.alloc(),
        &mut |_old: Value| {
            calls = calls.wrapping_add(1);
            None
        },
    );
    works(&rt, outcome);
    check!(rt; calls == 1);
    is_held(&rt, held.take(), "[2,3]");
}

// `[null,2.5]`, as a deletion leaves it.
fn with_unread(rt: &(impl Abort + AllocGlobal)) -> Value {
    let mut held = holder(rt, "$[0]", "[1,2.5]");
    works(rt, held.delete(rt.alloc()));
    held.take().expect(rt, "a document")
}

// Whether it is null and a number that is no whole one.
fn is_null_and_unread(value: &Value) -> bool {
    match value.as_array() {
        Some(items) if items.len() == 2 => items[0].is_null() && items[1].is_f64(),
        _ => false,
    }
}

#[test]
fn unread_numbers_are_carried(rt: HostRuntime) {
    let value = with_unread(&rt);
    check!(rt; is_null_and_unread(&value));
    let mut held = holder(&rt, "$[1]", "[]");
    let mut handed_unread = false;
    held.value(value);
    let outcome = held.replace_with(
        rt.alloc(),
        &mut |old: Value| {
            handed_unread = old.is_f64();
            Some(Value::Bool(true))
        },
    );
    works(&rt, outcome);
    check!(rt; handed_unread);
    is_held(&rt, held.take(), "[null,true]");
}

#[test]
fn a_path_is_missed_before_a_document(rt: HostRuntime) {
    let alloc = rt.alloc();
    let mut held = JsonSelectorMut::default();
    refuses(&rt, held.delete(alloc), NO_PATH);
    held.value(Value::Null);
    refuses(&rt, held.remove(alloc), NO_PATH);
    is_held(&rt, held.take(), "null");
    works(&rt, held.reset_parser(alloc, path(&rt, "$.a")));
    refuses(&rt, held.delete(alloc), NO_VALUE);
}

#[test]
fn no_closure_is_asked_without_a_document(rt: HostRuntime) {
    let path = Rc::new(rt.alloc(), path(&rt, "$.a")).expect(&rt, "a shared path");
    let mut held = JsonSelectorMut::default();
    held.reset_parser_ref(path);
    let mut asked = false;
    let refused = held.replace_with(
        rt.alloc(),
        &mut |_old: Value| {
            asked = true;
            None
        },
    );
    refuses(&rt, refused, NO_VALUE);
    check!(rt; !asked);
}

fn holds_none(rt: &impl Abort, held: Option<Value>) {
    match held {
        Some(_value) => check!(rt; false),
        None => {}
    }
}

#[test]
fn shared_paths_change_what_each_holds(rt: HostRuntime) {
    let alloc = rt.alloc();
    let path = Rc::new(alloc, path(&rt, "$.a")).expect(&rt, "a shared path");
    let mut held = JsonSelectorMut::default();
    held.reset_parser_ref(path.clone().expect(&rt, "a copy"));
    held.value(document(&rt, "{\"a\":1}"));
    works(&rt, held.delete(alloc));
    works(&rt, held.delete(alloc));
    is_held(&rt, held.take(), "{\"a\":null}");
    holds_none(&rt, held.take());
    let mut shared = JsonSelectorMut::new_ref(path);
    shared.value(document(&rt, "{\"a\":1,\"b\":2}"));
    works(&rt, shared.remove(alloc));
    is_held(&rt, shared.take(), "{\"b\":2}");
}

#[test]
fn paths_come_as_texts_or_compiled(rt: HostRuntime) {
    let alloc = rt.alloc();
    let mut held = SelectorMut::new();
    refuses(&rt, held.delete(alloc), NO_PATH);
    works(&rt, held.str_path(alloc, "$..a"));
    refuses(&rt, held.remove(alloc), NO_VALUE);
    held.value(document(&rt, "{\"a\":{\"a\":1},\"b\":{\"a\":2}}"));
    marks(&rt, held.str_path(alloc, "$["), "$[\n^^");
    works(&rt, held.delete(alloc));
    held.compiled_path(Parser::compile(alloc, "$.b").expect(&rt, "a path"));
    works(&rt, held.remove(alloc));
    is_held(&rt, held.take(), "{\"a\":null}");
    refuses(&rt, held.delete(alloc), NO_VALUE);
}

// An object that has the value alone, by a name.
fn wrapped(alloc: Global, name: &str, value: Value) -> Result<Value, AllocError> {
    let mut members = Map::new(alloc);
    members.insert(String::from_str(alloc, name)?, value)?;
    Ok(Value::Object(members))
}

// Wraps each of two values by a name.
fn wraps(rt: &(impl Abort + AllocGlobal), path: &str, name: &str, json: &str, after: &str) {
    let alloc = rt.alloc();
    let mut calls = 0_u64;
    let mut held = SelectorMut::default();
    works(rt, held.str_path(alloc, path));
    held.value(document(rt, json));
    let outcome = held.replace_with(
        alloc,
        &mut |old: Value| {
            calls = calls.wrapping_add(1);
            wrapped(alloc, name, old).ok()
        },
    );
    works(rt, outcome);
    check!(rt; calls == 2);
    is_held(rt, held.take(), after);
}

#[test]
fn closures_change_shapes(rt: HostRuntime) {
    wraps(
        &rt,
        "$..[0]",
        "0",
        "[[1,2],[3]]",
        "[{\"0\":[1,2]},[{\"0\":3}]]",
    );
    wraps(
        &rt,
        "$..a",
        "a",
        "{\"a\":{\"a\":1}}",
        "{\"a\":{\"a\":{\"a\":{\"a\":1}}}}",
    );
}

#[test]
fn closures_give_null(rt: HostRuntime) {
    for (path, json, after) in [
        (
            "$..[?(20 == @.age)]",
            FRIENDS,
            "{\"friends\":[{\"age\":30,\"name\":\"친구3\"},{\"name\":\"친구4\"}],\"school\":{\"friends\":[null,null]}}",
        ),
        (
            "$..a",
            "{\"a\":{\"a\":1},\"b\":{\"a\":2}}",
            "{\"a\":null,\"b\":{\"a\":null}}",
        ),
        ("$", "{\"a\":1}", "{\"a\":1}"),
    ] {
        let mut held = holder(&rt, path, json);
        works(&rt, held.replace_with(rt.alloc(), &mut to_null));
        is_held(&rt, held.take(), after);
    }
}

// A value in so many arrays.
fn nested(alloc: Global, levels: usize) -> Result<Value, AllocError> {
    let mut value = Value::Null;
    for _ in 0..levels {
        let mut items = Vec::new(alloc);
        items.push(value)?;
        value = Value::Array(items);
    }
    Ok(value)
}

// `{"a":1,"b":2}` with a value in 1,000 arrays for the 1, by a closure.
fn nested_by_closure(rt: &(impl Abort + AllocGlobal)) -> Value {
    let mut deep = Some(nested(rt.alloc(), 1000).expect(rt, "a deep value"));
    let mut held = SelectorMut::new();
    works(rt, held.str_path(rt.alloc(), "$.a"));
    held.value(document(rt, "{\"a\":1,\"b\":2}"));
    let outcome = held.replace_with(rt.alloc(), &mut |_old: Value| deep.take());
    works(rt, outcome);
    held.take().expect(rt, "a document")
}

#[test]
fn closures_nest_deeply(rt: HostRuntime) {
    let alloc = rt.alloc();
    let document = nested_by_closure(&rt);
    counts(&rt, select(alloc, &document, "$..*"), 1002);
    counts(&rt, select(alloc, &document, "$..[0]"), 1000);
    let mut held = SelectorMut::new();
    works(&rt, held.str_path(alloc, "$..[0]"));
    held.value(document);
    works(&rt, held.remove(alloc));
    is_held(&rt, held.take(), "{\"a\":[],\"b\":2}");
}
