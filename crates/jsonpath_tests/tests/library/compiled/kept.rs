//! Compiled paths for many documents, and documents for many paths.

use crate::answers::{document, marks, selects};
use crate::asserts::check;
use crate::outcomes::{BAD_PATH, BAD_VALUE, becomes, prints, refuses};
use jsonpath_lib::{
    Compiled, JsonPathError, ParseFault, PathCompiled, compile, selector, selector_as,
};
use serde::Deserialize;
use serde_json::Value;
use std::process::Abort;

const FRIENDS: &str =
    "{\"school\":{\"friends\":[{\"name\":\"친구1\",\"age\":20},{\"name\":\"친구2\",\"age\":20}]},\"friends\":[{\"name\":\"친구3\",\"age\":30},{\"name\":\"친구4\"}]}";

#[derive(Drop, Deserialize)]
struct Friend {
    name: String,
    age: Option<u8>,
}

#[test]
fn shared_paths_answer_each_document(rt: HostRuntime) {
    let alloc = rt.alloc();
    let first = document(&rt, "{\"foo\":{\"bar\":\"baz\"}}");
    let other = document(&rt, "{\"foo\":{\"bar\":[1]}}");
    let compiled = PathCompiled::compile(alloc, "$.foo.bar").expect(&rt, "a path");
    let copy = compiled.clone().expect(&rt, "a copy");
    selects(&rt, compiled.select(alloc, &first), "[\"baz\"]");
    selects(&rt, compiled.select(alloc, &first), "[\"baz\"]");
    selects(&rt, copy.select(alloc, &other), "[[1]]");
}

#[test]
fn refused_texts_are_no_shared_paths(rt: HostRuntime) {
    refuses(&rt, PathCompiled::compile(rt.alloc(), ""), BAD_PATH);
    refuses(&rt, PathCompiled::compile(rt.alloc(), "$["), BAD_PATH);
}

#[test]
fn one_document_answers_many_paths(rt: HostRuntime) {
    let alloc = rt.alloc();
    let document = document(&rt, FRIENDS);
    let all = selector(&document);
    let seconds = "[{\"name\":\"친구4\"},{\"age\":20,\"name\":\"친구2\"}]";
    selects(&rt, all.select(alloc, "$..friends[1]"), seconds);
    let older = "[{\"age\":30,\"name\":\"친구3\"}]";
    selects(&rt, all.select(alloc, "$..[?(@.age >= 30)]"), older);
    refuses(&rt, all.select(alloc, "$["), BAD_PATH);
}

// Asserts the names and ages of two friends.
fn are_friends(rt: &impl Abort, found: Result<Vec<Friend>, JsonPathError>) {
    let friends = found.expect(rt, "friends");
    check!(rt; friends.len() == 2);
    for (number, friend) in friends.iter().enumerate() {
        check!(rt; (friend.name.as_str() == "친구4") == (number == 0));
        check!(rt; friend.age == if number == 0 { None } else { Some(20) });
    }
}

#[test]
fn one_document_answers_as_typed_values(rt: HostRuntime) {
    let alloc = rt.alloc();
    let document = document(&rt, FRIENDS);
    let friends = selector_as::<Friend>(&document);
    are_friends(&rt, friends.select(alloc, "$..friends[1]"));
    refuses(&rt, friends.select(alloc, "$.school"), BAD_VALUE);
    refuses(&rt, friends.select(alloc, "$.school]"), BAD_PATH);
}

// Asserts that a text is refused, and how the refusal shows it.
fn is_marked(rt: &impl Abort, compiled: Result<Compiled, ParseFault>, shown: &str) {
    match compiled {
        Err(ParseFault::Text(message)) => check!(rt; message.as_str() == shown, shown),
        _other => check!(rt; false, shown),
    }
}

#[test]
fn owned_paths_answer_each_document(rt: HostRuntime) {
    let alloc = rt.alloc();
    let document = document(&rt, FRIENDS);
    let compiled = Compiled::compile(alloc, "$..age").expect(&rt, "a path");
    let copy = compiled.clone().expect(&rt, "a copy");
    selects(&rt, copy.select(alloc, &document), "[30,20,20]");
    is_marked(&rt, Compiled::compile(alloc, "$["), "$[\n^^");
}

fn truth(_old: Value) -> Option<Value> {
    Some(Value::Bool(true))
}

#[test]
fn owned_paths_change_each_document(rt: HostRuntime) {
    let alloc = rt.alloc();
    let compiled = Compiled::compile(alloc, "$..age").expect(&rt, "a path");
    let document = document(&rt, "[{\"age\":1}]");
    let deleted = compiled.delete(alloc, document).expect(&rt, "a document");
    prints(&rt, &deleted, "[{\"age\":null}]");
    let replaced = compiled.replace_with(alloc, deleted, &mut truth);
    becomes(&rt, replaced, "[{\"age\":true}]");
}

#[test]
fn refusals_are_kept(rt: HostRuntime) {
    let alloc = rt.alloc();
    let document = document(&rt, FRIENDS);
    let refused = compile(alloc, "$[");
    marks(&rt, refused.select(alloc, &document), "$[\n^^");
    marks(&rt, refused.select(alloc, &document), "$[\n^^");
}

#[test]
fn kept_paths_answer_each_document(rt: HostRuntime) {
    let alloc = rt.alloc();
    let friends = document(&rt, FRIENDS);
    let other = document(&rt, "{\"name\":1}");
    let compiled = compile(alloc, "$..name");
    let names = "[\"친구3\",\"친구4\",\"친구1\",\"친구2\"]";
    selects(&rt, compiled.select(alloc, &friends), names);
    selects(&rt, compiled.select(alloc, &other), "[1]");
}
