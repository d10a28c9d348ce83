//! Both selectors from their setters to its answers, and each call that takes memory once.

use crate::answers::{document, finds, lacks_path, lacks_value, selects, tells};
use crate::asserts::check;
use crate::outcomes::says;
use jsonpath_paths::PathParser;
use jsonpath_select::{
    AnyPath, JsonPathError, JsonSelector, Parser, Selector, compile_path, error_of_parse_fault,
    select_path,
};
use serde::Deserialize;
use std::process::Abort;
use std::rc::Rc;
use std::test::Fail;

#[derive(Drop, Deserialize)]
struct Friend {
    name: String,
    age: u8,
}

const DOCUMENT: &str = "{\"friends\":[{\"name\":\"a\",\"age\":30},{\"name\":\"b\",\"age\":20}]}";

const NO_FRIENDS: &str = "{\"friends\":[]}";

// The answer is the second friend alone.
fn is_second(rt: &(impl Abort + AllocGlobal), found: Result<Vec<Friend>, JsonPathError>) {
    let friends = found.expect(rt, "an answer");
    assert_eq!(rt; friends.len(), 1);
    check!(rt; friends[0].name.as_str() == "b");
    check!(rt; friends[0].age == 20);
}

fn path<'a>(rt: &(impl Abort + AllocGlobal), text: &'a str) -> PathParser<'a> {
    compile_path(rt.alloc(), text).expect(rt, "a path")
}

#[test]
fn selector_answers_by_what_it_holds(rt: HostRuntime) {
    let alloc = rt.alloc();
    let first = document(&rt, DOCUMENT);
    let second = document(&rt, NO_FRIENDS);
    let mut selector = JsonSelector::default();
    check!(rt; lacks_path(&selector.select(alloc)));
    check!(rt; selector .reset_parser(alloc, path(&rt, "$.friends[*].age")) .is_ok());
    check!(rt; lacks_value(&selector.select(alloc)));
    selector.value(&first);
    says(&rt, selector.select_as_str(alloc), "[30,20]");
    says(&rt, selector.reset_value().select_as_str(alloc), "[30,20]");
    selector.value(&second);
    says(&rt, selector.select_as_str(alloc), "[]");
}

#[test]
fn unread_numbers_are_selected(rt: HostRuntime) {
    let alloc = rt.alloc();
    let numbers = document(&rt, "[{\"a\":1},{\"b\":2},{\"a\":\"x\"},{\"a\":1.5}]");
    let path = path(&rt, "$[?(@.a != 1)].a");
    let found = path.select(alloc, &numbers).expect(&rt, "an answer");
    assert_eq!(rt; found.len(), 2);
    check!(rt; found[0].as_str() == Some("x"));
    check!(rt; found[1].is_f64());
}

#[test]
fn selector_answers_by_a_shared_path(rt: HostRuntime) {
    let alloc = rt.alloc();
    let first = document(&rt, DOCUMENT);
    let shared = Rc::new(alloc, path(&rt, "$..age")).expect(&rt, "a shared path");
    let mut selector = JsonSelector::default();
    selector.reset_parser_ref(shared).value(&first);
    selects(&rt, selector.select(alloc), "[30,20]");
    finds(&rt, selector.select_spots(alloc), "[30,20]");
}

#[test]
fn selected_values_are_typed(rt: HostRuntime) {
    let alloc = rt.alloc();
    let document = document(&rt, DOCUMENT);
    let parser = path(&rt, "$..friends[?(@.age < 30)]");
    let mut selector = JsonSelector::new(alloc, parser).expect(&rt, "a selector");
    is_second(&rt, selector.value(&document).select_as::<Friend>(alloc));
}

#[test]
fn one_path_serves_many_documents(rt: HostRuntime) {
    let alloc = rt.alloc();
    let path = PathParser::compile(alloc, "$.a['b\\'c']").expect(&rt, "a path");
    let first = document(&rt, "{\"a\":{\"b'c\":1}}");
    let second = document(&rt, "{\"a\":[]}");
    finds(&rt, select_path(alloc, &first, &path), "[1]");
    finds(&rt, select_path(alloc, &second, &path), "[]");
    selects(&rt, path.select(alloc, &first), "[1]");
}

#[test]
fn refused_paths_say_where(rt: HostRuntime) {
    match compile_path(rt.alloc(), "$[a]") {
        Err(JsonPathError::Path(message)) => check!(rt; message.as_str() == "Position:3"),
        _ => check!(rt; false),
    }
}

#[test]
fn selector_by_texts(rt: HostRuntime) {
    let alloc = rt.alloc();
    let first = document(&rt, DOCUMENT);
    let second = document(&rt, NO_FRIENDS);
    let mut selector = Selector::new();
    check!(rt; lacks_path(&selector.select(alloc)));
    check!(rt; selector.str_path(alloc, "$.friends[*].age").is_ok());
    check!(rt; lacks_value(&selector.select_spots(alloc)));
    let unanswered = selector.select_as_str(alloc);
    check!(rt; lacks_value(&unanswered));
    selector.value(&first);
    says(&rt, selector.select_as_str(alloc), "[30,20]");
    says(&rt, selector.reset_value().select_as_str(alloc), "[30,20]");
    selector.value(&second);
    says(&rt, selector.select_as_str(alloc), "[]");
    check!(rt; selector.str_path(alloc, "$.*").is_ok());
    says(&rt, selector.select_as_str(alloc), "[[]]");
}

#[test]
fn setters_chain(rt: HostRuntime) -> Result<(), Fail> {
    let alloc = rt.alloc();
    let document = document(&rt, DOCUMENT);
    let mut selector = Selector::new();
    let by_text = selector
        .value(&document)
        .str_path(alloc, "$.friends[1].name")?
        .select_as_str(alloc);
    says(&rt, by_text, "[\"b\"]");
    Ok(())
}

#[test]
fn selector_by_nodes(rt: HostRuntime) {
    let alloc = rt.alloc();
    let document = document(&rt, DOCUMENT);
    let node = Parser::compile(alloc, "$..name").expect(&rt, "a path");
    let mut selector = Selector::default();
    check!(rt; selector.node_ref().is_none());
    selector.value(&document);
    check!(rt; lacks_path(&selector.select(alloc)));
    selector.compiled_path(&node);
    for _ in 0..2 {
        says(&rt, selector.select_as_str(alloc), "[\"a\",\"b\"]");
        finds(&rt, selector.select_spots(alloc), "[\"a\",\"b\"]");
    }
    match selector.node_ref() {
        Some(held) => check!(rt; held.text() == "$..name"),
        None => check!(rt; false),
    }
}

#[test]
fn refused_text_leaves_the_selector(rt: HostRuntime) {
    let alloc = rt.alloc();
    let document = document(&rt, DOCUMENT);
    let node = Parser::compile(alloc, "$..age").expect(&rt, "a path");
    let mut selector = Selector::new();
    selector.compiled_path(&node).value(&document);
    match selector.str_path(alloc, "$[") {
        Ok(_) => check!(rt; false),
        Err(error) => tells(&rt, &error, "path error: \n$[\n^^\n"),
    }
    says(&rt, selector.select_as_str(alloc), "[30,20]");
    let ages = selector.select_as::<u8>(alloc).expect(&rt, "ages");
    check!(rt; ages.as_slice() == [30, 20].as_slice());
    check!(rt; selector .str_path(alloc, "$..friends[?(@.age < 30)]") .is_ok());
    is_second(&rt, selector.select_as::<Friend>(alloc));
}

#[test]
fn one_node_serves_many_documents(rt: HostRuntime) {
    let alloc = rt.alloc();
    let first = document(&rt, DOCUMENT);
    let second = document(&rt, "[]");
    let node = Parser::compile(alloc, "$..age").expect(&rt, "a path");
    finds(&rt, node.select_spots(alloc, &first), "[30,20]");
    finds(&rt, node.select_spots(alloc, &second), "[]");
    selects(&rt, node.select(alloc, &first), "[30,20]");
}

#[test]
fn refused_nodes_as_errors(rt: HostRuntime) {
    let alloc = rt.alloc();
    match Parser::compile(alloc, "$[a]") {
        Ok(_) => check!(rt; false),
        Err(fault) => {
            tells(
                &rt,
                &error_of_parse_fault(alloc, &fault),
                "path error: \n$[a]\n^^^\n",
            );
            tells(
                &rt,
                &JsonPathError::from(fault),
                "path error: \n$[a]\n^^^\n",
            );
        }
    }
}
