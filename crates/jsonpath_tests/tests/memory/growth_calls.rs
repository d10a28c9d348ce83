//! The calls that the selectors, the update types and the short functions stand on, with any growth of
//! memory refused, one in a run. A refusal in a set-up ends the test.
use crate::asserts::check;
use crate::memory::grown;
use crate::outcomes::{NO_MEMORY, NO_PATH, NO_VALUE, is_refusal, refuses, works};
use jsonpath_lib::layers::tokens_fit;
use jsonpath_lib::{
    AnyPath, Compiled, JsonPathError, JsonSelectorMut, Parser, PathsFault, compile_path,
    compile_paths, document_to_text, error_of_parse_fault, list_to_text, mask_at_paths, path_error,
    read_document, select_path,
};
use jsonpath_paths::{ParseToken, PathParser, StrRange, TokenError, expected_tokens};
use serde_json::Value;
use std::alloc::AllocError;
use std::process::Abort;

// A set-up, or the end of the test.
macro_rules! made {
    ($call:expr) => {
        match $call {
            Ok(it) => it,
            Err(_) => return,
        }
    };
}

#[test]
fn growths_of_selecting_calls(rt: HostRuntime) {
    let alloc = rt.alloc();
    let document = made!(Value::from_str(alloc, "{\"b\":1,\"a\":{\"b\":2}}"));
    let path = made!(compile_path(alloc, "$..[?(@.b)].b"));
    let mut refused = 0u8;
    for _ in 0..2u8 {
        grown::spots(
            &rt,
            &mut refused,
            select_path(alloc, &document, &path),
            &[2],
        );
        grown::values(&rt, &mut refused, path.select(alloc, &document), "[2]");
    }
}

#[test]
fn growths_of_expected_tokens(rt: HostRuntime) {
    let mut refused = 0u8;
    for _ in 0..2u8 {
        match expected_tokens(rt.alloc(), "$.a[") {
            Ok(expected) => {
                check!(rt; expected.is_some_and(|it| it.tokens.len() == 7 && !it.end));
            }
            Err(AllocError) => refused += 1,
        }
    }
    check!(rt; refused < 2);
}

#[test]
fn growths_of_selecting_nodes(rt: HostRuntime) {
    let alloc = rt.alloc();
    let document = made!(Value::from_str(alloc, "{\"b\":1,\"a\":{\"b\":2}}"));
    let node = made!(Parser::compile(alloc, "$..b"));
    let mut refused = 0u8;
    for _ in 0..2u8 {
        grown::spots(
            &rt,
            &mut refused,
            node.select_spots(alloc, &document),
            &[1, 2],
        );
        grown::values(&rt, &mut refused, node.select(alloc, &document), "[1,2]");
    }
}

#[test]
fn growths_of_counting(rt: HostRuntime) {
    let alloc = rt.alloc();
    let document = made!(Value::from_str(
        alloc,
        "[{\"v\":1},{\"v\":2},{\"v\":3},{\"v\":4},{\"v\":5},{\"v\":6}]",
    ));
    let path = made!(compile_path(alloc, "$[?(@.v > $[3].v)].v"));
    let mut refused = 0u8;
    for _ in 0..2u8 {
        match path.count(alloc, &document) {
            Ok(count) => check!(rt; count == 2),
            Err(error) => grown::once(&rt, &mut refused, &error),
        }
        match path.first(alloc, &document) {
            Ok(first) => check!(rt; first.is_some_and(|it| it.as_u64() == Some(5))),
            Err(error) => grown::once(&rt, &mut refused, &error),
        }
        match path.exists(alloc, &document) {
            Ok(any) => check!(rt; any),
            Err(error) => grown::once(&rt, &mut refused, &error),
        }
    }
}

#[test]
fn growths_of_counting_below(rt: HostRuntime) {
    let alloc = rt.alloc();
    let document = made!(Value::from_str(
        alloc,
        "[[1,[{\"a\":1},{\"a\":20}]],{\"a\":{\"a\":5},\"b\":[[{\"a\":3}]]}]",
    ));
    let path = made!(compile_path(alloc, "$..[?(@.a < 10)]"));
    let mut refused = 0u8;
    for _ in 0..2u8 {
        match path.count(alloc, &document) {
            Ok(count) => check!(rt; count == 3),
            Err(error) => grown::once(&rt, &mut refused, &error),
        }
    }
}

#[test]
fn growths_of_counting_by_filters(rt: HostRuntime) {
    let alloc = rt.alloc();
    let document = made!(Value::from_str(
        alloc,
        "[{\"a\":[{\"b\":1},{\"b\":2,\"c\":3}]},{\"a\":{\"b\":4}},{\"b\":5}]",
    ));
    let path = made!(compile_path(alloc, "$[?(@.a)].a[?(@.b > 1)].b"));
    let mut refused = 0u8;
    for _ in 0..2u8 {
        match path.count(alloc, &document) {
            Ok(count) => check!(rt; count == 2),
            Err(error) => grown::once(&rt, &mut refused, &error),
        }
    }
}

#[test]
fn growths_of_the_first_by_filters(rt: HostRuntime) {
    let alloc = rt.alloc();
    let document = made!(Value::from_str(
        alloc,
        "[{\"a\":[{\"b\":1},{\"b\":2,\"c\":3}]},{\"a\":{\"b\":4}},{\"b\":5}]",
    ));
    let path = made!(compile_path(alloc, "$..[?(@.a)].a[?(@.b > 1)].b"));
    let mut refused = 0u8;
    for _ in 0..2u8 {
        match path.first(alloc, &document) {
            Ok(first) => check!(rt; first.is_some_and(|it| it.as_u64() == Some(2))),
            Err(error) => grown::once(&rt, &mut refused, &error),
        }
    }
}

fn texts_grow(rt: &(impl Abort + AllocGlobal), refused: &mut u8, document: &Value) {
    let alloc = rt.alloc();
    grown::text(
        rt,
        refused,
        document_to_text(alloc, document),
        "{\"a\":[1,\"x\"]}",
    );
    let twice = "[{\"a\":[1,\"x\"]},{\"a\":[1,\"x\"]}]";
    grown::text(
        rt,
        refused,
        list_to_text(alloc, &[document, document]),
        twice,
    );
}

#[test]
fn growths_of_reading_and_printing(rt: HostRuntime) {
    let alloc = rt.alloc();
    let mut refused = 0u8;
    for _ in 0..2u8 {
        match read_document(alloc, b"{\"a\":[1,\"x\"]}") {
            Ok(document) => texts_grow(&rt, &mut refused, &document),
            Err(error) => grown::once(&rt, &mut refused, &error),
        }
    }
}

// Asserts that a refusal tells of a path, or of memory.
fn is_of_path(rt: &impl Abort, error: &JsonPathError) {
    check!(rt; matches!(error, JsonPathError::Path(_) | JsonPathError::OutOfMemory));
}

#[test]
fn growths_of_errors(rt: HostRuntime) {
    let alloc = rt.alloc();
    for _ in 0..2u8 {
        is_of_path(&rt, &path_error(alloc, &TokenError::Position(7)));
        if let Err(fault) = Parser::compile(alloc, "$[") {
            is_of_path(&rt, &error_of_parse_fault(alloc, &fault));
        }
    }
}

// Asserts whether tokens fit, or that this is the only call that was refused.
fn fits(rt: &impl Abort, refused: &mut u8, answer: Result<bool, JsonPathError>, want: bool) {
    match answer {
        Ok(is_fit) => check!(rt; is_fit == want),
        Err(error) => grown::once(rt, refused, &error),
    }
}

#[test]
fn growths_of_token_lists(rt: HostRuntime) {
    let alloc = rt.alloc();
    let tokens = [
        ParseToken::Absolute,
        ParseToken::In,
        ParseToken::Key(StrRange::new(1, 1)),
    ];
    let mut refused = 0u8;
    for _ in 0..2u8 {
        fits(&rt, &mut refused, tokens_fit(alloc, "ab", &tokens), true);
        fits(&rt, &mut refused, tokens_fit(alloc, "ab", &[]), false);
    }
}

// Asserts that a call was refused for memory, and left this document.
fn is_left(rt: &(impl Abort + AllocGlobal), error: &JsonPathError, document: &Value, text: &str) {
    is_refusal(rt, error, NO_MEMORY);
    grown::is_now(rt, document, text);
}

fn deletion_grows(rt: &(impl Abort + AllocGlobal), document: &mut Value, path: &PathParser<'_>) {
    if let Err(error) = path.delete_in(rt.alloc(), document) {
        is_left(rt, &error, document, "[1,2,3,4]");
        works(rt, path.delete_in(rt.alloc(), document));
    }
    grown::is_now(rt, document, "[null,2,null,4]");
}

fn removal_grows(rt: &(impl Abort + AllocGlobal), document: &mut Value, path: &PathParser<'_>) {
    if let Err(error) = path.remove_in(rt.alloc(), document) {
        is_left(rt, &error, document, "[null,2,null,4]");
        works(rt, path.remove_in(rt.alloc(), document));
    }
    grown::is_now(rt, document, "[2,4]");
}

fn truth(_old: Value) -> Option<Value> {
    Some(Value::Bool(true))
}

fn replacement_grows(rt: &(impl Abort + AllocGlobal), document: &mut Value, path: &PathParser<'_>) {
    if let Err(error) = path.replace_in(rt.alloc(), document, &mut truth) {
        is_left(rt, &error, document, "[2,4]");
        works(rt, path.replace_in(rt.alloc(), document, &mut truth));
    }
    grown::is_now(rt, document, "[true,4]");
}

#[test]
fn growths_of_changing_calls(rt: HostRuntime) {
    let alloc = rt.alloc();
    let path = made!(compile_path(alloc, "$[0,2]"));
    let mut document = made!(Value::from_str(alloc, "[1,2,3,4]"));
    deletion_grows(&rt, &mut document, &path);
    removal_grows(&rt, &mut document, &path);
    replacement_grows(&rt, &mut document, &path);
}

fn masks_grow(rt: &(impl Abort + AllocGlobal), document: &mut Value, paths: &[PathParser<'_>]) {
    if let Err(error) = mask_at_paths(rt.alloc(), document, paths) {
        is_left(rt, &error, document, "{\"a\":{\"b\":1},\"c\":[1,2]}");
        works(rt, mask_at_paths(rt.alloc(), document, paths));
    }
    grown::is_now(rt, document, "{\"a\":{\"b\":null},\"c\":[null,2]}");
}

#[test]
fn growths_of_lists_of_paths(rt: HostRuntime) {
    let alloc = rt.alloc();
    let mut document = made!(Value::from_str(alloc, "{\"a\":{\"b\":1},\"c\":[1,2]}"));
    let paths = made!(compile_paths(alloc, &["$.a.b", "$.c[0]"]));
    masks_grow(&rt, &mut document, paths.as_slice());
}

// Asserts that the second path is told where it is no path, and none where memory is wanted.
fn is_second(rt: &impl Abort, refused: &PathsFault) {
    let is_path = matches!(refused.fault, JsonPathError::Path(_));
    check!(rt; refused.index == if is_path { Some(1) } else { None });
}

#[test]
fn growths_of_refused_lists_of_paths(rt: HostRuntime) {
    match compile_paths(rt.alloc(), &["$.a", "$["]) {
        Ok(_paths) => check!(rt; false),
        Err(refused) => is_second(&rt, &refused),
    }
}

#[test]
fn growths_of_owned_paths(rt: HostRuntime) {
    let alloc = rt.alloc();
    let document = made!(Value::from_str(alloc, "{\"a\":{\"a\":1},\"b\":{\"a\":2}}"));
    let compiled = made!(Compiled::compile(alloc, "$..a"));
    match compiled.delete(alloc, document) {
        Ok(changed) => grown::is_now(&rt, &changed, "{\"a\":null,\"b\":{\"a\":null}}"),
        Err(error) => is_refusal(&rt, &error, NO_MEMORY),
    }
}

// Asserts that a closure was asked for one value, or for none where memory was wanted.
fn is_asked(rt: &(impl Abort + AllocGlobal), outcome: Result<Value, JsonPathError>, calls: u8) {
    match outcome {
        Ok(changed) => {
            check!(rt; calls == 1);
            grown::is_now(rt, &changed, "[{\"a\":null}]");
        }
        Err(error) => {
            check!(rt; calls == 0);
            is_refusal(rt, &error, NO_MEMORY);
        }
    }
}

#[test]
fn growths_of_replacements_by_owned_paths(rt: HostRuntime) {
    let alloc = rt.alloc();
    let document = made!(Value::from_str(alloc, "[{\"a\":1}]"));
    let compiled = made!(Compiled::compile(alloc, "$..a"));
    let mut calls = 0u8;
    let outcome = compiled.replace_with(
        alloc,
        document,
        &mut |_old: Value| {
            calls = calls.wrapping_add(1);
            Some(Value::Null)
        },
    );
    is_asked(&rt, outcome, calls);
}

#[test]
fn growths_of_new_paths(rt: HostRuntime) {
    let alloc = rt.alloc();
    let mut held = JsonSelectorMut::default();
    let parser = made!(compile_path(alloc, "$"));
    let missing = match held.set_parser(alloc, parser) {
        Ok(()) => NO_VALUE,
        Err(_refused) => NO_PATH,
    };
    refuses(&rt, held.delete(alloc), missing);
}
