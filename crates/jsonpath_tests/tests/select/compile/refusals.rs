//! How texts compile, and how the others are refused.

use crate::answers::{document, selects, tells};
use crate::asserts::check;
use jsonpath_paths::TokenError;
use jsonpath_select::{AnyPath, JsonPathError, ParseFault, Parser, compile_path, path_error};
use std::process::Abort;

// Asserts how an error prints, either way.
fn prints_as(rt: &(impl Abort + AllocGlobal), error: &JsonPathError, printed: &str) {
    tells(rt, error, printed);
    let text = format!(in rt.alloc(); "{error:?}").expect(rt, "a text");
    check!(rt; text.as_str() == printed);
}

#[test]
fn compiles_and_refuses(rt: HostRuntime) {
    let alloc = rt.alloc();
    check!(rt; compile_path(alloc, "$.a[0]").is_ok_and(|path| path.text() == "$.a[0]"));
    for (text, printed) in [
        ("$[", "path error: \nEof\n"),
        ("$[a]", "path error: \nPosition:3\n"),
    ] {
        match compile_path(alloc, text) {
            Ok(_) => check!(rt; false),
            Err(error) => prints_as(&rt, &error, printed),
        }
    }
    tells(
        &rt,
        &path_error(alloc, &TokenError::OutOfMemory),
        "out of memory",
    );
}

#[test]
fn compiles_and_copies(rt: HostRuntime) {
    let node = Parser::compile(rt.alloc(), "$.a[0]").expect(&rt, "a path");
    let copy = node.clone().expect(&rt, "a copy");
    check!(rt; node.text() == "$.a[0]");
    check!(rt; copy.text() == "$.a[0]");
    let document = document(&rt, "{\"a\":[7,8]}");
    selects(&rt, copy.select(rt.alloc(), &document), "[7]");
}

// Asserts how a fault prints, either way.
fn marks(rt: &(impl Abort + AllocGlobal), fault: &ParseFault, printed: &str) {
    let text = format!(in rt.alloc(); "{fault}").expect(rt, "a text");
    check!(rt; text.as_str() == printed);
    let text = format!(in rt.alloc(); "{fault:?}").expect(rt, "a text");
    check!(rt; text.as_str() == printed);
}

#[test]
fn refuses_with_carets(rt: HostRuntime) {
    for (text, printed) in [
        ("$[a]", "$[a]\n^^^"),
        ("$[", "$[\n^^"),
        ("$a.b", "$a.b\n^^"),
        ("$.a b", "$.a b\n^^^^^"),
        ("$ .a", "$ .a\n^^^"),
        ("$.가&b", "$.가&b\n^^^^^^"),
        ("", "\n"),
    ] {
        match Parser::compile(rt.alloc(), text) {
            Ok(_) => check!(rt; false),
            Err(fault) => marks(&rt, &fault, printed),
        }
    }
    let fault = ParseFault::OutOfMemory;
    let text = format!(in rt.alloc(); "{fault}").expect(&rt, "a text");
    check!(rt; text.as_str() == "out of memory");
}
