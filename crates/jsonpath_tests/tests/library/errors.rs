//! How refusals print, and what a caller reads off them.

use crate::answers::document;
use crate::asserts::check;
use crate::outcomes::prints;
use anyhow::Error as AnyError;
use jsonpath_lib::layers::{ReaderError, StrReader};
use jsonpath_lib::{
    AnyPath, JsonPathError, MaskFault, NoMemory, ParseFault, Parser, PathParser, PathsFault,
    Selector, TokenError, TryFault, compile, compile_path, compile_paths, mask, select_as_str,
};
use serde_json::Value;
use std::alloc::Global;
use std::fmt::Display;
use std::process::Abort;

// Asserts how something prints.
fn prints_as<T: Display>(rt: &(impl Abort + AllocGlobal), shown: &T, want: &str) {
    let text = format!(in rt.alloc(); "{shown}").expect(rt, "a text");
    check!(rt; text.as_str() == want);
}

#[test]
fn errors_of_tokens_and_readers_print(rt: HostRuntime) {
    prints_as(&rt, &TokenError::Eof, "Eof");
    prints_as(&rt, &TokenError::Position(12), "Position:12");
    prints_as(&rt, &TokenError::OutOfMemory, "out of memory");
    prints_as(&rt, &ReaderError::Eof, "Eof");
    prints_as(&rt, &NoMemory, "out of memory");
}

#[test]
fn faults_of_lists_print(rt: HostRuntime) {
    let alloc = rt.alloc();
    match compile_paths(alloc, &["$", "$[a]"]) {
        Ok(_) => check!(rt; false),
        Err(fault) => prints_as(&rt, &fault, "path 1: path error: \nPosition:3\n"),
    }
    match mask(alloc, Value::Null, &["$["]) {
        Ok(_) => check!(rt; false),
        Err(fault) => prints_as(&rt, &fault, "path 0: path error: \nEof\n"),
    }
    let fault = PathsFault {
        index: None,
        fault: JsonPathError::OutOfMemory,
    };
    prints_as(&rt, &fault, "out of memory");
    let fault = MaskFault {
        index: None,
        fault: JsonPathError::OutOfMemory,
        value: Value::Null,
    };
    prints_as(&rt, &fault, "out of memory");
}

#[test]
fn faults_of_closures_print(rt: HostRuntime) {
    prints_as(&rt, &TryFault::Refused(ReaderError::Eof), "Eof");
    let fault: TryFault<ReaderError> = TryFault::Unasked(JsonPathError::EmptyPath);
    prints_as(&rt, &fault, "path not set");
}

#[test]
fn refusals_name_positions(rt: HostRuntime) {
    for (text, position, shown) in [
        ("$[a]", Some(3), "$[a]\n^^^"),
        ("$[", None, "$[\n^^"),
        ("$.가&b", Some(6), "$.가&b\n^^^^^^"),
        ("", None, "\n"),
    ] {
        match compile_path(rt.alloc(), text) {
            Ok(_) => check!(rt; false),
            Err(error) => {
                check!(rt; error.position() == position);
                let marked = error
                    .path_with_carets(rt.alloc(), text)
                    .expect(&rt, "memory");
                check!(rt; marked.is_some_and(|it| it.as_str() == shown));
            }
        }
    }
}

// Asserts the position and the carets of a path's refusal.
fn is_shown(
    rt: &(impl Abort + AllocGlobal),
    refused: &JsonPathError,
    text: &str,
    position: usize,
    shown: &str,
) {
    check!(rt; refused.position() == Some(position), text);
    let marked = refused
        .path_with_carets(rt.alloc(), text)
        .expect(rt, "memory");
    check!(rt; marked.is_some_and(|it| it.as_str() == shown), text);
}

#[test]
fn carets_end_at_positions(rt: HostRuntime) {
    let alloc = rt.alloc();
    for (text, position, shown) in [
        ("$[a]", 3, "$[a]\n^^^"),
        ("$[", 2, "$[\n^^"),
        ("$.가&b", 6, "$.가&b\n^^^^^^"),
        ("", 0, "\n"),
    ] {
        match Parser::compile(alloc, text) {
            Ok(_) => check!(rt; false, text),
            Err(fault) => {
                check!(rt; fault.position() == Some(position), text);
                is_shown(&rt, &JsonPathError::from(fault), text, position, shown);
            }
        }
        match Selector::new().set_path(alloc, text) {
            Ok(()) => check!(rt; false, text),
            Err(error) => is_shown(&rt, &error, text, position, shown),
        }
        match compile(alloc, text).select(alloc, &Value::Null) {
            Ok(_) => check!(rt; false, text),
            Err(error) => is_shown(&rt, &error, text, position, shown),
        }
    }
    check!(rt; ParseFault::OutOfMemory.position().is_none());
}

#[test]
fn other_refusals_name_none(rt: HostRuntime) {
    for error in [
        JsonPathError::EmptyPath,
        JsonPathError::EmptyValue,
        JsonPathError::OutOfMemory,
    ] {
        check!(rt; error.position().is_none());
        let marked = error
            .path_with_carets(rt.alloc(), "$")
            .expect(&rt, "memory");
        check!(rt; marked.is_none());
    }
}

// One character and one answer, under any error.
fn read(alloc: Global, text: &str, path: &str) -> Result<String, AnyError> {
    let mut reader = StrReader::new(path);
    reader.next_char()?;
    PathParser::compile(alloc, path)?;
    Ok(select_as_str(alloc, text, path)?)
}

#[test]
fn refusals_are_errors_of_any_kind(rt: HostRuntime) {
    let alloc = rt.alloc();
    for (text, path, printed) in [
        ("[1]", "", "Eof"),
        ("[1]", "$[a]", "Position:3"),
        (
            "[2.5]",
            "$",
            "serde error: \nnumber is not a whole number of 64 bits\n",
        ),
    ] {
        match read(alloc, text, path) {
            Ok(_) => check!(rt; false),
            Err(error) => prints_as(&rt, &error, printed),
        }
    }
    check!(rt; read(alloc, "[1]", "$[0]").is_ok_and(|text| text.as_str() == "[1]"));
}

// A closure that refuses all but numbers.
fn only_numbers(old: &Value) -> Result<Option<Value>, JsonPathError> {
    match old.as_u64() {
        Some(_) => Ok(Some(Value::Null)),
        None => Err(JsonPathError::EmptyValue),
    }
}

// Null at numbers, under the library's error.
fn null_numbers(alloc: Global, mut document: Value, path: &str) -> Result<Value, JsonPathError> {
    let first = compile_path(alloc, "$[0]")?;
    first.try_replace_in(alloc, &mut document, &mut only_numbers)?;
    let other = compile_path(alloc, path)?;
    other.try_replace_in(alloc, &mut document, &mut only_numbers)?;
    Ok(document)
}

// The same under any error.
fn null_at(alloc: Global, mut document: Value, path: &str) -> Result<Value, AnyError> {
    let first = compile_path(alloc, "$[0]")?;
    first.try_replace_in(alloc, &mut document, &mut only_numbers)?;
    let other = compile_path(alloc, path)?;
    other.try_replace_in(alloc, &mut document, &mut only_numbers)?;
    Ok(document)
}

#[test]
fn refusals_of_closures_are_handed_on(rt: HostRuntime) {
    let alloc = rt.alloc();
    for (json, path, printed) in [
        ("[1,\"a\"]", "$[1]", "json value not set"),
        ("[\"a\",1]", "$[1]", "json value not set"),
        ("[1,2]", "$[", "path error: \nEof\n"),
    ] {
        match null_numbers(alloc, document(&rt, json), path) {
            Ok(_) => check!(rt; false, path),
            Err(error) => prints_as(&rt, &error, printed),
        }
        match null_at(alloc, document(&rt, json), path) {
            Ok(_) => check!(rt; false, path),
            Err(error) => prints_as(&rt, &error, printed),
        }
    }
    match null_numbers(alloc, document(&rt, "[1,2]"), "$[1]") {
        Ok(changed) => prints(&rt, &changed, "[null,null]"),
        Err(_) => check!(rt; false),
    }
}
