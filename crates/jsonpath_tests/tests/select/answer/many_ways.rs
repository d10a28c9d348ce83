//! The first value and whether there is any, beside the list, for paths that lead to places in many ways.

use crate::asserts::check;
use jsonpath_select::{AnyPath, Parser, compile_path, document_to_text, read_document};
use serde_json::Value;
use std::alloc::Global;
use std::test::Fail;

const DOCUMENT: &str =
    "{\"a\":{\"a\":{\"b\":1,\"c\":[1,2]},\"b\":{\"a\":{\"b\":7}}},\"k\":7,\"l\":[{\"a\":{\"b\":{\"c\":3}}},[{\"b\":2}],[[],[4]]]}";

// Descents, lists of names and unions with repeats, and filters with and without a step of their own between them.
const PATHS: [&str; 34] = [
    "$..*..*..*",
    "$..*..*..*..*..*",
    "$..a..b..c",
    "$..a..a..b",
    "$..*..*..b",
    "$..*..*..*..zz",
    "$..*..*..[-1]",
    "$..*..*..[0:2]",
    "$.l[0,0,1]['a','a',\"b\"]..*",
    "$.l[2,0,2][1,0,1][0,0]",
    "$['l','a','l']['a','b','a']['b','a','b']",
    "$..['a','b','a']..['b','b']..*",
    "$..[1,0,1]..[0,0]..*",
    "$..*[?(@ > 1)]..*..*",
    "$..*..*..*[?(@ > 1)]",
    "$..*..*..[?(@ > 1)]",
    "$..*[?(@)]..*..*",
    "$..*[?(@)]..*..*[?(@ != 7)]",
    "$..*..[?(@)]..*",
    "$..*[?($.k == 7)]..*..*",
    "$..*[?($.k == 8)]..*..*",
    "$..*..*..[?(@ == $..b)]",
    "$..*..*..*[?(@.b)]",
    "$..*..*..[?(@.b)]",
    "$..*[?(@.b)]..*..*",
    "$..*..[?(@.b)]..*",
    "$..*..*[?(@.b)]..*[?(@)]",
    "$..*..[?(@.b)]..[?(@)]..*",
    "$..*..[?(@)]..[?(@.b)]..*",
    "$..*..[?(@.b)]..[?(@.c)]..*",
    "$..[?(@..[?(@.b)])]..*",
    "$..[?(@..a..b)].a",
    "$.l[?(@..*..b)]",
    "$..[?(@.a || @ == 7)]..*..*",
];

// Several filters, one after the other, with `..`, lists of names and unions before, between and behind them.
const FILTERS: [&str; 36] = [
    "$.l[?(@)][?(@)]",
    "$.l[?(@)][*][?(@)]",
    "$.l[?(@.a)].a[?(@.b)]",
    "$.l[?(@.a)].a[?(@.c)]",
    "$.l[?(@.b)][?(@.b == 2)].b",
    "$.l[?(@.b || @.a)][?(@.b == 2)].b",
    "$.l[?(@.b || @.a)][?(@.a)].a.b[?(@.c == 3)].c",
    "$[?(@)][?(@.a)].a",
    "$[?(@)][?(@.b)]..b",
    "$.*[?(@.a)].a[?(@.b)].b",
    "$.*[?(@)].*[?(@.b)]",
    "$.*[?(@.a)].*[?(@.b)]",
    "$.*.*[?(@.b)]..[?(@ == 1)]",
    "$.*..[?(@.b)].b",
    "$.*.*..[?(@.b)].b",
    "$..[?(@.b)].b",
    "$..[?(@.b)][?(@.a)]",
    "$..[?(@.b)]..[?(@ == 1)]",
    "$..[?(@.b)]..[?(@.b)]",
    "$..[?(@.a)].a[?(@.b)].b",
    "$..[?(@.a)].a..[?(@.b)].b",
    "$..[?(@)][?(@)]",
    "$..[?(@)].a[?(@.b)]",
    "$..*[?(@.b)].b[?(@)]",
    "$..a[?(@.b)].b[?(@)]",
    "$..a..[?(@.b)].b",
    "$..a[?(@.b)]..[?(@ > 1)]",
    "$.l[0,0,1][?(@.a)].a[?(@.b)]",
    "$.l[2,1,2][?(@)][?(@)]",
    "$['a','l','a'][?(@.b)][?(@.a)]",
    "$['a','l','a'][?(@.b)]..[?(@.b)]",
    "$.l[-1:][*][?(@)][?(@ == 4)]",
    "$[?($.k == 7)][?(@.a)].a",
    "$..[?(@.b == $.k)][?(@.b)].b",
    "$.*[?($.k == 7)].a[?(@.b == $.k)].b",
    "$..[?(@.zz)][?(@.a)]..[?(@.b)]",
];

// What is told of the path's answer is told of its list.
fn is_told<P: AnyPath>(alloc: Global, document: &Value, path: &P) -> Result<bool, Fail> {
    let listed = path.select(alloc, document)?;
    let counts = path.count(alloc, document)? == listed.len();
    let begins = is_first(alloc, path.first(alloc, document)?, &listed)?;
    let any = path.exists(alloc, document)? != listed.is_empty();
    Ok(counts && begins && any)
}

// .. by a path that borrows its text, and by one that owns it.
fn is_told_by_both(alloc: Global, document: &Value, path: &str) -> Result<bool, Fail> {
    let borrowed = is_told(alloc, document, &compile_path(alloc, path)?)?;
    let owned = is_told(alloc, document, &Parser::compile(alloc, path)?)?;
    Ok(borrowed && owned)
}

fn is_first(alloc: Global, first: Option<&Value>, listed: &Vec<&Value>) -> Result<bool, Fail> {
    let Some(value) = first else {
        return Ok(listed.is_empty());
    };
    let Some(head) = listed.first() else {
        return Ok(false);
    };
    let told = document_to_text(alloc, value)?;
    Ok(told.as_str() == document_to_text(alloc, *head)?.as_str())
}

// So many arrays around an empty one, each the only item of the one around it.
fn nested(alloc: Global, levels: usize) -> Result<Value, Fail> {
    let mut value = Value::Array(Vec::new(alloc));
    for _ in 0..levels {
        let mut items = Vec::with_capacity(alloc, 1)?;
        items.push(value)?;
        value = Value::Array(items);
    }
    Ok(value)
}

#[test]
fn many_ways_are_told_as_listed(rt: HostRuntime) -> Result<(), Fail> {
    let alloc = rt.alloc();
    let document = read_document(alloc, DOCUMENT.as_bytes())?;
    for path in PATHS {
        check!(rt; is_told_by_both(alloc, &document, path)?, path);
    }
    Ok(())
}

#[test]
fn several_filters_are_told_as_listed(rt: HostRuntime) -> Result<(), Fail> {
    let alloc = rt.alloc();
    let document = read_document(alloc, DOCUMENT.as_bytes())?;
    for path in FILTERS {
        check!(rt; is_told_by_both(alloc, &document, path)?, path);
    }
    Ok(())
}

// So many filters, one after the other, that each item with a `b` passes.
#[test]
fn a_thousand_filters_are_told_as_listed(rt: HostRuntime) -> Result<(), Fail> {
    let alloc = rt.alloc();
    let document = read_document(alloc, DOCUMENT.as_bytes())?;
    for filters in [64, 65, 1_000] {
        let mut path = String::from_str(alloc, "$.l")?;
        for _ in 0..filters {
            path.push_str("[?(@.b == 2)]")?;
        }
        let compiled = compile_path(alloc, path.as_str())?;
        check!(rt; is_told(alloc, &document, &compiled)?);
        check!(rt; compiled.count(alloc, &document)? == 1);
    }
    Ok(())
}

// The root, and then so many times both of two ways to one item.
fn doubled(alloc: Global, times: usize) -> Result<String, Fail> {
    let mut path = String::from_str(alloc, "$")?;
    for _ in 0..times {
        path.push_str("[0,0]")?;
    }
    Ok(path)
}

#[test]
fn whether_there_is_any_is_told_by_places(rt: HostRuntime) -> Result<(), Fail> {
    let alloc = rt.alloc();
    let three = compile_path(alloc, "$..*..*..*")?;
    check!(rt; three.count(alloc, &nested(alloc, 24)?)? == 2024);
    let document = nested(alloc, 64)?;
    let ten = compile_path(alloc, "$..*..*..*..*..*..*..*..*..*..*")?;
    check!(rt; ten.exists(alloc, &document)?);
    let more = doubled(alloc, 64)?;
    let many = compile_path(alloc, more.as_str())?;
    check!(rt; many.exists(alloc, &document)?);
    let past = doubled(alloc, 65)?;
    let none = compile_path(alloc, past.as_str())?;
    check!(rt; !none.exists(alloc, &document)?);
    Ok(())
}
