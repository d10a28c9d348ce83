//! How many values a path selects, the first of them, and whether there is any, by every holder.

use crate::answers::{counts, document, gives};
use crate::asserts::check;
use crate::outcomes::{NO_PATH, NO_VALUE, prints, refuses, works};
use jsonpath_lib::{
    AnyPath, Compiled, JsonPathError, JsonSelector, JsonSelectorMut, Parser, PathCompiled,
    PathParser, Selector, SelectorMut, compile_path,
};
use serde_json::Value;
use std::alloc::{AllocError, Global};
use std::process::Abort;

// Twelve candidates: more than the first slices of a filter.
const TWELVE: &str =
    "[{\"v\":0},{\"v\":1},{\"v\":2},{\"v\":3},{\"v\":4},{\"v\":5},{\"v\":6},{\"v\":7},{\"v\":8},{\"v\":9},{\"v\":10},{\"v\":11}]";

// Places beside one another, and one below another.
const NESTED: &str =
    "{\"a\":{\"v\":1,\"m\":{\"v\":5}},\"b\":[{\"v\":2},[{\"v\":3}]],\"c\":[{\"v\":4}]}";

// A path, a document, how many values are selected, and the text of the first, or none.
const ROWS: &[(&str, &str, usize, &str)] = &[
    ("$", "[1]", 1, "[1]"),
    ("$.a", "{\"a\":null}", 1, "null"),
    ("$.a", "[1]", 0, ""),
    ("$[2,0,0]", "[1,2,3]", 3, "3"),
    ("$[-1]", "[1,2,3]", 1, "3"),
    ("$[9]", "[1,2,3]", 0, ""),
    ("$[1:3]", "[1,2,3]", 2, "2"),
    ("$['b','a','b']", "{\"a\":1,\"b\":2}", 3, "2"),
    ("$..a", "{\"a\":1,\"b\":{\"a\":2}}", 2, "1"),
    ("$..*..*", "[[[1]]]", 3, "[1]"),
    ("$[*][?(@ > 1)]", "[1,2,3]", 2, "2"),
    ("$[?(@.k)].k", "[{\"k\":5},{\"k\":6},{}]", 2, "5"),
    ("$[?(@ > 9)]", "[1,2,3]", 0, ""),
    ("$.*", "{\"b\":1,\"a\":2}", 2, "2"),
    ("$.*.*", "[[],[1,[2]],{\"a\":3}]", 3, "1"),
    ("$..*", "[[],[1,[2]],{\"a\":3}]", 7, "[]"),
    ("$..[-1]", "[1,[2,3]]", 2, "[2,3]"),
    ("$..[0,0]", "[[1],2]", 4, "[1]"),
    ("$..['b','a']", "{\"a\":{\"b\":1},\"b\":2}", 3, "2"),
    ("$..[1:9:2]", "[0,[1,2],3,4]", 3, "[1,2]"),
    ("$..[::0]", "[0,1]", 0, ""),
    (
        "$[1:].k[0]",
        "[0,{\"k\":[5]},{\"k\":[]},{\"k\":[6,7]}]",
        2,
        "5",
    ),
    ("$..a..b", "{\"a\":{\"b\":1,\"a\":{\"b\":2}}}", 3, "1"),
    ("$..a..b..c", "{\"a\":{\"b\":{\"c\":1}}}", 1, "1"),
    ("$..*..*..zz", "[[[1]]]", 0, ""),
    ("$['it\\'s'].k", "{\"it's\":{\"k\":1}}", 1, "1"),
    (
        "$..[?(@.k)].k.l[*]",
        "[{\"k\":{\"l\":[1,2]}},[{\"k\":{\"l\":[3]}}]]",
        3,
        "1",
    ),
    (
        "$[?(@.k)]..n",
        "[{\"k\":{\"n\":1},\"n\":2},{\"n\":3}]",
        2,
        "2",
    ),
    ("$[?(@.k)][?(@.k)].k", "[{\"k\":1},{\"k\":2}]", 2, "1"),
    ("$..['a','a'][?(@.b)].b", "{\"a\":{\"b\":1}}", 1, "1"),
    (
        "$[?(@.a[*][?(@ > 1)])].a[0]",
        "[{\"a\":[1]},{\"a\":[2,3]}]",
        1,
        "2",
    ),
    ("$[?(@.v == 0)].v", TWELVE, 1, "0"),
    ("$[?(@.v == 5)].v", TWELVE, 1, "5"),
    ("$[?(@.v == 11)].v", TWELVE, 1, "11"),
    ("$[?(@.v > 11)]", TWELVE, 0, ""),
    ("$[?(@.v >= 0)].v", TWELVE, 12, "0"),
    ("$[?(@.v == 10 || @.v == 1)].v", TWELVE, 2, "1"),
    ("$[?(@.v > 3)][?(@.v < 6)].v", TWELVE, 2, "4"),
    ("$[?(@.v > 3)].v[?(@ > 5)]", TWELVE, 6, "6"),
    ("$[?(@.v == $[11].v)].v", TWELVE, 1, "11"),
    ("$[?($[5].v == @.v && @.v > $[0].v)].v", TWELVE, 1, "5"),
    ("$..[?(@.v == 7)].v", TWELVE, 1, "7"),
    ("$..[?(@.v)]..v", TWELVE, 12, "0"),
    ("$..v[?(@ == 11)]", TWELVE, 1, "11"),
    ("$..[?(@ == 8)]", TWELVE, 1, "8"),
    (
        "$[?(@.a[?(@.b > 2)])].n",
        "[{\"n\":0},{\"n\":1,\"a\":[{\"b\":1}]},{\"n\":2,\"a\":[{\"b\":1},{\"b\":3}]},{\"n\":3,\"a\":[{\"b\":5}]}]",
        2,
        "2",
    ),
    (
        "$[?(@.v == 2)].v",
        "[[{\"v\":1},[{\"v\":2}]],{\"v\":2}]",
        2,
        "2",
    ),
    (
        "$..a..a[?(@.b)].b",
        "{\"a\":{\"a\":{\"a\":{\"b\":1}}}}",
        1,
        "1",
    ),
    (
        "$.*.*[?(@.v == 2)].v",
        "{\"x\":{\"p\":[{\"v\":1},{\"v\":2}]},\"y\":{\"q\":{\"v\":2}}}",
        2,
        "2",
    ),
    (
        "$['b','a','b'][?(@.v)].v",
        "{\"a\":{\"v\":1},\"b\":{\"v\":2}}",
        2,
        "2",
    ),
    (
        "$..*[?(@.v)].v",
        "[[{\"v\":1}],{\"v\":[{\"v\":2}]}]",
        3,
        "1",
    ),
    ("$[1:][0,0][?(@ > 1)]", "[[9],[2],[3]]", 4, "2"),
    (
        "$..[?(@.v == 2)].v",
        "[[{\"v\":1},[[{\"v\":2}]]],{\"v\":2}]",
        2,
        "2",
    ),
    (
        "$..[?(@.v)].v",
        "{\"a\":{\"v\":[{\"v\":1},[{\"v\":2}]]},\"b\":[[{\"v\":3}]]}",
        4,
        "[{\"v\":1},[{\"v\":2}]]",
    ),
    ("$..[?(@.w)]", "[[[{\"v\":1}]],{\"v\":[{}]}]", 0, ""),
    (
        "$.a..[?(@.v > 1)].v",
        "{\"a\":[[{\"v\":1},{\"v\":2}]],\"b\":{\"v\":3}}",
        1,
        "2",
    ),
    ("$..*..[?(@.v)].v", "[[{\"v\":1}],{\"v\":2}]", 1, "1"),
    (
        "$..n[?(@.k)].k",
        "[{\"x\":1},{\"x\":[{\"n\":[{\"k\":1}]}]},{\"n\":{\"k\":2}},[{\"n\":[{\"k\":3},{\"m\":{\"n\":[{\"k\":4}]}}]}]]",
        4,
        "1",
    ),
    ("$['a','b'][?(@.v)].v", NESTED, 3, "1"),
    ("$['c','b']..[?(@.v)].v", NESTED, 3, "4"),
    ("$.b[1,0][?(@.v)].v", NESTED, 2, "3"),
    ("$.b[0,0][?(@.v)].v", NESTED, 1, "2"),
    ("$.b[-1,-2][?(@.v)].v", NESTED, 2, "3"),
    ("$..['a','m'][?(@.v)].v", NESTED, 2, "1"),
    ("$.*..m[?(@.v)].v", NESTED, 1, "5"),
    ("$['a','a'][?(@.v)].v", NESTED, 1, "1"),
    ("$.b[?(@.v)]..[?(@ > 1)]", NESTED, 2, "2"),
    ("$.b[?(@.v)]..[?(@.v)]", NESTED, 0, ""),
    ("$['b','a']..v[?(@ > 1)]", NESTED, 3, "2"),
];

type Counted = Result<usize, JsonPathError>;

type First<'a> = Result<Option<&'a Value>, JsonPathError>;

type Exists = Result<bool, JsonPathError>;

// Asserts what is told of an answer.
fn tells(
    rt: &(impl Abort + AllocGlobal),
    row: &(&str, &str, usize, &str),
    counted: Counted,
    first: First<'_>,
    any: Exists,
) {
    let (path, _, want, text) = *row;
    gives(rt, counted, want, path);
    gives(rt, any, want > 0, path);
    match first.expect(rt, "an answer") {
        Some(value) => prints(rt, value, text),
        None => check!(rt; want == 0, path),
    }
}

fn path_tells<P: AnyPath>(
    rt: &(impl Abort + AllocGlobal),
    row: &(&str, &str, usize, &str),
    path: &P,
) {
    let a = rt.alloc();
    let v = document(rt, row.1);
    tells(
        rt,
        row,
        path.count(a, &v),
        path.first(a, &v),
        path.exists(a, &v),
    );
}

fn kept_paths_tell(rt: &(impl Abort + AllocGlobal), row: &(&str, &str, usize, &str)) {
    let a = rt.alloc();
    path_tells(
        rt,
        row,
        &PathCompiled::compile(a, row.0).expect(rt, "a path"),
    );
    path_tells(rt, row, &Compiled::compile(a, row.0).expect(rt, "a path"));
    path_tells(rt, row, &compile_path(a, row.0).expect(rt, "a path"));
    path_tells(rt, row, &Parser::compile(a, row.0).expect(rt, "a path"));
}

fn selectors_tell(rt: &(impl Abort + AllocGlobal), row: &(&str, &str, usize, &str)) {
    let a = rt.alloc();
    let v = document(rt, row.1);
    let path = compile_path(a, row.0).expect(rt, "a path");
    let mut by_path = JsonSelector::new(a, path).expect(rt, "a selector");
    by_path.value(&v);
    tells(
        rt,
        row,
        by_path.count(a),
        by_path.first(a),
        by_path.exists(a),
    );
    let mut by_text = Selector::new();
    works(rt, by_text.set_path(a, row.0));
    by_text.value(&v);
    tells(
        rt,
        row,
        by_text.count(a),
        by_text.first(a),
        by_text.exists(a),
    );
    let path = compile_path(a, row.0).expect(rt, "a path");
    let mut by_path = JsonSelectorMut::new(a, path).expect(rt, "a selector");
    by_path.value(document(rt, row.1));
    counts(rt, by_path.select(a), row.2);
    tells(
        rt,
        row,
        by_path.count(a),
        by_path.first(a),
        by_path.exists(a),
    );
    let mut by_text = SelectorMut::new();
    works(rt, by_text.set_path(a, row.0));
    by_text.value(document(rt, row.1));
    counts(rt, by_text.select(a), row.2);
    tells(
        rt,
        row,
        by_text.count(a),
        by_text.first(a),
        by_text.exists(a),
    );
}

#[test]
fn kept_paths_count(rt: HostRuntime) {
    for row in ROWS {
        kept_paths_tell(&rt, row);
    }
}

#[test]
fn selectors_count(rt: HostRuntime) {
    for row in ROWS {
        selectors_tell(&rt, row);
    }
}

#[test]
fn what_is_missing_for_counting_is_named(rt: HostRuntime) {
    let alloc = rt.alloc();
    let mut held = SelectorMut::new();
    refuses(&rt, held.count(alloc), NO_PATH);
    refuses(&rt, Selector::new().exists(alloc), NO_PATH);
    works(&rt, held.set_path(alloc, "$.a"));
    refuses(&rt, held.first(alloc), NO_VALUE);
    refuses(&rt, held.exists(alloc), NO_VALUE);
}

fn compiled_path<'a>(rt: &(impl Abort + AllocGlobal), text: &'a str) -> PathParser<'a> {
    compile_path(rt.alloc(), text).expect(rt, "a path")
}

// Objects with the numbers below this one.
fn numbered(alloc: Global, count: usize) -> Result<String, AllocError> {
    let mut text = String::new(alloc);
    text.push('[')?;
    for number in 0..count {
        if number > 0 {
            text.push(',')?;
        }
        text.push_str("{\"v\":")?;
        text.push_str(number.to_string(alloc)?.as_str())?;
        text.push('}')?;
    }
    text.push(']')?;
    Ok(text)
}

// More candidates than are decided at once, where the condition asks of the root and where it doesn't.
#[test]
fn many_candidates(rt: HostRuntime) {
    let alloc = rt.alloc();
    let text = numbered(alloc, 9_000).expect(&rt, "a text");
    let value = document(&rt, text.as_str());
    for (path, want) in [
        ("$[?(@.v >= 0)]", 9_000),
        ("$[?(@.v >= 4095)].v", 4_905),
        ("$[*].v[?(@ > 8998)]", 1),
        ("$..v[?(@ > 8998)]", 1),
        ("$[?(@.v == $[8999].v)]", 1),
        ("$[?(@.v > $[8999].v)]", 0),
        ("$..[?(@.v > 8998)]", 1),
        ("$..[?(@.v > $[8998].v)]", 1),
        ("$..[?(@.w)]", 0),
        ("$[?(@.v >= 10)][?(@.v < 5000)].v", 4_990),
        ("$[?(@.v >= $[10].v)][?(@.v < $[5000].v)].v", 4_990),
        ("$[?(@.v >= 10)].v[?(@ < 5000)]", 4_990),
        ("$..[?(@.v >= 10)][?(@.v < 5000)][?(@.v > 4998)]", 1),
        ("$[?(@.v >= 10)][?(@.w)]", 0),
    ] {
        let compiled = compiled_path(&rt, path);
        gives(&rt, compiled.count(alloc, &value), want, path);
        gives(&rt, compiled.exists(alloc, &value), want > 0, path);
    }
    for path in [
        "$[?(@.v >= 0)][?(@.v >= 5461)].v",
        "$[?(@.v >= 5461)][?(@.v >= 0)].v",
        "$[?(@.v >= $[9].v)][?(@.v >= $[5461].v)].v",
        "$..[?(@.v >= 5461)][?(@.v >= 0)].v",
        "$[?(@.v == 5461)].v",
        "$[?($[5461].v == @.v)].v",
        "$..v[?(@ == 5461)]",
        "$..[?(@.v == 5461)].v",
        "$..[?(@.v == $[5461].v)].v",
    ] {
        let compiled = compiled_path(&rt, path);
        let found = compiled.first(alloc, &value).expect(&rt, "an answer");
        check!(rt; found.is_some_and(|it| it.as_u64() == Some(5461)), path);
    }
}

// Lists within lists: `..` leads to what stands in them once for each of them, and each is one candidate.
#[test]
fn many_candidates_in_lists(rt: HostRuntime) {
    let alloc = rt.alloc();
    let mut text = String::new(alloc);
    text.push_str("[[[").expect(&rt, "room");
    let inner = numbered(alloc, 3_000).expect(&rt, "a text");
    text.push_str(inner.as_str()).expect(&rt, "room");
    text.push_str("]]]").expect(&rt, "room");
    let value = document(&rt, text.as_str());
    for (path, want) in [
        ("$..[?(@.v >= 0)]", 3_000),
        ("$..[?(@.v == 2999)].v", 1),
        ("$..[?(@.v == 7)].v", 1),
        ("$..[?(@.w)]", 0),
    ] {
        let compiled = compiled_path(&rt, path);
        gives(&rt, compiled.count(alloc, &value), want, path);
        gives(&rt, compiled.exists(alloc, &value), want > 0, path);
        let found = compiled.first(alloc, &value).expect(&rt, "an answer");
        check!(rt; found.is_some() == (want > 0), path);
    }
}
