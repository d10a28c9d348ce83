//! Spots, locations, text and typed values, by every holder.

use crate::answers::{document, finds, selects};
use crate::asserts::check;
use crate::outcomes::{BAD_PATH, BAD_VALUE, NO_PATH, is_refusal, refuses, says, works};
use jsonpath_lib::{
    AnyPath, Compiled, JsonPathError, JsonSelector, JsonSelectorMut, Location, Parser,
    PathCompiled, Selector, SelectorMut, Spot, compile, compile_path, select_as, select_as_str,
    select_path, selector,
};
use std::process::Abort;

// A path, a document, the text of the selected numbers, and where they stand.
const ROWS: &[(&str, &str, &str, &str)] = &[
    ("$[2,0,0]", "[1,2,3]", "[3,1,1]", "[$[2],$[0],$[0]]"),
    ("$[9]", "[1,2,3]", "[]", "[]"),
    (
        "$..a",
        "{\"a\":1,\"b\":{\"a\":2}}",
        "[1,2]",
        "[$['a'],$['b']['a']]",
    ),
    ("$[*][?(@ > 1)]", "[1,2,3]", "[2,3]", "[$[1],$[2]]"),
    ("$[?(@.k)].k", "[{\"k\":5},{}]", "[5]", "[$[0]['k']]"),
    ("$..*..*", "[[[1]]]", "[[1],1,1]", ""),
];

type Row = (&'static str, &'static str, &'static str, &'static str);

type Spots<'a> = Result<Vec<Spot<'a>>, JsonPathError>;

type Places = Result<Vec<Location>, JsonPathError>;

type Text = Result<String, JsonPathError>;

type Numbers = Result<Vec<u64>, JsonPathError>;

// Asserts where what is selected stands; a row that names no place is passed over.
fn stands(rt: &(impl Abort + AllocGlobal), row: &Row, found: Places) {
    let alloc = rt.alloc();
    let found = found.expect(rt, "locations");
    let mut text = String::new(alloc);
    text.push('[').expect(rt, "room");
    for (number, location) in found.iter().enumerate() {
        if number > 0 {
            text.push(',').expect(rt, "room");
        }
        let shown = location.to_string(alloc).expect(rt, "a text");
        text.push_str(shown.as_str()).expect(rt, "room");
    }
    text.push(']').expect(rt, "room");
    check!(rt; row.3.is_empty() || text.as_str() == row.3, row.0);
}

fn prints_as(rt: &(impl Abort + AllocGlobal), numbers: Vec<u64>, want: &str) {
    let text = format!(in rt.alloc(); "{numbers:?}").expect(rt, "a text");
    says(rt, text.as_str().replace(rt.alloc(), " ", ""), want);
}

// Asserts which numbers are answered; an answer that has other values is refused.
fn counts_as(rt: &(impl Abort + AllocGlobal), row: &Row, found: Numbers) {
    match found {
        Ok(numbers) => prints_as(rt, numbers, row.2),
        Err(error) => {
            check!(rt; row.3.is_empty(), row.0);
            is_refusal(rt, &error, BAD_VALUE);
        }
    }
}

fn gives(
    rt: &(impl Abort + AllocGlobal),
    row: &Row,
    spots: Spots<'_>,
    places: Places,
    text: Text,
    numbers: Numbers,
) {
    finds(rt, spots, row.2);
    stands(rt, row, places);
    says(rt, text, row.2);
    counts_as(rt, row, numbers);
}

fn short_functions_give(rt: &(impl Abort + AllocGlobal), row: &Row) {
    let a = rt.alloc();
    let path = row.0;
    says(rt, select_as_str(a, row.1, path), row.2);
    counts_as(rt, row, select_as(a, row.1, path));
    let v = document(rt, row.1);
    selects(rt, selector(&v).select(a, path), row.2);
    selects(rt, compile(a, path).select(a, &v), row.2);
}

fn path_gives<P: AnyPath>(rt: &(impl Abort + AllocGlobal), row: &Row, path: &P) {
    let a = rt.alloc();
    let v = document(rt, row.1);
    selects(rt, path.select(a, &v), row.2);
    gives(
        rt,
        row,
        path.select_spots(a, &v),
        path.select_locations(a, &v),
        path.select_as_str(a, &v),
        path.select_as(a, &v),
    );
}

fn compiled_paths_give(rt: &(impl Abort + AllocGlobal), row: &Row) {
    let a = rt.alloc();
    let v = document(rt, row.1);
    let path = compile_path(a, row.0).expect(rt, "a path");
    finds(rt, select_path(a, &v, &path), row.2);
    path_gives(rt, row, &path);
    path_gives(rt, row, &Parser::compile(a, row.0).expect(rt, "a path"));
    path_gives(
        rt,
        row,
        &PathCompiled::compile(a, row.0).expect(rt, "a path"),
    );
    path_gives(rt, row, &Compiled::compile(a, row.0).expect(rt, "a path"));
}

fn selectors_give(rt: &(impl Abort + AllocGlobal), row: &Row) {
    let a = rt.alloc();
    let v = document(rt, row.1);
    let mut held = Selector::new();
    held.value(&v);
    works(rt, held.set_path(a, row.0));
    gives(
        rt,
        row,
        held.select_spots(a),
        held.select_locations(a),
        held.select_as_str(a),
        held.select_as(a),
    );
    let path = compile_path(a, row.0).expect(rt, "a path");
    let mut held = JsonSelector::new(a, path).expect(rt, "a selector");
    held.value(&v);
    gives(
        rt,
        row,
        held.select_spots(a),
        held.select_locations(a),
        held.select_as_str(a),
        held.select_as(a),
    );
}

fn update_types_give(rt: &(impl Abort + AllocGlobal), row: &Row) {
    let a = rt.alloc();
    let mut held = SelectorMut::new();
    held.value(document(rt, row.1));
    works(rt, held.set_path(a, row.0));
    gives(
        rt,
        row,
        held.select_spots(a),
        held.select_locations(a),
        held.select_as_str(a),
        held.select_as(a),
    );
    let path = compile_path(a, row.0).expect(rt, "a path");
    let mut held = JsonSelectorMut::new(a, path).expect(rt, "a selector");
    held.value(document(rt, row.1));
    gives(
        rt,
        row,
        held.select_spots(a),
        held.select_locations(a),
        held.select_as_str(a),
        held.select_as(a),
    );
}

#[test]
fn short_functions_give_each_form(rt: HostRuntime) {
    for row in ROWS {
        short_functions_give(&rt, row);
    }
}

#[test]
fn compiled_paths_give_each_form(rt: HostRuntime) {
    for row in ROWS {
        compiled_paths_give(&rt, row);
    }
}

#[test]
fn selectors_give_each_form(rt: HostRuntime) {
    for row in ROWS {
        selectors_give(&rt, row);
        update_types_give(&rt, row);
    }
}

#[test]
fn forms_are_refused_by_name(rt: HostRuntime) {
    let a = rt.alloc();
    let unread = document(&rt, "[0.5]");
    let path = compile_path(a, "$[0]").expect(&rt, "a path");
    refuses(&rt, path.select_as_str(a, &unread), BAD_VALUE);
    refuses(&rt, path.select_as::<f64>(a, &unread), BAD_VALUE);
    refuses(&rt, compile(a, "$[").select(a, &unread), BAD_PATH);
    refuses(&rt, select_as_str(a, "[1", "$["), BAD_VALUE);
    refuses(&rt, SelectorMut::new().select_locations(a), NO_PATH);
}
