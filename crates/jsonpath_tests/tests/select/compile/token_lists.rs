//! Token lists: which fit, and what they select.

use crate::answers::document;
use crate::asserts::check;
use crate::outcomes::says;
use jsonpath_nodes::Spot;
use jsonpath_paths::ParseToken::{Absolute, Array, ArrayEof, Filter, In, Key, Number, Relative};
use jsonpath_paths::{Decimal, FilterToken, ParseToken, StrRange};
use jsonpath_select::{
    JsonPathError, JsonSelector, Selector, compile_path, select_tokens, tokens_fit,
};
use serde_json::Value;
use std::alloc::Global;
use std::process::Abort;

// What a list that fits selects, and an error for any other.
fn spots<'a>(
    alloc: Global,
    json: &'a Value,
    text: &str,
    tokens: &[ParseToken],
) -> Result<Vec<Spot<'a>>, JsonPathError> {
    if !tokens_fit(alloc, text, tokens)? {
        return Err(JsonPathError::EmptyPath);
    }
    select_tokens(alloc, json, text, tokens)
}

fn key(pos: usize, offset: usize) -> ParseToken {
    Key(StrRange::new(pos, offset))
}

// Asserts whether the tokens fit the text `ab`.
fn fits(rt: &(impl Abort + AllocGlobal), tokens: &[ParseToken], want: bool) {
    let is_fit = tokens_fit(rt.alloc(), "ab", tokens).expect(rt, "memory");
    check!(rt; is_fit == want);
}

#[test]
fn a_list_selects_by_a_text_that_is_no_path(rt: HostRuntime) {
    let json = document(&rt, "{\"b\":1}");
    let found = spots(rt.alloc(), &json, "ab", &[Absolute, In, key(1, 1)]).expect(&rt, "spots");
    assert_eq!(rt; found.len(), 1);
    check!(rt; found[0].value().as_u64() == Some(1));
}

#[test]
fn lists_of_paths_fit(rt: HostRuntime) {
    fits(&rt, &[Absolute, In, key(1, 1)], true);
    fits(&rt, &[Absolute, Array, Relative, ArrayEof], true);
    let one = Number(Decimal::of_i64(1));
    let two = Number(Decimal::of_i64(2));
    let filter = Filter(FilterToken::Little);
    fits(&rt, &[Absolute, Array, one, two, filter, ArrayEof], true);
}

#[test]
fn other_lists_do_not_fit(rt: HostRuntime) {
    fits(&rt, &[], false);
    fits(&rt, &[Absolute, In, key(0, 3)], false);
    let filter = Filter(FilterToken::Equal);
    fits(&rt, &[Absolute, Array, Relative, filter, ArrayEof], false);
    let half = Decimal::of_parts(false, 1, 500_000_000_000_000_000).expect(&rt, "1.5");
    fits(&rt, &[Absolute, Array, Number(half), ArrayEof], false);
}

// Asserts what both selectors answer.
fn both_answer(rt: &(impl Abort + AllocGlobal), json: &Value, path: &str, answer: &str) {
    let alloc = rt.alloc();
    let parser = compile_path(alloc, path).expect(rt, "a path");
    let mut machine = JsonSelector::new(alloc, parser).expect(rt, "a selector");
    says(rt, machine.value(json).select_as_str(alloc), answer);
    let mut walk = Selector::new();
    check!(rt; walk.str_path(alloc, path).is_ok());
    says(rt, walk.value(json).select_as_str(alloc), answer);
}

#[test]
fn both_selectors_answer_filters_in_filters(rt: HostRuntime) {
    let json = document(
        &rt,
        "{\"a\":[{\"b\":[{\"c\":[1]}]},{\"b\":[{\"c\":[2]}]}],\"m\":[{\"q\":2}],\"o\":[{\"x\":2},{\"x\":2}]}",
    );
    for (path, answer) in [
        (
            "$.a[?(@.b[?(@.c[*][?(@ > 1)])])]",
            "[{\"b\":[{\"c\":[2]}]}]",
        ),
        ("$.o[?($.m[?(@.q > 1)].q == @.x)]", "[{\"x\":2},{\"x\":2}]"),
        ("$.o[?(@.y != 1)]", "[]"),
        ("$.o[?(@.x == 2 && @.x < 3 || @.y)].x", "[2,2]"),
    ] {
        both_answer(&rt, &json, path, answer);
    }
}
