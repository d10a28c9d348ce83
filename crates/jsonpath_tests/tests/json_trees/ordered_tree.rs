//! Trees of texts in the order of their names, and how their numbers compare.

use crate::asserts::check;
use jpath_texts::{Document, DocumentRefusal, OrderedValue};
use json::{Scratch, Value as Exact};
use jsonpath_nodes::{Atom, LocStep, Location, Tree, holds_by_fractions};
use jsonpath_paths::FilterToken;
use std::alloc::Global;
use std::process::Abort;

// The text of a tree.
fn text_of(rt: &(impl Abort + AllocGlobal), tree: &Exact<'_>) -> String {
    let bytes = json::to_vec(rt.alloc(), tree).expect(rt, "a text");
    String::from_utf8(bytes).expect(rt, "UTF-8")
}

// Adds the text of a value, its members as they are taken.
fn add_text(rt: &(impl Abort + AllocGlobal), value: OrderedValue<'_, '_>, out: &mut String) {
    if let Some(object) = value.as_object() {
        out.push('{').expect(rt, "memory");
        let mut left = OrderedValue::each_member(object);
        while let Some((name, member)) = OrderedValue::next_member(&mut left) {
            if !out.as_str().ends_with('{') {
                out.push(',').expect(rt, "memory");
            }
            out.push_str(text_of(rt, &Exact::String(name)).as_str())
                .expect(rt, "memory");
            out.push(':').expect(rt, "memory");
            add_text(rt, member, out);
        }
        out.push('}').expect(rt, "memory");
    } else if let Some(array) = value.as_array() {
        out.push('[').expect(rt, "memory");
        let mut left = OrderedValue::each_item(array);
        while let Some(item) = OrderedValue::next_item(&mut left) {
            if !out.as_str().ends_with('[') {
                out.push(',').expect(rt, "memory");
            }
            add_text(rt, item, out);
        }
        out.push(']').expect(rt, "memory");
    } else {
        out.push_str(text_of(rt, value.value()).as_str())
            .expect(rt, "memory");
    }
}

// Asserts what a text's tree is where its members are taken as on the way of a path, and that it stands as before.
fn becomes(rt: &(impl Abort + AllocGlobal), text: &str, want: &str) {
    let mut scratch = Scratch::new(rt.alloc());
    let document = Document::read(rt.alloc(), text, &mut scratch).expect(rt, "a document");
    let mut found = String::new(rt.alloc());
    add_text(rt, document.root(rt.alloc()), &mut found);
    check!(*rt; found.as_str() == want, text);
    check!(*rt; text_of(rt, document.exact()).as_str() == text, text);
}

#[test]
fn members_go_by_their_names(rt: HostRuntime) {
    becomes(&rt, "7", "7");
    becomes(&rt, "[2,1]", "[2,1]");
    becomes(&rt, "{\"a\":1,\"b\":2}", "{\"a\":1,\"b\":2}");
    becomes(&rt, "{\"b\":1,\"a\":2}", "{\"a\":2,\"b\":1}");
    becomes(&rt, "{\"B\":1,\"a\":2,\"\":3}", "{\"\":3,\"B\":1,\"a\":2}");
    becomes(
        &rt,
        "[{\"c\":{\"b\":1.50,\"a\":[]}}]",
        "[{\"c\":{\"a\":[],\"b\":1.50}}]",
    );
}

#[test]
fn last_value_of_a_name_stays(rt: HostRuntime) {
    becomes(&rt, "{\"a\":1,\"a\":2}", "{\"a\":2}");
    becomes(
        &rt,
        "{\"b\":1,\"a\":2,\"b\":{\"d\":3,\"c\":4}}",
        "{\"a\":2,\"b\":{\"c\":4,\"d\":3}}",
    );
}

// Whether the values of two texts satisfy a comparison.
fn compares(
    rt: &(impl Abort + AllocGlobal),
    op: FilterToken,
    left: &str,
    right: &str,
) -> Result<bool, DocumentRefusal> {
    let mut left_scratch = Scratch::new(rt.alloc());
    let mut right_scratch = Scratch::new(rt.alloc());
    let left = Document::read(rt.alloc(), left, &mut left_scratch)?;
    let right = Document::read(rt.alloc(), right, &mut right_scratch)?;
    let left = left.root(rt.alloc());
    let right = right.root(rt.alloc());
    let a = Tree::atom(&left)?;
    let b = Tree::atom(&right)?;
    Ok(holds_by_fractions(op, &a, &b))
}

#[test]
fn numbers_compare_exactly(rt: HostRuntime) {
    let rows = [
        ("0.1", FilterToken::Equal, "0.10", true),
        ("1.5", FilterToken::Equal, "1", false),
        ("1.5", FilterToken::Greater, "1", true),
        ("-0", FilterToken::Equal, "0.0e7", true),
        (
            "9007199254740993",
            FilterToken::Greater,
            "9007199254740992",
            true,
        ),
        ("1e400", FilterToken::Equal, "10e399", true),
        ("1e400", FilterToken::Little, "1e401", true),
        ("-1e400", FilterToken::Little, "-1e399", true),
        ("\"1\"", FilterToken::Equal, "1", false),
        ("[1]", FilterToken::NotEqual, "[1]", true),
    ];
    for (left, op, right, want) in rows {
        check!(rt; compares(&rt, op, left, right) == Ok(want), left);
    }
}

#[test]
fn huge_exponent_is_refused(rt: HostRuntime) {
    let mut text = String::from_str(rt.alloc(), "1e").expect(&rt, "a text");
    for _digit in 0..100 {
        text.push('9').expect(&rt, "a text");
    }
    let found = compares(&rt, FilterToken::Equal, text.as_str(), "1");
    check!(rt; found == Err(DocumentRefusal::HugeExponent));
    let within = "{\"a\":1e9999999999999999999999999999999999999999999999}";
    check!(rt; compares(&rt, FilterToken::Equal, within, "1") == Ok(false));
}

// Whether a value is there, and whether it is a number.
fn is_number<'a>(value: Option<(&'a str, OrderedValue<'_, 'a>)>) -> Option<bool> {
    match Tree::atom(&value?.1) {
        Ok(Atom::Number(_)) => Some(true),
        _ => Some(false),
    }
}

// Asserts what is found by name and member by member in an object with the members "a", "ab", "b", "d" and "é".
fn finds(rt: &(impl Abort + AllocGlobal), text: &str) {
    let mut scratch = Scratch::new(rt.alloc());
    let document = Document::read(rt.alloc(), text, &mut scratch).expect(rt, "a document");
    let object = document
        .root(rt.alloc())
        .as_object()
        .expect(rt, "an object");
    for name in ["a", "ab", "d", "é"] {
        check!(*rt; is_number(OrderedValue::member_named(object, name)) == Some(true), name);
    }
    check!(*rt; is_number(OrderedValue::member_named(object, "b")) == Some(false));
    for name in ["", "aa", "abc", "c", "e", "ê"] {
        check!(*rt; is_number(OrderedValue::member_named(object, name)) == None, name);
    }
    let mut left = OrderedValue::each_member(object);
    for name in ["a", "ab", "b", "d", "é"] {
        let (next, _value) = OrderedValue::next_member(&mut left).expect(rt, "a member");
        check!(*rt; next == name, name);
    }
    check!(*rt; OrderedValue::next_member(&mut left).is_none());
}

#[test]
fn members_are_found_by_their_names(rt: HostRuntime) {
    finds(&rt, "{\"a\":1,\"ab\":2,\"b\":\"c\",\"d\":4,\"é\":5}");
    finds(&rt, "{\"é\":5,\"b\":\"c\",\"ab\":2,\"d\":4,\"a\":1}");
    finds(
        &rt,
        "{\"b\":7,\"é\":{},\"a\":1,\"b\":\"c\",\"ab\":[],\"d\":4,\"ab\":2,\"é\":5}",
    );
}

#[test]
fn values_are_found_by_locations(rt: HostRuntime) {
    let alloc = rt.alloc();
    let mut scratch = Scratch::new(alloc);
    let text = "[{\"b\":[1,{\"d\":2.50,\"c\":3}],\"a\":4,\"b\":[5,{\"d\":6,\"c\":7e0}]},8]";
    let document = Document::read(alloc, text, &mut scratch).expect(&rt, "a document");
    let root = document.root(alloc);
    let whole = root
        .value_at(&Location::from_steps(Vec::new(alloc)))
        .expect(&rt, "the root");
    check!(rt; text_of(&rt, whole.value()).as_str() == text);
    let rows = [
        ("b", 1, "c", Some("7e0")),
        ("b", 1, "d", Some("6")),
        ("b", 0, "c", None),
        ("b", 2, "c", None),
        ("c", 1, "c", None),
        ("a", 0, "c", None),
    ];
    for (first, index, last, want) in rows {
        let mut steps = Vec::new(alloc);
        steps.push(LocStep::Index(0)).expect(&rt, "memory");
        let first = String::from_str(alloc, first).expect(&rt, "memory");
        let last = String::from_str(alloc, last).expect(&rt, "memory");
        steps.push(LocStep::Name(first)).expect(&rt, "memory");
        steps.push(LocStep::Index(index)).expect(&rt, "memory");
        steps.push(LocStep::Name(last)).expect(&rt, "memory");
        match (root.value_at(&Location::from_steps(steps)), want) {
            (Some(found), Some(want)) => {
                check!(rt; text_of(&rt, found.value()).as_str() == want, want);
            }
            (found, want) => check!(rt; found.is_none() && want.is_none()),
        }
    }
}
