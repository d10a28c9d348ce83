//! Spots and locations of a document: how they are reached, ordered, printed and told apart.

use crate::asserts::check;
use crate::nodes::documents::{at, document, has_text, union_below};
use jsonpath_nodes::{PathStep, Spot, compute_paths};
use serde_json::Value;
use std::process::Abort;

#[test]
fn locations_are_printed(rt: HostRuntime) {
    let alloc = rt.alloc();
    for (steps, want) in [
        ("", "$"),
        ("store/book/0/title", "$['store']['book'][0]['title']"),
        (
            "it's \\/ü/18446744073709551615",
            "$['it\\'s \\\\']['ü'][18446744073709551615]",
        ),
    ] {
        let text = at(&rt, steps).to_string(alloc).expect(&rt, "a text");
        check!(rt; text.as_str() == want);
    }
}

// The spot of the value behind `$.a`, and so many items into it.
fn list_of<'a>(rt: &(impl Abort + AllocGlobal), doc: &'a Value) -> Spot<'a> {
    let root = Spot::root(rt.alloc(), doc);
    let member = root.member(rt.alloc(), "a").expect(rt, "memory");
    member.expect(rt, "a member")
}

fn item_of<'a>(rt: &(impl Abort + AllocGlobal), list: &Spot<'a>, index: usize) -> Spot<'a> {
    let item = list.item(rt.alloc(), index).expect(rt, "memory");
    item.expect(rt, "an item")
}

#[test]
fn spots(rt: HostRuntime) {
    let alloc = rt.alloc();
    let doc = document(&rt, "{\"a\":[7,{\"b\":8}]}");
    let root = Spot::root(alloc, &doc);
    check!(rt; root.steps().is_empty());
    check!(rt; root.children(alloc).is_ok_and(|found| found.len() == 1));
    check!(rt; root.below(alloc).is_ok_and(|found| found.len() == 5));
    check!(rt; matches!(root.member(alloc, "x"), Ok(None)));
    let list = list_of(&rt, &doc);
    check!(rt; matches!(list.item(alloc, 2), Ok(None)));
    let copy = list.clone().expect(&rt, "a copy");
    has_text(&rt, item_of(&rt, &copy, 1).value(), "{\"b\":8}");
}

#[test]
fn steps_of_spots(rt: HostRuntime) {
    let doc = document(&rt, "{\"a\":[7,{\"b\":8}]}");
    let list = list_of(&rt, &doc);
    let second = item_of(&rt, &list, 1);
    check!(rt; second.steps().len() == 2);
    let (last, up) = second.steps().split_last().expect(&rt, "a last step");
    check!(rt; matches!(last, PathStep::Index(1)));
    let (first, top) = up.split_last().expect(&rt, "a first step");
    check!(rt; matches!(first, PathStep::Name("a")) && top.split_last().is_none());
}

#[test]
fn locations_of_spots(rt: HostRuntime) {
    let alloc = rt.alloc();
    let doc = document(&rt, "{\"a\":[7,{\"b\":8}]}");
    let list = list_of(&rt, &doc);
    let above = list.steps().to_location(alloc).expect(&rt, "a location");
    let second = item_of(&rt, &list, 1);
    let location = second.steps().to_location(alloc).expect(&rt, "a location");
    check!(rt; above < location);
    let copy = location.clone().expect(&rt, "a copy");
    check!(rt; copy == at(&rt, "a/1"));
}

#[test]
fn ordered_locations(rt: HostRuntime) {
    let doc = document(&rt, "[[1,2],3]");
    let found = union_below(&rt, &doc, &[1, 0, 1]);
    let paths = compute_paths(rt.alloc(), found.as_slice()).expect(&rt, "locations");
    check!(rt; paths.len() == 4);
    for (path, want) in paths.iter().zip(["0", "0/0", "0/1", "1"]) {
        check!(rt; *path == at(&rt, want));
    }
}

#[test]
fn names_are_before_indexes(rt: HostRuntime) {
    let mut paths = Vec::new(rt.alloc());
    for steps in ["2", "b", "a/0", "10", "a"] {
        paths.push(at(&rt, steps)).expect(&rt, "memory");
    }
    paths.sort().expect(&rt, "memory");
    for (path, want) in paths.iter().zip(["a", "a/0", "b", "2", "10"]) {
        check!(rt; *path == at(&rt, want));
    }
}

#[test]
fn steps_come_from_the_root_down(rt: HostRuntime) {
    let alloc = rt.alloc();
    let text = "[{\"a\":{\"b\":[0,[1]]}}]";
    let document = Value::from_str(alloc, text).expect(&rt, "a document");
    let below = Spot::root(alloc, &document)
        .below(alloc)
        .expect(&rt, "spots");
    check!(rt; below.len() == 7);
    for spot in &below {
        let location = spot.location(alloc).expect(&rt, "a location");
        let mut shown = String::from_str(alloc, "$").expect(&rt, "a text");
        for step in spot.steps() {
            let written = match step {
                PathStep::Name(name) => write!(shown, "['{name}']"),
                PathStep::Index(index) => write!(shown, "[{index}]"),
            };
            check!(rt; written.is_ok());
        }
        let text = location.to_string(alloc).expect(&rt, "a text");
        check!(rt; shown.as_str() == text.as_str());
    }
}
