//! Copies of what a compiled path is made of.

use crate::asserts::check;
use jsonpath_paths::{Items, ParseToken, PathParser};

#[test]
fn copies(rt: HostRuntime) {
    let alloc = rt.alloc();
    let indexes = Items::from_vec([2, -1].to_vec(alloc).expect(&rt, "a list"));
    let again = indexes.clone().expect(&rt, "a copy");
    check!(rt; again == indexes);
    check!(rt; again.as_slice() == [2, -1].as_slice());
    check!(rt; indexes.into_vec().as_slice() == [2, -1].as_slice());
    let union = ParseToken::Union(again);
    check!(rt; union.clone().expect(&rt, "a copy") == union);
}

#[test]
fn compiled(rt: HostRuntime) {
    let text = "$.a[?(@.b == 1 && @)]['x', 'y']";
    let parser = PathParser::compile(rt.alloc(), text).expect(&rt, "a path");
    let copy = parser.clone().expect(&rt, "a copy");
    check!(rt; parser.tree().steps.len() == 3);
    check!(rt; copy.text() == text);
    let again = copy.into_tree().clone().expect(&rt, "a copy");
    check!(rt; again.absolute);
    check!(rt; again.steps.len() == 3);
}
