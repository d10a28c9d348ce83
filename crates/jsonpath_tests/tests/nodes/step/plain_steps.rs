//! Where plain steps lead, from spots and from all below them, and the candidates of a filter.

use crate::asserts::check;
use crate::nodes::documents::{document, shows};
use jsonpath_nodes::{Spot, ValueWalker};

#[test]
fn steps_of_one_level(rt: HostRuntime) {
    let alloc = rt.alloc();
    let doc = document(&rt, "{\"b\":[1,2,3],\"a\":{\"x\":4}}");
    let root = [Spot::root(alloc, &doc)];
    shows(
        &rt,
        ValueWalker::next_all(alloc, &root),
        "{\"x\":4} [1,2,3]",
    );
    shows(
        &rt,
        ValueWalker::next_with_str(alloc, &root, "b"),
        "[1,2,3]",
    );
    let named = ValueWalker::all_with_strs(alloc, &root, &["b", "a", "b"]);
    shows(&rt, named, "[1,2,3] {\"x\":4} [1,2,3]");
}

#[test]
fn steps_into_a_list(rt: HostRuntime) {
    let alloc = rt.alloc();
    let doc = document(&rt, "{\"b\":[1,2,3],\"a\":{\"x\":4}}");
    let root = [Spot::root(alloc, &doc)];
    let list = ValueWalker::next_with_str(alloc, &root, "b").expect(&rt, "the list");
    let list = list.as_slice();
    shows(&rt, ValueWalker::next_with_num(alloc, list, -1), "3");
    shows(&rt, ValueWalker::next_with_num(alloc, &root, 0), "");
    shows(&rt, ValueWalker::next_with_str(alloc, list, "0"), "");
    shows(
        &rt,
        ValueWalker::next_with_nums(alloc, list, &[5, -1, 0]),
        "3 1",
    );
    for (start, step, want) in [
        (None, Some(2), "1 3"),
        (Some(-2), None, "2 3"),
        (None, Some(0), ""),
    ] {
        let range = ValueWalker::next_with_range(alloc, list, start, None, step);
        shows(&rt, range, want);
    }
}

#[test]
fn steps_below(rt: HostRuntime) {
    let alloc = rt.alloc();
    let doc = document(&rt, "{\"a\":[1,{\"b\":2}]}");
    let root = [Spot::root(alloc, &doc)];
    shows(
        &rt,
        ValueWalker::all(alloc, &root),
        "[1,{\"b\":2}] 1 {\"b\":2} 2",
    );
    let below = ValueWalker::below(alloc, &root).expect(&rt, "spots");
    check!(rt; below.len() == 5);
    shows(&rt, ValueWalker::all_with_str(alloc, &root, "b"), "2");
    let listed = ValueWalker::all_with_strs(alloc, below.as_slice(), &["b", "a"]);
    shows(&rt, listed, "[1,{\"b\":2}] 2");
}

#[test]
fn steps_into_lists_below(rt: HostRuntime) {
    let alloc = rt.alloc();
    let nested = document(&rt, "[[1,2],[3]]");
    let top = [Spot::root(alloc, &nested)];
    shows(&rt, ValueWalker::all_with_num(alloc, &top, -1), "[3] 2 3");
    let below = ValueWalker::below(alloc, &top).expect(&rt, "spots");
    let union = ValueWalker::next_with_nums(alloc, below.as_slice(), &[1, 0]);
    shows(&rt, union, "[3] [1,2] 2 1 3");
    let range = ValueWalker::next_with_range(alloc, below.as_slice(), Some(0), Some(1), None);
    shows(&rt, range, "[1,2] 1 3");
}

#[test]
fn candidates(rt: HostRuntime) {
    let alloc = rt.alloc();
    let doc = document(&rt, "[[1,[2]],{\"a\":[3]},[]]");
    let root = [Spot::root(alloc, &doc)];
    shows(
        &rt,
        ValueWalker::walk_dedup_all(alloc, &root),
        "1 2 {\"a\":[3]}",
    );
    let all = ValueWalker::all(alloc, &root).expect(&rt, "spots");
    let once = ValueWalker::walk_dedup_all(alloc, all.as_slice());
    shows(&rt, once, "1 2 {\"a\":[3]} 3");
    let twice = ValueWalker::next_with_nums(alloc, &root, &[1, 1, 0]).expect(&rt, "spots");
    let kept = ValueWalker::walk_dedup_all(alloc, twice.as_slice());
    shows(&rt, kept, "{\"a\":[3]} 1 2");
}

#[test]
fn candidates_are_distinct(rt: HostRuntime) {
    let alloc = rt.alloc();
    let doc = document(&rt, "{\"x\":[{\"a\":1}]}");
    let root = [Spot::root(alloc, &doc)];
    let itself = ValueWalker::walk_dedup_all(alloc, &root);
    shows(&rt, itself, "{\"x\":[{\"a\":1}]}");
    let below = ValueWalker::candidates_below(alloc, &root);
    shows(&rt, below, "{\"a\":1} 1");
}
