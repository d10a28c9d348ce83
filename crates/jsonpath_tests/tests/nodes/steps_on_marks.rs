//! Steps on marks: from references and from spots they find the same values, in the same order.

use crate::asserts::check;
use jsonpath_nodes::steps_on_marks::{
    candidates_below_mark, flattened_from_each, flattened_from_mark, named_member_from_each,
    plain_step_from_all_below, plain_step_from_each,
};
use jsonpath_nodes::{Mark, NoMemory, PlainStep, Spot, ValueWalker};
use serde_json::Value;
use std::alloc::{AllocError, Global};
use std::process::Abort;

const DOCUMENT: &str = "{\"a\":{\"a\":[4],\"b\":5},\"b\":[1,[2,{\"a\":3}],1]}";

fn document(rt: &(impl Abort + AllocGlobal), text: &str) -> Value {
    Value::from_str(rt.alloc(), text).expect(rt, "a document")
}

// A mark whose value can be printed.
trait Shown: Mark {
    fn shown(&self) -> &Value;
}

impl<'a> Shown for &'a Value {
    fn shown(&self) -> &Value {
        self
    }
}

impl<'a> Shown for Spot<'a> {
    fn shown(&self) -> &Value {
        self.value()
    }
}

// The texts of the values of some marks, a blank between two.
fn texts<M: Shown>(alloc: Global, marks: &[M]) -> Result<String, AllocError> {
    let mut out = String::new(alloc);
    for mark in marks {
        if !out.is_empty() {
            out.push(' ')?;
        }
        out.push_str(mark.shown().to_string(alloc)?.as_str())?;
    }
    Ok(out)
}

// Asserts that there was memory, and that the marks' values have these texts.
fn shows<M: Shown>(rt: &(impl Abort + AllocGlobal), found: Result<Vec<M>, NoMemory>, want: &str) {
    let marks = found.expect(rt, "marks");
    let text = texts(rt.alloc(), marks.as_slice()).expect(rt, "texts");
    check!(rt; text.as_str() == want);
}

// Each plain step from one mark, and what it finds in the value and below it.
fn step_from<M: Shown>(rt: &(impl Abort + AllocGlobal), root: &[M]) {
    let alloc = rt.alloc();
    let rows = [
        (
            PlainStep::Every,
            "{\"a\":[4],\"b\":5} [1,[2,{\"a\":3}],1]",
            11,
        ),
        (PlainStep::Named("a"), "{\"a\":[4],\"b\":5}", 3),
        (
            PlainStep::Listed(&["b", "c", "a", "b"]),
            "[1,[2,{\"a\":3}],1] {\"a\":[4],\"b\":5} [1,[2,{\"a\":3}],1]",
            7,
        ),
        (PlainStep::Nth(-1), "", 3),
        (PlainStep::Union(&[0, 5, 0]), "", 6),
        (PlainStep::Range(None, None, Some(2)), "", 4),
    ];
    for (plain, here, below) in rows {
        shows(rt, plain_step_from_each(alloc, root, &plain), here);
        let deep = plain_step_from_all_below(alloc, root, &plain).expect(rt, "marks");
        check!(rt; deep.len() == below);
    }
    shows(rt, named_member_from_each(alloc, root, "c"), "");
}

#[test]
fn plain_steps(rt: HostRuntime) {
    let doc = document(&rt, DOCUMENT);
    step_from(&rt, &[&doc]);
    step_from(&rt, &[Spot::root(rt.alloc(), &doc)]);
}

// Steps into a list and below it, repeats and order as the document has them.
fn into_spots_and_numbers<M: Shown>(rt: &(impl Abort + AllocGlobal), root: &[M]) {
    let alloc = rt.alloc();
    let list = named_member_from_each(alloc, root, "b").expect(rt, "the list");
    let list = list.as_slice();
    shows(
        rt,
        plain_step_from_each(alloc, list, &PlainStep::Nth(-1)),
        "1",
    );
    shows(
        rt,
        plain_step_from_each(alloc, list, &PlainStep::Union(&[2, 9, 0, 0])),
        "1 1 1",
    );
    let range = PlainStep::Range(Some(-2), Some(3), None);
    shows(
        rt,
        plain_step_from_each(alloc, list, &range),
        "[2,{\"a\":3}] 1",
    );
    shows(
        rt,
        plain_step_from_all_below(alloc, list, &PlainStep::Every),
        "1 [2,{\"a\":3}] 1 2 {\"a\":3} 3",
    );
    shows(
        rt,
        plain_step_from_all_below(alloc, root, &PlainStep::Named("a")),
        "{\"a\":[4],\"b\":5} [4] 3",
    );
}

#[test]
fn steps_into_lists(rt: HostRuntime) {
    let doc = document(&rt, DOCUMENT);
    into_spots_and_numbers(&rt, &[&doc]);
    into_spots_and_numbers(&rt, &[Spot::root(rt.alloc(), &doc)]);
}

// The candidates of a filter, and those after `..`.
fn candidates_from<M: Shown>(rt: &(impl Abort + AllocGlobal), root: &M, marks: &[M]) {
    let alloc = rt.alloc();
    shows(rt, flattened_from_each(alloc, marks), DOCUMENT);
    shows(rt, flattened_from_mark(alloc, root), DOCUMENT);
    let lists = named_member_from_each(alloc, marks, "b").expect(rt, "the list");
    shows(
        rt,
        flattened_from_each(alloc, lists.as_slice()),
        "1 2 {\"a\":3} 1",
    );
    shows(
        rt,
        candidates_below_mark(alloc, root),
        "{\"a\":[4],\"b\":5} 1 2 {\"a\":3} 1 4 5 3",
    );
}

#[test]
fn candidates_of_marks(rt: HostRuntime) {
    let doc = document(&rt, DOCUMENT);
    candidates_from(&rt, &&doc, &[&doc]);
    let root = Spot::root(rt.alloc(), &doc);
    candidates_from(&rt, &root, &[Spot::root(rt.alloc(), &doc)]);
}

// One descent finds what `..*` and the candidates of all that it leads to find.
#[test]
fn candidates_in_one_descent(rt: HostRuntime) {
    let alloc = rt.alloc();
    for text in [DOCUMENT, "[[[1],[[2,{\"a\":[[3],4]}]]],{}]", "[]", "7"] {
        let doc = document(&rt, text);
        let root = [Spot::root(alloc, &doc)];
        let lower = ValueWalker::all(alloc, &root).expect(&rt, "spots");
        let slow = ValueWalker::walk_dedup_all(alloc, lower.as_slice()).expect(&rt, "spots");
        let want = texts(alloc, slow.as_slice()).expect(&rt, "texts");
        shows(
            &rt,
            ValueWalker::candidates_below(alloc, &root),
            want.as_str(),
        );
        shows(&rt, candidates_below_mark(alloc, &&doc), want.as_str());
    }
}
