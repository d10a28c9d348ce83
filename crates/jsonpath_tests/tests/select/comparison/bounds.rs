//! Filters whose terms have many values: what is found from the root, and lists compared as a whole.

use crate::asserts::check;
use jsonpath_select::{JsonSelector, Selector, compile_path, read_document};
use std::alloc::Global;
use std::test::Fail;

const DOCUMENT: &str =
    "{\"n\":[5,1,9,3,7,8],\"t\":[\"b\",\"a\",\"d\",\"c\",\"e\",null,true],\"same\":[4,4,4,4,4,4],\"x\":[{\"v\":1},{\"v\":6},{\"v\":9},{\"v\":\"a\"},{\"v\":null}]}";

// Paths and what they select.
const ROWS: [(&str, &str); 16] = [
    ("$.x[?(@.v == $.n[*])].v", "[1,9]"),
    ("$.x[?($.n[*] == @.v)].v", "[1,9]"),
    ("$.x[?(@.v == $.t[*])].v", "[\"a\",null]"),
    ("$.x[?(@.v < $.n[*])].v", "[1,6]"),
    ("$.x[?(@.v <= $.n[*])].v", "[1,6,9]"),
    ("$.x[?(@.v > $.n[*])].v", "[6,9]"),
    ("$.x[?($.n[*] <= @.v)].v", "[1,6,9]"),
    ("$.x[?(@.v >= $.t[*])].v", "[\"a\"]"),
    ("$.x[?(@.v != $.same[*])].v", "[1,6,9,\"a\",null]"),
    ("$.x[?(@.v != $.same[*] && @.v == $.n[*])].v", "[1,9]"),
    ("$.x[?(@.v == $.x[?(@.v > 5)].v)].v", "[6,9]"),
    ("$.x[0][?($.n[*] < $.same[*])]", "[{\"v\":1}]"),
    ("$.x[0][?($.n[*] == $.same[*])]", "[]"),
    ("$.x[0][?($.same[*] != $.same[*])]", "[]"),
    ("$.x[0][?($.t[*] != $.same[*])]", "[{\"v\":1}]"),
    ("$.x[?(@.v == $.none[*])].v", "[]"),
];

fn machine_answer(alloc: Global, path: &str) -> Result<String, Fail> {
    let document = read_document(alloc, DOCUMENT.as_bytes())?;
    let mut selector = JsonSelector::new(alloc, compile_path(alloc, path)?)?;
    Ok(selector.value(&document).select_as_str(alloc)?)
}

fn walk_answer(alloc: Global, path: &str) -> Result<String, Fail> {
    let document = read_document(alloc, DOCUMENT.as_bytes())?;
    let mut selector = Selector::new();
    selector.set_path(alloc, path)?;
    Ok(selector.value(&document).select_as_str(alloc)?)
}

#[test]
fn many_values_are_compared(rt: HostRuntime) -> Result<(), Fail> {
    let alloc = rt.alloc();
    for (path, wanted) in &ROWS {
        check!(rt; machine_answer(alloc, path)?.as_str() == *wanted, *path);
        check!(rt; walk_answer(alloc, path)?.as_str() == *wanted, *path);
    }
    Ok(())
}
