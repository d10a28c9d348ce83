//! Paths that lead to places in many ways: `..`, lists of names and filters in filters, more than once; filters that begin
//! at many places; and several filters, one after the other.

use crate::asserts::check;
use jsonpath_nodes::compute_paths;
use jsonpath_select::{
    JsonSelector, Selector, compile_path, read_document, select_path, select_path_in_any_order,
};
use std::alloc::Global;
use std::test::Fail;

const DOCUMENT: &str =
    "{\"a\":{\"a\":{\"b\":1,\"c\":[1,2]},\"b\":{\"a\":{\"b\":7}}},\"k\":7,\"l\":[{\"a\":{\"b\":3}},[{\"b\":2}]]}";

// Paths and what they select.
const ROWS: [(&str, &str); 66] = [
    ("$..a..b", "[{\"a\":{\"b\":7}},1,7,1,7,3]"),
    ("$..*..*..b", "[1,7,7,3,2,3,2,7,3,2]"),
    ("$..a..a..b", "[1,7]"),
    ("$..*..*..*..zz", "[]"),
    ("$..['a','b']..['b','a']..b", "[7,1,7,7]"),
    ("$.a[?(@..a..b)].b", "[{\"a\":{\"b\":7}}]"),
    ("$.l[?(@..a..b)]", "[{\"a\":{\"b\":3}}]"),
    ("$.l[?(@..*..b < 4)]", "[{\"a\":{\"b\":3}}]"),
    ("$.l[?(3 == @..*..b)]", "[{\"a\":{\"b\":3}}]"),
    ("$.l[?(@..['a','b']..b == $.k)]", "[]"),
    ("$..[?(@..*..b == $.k)].a.b.a", "[]"),
    ("$..[?(@..[?(@.b)])].c", "[]"),
    ("$.a[?(@..[?(@.b == 7)].b == 7)].b", "[{\"a\":{\"b\":7}}]"),
    ("$..[?(@.a[?(@.b)])].b", "[{\"a\":{\"b\":7}}]"),
    ("$..[?(@['a','b']['b','a'])].k", "[]"),
    ("$.l[?(@..a..b && @..b)]", "[{\"a\":{\"b\":3}}]"),
    ("$..[?(@..a..b || @.c)].c", "[[1,2]]"),
    ("$.l[?(@..*..*)]", "[{\"a\":{\"b\":3}}]"),
    ("$.l[?(@..a..b == @..b)]", "[{\"a\":{\"b\":3}}]"),
    ("$.a[?(@..[?(@..[?(@.b)])])].b.a", "[{\"b\":7}]"),
    ("$.l[?(@..a..b != $.k)]", "[{\"a\":{\"b\":3}}]"),
    ("$..[?($.k == @..a..b)].a.a.b", "[]"),
    ("$..a[?(@.b)].c", "[[1,2]]"),
    ("$..a[?(@.b < 8)].b", "[1,7,3]"),
    ("$.l..a[?(@.b)].b", "[3]"),
    ("$..a.b[?(@.a)]", "[{\"a\":{\"b\":7}}]"),
    ("$..*.a[?(@.b)].b", "[1,7,3]"),
    ("$..l[0][?(@.a)].a", "[{\"b\":3}]"),
    ("$..l[0:2][?(@.b)]", "[{\"b\":2}]"),
    ("$..l[*][?(@.b)]", "[{\"b\":2}]"),
    ("$..a..b[?(@.a)]", "[{\"a\":{\"b\":7}}]"),
    ("$['a','a'][?(@.b)].b.a", "[{\"b\":7}]"),
    ("$.*[*][?(@.b)]", "[{\"b\":1,\"c\":[1,2]},{\"b\":2}]"),
    ("$.*.*[?(@.b)].b", "[1,2]"),
    ("$.l[*].a[?(@.b)].b", "[3]"),
    ("$.a.*.a[?(@.b)].b", "[7]"),
    ("$.l[0:2][?(@.b)]", "[{\"b\":2}]"),
    ("$[*][*][*][?(@.b < 7)].b", "[3,2]"),
    ("$..*[?(@.b)].b", "[{\"a\":{\"b\":7}},2,1,7,3]"),
    ("$.a[?($..a[?(@.b)].b == @.b.a.b)].a.c", "[[1,2]]"),
    ("$.*..[?(@.b)].b", "[1,7,2,3]"),
    ("$.a.*..[?(@.b)].b", "[7]"),
    ("$.*.*..[?(@.b)].b", "[7,3,2]"),
    ("$.*[?(@)]..[?(@.b)].b", "[1,7,2,3]"),
    ("$.l[?(@.a)]..[?(@.b)].b", "[3]"),
    ("$.l[?(@.a)].a[?(@.b)].b", "[3]"),
    ("$.l[?(@.b || @.a)][?(@.b == 2)].b", "[2]"),
    ("$.l[?(@)][*][?(@.b)].b", "[2]"),
    ("$[?(@.a)].a[?(@.b)].b", "[{\"a\":{\"b\":7}}]"),
    ("$[?(@.a)][?(@.b)]..[?(@.b)].b", "[]"),
    ("$.*[?(@.a)].*[?(@.b)].b", "[1,3]"),
    ("$..[?(@.a)].a[?(@.b)].b", "[1,3,7]"),
    ("$.a..*[?(@.b)][?(@.c)].b", "[1]"),
    ("$['a','l'][?(@.b)].b", "[{\"a\":{\"b\":7}},2]"),
    ("$['l','a']..[?(@.b)].b", "[2,3,1,7]"),
    ("$.a['a','b'][?(@.b || @.a)].b", "[1]"),
    ("$.l[1,0][?(@.b)].b", "[2]"),
    ("$.l[0,1].a[?(@.b)].b", "[3]"),
    ("$.l[-1,-2][?(@.b)].b", "[2]"),
    ("$.l[1,1][?(@.b)].b", "[2]"),
    ("$..['a','b'][?(@.b)].b", "[{\"a\":{\"b\":7}},1,7,3]"),
    ("$.*..a[?(@.b)].b", "[1,7,3]"),
    ("$.*..['a','k'][?(@.b)].b", "[1,7,3]"),
    ("$.l[?(@.a || @.b)]..[?(@.b)].b", "[3]"),
    ("$..*[0].a[?(@.b)].b", "[3]"),
    ("$['a','l'][*][?(@.b)]..[?(@ > 1)]", "[2,2]"),
];

fn machine_answer(alloc: Global, path: &str) -> Result<String, Fail> {
    let document = read_document(alloc, DOCUMENT.as_bytes())?;
    let mut selector = JsonSelector::new(alloc, compile_path(alloc, path)?)?;
    Ok(selector.value(&document).select_as_str(alloc)?)
}

fn walk_answer(alloc: Global, path: &str) -> Result<String, Fail> {
    let document = read_document(alloc, DOCUMENT.as_bytes())?;
    let mut selector = Selector::new();
    selector.set_path(alloc, path)?;
    Ok(selector.value(&document).select_as_str(alloc)?)
}

// Whether the set that the path selects has the locations that it selects.
fn is_one_set(alloc: Global, path: &str) -> Result<bool, Fail> {
    let document = read_document(alloc, DOCUMENT.as_bytes())?;
    let compiled = compile_path(alloc, path)?;
    let all = select_path(alloc, &document, &compiled)?;
    let set = select_path_in_any_order(alloc, &document, &compiled)?;
    let wanted = compute_paths(alloc, all.as_slice())?;
    let found = compute_paths(alloc, set.as_slice())?;
    Ok(found.as_slice() == wanted.as_slice())
}

#[test]
fn ways_are_kept_in_selections(rt: HostRuntime) -> Result<(), Fail> {
    let alloc = rt.alloc();
    for (path, wanted) in &ROWS {
        check!(rt; machine_answer(alloc, path)?.as_str() == *wanted, *path);
        check!(rt; walk_answer(alloc, path)?.as_str() == *wanted, *path);
    }
    Ok(())
}

#[test]
fn ways_are_dropped_in_sets(rt: HostRuntime) -> Result<(), Fail> {
    let alloc = rt.alloc();
    for (path, _) in &ROWS {
        check!(rt; is_one_set(alloc, path)?, *path);
    }
    Ok(())
}
