//! What paths select in the tree of a text with its numbers as written, where they compare exactly.

use crate::asserts::check;
use jpath_texts::{Document, DocumentRefusal};
use json::Scratch;
use jsonpath_select::{compile_path, select_in_tree, select_nodes_in_tree};
use std::process::Abort;

// The texts of the values that a path selects in the tree of a text, a blank between two; why there are none.
fn selected(
    rt: &(impl Abort + AllocGlobal),
    text: &str,
    path: &str,
) -> Result<String, DocumentRefusal> {
    let alloc = rt.alloc();
    let mut scratch = Scratch::new(alloc);
    let document = Document::read(alloc, text, &mut scratch)?;
    let root = document.root(alloc);
    let path = compile_path(alloc, path).expect(rt, "a path");
    let found = select_in_tree(alloc, root, &path)?;
    let mut out = String::new(alloc);
    for value in &found {
        if !out.is_empty() {
            out.push(' ').expect(rt, "memory");
        }
        let bytes = json::to_vec(alloc, value.value()).expect(rt, "a text");
        let one = String::from_utf8(bytes).expect(rt, "UTF-8");
        out.push_str(one.as_str()).expect(rt, "memory");
    }
    Ok(out)
}

#[test]
fn values_as_they_are_written(rt: HostRuntime) {
    let rows = [
        (
            "{\"b\":1.50,\"a\":{\"b\":2e0}}",
            "$",
            "{\"b\":1.50,\"a\":{\"b\":2e0}}",
        ),
        ("{\"b\":1.50,\"a\":{\"b\":2e0}}", "$.b", "1.50"),
        ("{\"b\":1.50,\"a\":{\"b\":2e0}}", "$..b", "1.50 2e0"),
        ("{\"b\":1,\"a\":2,\"b\":3}", "$.*", "2 3"),
        ("[1.0,2.0,3.0,4.0]", "$[1:]", "2.0 3.0 4.0"),
        ("[1.0,2.0,3.0,4.0]", "$[-1,0,0]", "4.0 1.0 1.0"),
        ("[1.0,2.0,3.0,4.0]", "$[::2]", "1.0 3.0"),
        (
            "[[1],[2.5,{\"a\":3}]]",
            "$..*",
            "[1] [2.5,{\"a\":3}] 1 2.5 {\"a\":3} 3",
        ),
        ("[0.10,0.1,0.11,1e-1]", "$[*][?(@ == 0.1)]", "0.10 0.1 1e-1"),
        (
            "[9007199254740992,9007199254740993]",
            "$[*][?(@ > 9007199254740992)]",
            "9007199254740993",
        ),
        (
            "{\"k\":1.5,\"l\":[{\"v\":1.50},{\"v\":1.51}]}",
            "$.l[?(@.v == $.k)].v",
            "1.50",
        ),
        (
            "{\"k\":[1e400,2,3,4,5,6],\"l\":[10e399,7,2.0]}",
            "$.l[*][?(@ == $.k[*])]",
            "10e399 2.0",
        ),
        (
            "{\"k\":[1e400,2,3,4,5,6],\"l\":[1e401,7,2.0]}",
            "$.l[*][?(@ < $.k[*])]",
            "7 2.0",
        ),
        (
            "{\"k\":[2.0,2,2e0,2.00,20e-1],\"l\":[2,\"2\",3]}",
            "$.l[*][?(@ != $.k[*])]",
            "\"2\" 3",
        ),
        ("[{\"a\":1},{\"b\":2},3]", "$[?(@.a)]", "{\"a\":1}"),
    ];
    for (text, path, want) in rows {
        let found = selected(&rt, text, path);
        check!(rt; matches!(&found, Ok(shown) if shown.as_str() == want), path);
    }
}

#[test]
fn number_that_has_no_place_is_refused(rt: HostRuntime) {
    let text = "[1e9999999999999999999999999999999999999999999999]";
    let found = selected(&rt, text, "$[*][?(@ > 1)]");
    check!(rt; matches!(found, Err(DocumentRefusal::HugeExponent)));
    check!(rt; matches!(selected(&rt, text, "$[*]"), Ok(_)));
}

// Duplicates are dropped by location, so these paths can't be evaluated by values alone.
#[test]
fn values_where_locations_matter(rt: HostRuntime) {
    let rows = [
        ("[[[{\"a\":1.0}]]]", "$..*[?(@.a)]", "{\"a\":1.0}"),
        (
            "[[{\"a\":0.5},{\"a\":0.50}]]",
            "$..*[?(@.a == 0.5)]",
            "{\"a\":0.5} {\"a\":0.50}",
        ),
    ];
    for (text, path, want) in rows {
        let found = selected(&rt, text, path);
        check!(rt; matches!(&found, Ok(shown) if shown.as_str() == want), path);
    }
}

#[test]
fn nodes_of_a_tree(rt: HostRuntime) {
    let alloc = rt.alloc();
    let mut scratch = Scratch::new(alloc);
    let text = "{\"a\":[1.50,{\"b\":2e0}],\"b\":[]}";
    let document = Document::read(alloc, text, &mut scratch).expect(&rt, "a document");
    let root = document.root(alloc);
    let rows = [
        ("$", "$"),
        ("$..b", "$['b'] $['a'][1]['b']"),
        ("$.a[?(@ > 1)]", ""),
        ("$.a[*][?(@ > 1)]", "$['a'][0]"),
        ("$..*[?(@.b)]", "$['a'][1]"),
    ];
    for (path, want) in rows {
        let compiled = compile_path(alloc, path).expect(&rt, "a path");
        let found = select_nodes_in_tree(alloc, root, &compiled).expect(&rt, "nodes");
        let mut shown = String::new(alloc);
        for node in &found {
            if !shown.is_empty() {
                shown.push(' ').expect(&rt, "memory");
            }
            let location = node.location(alloc).expect(&rt, "a location");
            let text = location.to_string(alloc).expect(&rt, "a text");
            shown.push_str(text.as_str()).expect(&rt, "memory");
        }
        check!(rt; shown.as_str() == want, path);
    }
}
