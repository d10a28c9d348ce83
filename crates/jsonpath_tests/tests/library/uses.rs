//! What users do with the crate: the samples of the guide of `jsonpath_lib`, word for word, and more.

use crate::answers::{document, selects};
use crate::asserts::check;
use crate::outcomes::{BAD_PATH, becomes, is_held, is_refusal, prints, works};
use jsonpath_lib::{
    AnyPath, JsonPathError, PathParser, SelectorMut, compile_path, compile_paths, delete,
    list_to_text, mask, mask_at_paths, read_document, replace_with, select, select_as,
    select_as_str,
};
use serde::Deserialize;
use serde_json::Value;
use std::alloc::Global;
use std::process::Abort;
use std::test::Fail;

const STORE: &str =
    "{\"store\":{\"bicycle\":{\"price\":1995},\"book\":[{\"price\":895},{\"price\":1299}]}}";

#[derive(Drop, Deserialize)]
struct Book {
    price: u64,
}

fn path<'a>(rt: &(impl Abort + AllocGlobal), text: &'a str) -> PathParser<'a> {
    compile_path(rt.alloc(), text).expect(rt, "a path")
}

#[test]
fn columns_are_extracted(rt: HostRuntime) -> Result<(), Fail> {
    let alloc = rt.alloc();
    let text = STORE;
    let prices = select_as_str(alloc, text, "$.store..price")?;
    assert!(rt; prices.as_str() == "[1995,895,1299]");
    let books = select_as::<Book>(alloc, text, "$.store.book[*]")?;
    assert_eq!(rt; books[1].price, 1299);
    let document = read_document(alloc, text.as_bytes())?;
    let path = compile_path(alloc, "$.store.book[*]")?;
    let books = path.select_as::<Book>(alloc, &document)?;
    assert_eq!(rt; books.len(), 2);
    Ok(())
}

// The sample of masking, as the document that it leaves.
fn masked(alloc: Global) -> Result<Value, JsonPathError> {
    let document = read_document(alloc, b"{\"a\":{\"b\":1},\"c\":[1,2]}")?;
    let masked = match mask(alloc, document, &["$.a.b", "$.c[0]"]) {
        Ok(masked) => masked,
        Err(refused) => refused.value,
    };
    Ok(masked)
}

#[test]
fn values_are_masked(rt: HostRuntime) {
    becomes(
        &rt,
        masked(rt.alloc()),
        "{\"a\":{\"b\":null},\"c\":[null,2]}",
    );
    let masked = document(&rt, "{\"a\":{\"b\":null},\"c\":[null,2]}");
    let again = mask(rt.alloc(), masked, &["$.a.b", "$", "$.a", "$.c[0]"]);
    becomes(&rt, again, "{\"a\":null,\"c\":[null,2]}");
    let kept = mask(rt.alloc(), document(&rt, "{\"a\":1}"), &[]);
    becomes(&rt, kept, "{\"a\":1}");
}

#[test]
fn masks_name_the_path_that_is_refused(rt: HostRuntime) {
    let masked = document(&rt, "{\"a\":null,\"c\":[null,2]}");
    match mask(rt.alloc(), masked, &["$.a", "$[", "$]"]) {
        Ok(_) => check!(rt; false),
        Err(fault) => {
            check!(rt; fault.index == Some(1));
            is_refusal(&rt, &fault.fault, BAD_PATH);
            prints(&rt, &fault.value, "{\"a\":null,\"c\":[null,2]}");
        }
    }
}

// An override: what a closure returns, wherever a path leads.
fn overridden(alloc: Global, document: Value) -> Result<Value, JsonPathError> {
    let on = &mut |_old: Value| Some(Value::Bool(true));
    let changed = replace_with(alloc, document, "$..on", on)?;
    Ok(changed)
}

#[test]
fn configuration_is_overridden(rt: HostRuntime) {
    let document = document(&rt, "{\"log\":{\"on\":false},\"jobs\":[{\"on\":false},1]}");
    let changed = "{\"jobs\":[{\"on\":true},1],\"log\":{\"on\":true}}";
    becomes(&rt, overridden(rt.alloc(), document), changed);
}

#[test]
fn answers_are_asserted(rt: HostRuntime) -> Result<(), Fail> {
    let alloc = rt.alloc();
    let document = read_document(alloc, STORE.as_bytes())?;
    let cheap = select(alloc, &document, "$..book[?(@.price < 1000)].price")?;
    assert!(rt; list_to_text(alloc, cheap.as_slice())?.as_str() == "[895]");
    Ok(())
}

// The sample of routing: the number of the last rule that selects something.
fn route(alloc: Global, message: &Value) -> Result<Option<usize>, JsonPathError> {
    let texts = ["$[?(@.kind == 'order')]", "$.items[?(@.price > 9)]"];
    let rules = compile_paths(alloc, &texts)?;
    let mut route = None;
    for (number, rule) in rules.iter().enumerate() {
        if rule.exists(alloc, &message)? {
            route = Some(number);
        }
    }
    Ok(route)
}

#[test]
fn messages_are_routed_by_stored_paths(rt: HostRuntime) -> Result<(), Fail> {
    let alloc = rt.alloc();
    let message = document(&rt, "{\"items\":[{\"price\":10},{\"price\":8}]}");
    let number = route(alloc, &message)?;
    check!(rt; number == Some(1));
    let path = path(&rt, "$.items[?(@.price > 9)]");
    selects(&rt, path.select(alloc, &message), "[{\"price\":10}]");
    Ok(())
}

// The sample of calls that chain.
fn chained(alloc: Global, document: Value) -> Result<Option<Value>, JsonPathError> {
    let mut held = SelectorMut::new();
    held.str_path(alloc, "$.a")?.value(document);
    held.delete(alloc)?.str_path(alloc, "$.b")?.remove(alloc)?;
    let changed = held.take();
    Ok(changed)
}

#[test]
fn calls_chain(rt: HostRuntime) {
    match chained(rt.alloc(), document(&rt, "{\"a\":1,\"b\":2}")) {
        Ok(changed) => is_held(&rt, changed, "{\"a\":null}"),
        Err(_refused) => check!(rt; false),
    }
}

fn none(_old: Value) -> Option<Value> {
    None
}

#[test]
fn documents_are_changed_in_place(rt: HostRuntime) {
    let alloc = rt.alloc();
    let mut document = document(&rt, STORE);
    let first = path(&rt, "$..book[0,1]");
    works(&rt, first.remove_in(alloc, &mut document));
    let left = "{\"store\":{\"bicycle\":{\"price\":1995},\"book\":[]}}";
    prints(&rt, &document, left);
    let price = path(&rt, "$..price");
    works(&rt, price.replace_in(alloc, &mut document, &mut none));
    let bicycle = path(&rt, "$.store.bicycle");
    works(&rt, bicycle.delete_in(alloc, &mut document));
    prints(&rt, &document, "{\"store\":{\"bicycle\":null,\"book\":[]}}");
}

#[test]
fn documents_are_masked_and_nulled(rt: HostRuntime) {
    let alloc = rt.alloc();
    let mut held = document(&rt, "{\"store\":{\"bicycle\":null,\"book\":[]}}");
    let paths = [path(&rt, "$.store")];
    works(&rt, mask_at_paths(alloc, &mut held, &paths));
    prints(&rt, &held, "{\"store\":null}");
    becomes(
        &rt,
        delete(alloc, document(&rt, "[1,2.5]"), "$[1]"),
        "[1,null]",
    );
}
