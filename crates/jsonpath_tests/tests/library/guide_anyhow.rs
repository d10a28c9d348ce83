//! The programs of docs/LIBRARY.md, word for word, under `anyhow`'s error.

use crate::answers::{fails, gives, says_some};
use crate::outcomes::says;
use anyhow::Result;
use jsonpath_lib::{
    AnyPath, Compiled, Documents, Scratch, Text, compile_path, compile_paths, document_to_text,
    list_to_text, read_document, replace_with, select, select_as, select_path,
};
use serde::Deserialize;
use serde_json::Value;
use std::alloc::Global;

#[derive(Drop, Deserialize)]
struct Book {
    price: u64,
}

fn sum_of_prices(alloc: Global, text: &str) -> Result<u64> {
    let mut sum = 0u64;
    for book in select_as::<Book>(alloc, text, "$.store.book[*]")? {
        sum = sum.saturating_add(book.price);
    }
    Ok(sum)
}

fn without_secrets(alloc: Global, text: &str) -> Result<String> {
    let paths = compile_paths(alloc, &["$..password", "$.cards[*].number"])?;
    let mut scratch = Scratch::new(alloc);
    let document = Text::read(alloc, text.as_bytes(), &mut scratch)?;
    Ok(document.mask_as_str(alloc, paths.as_slice())?)
}

fn switched_on(alloc: Global, text: &str) -> Result<String> {
    let document = read_document(alloc, text.as_bytes())?;
    let on = &mut |_old: Value| Some(Value::Bool(true));
    let changed = replace_with(alloc, document, "$..on", on)?;
    let shown = document_to_text(alloc, &changed)?;
    Ok(shown)
}

fn has_one_cheap_book(alloc: Global, text: &str) -> Result<bool> {
    let document = read_document(alloc, text.as_bytes())?;
    let cheap = select(alloc, &document, "$..book[?(@.price < 1000)].price")?;
    let prices = list_to_text(alloc, cheap.as_slice())?;
    Ok(prices.as_str() == "[895]")
}

fn route(alloc: Global, text: &str) -> Result<Option<usize>> {
    let message = read_document(alloc, text.as_bytes())?;
    let texts = ["$[?(@.kind == 'order')]", "$.items[?(@.price > 9)]"];
    let rules = compile_paths(alloc, &texts)?;
    for (number, rule) in rules.iter().enumerate() {
        if rule.exists(alloc, &message)? {
            return Ok(Some(number));
        }
    }
    Ok(None)
}

fn slow_requests(alloc: Global, log: &str) -> Result<String> {
    let slow = Compiled::compile(alloc, "$[?(@.ms > 500)]")?;
    let mut kept = String::new(alloc);
    for record in Documents::new(alloc, log.as_bytes()) {
        let record = record?;
        if slow.exists(alloc, &record)? {
            let line = document_to_text(alloc, &record)?;
            kept.push_str(line.as_str())?;
            kept.push('\n')?;
        }
    }
    Ok(kept)
}

fn first_price_stands_at(alloc: Global, text: &str) -> Result<Option<String>> {
    let document = read_document(alloc, text.as_bytes())?;
    let path = compile_path(alloc, "$..price")?;
    let spots = select_path(alloc, &document, &path)?;
    match spots.first() {
        Some(first) => Ok(Some(first.location(alloc)?.to_string(alloc)?)),
        None => Ok(None),
    }
}

fn nulled_at(alloc: Global, text: &str, place: &str) -> Result<String> {
    let mut document = read_document(alloc, text.as_bytes())?;
    compile_path(alloc, place)?.delete_in(alloc, &mut document)?;
    let shown = document_to_text(alloc, &document)?;
    Ok(shown)
}

const STORE: &str =
    "{\"store\":{\"bicycle\":{\"price\":1995},\"book\":[{\"price\":895},{\"price\":1299}]}}";

#[test]
fn programs_of_the_guide(rt: HostRuntime) {
    let alloc = rt.alloc();
    gives(&rt, sum_of_prices(alloc, STORE), 2194, "the sum");
    says(
        &rt,
        without_secrets(
            alloc,
            "{\"password\":\"x\",\"cards\":[{\"number\":7,\"kind\":1}]}",
        ),
        "{\"cards\":[{\"kind\":1,\"number\":null}],\"password\":null}",
    );
    let jobs = switched_on(alloc, "{\"jobs\":[{\"on\":false},1]}");
    says(&rt, jobs, "{\"jobs\":[{\"on\":true},1]}");
    gives(&rt, has_one_cheap_book(alloc, STORE), true, "one is cheap");
    gives(&rt, has_one_cheap_book(alloc, "[]"), false, "none is cheap");
    gives(
        &rt,
        route(alloc, "{\"items\":[{\"price\":10}]}"),
        Some(1),
        "the second rule",
    );
    gives(&rt, route(alloc, "{\"items\":[]}"), None, "no rule");
    let slow = slow_requests(alloc, "{\"ms\":501}\n{\"ms\":7}\n{\"ms\":900}\n");
    says(&rt, slow, "{\"ms\":501}\n{\"ms\":900}\n");
}

#[test]
fn places_of_the_guide(rt: HostRuntime) {
    let alloc = rt.alloc();
    let place = first_price_stands_at(alloc, STORE);
    says_some(&rt, place, "$['store']['bicycle']['price']");
    let nulled = nulled_at(alloc, "{\"a\":[1,2]}", "$['a'][1]");
    says(&rt, nulled, "{\"a\":[1,null]}");
}

#[test]
fn refusals_come_through(rt: HostRuntime) {
    let alloc = rt.alloc();
    fails(&rt, sum_of_prices(alloc, "["));
    fails(&rt, without_secrets(alloc, "{"));
    fails(&rt, nulled_at(alloc, "[1]", "$["));
    fails(&rt, slow_requests(alloc, "{\"ms\":501}\n{"));
}
