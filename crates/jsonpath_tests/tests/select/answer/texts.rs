//! Documents as they are read, printed, and turned into types.

use crate::answers::{document, is_serde_refusal, tells};
use crate::asserts::check;
use crate::outcomes::{prints, says};
use jsonpath_select::{
    JsonPathError, document_to_text, list_to_text, list_to_typed, read_document,
};
use serde::Deserialize;
use serde_json::Value;
use std::process::Abort;

const UNREAD_ERROR: &str = "serde error: \nnumber is not a whole number of 64 bits\n";

#[test]
fn reads_and_prints(rt: HostRuntime) {
    let alloc = rt.alloc();
    let text = b" {\"b\" : [18446744073709551615], \"a\":\"\\u0041\"}";
    let document = read_document(alloc, text).expect(&rt, "a document");
    prints(&rt, &document, "{\"a\":\"A\",\"b\":[18446744073709551615]}");
    let list = list_to_text(alloc, &[&document, &Value::Null]);
    says(
        &rt,
        list,
        "[{\"a\":\"A\",\"b\":[18446744073709551615]},null]",
    );
    says(&rt, list_to_text(alloc, &[]), "[]");
}

// Asserts that a text is not printed, as it has an unread number.
fn is_unprinted(rt: &(impl Abort + AllocGlobal), refused: Result<String, JsonPathError>) {
    match refused {
        Ok(_text) => check!(rt; false),
        Err(error) => tells(rt, &error, UNREAD_ERROR),
    }
}

#[test]
fn refuses_unread_numbers(rt: HostRuntime) {
    let alloc = rt.alloc();
    for text in [
        "-0",
        "1.0",
        "1e2",
        "18446744073709551616",
        "[{\"a\":[0.5]}]",
    ] {
        let value = read_document(alloc, text.as_bytes()).expect(&rt, "a document");
        is_unprinted(&rt, list_to_text(alloc, &[&Value::Null, &value]));
        is_unprinted(&rt, document_to_text(alloc, &value));
    }
}

#[derive(Drop, Deserialize)]
struct Person {
    name: String,
    age: u8,
    phones: Vec<String>,
}

#[test]
fn reads_persons(rt: HostRuntime) {
    let alloc = rt.alloc();
    let text = "{\"name\":\"Doe John\",\"age\":44,\"phones\":[\"+44 1234567\",\"+44 2345678\"]}";
    let value = document(&rt, text);
    let found = list_to_typed::<Person>(alloc, &[&value, &value]).expect(&rt, "persons");
    assert_eq!(rt; found.len(), 2);
    check!(rt; found[1].name.as_str() == "Doe John");
    check!(rt; found[1].age == 44);
    check!(rt; found[1].phones.len() == 2);
}

#[test]
fn refuses_other_types(rt: HostRuntime) {
    let other = document(&rt, "{\"name\":1}");
    let refused = list_to_typed::<Person>(rt.alloc(), &[&other]);
    check!(rt; is_serde_refusal(&refused));
}
