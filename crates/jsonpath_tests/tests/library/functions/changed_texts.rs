//! Updates by path texts, and typed values of a JSON text.

use crate::answers::document;
use crate::asserts::check;
use crate::outcomes::{BAD_PATH, becomes, prints, refuses};
use jsonpath_lib::{delete, select_as};
use serde_json::Value;

const JSON: &str = " [{\"a\":1}, {\"a\":[2]}, 3] ";

#[test]
fn short_functions_null(rt: HostRuntime) {
    let a = rt.alloc();
    becomes(
        &rt,
        delete(a, document(&rt, JSON), "$[*].a"),
        "[{\"a\":null},{\"a\":null},3]",
    );
    becomes(
        &rt,
        delete(a, document(&rt, "[1,2,3]"), "$[0,2]"),
        "[null,2,null]",
    );
    refuses(&rt, delete(a, document(&rt, "[1]"), "$["), BAD_PATH);
}

#[test]
fn texts_give_values_of_their_own(rt: HostRuntime) {
    let a = rt.alloc();
    let found = select_as::<Value>(a, JSON, "$[:2].a");
    let mut found = found.expect(&rt, "values");
    check!(rt; found.len() == 2);
    prints(&rt, &found[1], "[2]");
    let first = found.remove(0);
    prints(&rt, &first, "1");
}
