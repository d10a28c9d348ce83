//! Updates by closures that may refuse.

use crate::answers::document;
use crate::asserts::check;
use crate::outcomes::prints;
use jsonpath_lib::{AnyPath, Parser, TryFault, compile_path};
use serde_json::Value;
use std::process::Abort;

// What is below ten is taken away, what is below a hundred gives way to null, and else it is refused.
fn small(value: &Value) -> Result<Option<Value>, u64> {
    match value.as_u64() {
        Some(n) if n < 10 => Ok(None),
        Some(n) if n < 100 => Ok(Some(Value::Null)),
        Some(n) => Err(n),
        None => Err(0),
    }
}

// Asserts what was refused, or that nothing was, by zero.
fn ends(rt: &impl Abort, tried: Result<(), TryFault<u64>>, refused: u64, path: &str) {
    match tried {
        Ok(()) => check!(rt; refused == 0, path),
        Err(TryFault::Refused(number)) => check!(rt; number == refused, path),
        Err(TryFault::Unasked(_error)) => check!(rt; false, path),
    }
}

// Asserts what a path leaves of a document, and the refusal, or zero.
fn leaves<P: AnyPath>(
    rt: &(impl Abort + AllocGlobal),
    path: &P,
    json: &str,
    after: &str,
    refused: u64,
) {
    let mut changed = document(rt, json);
    let outcome = path.try_replace_in(rt.alloc(), &mut changed, &mut small);
    ends(rt, outcome, refused, after);
    prints(rt, &changed, after);
}

// Asserts the same of a path that borrows its text and of one that owns it.
fn tries(rt: &(impl Abort + AllocGlobal), path: &str, json: &str, after: &str, refused: u64) {
    let alloc = rt.alloc();
    let compiled = compile_path(alloc, path).expect(rt, "a path");
    leaves(rt, &compiled, json, after, refused);
    let node = Parser::compile(alloc, path).expect(rt, "a path");
    leaves(rt, &node, json, after, refused);
}

#[test]
fn refusals_end_updates(rt: HostRuntime) {
    for (path, json, after, refused) in [
        ("$.a", "{\"a\":1,\"b\":2}", "{\"b\":2}", 0),
        (
            "$.*",
            "{\"a\":50,\"b\":500,\"c\":5}",
            "{\"a\":null,\"b\":500,\"c\":5}",
            500,
        ),
        ("$[0,2]", "[1,50,70]", "[50,70]", 0),
        ("$[2,0]", "[500,50,1]", "[500,50,1]", 500),
        ("$", "500", "500", 0),
        ("$.zz", "{\"a\":500}", "{\"a\":500}", 0),
    ] {
        tries(&rt, path, json, after, refused);
    }
}
