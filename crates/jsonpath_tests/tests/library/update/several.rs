//! Removing by several paths.

use crate::answers::document;
use crate::asserts::check;
use crate::outcomes::{BAD_PATH, becomes, is_refusal, prints, works};
use jsonpath_lib::{compile_paths, remove_at_paths, remove_by_path_texts};
use std::process::Abort;

// Asserts what is left, by path texts and by compiled paths.
fn leaves(rt: &(impl Abort + AllocGlobal), json: &str, texts: &[&str], want: &str) {
    let alloc = rt.alloc();
    becomes(
        rt,
        remove_by_path_texts(alloc, document(rt, json), texts),
        want,
    );
    let paths = compile_paths(alloc, texts).expect(rt, "paths");
    let mut changed = document(rt, json);
    works(rt, remove_at_paths(alloc, &mut changed, paths.as_slice()));
    prints(rt, &changed, want);
}

#[test]
fn removes_by_several_paths_at_once(rt: HostRuntime) {
    leaves(&rt, "[1,2,3,4]", &["$[0]", "$[0]", "$[2]"], "[2,4]");
    leaves(&rt, "[1,2,3,4]", &["$[2]", "$[0]"], "[2,4]");
    leaves(
        &rt,
        "{\"a\":{\"b\":1},\"c\":[1,2]}",
        &["$.a.b", "$", "$.c[0]"],
        "{\"a\":{},\"c\":[2]}",
    );
    leaves(
        &rt,
        "{\"a\":{\"b\":1},\"c\":[1,2]}",
        &["$.a.b", "$.a", "$.x"],
        "{\"c\":[1,2]}",
    );
    leaves(&rt, "[{\"a\":1},{\"a\":1}]", &["$[0].a", "$[?(@.a)]"], "[]");
    leaves(&rt, "[1,2]", &[], "[1,2]");
}

#[test]
fn removals_name_the_path_that_is_refused(rt: HostRuntime) {
    match remove_by_path_texts(rt.alloc(), document(&rt, "[1,2]"), &["$[0]", "$[", "$]"]) {
        Ok(_) => check!(rt; false),
        Err(refused) => {
            check!(rt; refused.index == Some(1));
            is_refusal(&rt, &refused.fault, BAD_PATH);
            prints(&rt, &refused.value, "[1,2]");
        }
    }
}
