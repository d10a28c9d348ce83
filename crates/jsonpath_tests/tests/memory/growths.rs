//! Any growth of memory may be refused here, one in a run: each call gives its full answer or want of
//! memory, leaves what it says, and answers when it is asked again. A refusal in a set-up ends the row.
use crate::asserts::check;
use crate::memory::grown;
use crate::outcomes::{NO_MEMORY, NO_PATH, NO_VALUE, becomes, is_refusal, refuses, works};
use crate::run::streams::{Sink, Source};
use jsonpath_lib::{
    Compiled, JsonPathError, JsonSelector, JsonSelectorMut, MaskFault, ParseFault, Parser,
    PathCompiled, Scratch, Selector, SelectorMut, Text, compile, compile_path, delete,
    document_to_text, mask, remove_by_path_texts, replace_with, select, select_as, select_as_str,
    selector, selector_as,
};
use jsonpath_run::{Fault, Output, run};
use serde_json::Value;
use std::alloc::Global;
use std::process::Abort;
use std::rc::Rc;

const FRIENDS: &str =
    "{\"school\":{\"friends\":[{\"name\":\"친구1\",\"age\":20},{\"name\":\"친구2\",\"age\":20}]},\"friends\":[{\"name\":\"친구3\",\"age\":30},{\"name\":\"친구4\"}]}";

const STORE: &str =
    "{\"store\":{\"book\":[{\"price\":895},{\"price\":1299},{\"price\":899},{\"price\":2299}],\"bicycle\":{\"price\":1995}}}";

// Path, document, answer. Each is tried by itself, since a test runs once for each growth.
type Row = (&'static str, &'static str, &'static str);

const SELECTED: [Row; 4] = [
    (
        "$..friends[0]",
        FRIENDS,
        "[{\"age\":30,\"name\":\"친구3\"},{\"age\":20,\"name\":\"친구1\"}]",
    ),
    ("$.store..price", STORE, "[1995,895,1299,899,2299]"),
    (
        "$.o[?(@.i[?(@.q > $.m)])].n",
        "{\"m\":2,\"o\":[{\"n\":\"p\",\"i\":[{\"q\":1},{\"q\":3}]},{\"n\":\"r\",\"i\":[{\"q\":2}]}]}",
        "[\"p\"]",
    ),
    ("$.foo.bar", "{\"foo\":{\"bar\":\"baz\"}}", "[\"baz\"]"),
];

// Path, document, the document after deleting.
const DELETED: [(&str, &str, &str); 3] = [
    (
        "$..[?(20 == @.age)]",
        FRIENDS,
        "{\"friends\":[{\"age\":30,\"name\":\"친구3\"},{\"name\":\"친구4\"}],\"school\":{\"friends\":[null,null]}}",
    ),
    (
        "$.store..price[?(@>1300)]",
        STORE,
        "{\"store\":{\"bicycle\":{\"price\":null},\"book\":[{\"price\":895},{\"price\":1299},{\"price\":899},{\"price\":null}]}}",
    ),
    (
        "$..a",
        "{\"a\":{\"a\":1},\"b\":{\"a\":2}}",
        "{\"a\":null,\"b\":{\"a\":null}}",
    ),
];

// A set-up, or the end of the call.
macro_rules! made {
    ($call:expr) => {
        match $call {
            Ok(it) => it,
            Err(_) => return,
        }
    };
}

fn short_selections_grow(rt: &(impl Abort + AllocGlobal), row: Row) {
    let (path, json, text) = row;
    let alloc = rt.alloc();
    let document = made!(Value::from_str(alloc, json));
    let mut refused = 0u8;
    for _ in 0..2u8 {
        grown::values(rt, &mut refused, select(alloc, &document, path), text);
        grown::values(
            rt,
            &mut refused,
            selector(&document).select(alloc, path),
            text,
        );
        grown::text(rt, &mut refused, select_as_str(alloc, json, path), text);
        grown::some(
            rt,
            &mut refused,
            select_as::<Value>(alloc, json, path),
            true,
        );
        let typed = selector_as::<Value>(&document);
        grown::some(rt, &mut refused, typed.select(alloc, path), true);
        if refused == 0 {
            break;
        }
    }
}

#[test]
fn growths_of_short_selections_by_descents(rt: HostRuntime) {
    short_selections_grow(&rt, SELECTED[0]);
}

#[test]
fn growths_of_short_selections_by_prices(rt: HostRuntime) {
    short_selections_grow(&rt, SELECTED[1]);
}

#[test]
fn growths_of_short_selections_by_nested_filters(rt: HostRuntime) {
    short_selections_grow(&rt, SELECTED[2]);
}

#[test]
fn growths_of_short_selections_by_names(rt: HostRuntime) {
    short_selections_grow(&rt, SELECTED[3]);
}

fn json_selector_answers(
    rt: &(impl Abort + AllocGlobal),
    refused: &mut u8,
    held: &JsonSelector<'_>,
    text: &str,
) {
    let alloc = rt.alloc();
    for _ in 0..2u8 {
        grown::values(rt, refused, held.select(alloc), text);
        grown::some(rt, refused, held.select_spots(alloc), true);
        grown::text(rt, refused, held.select_as_str(alloc), text);
        grown::some(rt, refused, held.select_as::<Value>(alloc), true);
        if *refused == 0 {
            break;
        }
    }
}

fn json_selector_grows<'a>(
    rt: &(impl Abort + AllocGlobal),
    path: &'a str,
    document: &'a Value,
    text: &str,
) {
    let alloc = rt.alloc();
    let mut held = made!(JsonSelector::new(alloc, made!(compile_path(alloc, path))));
    held.value(document);
    let mut refused = 0u8;
    json_selector_answers(rt, &mut refused, &held, text);
    let other = made!(compile_path(alloc, "$.none"));
    match held.set_parser(alloc, other) {
        Ok(()) => grown::some(rt, &mut refused, held.select(alloc), false),
        Err(error) => {
            grown::once(rt, &mut refused, &error);
            grown::text(rt, &mut refused, held.select_as_str(alloc), text);
        }
    }
}

fn json_selector_grows_for(rt: &(impl Abort + AllocGlobal), row: Row) {
    let (path, json, text) = row;
    let document = made!(Value::from_str(rt.alloc(), json));
    json_selector_grows(rt, path, &document, text);
}

#[test]
fn growths_of_json_selectors_by_descents(rt: HostRuntime) {
    json_selector_grows_for(&rt, SELECTED[0]);
}

#[test]
fn growths_of_json_selectors_by_nested_filters(rt: HostRuntime) {
    json_selector_grows_for(&rt, SELECTED[2]);
}

fn selector_answers(
    rt: &(impl Abort + AllocGlobal),
    refused: &mut u8,
    held: &Selector<'_, '_>,
    text: &str,
) {
    let alloc = rt.alloc();
    for _ in 0..2u8 {
        grown::values(rt, refused, held.select(alloc), text);
        grown::some(rt, refused, held.select_spots(alloc), true);
        grown::text(rt, refused, held.select_as_str(alloc), text);
        grown::some(rt, refused, held.select_as::<Value>(alloc), true);
        if *refused == 0 {
            break;
        }
    }
}

fn selector_grows(rt: &(impl Abort + AllocGlobal), row: Row) {
    let (path, json, text) = row;
    let alloc = rt.alloc();
    let document = made!(Value::from_str(alloc, json));
    let node = made!(Parser::compile(alloc, path));
    let mut held = Selector::new();
    held.compiled_path(&node).value(&document);
    let mut refused = 0u8;
    selector_answers(rt, &mut refused, &held, text);
    match held.set_path(alloc, "$.none") {
        Ok(()) => grown::some(rt, &mut refused, held.select(alloc), false),
        Err(error) => {
            grown::once(rt, &mut refused, &error);
            grown::text(rt, &mut refused, held.select_as_str(alloc), text);
        }
    }
}

#[test]
fn growths_of_selectors_by_descents(rt: HostRuntime) {
    selector_grows(&rt, SELECTED[0]);
}

#[test]
fn growths_of_selectors_by_nested_filters(rt: HostRuntime) {
    selector_grows(&rt, SELECTED[2]);
}

#[test]
fn growths_of_missing_parts(rt: HostRuntime) {
    let alloc = rt.alloc();
    let mut held = JsonSelector::default();
    refuses(&rt, held.select(alloc), NO_PATH);
    refuses(&rt, held.select_as_str(alloc), NO_PATH);
    let parser = made!(compile_path(alloc, "$.a"));
    held.reset_parser_ref(made!(Rc::new(alloc, parser)));
    refuses(&rt, held.select_spots(alloc), NO_VALUE);
}

#[test]
fn growths_of_missing_parts_of_updates(rt: HostRuntime) {
    let alloc = rt.alloc();
    let mut changed = SelectorMut::new();
    refuses(&rt, changed.delete(alloc), NO_PATH);
    changed.compiled_path(made!(Parser::compile(alloc, "$.a")));
    refuses(&rt, changed.remove(alloc), NO_VALUE);
}

// Asserts that a text is refused, and how the message shows it, where there is memory for it.
fn is_marked(rt: &impl Abort, compiled: Result<Compiled, ParseFault>, mark: &str) {
    match compiled {
        Ok(_compiled) => check!(rt; false, mark),
        Err(ParseFault::Text(text)) => check!(rt; text.as_str() == mark, mark),
        Err(_other) => {}
    }
}

// Asserts that a path's refusal is told, with this message where one is given, or want of memory.
fn is_bad_path<T: Drop>(rt: &impl Abort, outcome: Result<T, JsonPathError>, mark: &str) {
    match outcome {
        Err(JsonPathError::Path(text)) => {
            check!(rt; mark.is_empty() || text.as_str() == mark, mark);
        }
        Err(JsonPathError::OutOfMemory) => {}
        _other => check!(rt; false, mark),
    }
}

// Asserts that a text is no document, or want of memory.
fn is_bad_document<T: Drop>(rt: &impl Abort, outcome: Result<T, JsonPathError>, json: &str) {
    match outcome {
        Err(JsonPathError::Serde(_text)) => {}
        Err(JsonPathError::OutOfMemory) => {}
        _other => check!(rt; false, json),
    }
}

fn refused_text_grows(rt: &(impl Abort + AllocGlobal), path: &str, mark: &str) {
    let alloc = rt.alloc();
    is_bad_path(rt, compile_path(alloc, path), "");
    is_marked(rt, Compiled::compile(alloc, path), mark);
    let kept = compile(alloc, path);
    is_bad_path(rt, kept.select(alloc, &Value::Null), mark);
    is_bad_path(rt, kept.select(alloc, &Value::Null), mark);
}

#[test]
fn growths_of_refused_texts(rt: HostRuntime) {
    refused_text_grows(&rt, "$[", "$[\n^^");
    refused_text_grows(&rt, "$[a]", "$[a]\n^^^");
    for json in ["", "[1", "{\"a\":1,}"] {
        is_bad_document(&rt, select_as_str(rt.alloc(), json, "$"), json);
    }
}

fn shared_path_grows(rt: &(impl Abort + AllocGlobal), path: &str, json: &str, text: &str) {
    let alloc = rt.alloc();
    let document = made!(Value::from_str(alloc, json));
    let mut refused = 0u8;
    for _ in 0..2u8 {
        match PathCompiled::compile(alloc, path) {
            Ok(compiled) => {
                grown::values(rt, &mut refused, compiled.select(alloc, &document), text);
            }
            Err(error) => grown::once(rt, &mut refused, &error),
        }
        if refused == 0 {
            break;
        }
    }
}

fn owned_path_grows(rt: &(impl Abort + AllocGlobal), path: &str, json: &str, text: &str) {
    let alloc = rt.alloc();
    let document = made!(Value::from_str(alloc, json));
    let compiled = made!(Compiled::compile(alloc, path));
    let copy = made!(compiled.clone());
    let mut refused = 0u8;
    for _ in 0..2u8 {
        grown::values(rt, &mut refused, compiled.select(alloc, &document), text);
        grown::values(rt, &mut refused, copy.select(alloc, &document), text);
        if refused == 0 {
            break;
        }
    }
}

// The first refusal is kept, or the answer is there each time.
fn kept_path_grows(rt: &(impl Abort + AllocGlobal), path: &str, json: &str, text: &str) {
    let alloc = rt.alloc();
    let document = made!(Value::from_str(alloc, json));
    let kept = compile(alloc, path);
    let mut refused = 0u8;
    for _ in 0..3u8 {
        let mut is_refused = 0u8;
        grown::values(rt, &mut is_refused, kept.select(alloc, &document), text);
        refused = refused.wrapping_add(is_refused);
    }
    check!(rt; refused != 2);
}

fn compiled_paths_grow(rt: &(impl Abort + AllocGlobal), row: Row) {
    let (path, json, text) = row;
    shared_path_grows(rt, path, json, text);
    owned_path_grows(rt, path, json, text);
    kept_path_grows(rt, path, json, text);
}

#[test]
fn growths_of_compiled_paths_by_descents(rt: HostRuntime) {
    compiled_paths_grow(&rt, SELECTED[0]);
}

#[test]
fn growths_of_compiled_paths_by_nested_filters(rt: HostRuntime) {
    compiled_paths_grow(&rt, SELECTED[2]);
}

// Asserts which document a call leaves, or that it wanted memory.
fn changes(rt: &(impl Abort + AllocGlobal), changed: Result<Value, JsonPathError>, after: &str) {
    match changed {
        Ok(value) => grown::is_now(rt, &value, after),
        Err(error) => is_refusal(rt, &error, NO_MEMORY),
    }
}

fn deletion_grows(rt: &(impl Abort + AllocGlobal), path: &str, json: &str, after: &str) {
    let alloc = rt.alloc();
    let value = made!(Value::from_str(alloc, json));
    changes(rt, delete(alloc, value, path), after);
}

fn held_deletion_grows(rt: &(impl Abort + AllocGlobal), path: &str, json: &str, after: &str) {
    let alloc = rt.alloc();
    let value = made!(Value::from_str(alloc, json));
    let before = made!(document_to_text(alloc, &value));
    let parser = made!(compile_path(alloc, path));
    let mut held = made!(JsonSelectorMut::new(alloc, parser));
    held.value(value);
    if let Err(error) = held.delete_in_place(alloc) {
        is_refusal(rt, &error, NO_MEMORY);
        let value = grown::is_held(rt, held.take(), before.as_str());
        held.value(value);
        works(rt, held.delete(alloc));
    }
    let _ = grown::is_held(rt, held.take(), after);
    refuses(rt, held.delete(alloc), NO_VALUE);
}

#[test]
fn growths_of_deletions(rt: HostRuntime) {
    for (path, json, after) in DELETED {
        deletion_grows(&rt, path, json, after);
        held_deletion_grows(&rt, path, json, after);
    }
}

fn removal_grows(
    rt: &(impl Abort + AllocGlobal),
    path: &str,
    json: &str,
    before: &str,
    after: &str,
) {
    let alloc = rt.alloc();
    let mut held = SelectorMut::new();
    held.value(made!(Value::from_str(alloc, json)));
    made!(held.set_path(alloc, path));
    if let Err(error) = held.remove_in_place(alloc) {
        is_refusal(rt, &error, NO_MEMORY);
        let value = grown::is_held(rt, held.take(), before);
        held.value(value);
        works(rt, held.remove(alloc));
    }
    let _ = grown::is_held(rt, held.take(), after);
}

#[test]
fn growths_of_removals(rt: HostRuntime) {
    for (path, json, before, after) in [
        ("$[0,2]", " [1,2,3]", "[1,2,3]", "[2]"),
        ("$..[0,1]", "[[1,2],3,4] ", "[[1,2],3,4]", "[4]"),
    ] {
        removal_grows(&rt, path, json, before, after);
    }
}

#[test]
fn growths_of_replacements(rt: HostRuntime) {
    let alloc = rt.alloc();
    let mut held = SelectorMut::new();
    held.value(made!(Value::from_str(alloc, "[1,2,3]")));
    made!(held.set_path(alloc, "$[*]"));
    let mut calls = 0u8;
    let outcome = held.replace_in_place(
        alloc,
        &mut |_old: Value| {
            calls = calls.wrapping_add(1);
            Some(Value::Null)
        },
    );
    let mut refused = 0u8;
    grown::done(&rt, &mut refused, outcome);
    check!(rt; calls == if refused == 0 { 3 } else { 0 });
    let left = if refused == 0 {
        "[null,null,null]"
    } else {
        "[1,2,3]"
    };
    let _ = grown::is_held(&rt, held.take(), left);
}

fn none(_old: Value) -> Option<Value> {
    None
}

#[test]
fn growths_of_short_replacements(rt: HostRuntime) {
    let alloc = rt.alloc();
    let value = made!(Value::from_str(alloc, "[null,null,null]"));
    changes(
        &rt,
        replace_with(alloc, value, "$[0]", &mut none),
        "[null,null]",
    );
}

const MASKS: [&str; 3] = ["$.a.b", "$.a", "$.c[0]"];

// Asserts that memory was wanted, and that a second call does what the first one did not.
fn masks_again(rt: &(impl Abort + AllocGlobal), refused: MaskFault, before: &str, after: &str) {
    check!(rt; refused.index.is_none());
    is_refusal(rt, &refused.fault, NO_MEMORY);
    grown::is_now(rt, &refused.value, before);
    becomes(rt, mask(rt.alloc(), refused.value, &MASKS), after);
}

#[test]
fn growths_of_masks(rt: HostRuntime) {
    let alloc = rt.alloc();
    let before = "{\"a\":{\"b\":1},\"c\":[1,2]}";
    let after = "{\"a\":null,\"c\":[null,2]}";
    let value = made!(Value::from_str(alloc, before));
    match mask(alloc, value, &MASKS) {
        Ok(masked) => grown::is_now(&rt, &masked, after),
        Err(refused) => masks_again(&rt, refused, before, after),
    }
}

#[test]
fn growths_of_removals_by_several_paths(rt: HostRuntime) {
    let alloc = rt.alloc();
    let value = made!(Value::from_str(alloc, "[1,[2,3],4]"));
    match remove_by_path_texts(alloc, value, &["$[0]", "$[1][0]"]) {
        Ok(left) => grown::is_now(&rt, &left, "[[3],4]"),
        Err(refused) => {
            check!(rt; refused.index.is_none());
            is_refusal(&rt, &refused.fault, NO_MEMORY);
            grown::is_now(&rt, &refused.value, "[1,[2,3],4]");
        }
    }
}

// What a text answers: its selection, two typed values, their count, and what a mask and a removal leave of it.
fn answers_of_text(alloc: Global, json: &[u8]) -> Result<String, JsonPathError> {
    let mut scratch = Scratch::new(alloc);
    let text = Text::read(alloc, json, &mut scratch)?;
    let path = compile_path(alloc, "$..b[*][?(@ > 1)]")?;
    let typed = text.select_as::<u64, _>(alloc, &path)?;
    let count = text.count(alloc, &path)?;
    let first = text.first(alloc, &path)?.is_some() && text.exists(alloc, &path)?;
    let paths = [path];
    let selected = text.select_as_str(alloc, &paths[0])?;
    let masked = text.mask_as_str(alloc, &paths)?;
    let left = text.remove_as_str(alloc, &paths)?;
    Ok(format!(in alloc;
        "{selected} {} {count} {first} {masked} {left}",
        typed.len()
    )?)
}

#[test]
fn growths_of_texts(rt: HostRuntime) {
    let json = b"{\"b\":[1,2,3],\"a\\u0041\":{\"c\":-7,\"b\":[12345678901234567890]}}";
    match answers_of_text(rt.alloc(), json) {
        Ok(answers) => check!(
            rt;
            answers.as_str() == "[2,3,12345678901234567890] 3 3 true {\"aA\":{\"b\":[null],\"c\":-7},\"b\":[1,null,null]} {\"aA\":{\"b\":[],\"c\":-7},\"b\":[1]}"
        ),
        Err(error) => is_refusal(&rt, &error, NO_MEMORY),
    }
}

const DOCUMENT: &[u8] = b" {\"a\":[1]} ";

const ANSWER: &[u8] = b"[{\"a\":[1]}]\n";

#[test]
fn growths_of_run(rt: HostRuntime) {
    let alloc = rt.alloc();
    // The sink takes its memory before the run, so that it fails in none.
    let bytes = made!(Vec::with_capacity(alloc, 100));
    let mut writer = Sink::new(bytes, usize::MAX);
    let words = ["select", "$"];
    let mut reader = Source::new(DOCUMENT, usize::MAX, 1);
    let first = run(alloc, &words, &mut reader, &mut writer);
    if matches!(first, Err(Fault::Refused(JsonPathError::OutOfMemory))) {
        check!(rt; writer.bytes.is_empty());
        check!(rt; !writer.failed());
        let mut reader = Source::new(DOCUMENT, usize::MAX, 1);
        let second = run(alloc, &words, &mut reader, &mut writer);
        check!(rt; second.is_ok());
    } else {
        check!(rt; first.is_ok());
    }
    check!(rt; writer.bytes.as_slice() == ANSWER);
}
