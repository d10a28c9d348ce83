//! A document read from its text answers what a `Value` of the same text answers, and is refused by the same words.

use crate::asserts::check;
use crate::outcomes::works;
use json_trees::compact_list_text;
use jsonpath_lib::{
    AnyPath, JsonPathError, PathParser, Scratch, Text, compile_path, compile_paths,
    document_to_text, list_to_text, mask_at_paths, read_document, remove_at_paths,
};
use serde_json::Value;
use std::alloc::Global;
use std::fmt::Write;
use std::process::Abort;

const TEXTS: &[&str] = &[
    "{\"b\":1,\"a\":{\"d\":[1,2.5],\"c\":null},\"b\":[true,\"x\\\"y\",{\"a\":2,\"a\":3}]}",
    " [ 1 , [ 2 , [ 3 , -4 ] ] , { } , { \"z\" : 0 , \"a\" : false } ] ",
    "[-0, 1e2, 18446744073709551615, 18446744073709551616, -9223372036854775808, -9223372036854775809]",
    "[{\"\\u00e9\":\"\\ud83d\\ude00\\t\"},{\"\":[]}]",
    "[1.0,0.1e-3,1e400]",
    "[1,2",
    "[01]",
    "{\"a\":1,}",
    "\"\\ud800\"",
    "",
    "\u{feff}[1]",
    "[1] 2",
    "12",
];

const PATHS: &[&str] = &[
    "$",
    "$..*",
    "$.b",
    "$.a.d[0]",
    "$..[?(@ > 1)]",
    "$..[?(@ != 1)]",
    "$..a",
    "$[*]",
    "$..[0,1]",
    "$..[1:]",
    "$[?(@.a)]",
    "$..*..*",
];

type Answer = Result<String, JsonPathError>;

// What a text answers: what a path selects, and the document masked or without it.
fn by_text(alloc: Global, json: &[u8], path: &str, verb: usize) -> Answer {
    let mut scratch = Scratch::new(alloc);
    let text = Text::read(alloc, json, &mut scratch)?;
    let paths = [compile_path(alloc, path)?];
    match verb {
        0 => text.select_as_str(alloc, &paths[0]),
        1 => text.mask_as_str(alloc, &paths),
        _ => text.remove_as_str(alloc, &paths),
    }
}

// The same by a `Value`.
fn by_value(alloc: Global, json: &[u8], path: &str, verb: usize) -> Answer {
    let mut document = read_document(alloc, json)?;
    let paths = [compile_path(alloc, path)?];
    match verb {
        0 => return paths[0].select_as_str(alloc, &document),
        1 => mask_at_paths(alloc, &mut document, &paths)?,
        _ => remove_at_paths(alloc, &mut document, &paths)?,
    }
    document_to_text(alloc, &document)
}

// What a text tells of what a path selects: typed values, the first one, how many, whether any, and their locations.
fn told_by_text(alloc: Global, json: &str, path: &PathParser<'_>) -> Answer {
    let mut scratch = Scratch::new(alloc);
    let text = Text::read(alloc, json.as_bytes(), &mut scratch)?;
    let mut told = String::new(alloc);
    for node in text.select_nodes(alloc, path)? {
        told.push_str(node.location(alloc)?.to_string(alloc)?.as_str())?;
    }
    let first: Vec<_> = text.first(alloc, path)?.into_iter().collect(alloc)?;
    let shown = compact_list_text(alloc, first.as_slice());
    told.push_str(shown.as_ref().map_or("unread", |line| line.as_str()))?;
    let (count, any) = (text.count(alloc, path)?, text.exists(alloc, path)?);
    told.push_str(format!(in alloc; " {count} {any} ")?.as_str())?;
    let typed = text.select_as::<Value, _>(alloc, path)?;
    let typed: Vec<&Value> = typed.iter().collect(alloc)?;
    told.push_str(list_to_text(alloc, typed.as_slice())?.as_str())?;
    Ok(told)
}

// The same by a `Value`.
fn told_by_value(alloc: Global, json: &str, path: &PathParser<'_>) -> Answer {
    let document = read_document(alloc, json.as_bytes())?;
    let mut told = String::new(alloc);
    for location in path.select_locations(alloc, &document)? {
        told.push_str(location.to_string(alloc)?.as_str())?;
    }
    let first: Vec<&Value> = path.first(alloc, &document)?.into_iter().collect(alloc)?;
    let shown = list_to_text(alloc, first.as_slice());
    told.push_str(shown.as_ref().map_or("unread", |line| line.as_str()))?;
    let (count, any) = (
        path.count(alloc, &document)?,
        path.exists(alloc, &document)?,
    );
    told.push_str(format!(in alloc; " {count} {any} ")?.as_str())?;
    let typed = path.select_as::<Value>(alloc, &document)?;
    let typed: Vec<&Value> = typed.iter().collect(alloc)?;
    told.push_str(list_to_text(alloc, typed.as_slice())?.as_str())?;
    Ok(told)
}

// Whether two answers are the same, or refused by the same words.
fn are_same(rt: &(impl Abort + AllocGlobal), one: Answer, other: Answer) -> bool {
    let alloc = rt.alloc();
    match (one, other) {
        (Ok(one), Ok(other)) => one.as_str() == other.as_str(),
        (Err(one), Err(other)) => {
            let one = one.to_string(alloc).expect(rt, "a text");
            let other = other.to_string(alloc).expect(rt, "a text");
            one.as_str() == other.as_str()
        }
        _ => false,
    }
}

#[test]
fn texts_answer_what_values_answer(rt: HostRuntime) {
    let alloc = rt.alloc();
    for json in TEXTS {
        for path in PATHS {
            for verb in 0..3 {
                let same = are_same(
                    &rt,
                    by_text(alloc, json.as_bytes(), path, verb),
                    by_value(alloc, json.as_bytes(), path, verb),
                );
                check!(rt; same, json);
            }
            let compiled = compile_path(alloc, path).expect(&rt, "a path");
            let by_text = told_by_text(alloc, json, &compiled);
            let by_value = told_by_value(alloc, json, &compiled);
            check!(rt; are_same(&rt, by_text, by_value), json);
        }
    }
}

// An array so many levels deep.
fn nested(alloc: Global, depth: usize) -> Result<String, JsonPathError> {
    Ok(format!(in alloc;
        "{}1{}",
        "[".repeat(alloc, depth)?,
        "]".repeat(alloc, depth)?
    )?)
}

// An object whose names descend, each of them twice.
fn descending(alloc: Global, count: usize) -> Result<String, JsonPathError> {
    let mut text = String::from_str(alloc, "{")?;
    for n in (0..count).rev() {
        text.push_str(format!(in alloc; "\"k{n}\":{n},\"k{n}\":[{n}],")?.as_str())?;
    }
    text.push_str("\"\":0}")?;
    Ok(text)
}

#[test]
fn hostile_texts_are_refused_by_the_same_words(rt: HostRuntime) {
    let alloc = rt.alloc();
    let made = [
        nested(alloc, 127),
        nested(alloc, 128),
        descending(alloc, 1_000),
    ];
    let mut texts: Vec<&[u8]> = Vec::new(alloc);
    for text in &made {
        let Ok(text) = text else {
            panic!(rt; "no text");
        };
        texts.push(text.as_bytes()).expect(&rt, "room");
    }
    let wrong: [&[u8]; 8] = [
        b"\xff",
        b"[\"\xc3\"]",
        b"[\"\xed\xa0\x80\"]",
        b"\xef\xbb\xbf[]",
        b"{\"a\":[-1e400]}",
        b"[1,\n 2,\n x]",
        b"\x00",
        b"[\"a\tb\"]",
    ];
    for text in wrong {
        texts.push(text).expect(&rt, "room");
    }
    for text in &texts {
        for verb in 0..3 {
            let by_text = by_text(alloc, text, "$[*]", verb);
            check!(rt; are_same(&rt, by_text, by_value(alloc, text, "$[*]", verb)));
        }
    }
}

// Ten times as many take two minutes in a test, where each access to memory is checked.
const MANY: usize = 10_000;

// The name at a place of a row: names of one length, which are gone through by steps and begin anew behind the last.
fn name_at(alloc: Global, place: usize, names: usize, first: usize, step: usize) -> Answer {
    let number = 100_000 + (first + place * step) % names;
    Ok(format!(in alloc; "k{number}")?)
}

#[test]
fn large_objects_answer_what_values_answer(rt: HostRuntime) {
    let alloc = rt.alloc();
    let whole = compile_path(alloc, "$").expect(&rt, "a path");
    // Names that ascend, that descend, that are shuffled, and shuffled ones of which each comes again.
    for (names, first, step) in [
        (MANY, 0, 1),
        (MANY, MANY - 1, MANY - 1),
        (MANY, 7, 6_181),
        (MANY / 2, 7, 6_181),
    ] {
        let mut json = String::from_str(alloc, "{\"\":0").expect(&rt, "a text");
        for place in 0..MANY {
            let name = name_at(alloc, place, names, first, step).expect(&rt, "a name");
            write!(json, ",\"{name}\":{place}").expect(&rt, "room");
        }
        json.push('}').expect(&rt, "room");
        let mut scratch = Scratch::new(alloc);
        let text = Text::read(alloc, json.as_bytes(), &mut scratch).expect(&rt, "a document");
        let mut document = read_document(alloc, json.as_bytes()).expect(&rt, "a document");
        let by_text = text.select_as_str(alloc, &whole);
        let by_value = whole.select_as_str(alloc, &document);
        check!(rt; by_text.is_ok() && are_same(&rt, by_text, by_value));
        // The name at this place comes last at `last`.
        let (place, last) = (1_234, MANY - names + 1_234);
        let name = name_at(alloc, place, names, first, step).expect(&rt, "a name");
        let path = format!(in alloc; "$.{name}").expect(&rt, "a text");
        let paths = [compile_path(alloc, path.as_str()).expect(&rt, "a path")];
        let found = text.select_as_str(alloc, &paths[0]);
        check!(rt; are_same(&rt, found, Ok(format!(in alloc; "[{last}]").expect(&rt, "a text"))));
        let masked = text.mask_as_str(alloc, &paths);
        works(&rt, mask_at_paths(alloc, &mut document, &paths));
        check!(rt; are_same(&rt, masked, document_to_text(alloc, &document)));
        let left = text.remove_as_str(alloc, &paths);
        works(&rt, remove_at_paths(alloc, &mut document, &paths));
        check!(rt; are_same(&rt, left, document_to_text(alloc, &document)));
    }
}

#[test]
fn text_is_masked_by_several_paths(rt: HostRuntime) {
    let alloc = rt.alloc();
    let mut scratch = Scratch::new(alloc);
    let json = b"{\"b\":[1,2,3],\"a\":{\"c\":4,\"b\":5}}";
    let Ok(text) = Text::read(alloc, json, &mut scratch) else {
        panic!(rt; "no text");
    };
    let Ok(paths) = compile_paths(alloc, &["$.b[1]", "$.a", "$.a.c", "$.x"]) else {
        panic!(rt; "no paths");
    };
    let masked = text
        .mask_as_str(alloc, paths.as_slice())
        .expect(&rt, "a text");
    check!(rt; masked.as_str() == "{\"a\":null,\"b\":[1,null,3]}");
    let left = text
        .remove_as_str(alloc, paths.as_slice())
        .expect(&rt, "a text");
    check!(rt; left.as_str() == "{\"b\":[1,3]}");
}
