//! What a call lends outlives all that it came by but the document, or the path text, that it is lent from: each function
//! keeps it so. `checks/lifetimes.sh` compiles each once more where it lends from what ends with it, which must not compile.

use crate::asserts::check;
use jsonpath_lib::{
    AnyPath, Compiled, JsonPathError, JsonSelector, Parser, PathCompiled, Selector, Spot, compile,
    compile_path, read_document, select, select_path, selector,
};
use jsonpath_nodes::ValueWalker;
use jsonpath_paths::{StrRange, StrReader, TokenReader};
use serde_json::Value;
use std::alloc::Global;
use std::process::Abort;
use std::test::Fail;

fn selector_by_text<'a>(
    alloc: Global,
    value: &'a Value,
    text: &'a str,
) -> Result<Vec<&'a Value>, JsonPathError> {
    let own = String::from_str(alloc, text)?;
    let mut selector = Selector::new();
    selector.str_path(alloc, own.as_str())?;
    selector.value(value);
    selector.select(alloc)
}

fn selector_by_node<'a>(
    alloc: Global,
    value: &'a Value,
    text: &'a str,
) -> Result<Vec<&'a Value>, JsonPathError> {
    let node = Parser::compile(alloc, text)?;
    let mut selector = Selector::new();
    selector.compiled_path(&node).value(value);
    selector.select(alloc)
}

fn spots_by_selector<'a>(
    alloc: Global,
    value: &'a Value,
    text: &'a str,
) -> Result<Vec<Spot<'a>>, JsonPathError> {
    let node = Parser::compile(alloc, text)?;
    let mut selector = Selector::new();
    selector.compiled_path(&node).value(value);
    selector.select_spots(alloc)
}

fn json_selector<'a>(
    alloc: Global,
    value: &'a Value,
    text: &'a str,
) -> Result<Vec<&'a Value>, JsonPathError> {
    let mut selector = JsonSelector::new(alloc, compile_path(alloc, text)?)?;
    selector.value(value);
    selector.select(alloc)
}

fn spots_by_path<'a>(
    alloc: Global,
    value: &'a Value,
    text: &'a str,
) -> Result<Vec<Spot<'a>>, JsonPathError> {
    let own = String::from_str(alloc, text)?;
    let path = compile_path(alloc, own.as_str())?;
    select_path(alloc, value, &path)
}

fn spots_by_node<'a>(
    alloc: Global,
    value: &'a Value,
    text: &'a str,
) -> Result<Vec<Spot<'a>>, JsonPathError> {
    let node = Parser::compile(alloc, text)?;
    node.select_spots(alloc, value)
}

fn short_function<'a>(
    alloc: Global,
    value: &'a Value,
    text: &'a str,
) -> Result<Vec<&'a Value>, JsonPathError> {
    let own = String::from_str(alloc, text)?;
    select(alloc, value, own.as_str())
}

fn shared_path<'a>(
    alloc: Global,
    value: &'a Value,
    text: &'a str,
) -> Result<Vec<&'a Value>, JsonPathError> {
    let own = String::from_str(alloc, text)?;
    let path = PathCompiled::compile(alloc, own.as_str())?;
    path.select(alloc, value)
}

fn owned_path<'a>(
    alloc: Global,
    value: &'a Value,
    text: &'a str,
) -> Result<Vec<&'a Value>, JsonPathError> {
    let path = Compiled::compile(alloc, text)?;
    path.select(alloc, value)
}

fn kept_path<'a>(
    alloc: Global,
    value: &'a Value,
    text: &'a str,
) -> Result<Vec<&'a Value>, JsonPathError> {
    let path = compile(alloc, text);
    path.select(alloc, value)
}

fn path_selector<'a>(
    alloc: Global,
    value: &'a Value,
    text: &'a str,
) -> Result<Vec<&'a Value>, JsonPathError> {
    let own = String::from_str(alloc, text)?;
    let within = selector(value);
    within.select(alloc, own.as_str())
}

fn children_of_a_spot<'a>(
    alloc: Global,
    value: &'a Value,
    text: &'a str,
) -> Result<Vec<Spot<'a>>, JsonPathError> {
    let root = Spot::root(alloc, value);
    let found = root.children(alloc)?;
    Ok(found)
}

fn value_of_a_spot<'a>(
    alloc: Global,
    value: &'a Value,
    text: &'a str,
) -> Result<Vec<&'a Value>, JsonPathError> {
    let root = Spot::root(alloc, value);
    let found = Vec::from_slice(alloc, &[root.value()])?;
    Ok(found)
}

fn step_of_a_list<'a>(
    alloc: Global,
    value: &'a Value,
    text: &'a str,
) -> Result<Vec<Spot<'a>>, JsonPathError> {
    let spots = [Spot::root(alloc, value)];
    let found = ValueWalker::next_all(alloc, &spots)?;
    Ok(found)
}

fn text_of_a_path<'a>(
    alloc: Global,
    value: &'a Value,
    text: &'a str,
) -> Result<Vec<&'a str>, JsonPathError> {
    let path = compile_path(alloc, text)?;
    let found = Vec::from_slice(alloc, &[path.text()])?;
    Ok(found)
}

fn piece_of_a_text<'a>(
    alloc: Global,
    value: &'a Value,
    text: &'a str,
) -> Result<Vec<&'a str>, JsonPathError> {
    let reader = StrReader::new(text);
    let found = Vec::from_slice(alloc, &[reader.read(&StrRange::new(0, 1))])?;
    Ok(found)
}

fn text_of_a_token<'a>(
    alloc: Global,
    value: &'a Value,
    text: &'a str,
) -> Result<Vec<&'a str>, JsonPathError> {
    let reader = TokenReader::new(text);
    let found = Vec::from_slice(alloc, &[reader.read_value(&StrRange::new(0, 1))])?;
    Ok(found)
}

#[test]
fn what_is_lent_outlives_what_it_came_by(rt: HostRuntime) -> Result<(), Fail> {
    let alloc = rt.alloc();
    let value = read_document(alloc, b"[7]")?;
    check!(rt; selector_by_text(alloc, &value, "$[0]")?.len() == 1);
    check!(rt; selector_by_node(alloc, &value, "$[0]")?.len() == 1);
    check!(rt; spots_by_selector(alloc, &value, "$[0]")?.len() == 1);
    check!(rt; json_selector(alloc, &value, "$[0]")?.len() == 1);
    check!(rt; spots_by_path(alloc, &value, "$[0]")?.len() == 1);
    check!(rt; spots_by_node(alloc, &value, "$[0]")?.len() == 1);
    check!(rt; short_function(alloc, &value, "$[0]")?.len() == 1);
    check!(rt; shared_path(alloc, &value, "$[0]")?.len() == 1);
    check!(rt; owned_path(alloc, &value, "$[0]")?.len() == 1);
    check!(rt; kept_path(alloc, &value, "$[0]")?.len() == 1);
    check!(rt; path_selector(alloc, &value, "$[0]")?.len() == 1);
    check!(rt; children_of_a_spot(alloc, &value, "$[0]")?.len() == 1);
    check!(rt; value_of_a_spot(alloc, &value, "$[0]")?.len() == 1);
    check!(rt; step_of_a_list(alloc, &value, "$[0]")?.len() == 1);
    check!(rt; text_of_a_path(alloc, &value, "$[0]")?.len() == 1);
    check!(rt; piece_of_a_text(alloc, &value, "$[0]")?.len() == 1);
    check!(rt; text_of_a_token(alloc, &value, "$[0]")?.len() == 1);
    Ok(())
}
