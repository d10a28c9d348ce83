//! The rows of the files beside this one, through `run`; those that select by each way in which the library selects, too.

use crate::asserts::check;
use jsonpath_nodes::{Spot, in_document_order};
use jsonpath_run::{Checked, run};
use jsonpath_select::{
    JsonPathError, JsonSelector, Parser, Selector, compile_path, list_to_text, read_document,
    select_path_in_any_order, select_tokens, tokens_fit,
};
use serde::Deserialize;
use serde_json::Value;
use std::alloc::Global;
use std::fs::{self, Files};
use std::process::Abort;
use std::test::Fail;

// The files, a row as JSON on each line; how many rows each has at least, and how many of them select by one path.
const FILES: [(&str, usize, usize); 4] = [
    ("rows.jsonl", 161, 66),
    ("cases.jsonl", 2000, 383),
    ("PATHS.jsonl", 122, 113),
    ("FROM-OTHERS.jsonl", 94, 57),
];

// The words and the input of a run, and its exit status, its output and the text of its error.
#[derive(Debug, Drop, Deserialize)]
struct Row {
    words: Vec<String>,
    input: String,
    status: u8,
    output: String,
    // Empty without an error; None if it may be any of a document.
    error: Option<String>,
}

impl Row {
    // The path, if the row selects by one.
    fn path(&self) -> Option<&str> {
        match self.words.as_slice() {
            [command, path] if command.as_str() == "select" => Some(path.as_str()),
            _ => None,
        }
    }

    // Asserts that this is what the row says.
    fn expects(&self, rt: &impl Abort, status: u8, output: &str, error: &str) {
        let is_told = match &self.error {
            Some(text) => text.as_str() == error,
            None => error.lines().next() == Some("serde error: "),
        };
        if status != self.status || output != self.output.as_str() || !is_told {
            panic!(*rt; "{self:?}\ncame: status {status}, output {output:?}, error {error:?}")
        }
    }
}

fn rows_of(rt: &(impl Files + AllocGlobal), file: &str) -> Result<Vec<Row>, Fail> {
    let mut rows = Vec::new(rt.alloc());
    for line in fs::read_to_string(rt, file)?.as_str().lines() {
        let row: Row = serde_json::from_str(rt.alloc(), line)?;
        rows.push(row)?;
    }
    Ok(rows)
}

fn run_row(rt: &(impl Abort + AllocGlobal), row: &Row) -> Result<(), Fail> {
    let alloc = rt.alloc();
    let words = row.words.iter().map(|word| word.as_str());
    let words = words.collect::<Vec<&str>>(alloc)?;
    let mut reader = Checked::new(row.input.as_bytes());
    let mut output = Vec::new(alloc);
    let mut writer = Checked::new(&mut output);
    let (status, error) = match run(alloc, words.as_slice(), &mut reader, &mut writer) {
        Ok(status) => (status, String::new(alloc)),
        Err(fault) => (fault.status(), format!(in alloc; "{fault}\n")?),
    };
    let output = str::from_utf8(output.as_slice()).unwrap_or("no text");
    row.expects(rt, status, output, error.as_str());
    Ok(())
}

// What a path selects in the document of a text, as text.
type Way = fn(Global, &str, &str) -> Result<String, JsonPathError>;

fn select_rows(rt: &(impl Abort + AllocGlobal + Files), way: Way) -> Result<(), Fail> {
    let alloc = rt.alloc();
    for (file, _, wanted) in FILES {
        let mut count = 0usize;
        for row in rows_of(rt, file)?.iter() {
            let Some(path) = row.path() else { continue };
            match way(alloc, path, row.input.as_str()) {
                Ok(text) => row.expects(rt, 0, format!(in alloc; "{text}\n")?.as_str(), ""),
                Err(error) => row.expects(rt, 1, "", format!(in alloc; "{error}\n")?.as_str()),
            }
            count += 1;
        }
        check!(rt; count >= wanted, file);
    }
    Ok(())
}

fn by_json_selector(alloc: Global, path: &str, input: &str) -> Result<String, JsonPathError> {
    let compiled = compile_path(alloc, path)?;
    let document = read_document(alloc, input.as_bytes())?;
    let mut selector = JsonSelector::new(alloc, compiled)?;
    selector.value(&document).select_as_str(alloc)
}

// A wrong path is an error before the input is read.
fn by_selector(alloc: Global, path: &str, input: &str) -> Result<String, JsonPathError> {
    Selector::new().set_path(alloc, path)?;
    let document = read_document(alloc, input.as_bytes())?;
    let mut selector = Selector::new();
    selector.set_path(alloc, path)?;
    selector.value(&document).select_as_str(alloc)
}

fn by_spots(alloc: Global, path: &str, input: &str) -> Result<String, JsonPathError> {
    let node = Parser::compile(alloc, path)?;
    let document = read_document(alloc, input.as_bytes())?;
    let mut selector = Selector::new();
    selector.compiled_path(&node);
    text_of(alloc, &selector.value(&document).select_spots(alloc)?)
}

fn by_token_list(alloc: Global, path: &str, input: &str) -> Result<String, JsonPathError> {
    let compiled = compile_path(alloc, path)?;
    let document = read_document(alloc, input.as_bytes())?;
    if !tokens_fit(alloc, path, compiled.tokens())? {
        return Ok(String::from_str(alloc, "the tokens don't fit")?);
    }
    let found = select_tokens(alloc, &document, path, compiled.tokens())?;
    text_of(alloc, &found)
}

// The list that a `Selector` finds, if its nodes are those of the set.
fn by_set(alloc: Global, path: &str, input: &str) -> Result<String, JsonPathError> {
    let compiled = compile_path(alloc, path)?;
    let document = read_document(alloc, input.as_bytes())?;
    let set = select_path_in_any_order(alloc, &document, &compiled)?;
    let node = Parser::compile(alloc, path)?;
    let mut selector = Selector::new();
    selector.compiled_path(&node);
    let listed = selector.value(&document).select_spots(alloc)?;
    let (found, wanted) = (locations(alloc, &set)?, locations(alloc, &listed)?);
    if found.as_str() != wanted.as_str() {
        return Ok(format!(in alloc; "in the set:{found}, listed:{wanted}")?);
    }
    text_of(alloc, &listed)
}

// The locations of nodes, each once, in document order.
fn locations(alloc: Global, spots: &Vec<Spot<'_>>) -> Result<String, JsonPathError> {
    let mut text = String::new(alloc);
    for spot in in_document_order(alloc, spots.as_slice())?.iter() {
        text.push(' ')?;
        text.push_str(spot.location(alloc)?.to_string(alloc)?.as_str())?;
    }
    Ok(text)
}

fn text_of(alloc: Global, spots: &Vec<Spot<'_>>) -> Result<String, JsonPathError> {
    let values = spots.iter().map(|spot| spot.value());
    list_to_text(alloc, values.collect::<Vec<&Value>>(alloc)?.as_slice())
}

// The answer of `Selector`, whose error shows a position by carets below the path, with the position as a number.
fn in_words(
    alloc: Global,
    path: &str,
    answer: Result<String, JsonPathError>,
) -> Result<String, JsonPathError> {
    let message = match answer {
        Err(JsonPathError::Path(message)) => message,
        other => return other,
    };
    let carets = message.len().saturating_sub(path.len() + 1);
    let place = if message.as_str() != format!(in alloc; "{path}\n{:^<carets$}", "")?.as_str() {
        format!(in alloc; "no carets: {message}")?
    } else if carets == path.len() {
        String::from_str(alloc, "Eof")?
    } else {
        format!(in alloc; "Position:{carets}")?
    };
    Err(JsonPathError::Path(place))
}

#[test]
fn rows_hold_by_run(rt: HostRuntime) -> Result<(), Fail> {
    for (file, wanted, _) in FILES {
        let rows = rows_of(&rt, file)?;
        check!(rt; rows.len() >= wanted, file);
        for row in rows.iter() {
            run_row(&rt, row)?;
        }
    }
    Ok(())
}

#[test]
fn rows_hold_by_json_selector(rt: HostRuntime) -> Result<(), Fail> {
    select_rows(&rt, by_json_selector)
}

#[test]
fn rows_hold_by_selector(rt: HostRuntime) -> Result<(), Fail> {
    select_rows(&rt, |alloc, path, input| {
        in_words(alloc, path, by_selector(alloc, path, input))
    })
}

#[test]
fn rows_hold_by_spots_of_selector(rt: HostRuntime) -> Result<(), Fail> {
    select_rows(&rt, |alloc, path, input| {
        in_words(alloc, path, by_spots(alloc, path, input))
    })
}

#[test]
fn rows_hold_by_token_list(rt: HostRuntime) -> Result<(), Fail> {
    select_rows(&rt, by_token_list)
}

#[test]
fn rows_hold_by_set(rt: HostRuntime) -> Result<(), Fail> {
    select_rows(&rt, by_set)
}
