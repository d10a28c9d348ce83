//! Calls with little memory left, some bytes more of it at each turn. Where memory can't be made little, as
//! without `refuse.c`, these tests fail.
use crate::asserts::check;
use crate::outcomes::{NO_MEMORY, NO_PATH, NO_VALUE, is_held, refuses, says, works};
use jsonpath_lib::{JsonPathError, Parser, Selector, SelectorMut, compile, select, select_as_str};
use serde_json::Value;
use std::alloc::{AllocError, Global};
use std::process::Abort;
use std::test::Fail;

const NOT_STARVED: &str = "memory can't be made little here";

const POOL: usize = 100_000;

const LARGEST: usize = 1 << 46;

const STEP: usize = 16;

const TURNS: usize = 4096;

// All the memory that the process can get, but for the pool.
#[derive(Drop)]
struct Starved {
    held: Vec<Vec<u8>>,
    alloc: Global,
}

impl Starved {
    fn new(alloc: Global) -> Result<Starved, AllocError> {
        let mut held: Vec<Vec<u8>> = Vec::with_capacity(alloc, POOL)?;
        let pool = Vec::<u8>::with_capacity(alloc, POOL)?;
        let mut size = LARGEST;
        for _ in 0..POOL {
            match Vec::<u8>::with_capacity(alloc, size) {
                Ok(block) => held.push(block)?,
                Err(AllocError) => size /= 2,
            }
            if size < STEP {
                break;
            }
        }
        drop(pool);
        Ok(Starved { held, alloc })
    }

    // Holds the pool but for so many bytes, until it is dropped.
    fn leave(&self, bytes: usize) -> Result<Vec<u8>, AllocError> {
        Vec::with_capacity(self.alloc, POOL.saturating_sub(bytes))
    }

    // Whether not even a small block can be had.
    fn is_starved(&self) -> bool {
        let Ok(filler) = self.leave(0) else {
            return false;
        };
        let is_refused = Vec::<u8>::with_capacity(self.alloc, STEP).is_err();
        drop(filler);
        is_refused && !self.held.is_empty()
    }
}

// How many calls were answered, and how many refused.
#[derive(Drop)]
struct Tally {
    answered: u32,
    refused: u32,
}

impl Tally {
    fn new() -> Tally {
        Tally {
            answered: 0,
            refused: 0,
        }
    }

    // Adds a call that has to be answered rightly, or to be refused for memory.
    fn add(&mut self, rt: &impl Abort, outcome: Result<bool, JsonPathError>) {
        match outcome {
            Ok(is_right) => {
                check!(rt; is_right);
                self.answered = self.answered.saturating_add(1);
            }
            Err(error) => {
                check!(rt; matches!(error, JsonPathError::OutOfMemory));
                self.refused = self.refused.saturating_add(1);
            }
        }
    }
}

fn selects_two(alloc: Global, document: &Value) -> Result<bool, JsonPathError> {
    let found = select(alloc, document, "$..b")?;
    Ok(found.len() == 2)
}

fn reads_one(alloc: Global) -> Result<bool, JsonPathError> {
    let text = select_as_str(alloc, "{\"a\":[1,\"x\"],\"b\":{\"c\":[]}}", "$.a[1]")?;
    Ok(text.as_str() == "[\"x\"]")
}

#[test]
fn starved_selections_answer_or_say_so(rt: HostRuntime) -> Result<(), Fail> {
    let document = Value::from_str(rt.alloc(), "{\"a\":[{\"b\":1},{\"b\":2}]}")?;
    let starved = Starved::new(rt.alloc())?;
    check!(rt; starved.is_starved(), NOT_STARVED);
    let mut tally = Tally::new();
    for turn in 0..TURNS {
        let filler = starved.leave(turn * STEP)?;
        let outcome = selects_two(rt.alloc(), &document);
        drop(filler);
        tally.add(&rt, outcome);
    }
    check!(rt; tally.refused > 3);
    check!(rt; tally.answered > 3);
    Ok(())
}

#[test]
fn starved_readers_blame_memory(rt: HostRuntime) -> Result<(), Fail> {
    let starved = Starved::new(rt.alloc())?;
    check!(rt; starved.is_starved(), NOT_STARVED);
    let mut tally = Tally::new();
    for turn in 0..TURNS {
        let filler = starved.leave(turn * STEP)?;
        let outcome = reads_one(rt.alloc());
        drop(filler);
        tally.add(&rt, outcome);
    }
    check!(rt; tally.answered > 3);
    Ok(())
}

#[test]
fn starved_selectors_tell_what_is_missing(rt: HostRuntime) {
    let alloc = rt.alloc();
    let document = Value::from_str(alloc, "[1]").expect(&rt, "a document");
    let node = Parser::compile(alloc, "$[*]").expect(&rt, "a path");
    let starved = Starved::new(alloc).expect(&rt, "a pool");
    check!(rt; starved.is_starved(), NOT_STARVED);
    let filler = starved.leave(0).expect(&rt, "the pool");
    let mut selector = Selector::new();
    refuses(&rt, selector.select_as_str(alloc), NO_PATH);
    selector.compiled_path(&node);
    refuses(&rt, selector.select_as_str(alloc), NO_VALUE);
    selector.value(&document);
    refuses(&rt, selector.select_as_str(alloc), NO_MEMORY);
    let kept = compile(alloc, "$[*]");
    let mut changed = SelectorMut::new();
    refuses(&rt, changed.delete(alloc), NO_PATH);
    drop(filler);
    says(&rt, selector.select_as_str(alloc), "[1]");
    // The want of memory is kept, though there is memory now.
    refuses(&rt, kept.select(alloc, &document), NO_MEMORY);
    refuses(&rt, kept.select(alloc, &document), NO_MEMORY);
}

// Tries a text and a replacement while there is no memory.
fn is_refused_all(rt: &(impl Abort + AllocGlobal), held: &mut SelectorMut) {
    let mut calls = 0u8;
    refuses(rt, held.set_path(rt.alloc(), "$.a"), NO_MEMORY);
    let outcome = held.replace_in_place(
        rt.alloc(),
        &mut |_old: Value| {
            calls = calls.wrapping_add(1);
            None
        },
    );
    refuses(rt, outcome, NO_MEMORY);
    check!(rt; calls == 0);
}

#[test]
fn starved_updates_leave_all_as_it_was(rt: HostRuntime) {
    let alloc = rt.alloc();
    let mut held = SelectorMut::new();
    works(&rt, held.set_path(alloc, "$[*]"));
    held.value(Value::from_str(alloc, "[1,2,3]").expect(&rt, "a document"));
    let starved = Starved::new(alloc).expect(&rt, "a pool");
    check!(rt; starved.is_starved(), NOT_STARVED);
    let filler = starved.leave(0).expect(&rt, "the pool");
    is_refused_all(&rt, &mut held);
    drop(filler);
    works(&rt, held.remove_in_place(alloc));
    is_held(&rt, held.take(), "[]");
}
