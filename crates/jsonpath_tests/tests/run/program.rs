//! Runs over streams in memory that pass one byte at a time and may fail after so many.

use crate::asserts::check;
use crate::run::streams::{Source, make_sink};
use jsonpath_run::{Fault, Input, Output, run};
use std::alloc::Global;
use std::test::Fail;

const DOCUMENT: &[u8] = b" {\"foo\":{\"bar\":\"baz\"}} ";

const ANSWER: &[u8] = b"[{\"foo\":{\"bar\":\"baz\"}}]\n";

#[test]
fn answers(rt: HostRuntime) -> Result<(), Fail> {
    let alloc = rt.alloc();
    let rows: [(&[&str], &[u8], usize); 2] = [
        (&["select", "$"], ANSWER, 0),
        (&["check", "$.foo[?(@.bar)]"], b"ok\n", DOCUMENT.len()),
    ];
    for (words, output, unread) in rows {
        let mut reader = Source::new(DOCUMENT, usize::MAX, 1);
        let mut writer = make_sink(alloc, usize::MAX);
        let result = run(alloc, words, &mut reader, &mut writer);
        check!(rt; result.is_ok_and(|status| status == 0));
        check!(rt; writer.bytes.as_slice() == output);
        check!(rt; reader.rest().len() == unread);
    }
    Ok(())
}

#[test]
fn answers_each_command(rt: HostRuntime) -> Result<(), Fail> {
    let alloc = rt.alloc();
    let rows: [(&[&str], &[u8], &[u8]); 4] = [
        (
            &["select", "$.foo.bar"],
            b"{\"foo\":{\"bar\":\"baz\"}}\n",
            b"[\"baz\"]\n",
        ),
        (
            &["delete", "$.a"],
            b"{ \"a\": \"x\", \"b\": [true] }",
            b"{\"a\":null,\"b\":[true]}\n",
        ),
        (&["remove", "$[0,2]"], b"[true,null,false]", b"[null]\n"),
        (
            &["mask", "$.a.b", "$.c[0]"],
            b"{\"a\":{\"b\":\"x\"},\"c\":[true,false]}",
            b"{\"a\":{\"b\":null},\"c\":[null,false]}\n",
        ),
    ];
    for (words, input, output) in rows {
        let mut reader = Source::new(input, usize::MAX, 1);
        let mut writer = make_sink(alloc, usize::MAX);
        let result = run(alloc, words, &mut reader, &mut writer);
        check!(rt; result.is_ok_and(|status| status == 0));
        check!(rt; writer.bytes.as_slice() == output);
    }
    Ok(())
}

/// `count` arrays, each but the last with the next one in it.
fn nested_arrays(alloc: Global, count: usize) -> Result<String, Fail> {
    let mut text = String::new(alloc);
    for bracket in ["[", "]"] {
        for _ in 0..count {
            text.push_str(bracket)?;
        }
    }
    Ok(text)
}

#[test]
fn nests_127_deep(rt: HostRuntime) -> Result<(), Fail> {
    let alloc = rt.alloc();
    let document = nested_arrays(alloc, 127)?;
    let mut reader = Source::new(document.as_bytes(), usize::MAX, 1);
    let mut writer = make_sink(alloc, usize::MAX);
    let result = run(alloc, &["select", "$"], &mut reader, &mut writer);
    check!(rt; result.is_ok());
    let answer = format!(in alloc; "[{document}]\n")?;
    check!(rt; writer.bytes.as_slice() == answer.as_bytes());
    Ok(())
}

#[test]
fn refuses(rt: HostRuntime) -> Result<(), Fail> {
    let alloc = rt.alloc();
    let deep = nested_arrays(alloc, 128)?;
    let unread = "serde error: \nnumber is not a whole number of 64 bits\n";
    let usage = "usage: jsonpath_run select|delete|remove|check PATH | mask PATH...";
    // The words, the input, the exit status, and how the text of the fault begins.
    let rows: [(&[&str], &[u8], u8, &str); 13] = [
        (&["select", "$"], b"[[1,{\"a\":-0.5}]]", 1, unread),
        (&["select", "$"], b"[1, 2", 1, "serde error: \n"),
        (&["select", "$"], b"", 1, "serde error: \n"),
        (&["select", "$"], b"[\"\xff\"]", 1, "serde error: \n"),
        (&["select", "$"], deep.as_bytes(), 1, "serde error: \n"),
        (&["check", "$["], b"", 1, "path error: \nEof\n"),
        (&["check", "$ .a"], b"", 1, "path error: \nPosition:3\n"),
        (&[], b"", 2, usage),
        (&["select"], b"", 2, usage),
        (&["select", "$", "$"], b"", 2, usage),
        (&["selec", "$"], b"", 2, usage),
        (&["selects", "$"], b"", 2, usage),
        (&["", "$["], b"", 2, usage),
    ];
    for (words, input, status, text) in rows {
        let mut reader = Source::new(input, usize::MAX, 1);
        let mut writer = make_sink(alloc, usize::MAX);
        match run(alloc, words, &mut reader, &mut writer) {
            Ok(_) => check!(rt; false),
            Err(fault) => {
                check!(rt; fault.status() == status);
                check!(rt; fault.to_string(alloc)?.as_str().starts_with(text));
            }
        }
        check!(rt; writer.bytes.is_empty());
        check!(rt; !reader.failed() && !writer.failed());
    }
    Ok(())
}

#[test]
fn fails_at_each_read_and_write(rt: HostRuntime) -> Result<(), Fail> {
    let alloc = rt.alloc();
    for good in 0..=DOCUMENT.len() {
        let mut reader = Source::new(DOCUMENT, good, 1);
        let mut writer = make_sink(alloc, usize::MAX);
        let result = run(alloc, &["select", "$"], &mut reader, &mut writer);
        check!(rt; matches!(result, Err(Fault::Io)));
        check!(rt; reader.failed());
        check!(rt; writer.bytes.is_empty());
    }
    for good in 0..ANSWER.len() {
        let mut reader = Source::new(DOCUMENT, usize::MAX, 1);
        let mut writer = make_sink(alloc, good);
        let result = run(alloc, &["select", "$"], &mut reader, &mut writer);
        check!(rt; matches!(result, Err(Fault::Io)));
        check!(rt; writer.failed());
        assert!(rt; good <= ANSWER.len());
        check!(rt; writer.bytes.as_slice() == &ANSWER[..good]);
    }
    Ok(())
}
