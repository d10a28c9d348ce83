//! The documents of a text or a stream, one after another.

use crate::asserts::check;
use crate::outcomes::prints;
use crate::run::streams::Source;
use jsonpath_lib::{DocumentFault, Documents, FaultKind, JsonPathError};
use jsonpath_streams::Input;
use serde_json::Value;
use std::process::Abort;
use std::test::Fail;

// The document, where one was read.
fn document_of(read: Option<Result<Value, DocumentFault>>) -> Option<Value> {
    read?.ok()
}

// The refusal, where there was one.
fn fault_of(read: Option<Result<Value, DocumentFault>>) -> Option<DocumentFault> {
    read?.err()
}

// Asserts which documents these are, and where they are refused behind them.
fn are<R: Input + Drop>(
    rt: &(impl Abort + AllocGlobal),
    documents: &mut Documents<R>,
    wanted: &[&str],
    refused: Option<(FaultKind, usize, usize, &str)>,
) {
    for want in wanted {
        let document = document_of(documents.next()).expect(rt, "a document");
        prints(rt, &document, *want);
    }
    let last = documents.next();
    check!(rt; last.is_none() == refused.is_none(), "the end");
    if let Some((kind, line, column, message)) = refused {
        let fault = fault_of(last).expect(rt, "a refusal");
        check!(rt; fault.kind == kind, message);
        check!(rt; fault.line == line, message);
        check!(rt; fault.column == column, message);
        let error = &fault.error;
        check!(rt; matches!(error, JsonPathError::Serde(text) if text.as_str() == message), message);
    }
    check!(rt; documents.next().is_none());
}

// Asserts which documents a text has, and where it is refused behind them: the text as bytes, and as an input that gives
// one, two or three bytes a call.
fn reads(
    rt: &(impl Abort + AllocGlobal),
    text: &[u8],
    wanted: &[&str],
    refused: Option<(FaultKind, usize, usize, &str)>,
) {
    are(rt, &mut Documents::new(rt.alloc(), text), wanted, refused);
    for piece in 1..4 {
        let input = Source::new(text, usize::MAX, piece);
        let mut documents = Documents::of_input(rt.alloc(), input);
        are(rt, &mut documents, wanted, refused);
    }
}

#[test]
fn documents_come_in_their_order(rt: HostRuntime) {
    reads(&rt, b"", &[], None);
    reads(&rt, b" \t\r\n", &[], None);
    reads(
        &rt,
        b"[1]{\"a\":2}\"b\"3 4\ntrue\r\nnull ",
        &["[1]", "{\"a\":2}", "\"b\"", "3", "4", "true", "null"],
        None,
    );
    reads(&rt, b"[1,\n2]\n[3]\n", &["[1,2]", "[3]"], None);
    reads(
        &rt,
        b"\"a}\\\"]\"[\"\\\\\"]",
        &["\"a}\\\"]\"", "[\"\\\\\"]"],
        None,
    );
    reads(&rt, b"12[3]\"4\"", &["12", "[3]", "\"4\""], None);
}

#[test]
fn words_end_with_their_last_letter(rt: HostRuntime) {
    reads(&rt, b"truefalse", &["true", "false"], None);
    reads(&rt, b"null[1]", &["null", "[1]"], None);
}

#[test]
fn a_wrong_byte_names_its_place_and_ends_the_documents(rt: HostRuntime) {
    let wrong = |line, column, message| Some((FaultKind::WrongByte, line, column, message));
    reads(
        &rt,
        b"[1]\n[2,}\n[3]",
        &["[1]"],
        wrong(2, 4, "invalid JSON at line 2 column 4"),
    );
    reads(
        &rt,
        b"1 2x 3",
        &["1"],
        wrong(1, 4, "invalid JSON at line 1 column 4"),
    );
    reads(
        &rt,
        b"[1]\n\n [\n2,,]",
        &["[1]"],
        wrong(4, 3, "invalid JSON at line 4 column 3"),
    );
    reads(
        &rt,
        b"[1]]",
        &["[1]"],
        wrong(1, 4, "invalid JSON at line 1 column 4"),
    );
    reads(
        &rt,
        b"[1] x",
        &["[1]"],
        wrong(1, 5, "invalid JSON at line 1 column 5"),
    );
    reads(
        &rt,
        b"1 [\xff] 2",
        &["1"],
        wrong(1, 4, "invalid JSON at line 1 column 4"),
    );
    reads(
        &rt,
        b"[\n\"a\nb\"]",
        &[],
        wrong(2, 3, "invalid JSON at line 2 column 3"),
    );
}

// Asserts the same, also where the input gives so many bytes a call that each of the text's places is cut at.
fn reads_however_cut(
    rt: &(impl Abort + AllocGlobal),
    text: &[u8],
    wanted: &[&str],
    refused: Option<(FaultKind, usize, usize, &str)>,
) {
    reads(rt, text, wanted, refused);
    for piece in 4..text.len() {
        let input = Source::new(text, usize::MAX, piece);
        let mut documents = Documents::of_input(rt.alloc(), input);
        are(rt, &mut documents, wanted, refused);
    }
}

#[test]
fn characters_beyond_ascii_and_escapes_are_cut_anywhere(rt: HostRuntime) {
    reads_however_cut(
        &rt,
        b"[\"sixteen letters, \xd0\xbb\xd1\x8e\xd0\xb1 \xe8\xaa\x9e\xef\xbc\x8c\xe0\xa4\x85 \xed\x95\x9c\xf0\x9f\x98\x80 and on, and on, and on\"] 2",
        &[
            "[\"sixteen letters, люб 語，अ 한😀 and on, and on, and on\"]",
            "2",
        ],
        None,
    );
    reads_however_cut(
        &rt,
        b"[\"sixteen letters, \\n\\\"\\\\ \\u00e9\\ud55c\\uD55C\\ud83d\\ude00 and on, and on, and on\"]",
        &["[\"sixteen letters, \\n\\\"\\\\ é한한😀 and on, and on, and on\"]"],
        None,
    );
}

#[test]
fn a_character_that_is_no_utf_8_is_refused_at_its_first_wrong_byte(rt: HostRuntime) {
    let at_20 = Some((
        FaultKind::WrongByte,
        1,
        20,
        "invalid JSON at line 1 column 20",
    ));
    let at_21 = Some((
        FaultKind::WrongByte,
        1,
        21,
        "invalid JSON at line 1 column 21",
    ));
    let at_22 = Some((
        FaultKind::WrongByte,
        1,
        22,
        "invalid JSON at line 1 column 22",
    ));
    reads_however_cut(&rt, b"[\"sixteen letters, \x80, and on\"]", &[], at_20);
    reads_however_cut(&rt, b"[\"sixteen letters, \xc0\x80 and on\"]", &[], at_20);
    reads_however_cut(&rt, b"[\"sixteen letters, \xc1\xbf and on\"]", &[], at_20);
    reads_however_cut(&rt, b"[\"sixteen letters, \xd0(, and on\"]", &[], at_21);
    reads_however_cut(
        &rt,
        b"[\"sixteen letters, \xe0\x9f\xbf and on\"]",
        &[],
        at_21,
    );
    reads_however_cut(
        &rt,
        b"[\"sixteen letters, \xed\xa0\x80 and on\"]",
        &[],
        at_21,
    );
    reads_however_cut(
        &rt,
        b"[\"sixteen letters, \xf0\x8f\xbf\xbf and on\"]",
        &[],
        at_21,
    );
    reads_however_cut(&rt, b"[\"sixteen letters, \xe8\xaa(, and on\"]", &[], at_22);
    reads_however_cut(
        &rt,
        b"[\"sixteen letters, \xf0\x9f(\x80 and on\"]",
        &[],
        at_22,
    );
}

#[test]
fn a_text_that_ends_too_early_names_its_last_byte(rt: HostRuntime) {
    let cut = |line, column, message| Some((FaultKind::CutShort, line, column, message));
    reads(
        &rt,
        b"[1] [2",
        &["[1]"],
        cut(1, 6, "EOF while parsing at line 1 column 6"),
    );
    reads(
        &rt,
        b"{\"a\":{",
        &[],
        cut(1, 6, "EOF while parsing at line 1 column 6"),
    );
    reads(
        &rt,
        b"[1]\n[2,\n",
        &["[1]"],
        cut(3, 0, "EOF while parsing at line 3 column 0"),
    );
}

#[test]
fn a_number_out_of_range_stands_where_serde_json_says(rt: HostRuntime) {
    let refused = (
        FaultKind::Unread,
        2,
        8,
        "number out of range at line 2 column 8",
    );
    reads(&rt, b"[1]\n [1e999]\n[2]", &["[1]"], Some(refused));
}

#[test]
fn a_wrong_byte_is_told_before_the_stream_is_read_on(rt: HostRuntime) {
    let mut documents = Documents::of_input(rt.alloc(), Source::new(b"[1] [2}", 7, 1));
    let wrong = (
        FaultKind::WrongByte,
        1,
        7,
        "invalid JSON at line 1 column 7",
    );
    are(&rt, &mut documents, &["[1]"], Some(wrong));
}

#[test]
fn a_failed_read_is_an_error_of_its_own(rt: HostRuntime) {
    for good in 0..12 {
        let input = Source::new(b"[1]\n[20, 3]", good, 1);
        let mut documents = Documents::of_input(rt.alloc(), input);
        let mut count = 0usize;
        let mut kind = None;
        for item in documents.by_ref().take(9) {
            match item {
                Ok(_document) => count += 1,
                Err(fault) => kind = Some((fault.kind, fault.line, fault.column)),
            }
        }
        if good < 3 {
            check!(rt; count == 0 && kind == Some((FaultKind::ReadFailed, 1, good + 1)));
        } else if good < 11 {
            check!(rt; count == 1);
            let (line, column) = if good == 3 { (1, 4) } else { (2, good - 3) };
            check!(rt; kind == Some((FaultKind::ReadFailed, line, column)));
        } else {
            check!(rt; count == 2 && kind == Some((FaultKind::ReadFailed, 2, 8)));
        }
        check!(rt; documents.next().is_none());
    }
}
