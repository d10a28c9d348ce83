//! The characters of a text, one after another, and its parts by their spans.

use crate::asserts::check;
use jsonpath_paths::{ReaderError, StrRange, StrReader};

#[test]
fn characters(rt: HostRuntime) {
    let mut reader = StrReader::new("a가b");
    check!(rt; reader.origin_str() == "a가b");
    check!(rt; reader.peek_char() == Ok('a'));
    check!(rt; reader.next_char() == Ok((StrRange::new(0, 1), 'a')));
    check!(rt; reader.current_pos() == 1);
    let mut other = reader.clone().expect(&rt, "a copy");
    check!(rt; reader.next_char() == Ok((StrRange::new(1, 3), '가')));
    check!(rt; other.next_char() == Ok((StrRange::new(1, 3), '가')));
}

#[test]
fn characters_of_a_kind(rt: HostRuntime) {
    let mut reader = StrReader::new("a가b");
    check!(rt; reader.next_char() == Ok((StrRange::new(0, 1), 'a')));
    check!(rt; reader.take_while(|c| *c == 'b') == Ok(StrRange::new(1, 0)));
    check!(rt; reader.take_while(|c| *c != 'b') == Ok(StrRange::new(1, 3)));
    check!(rt; reader.current_pos() == 4);
    check!(rt; reader.next_char() == Ok((StrRange::new(4, 1), 'b')));
}

#[test]
fn no_character_behind_the_last(rt: HostRuntime) {
    let mut reader = StrReader::new("a가b");
    for _ in 0..3 {
        check!(rt; reader.next_char().is_ok());
    }
    check!(rt; reader.next_char() == Err(ReaderError::Eof));
    check!(rt; reader.peek_char() == Err(ReaderError::Eof));
    check!(rt; reader.origin_str() == "a가b");
}

#[test]
fn parts_of_a_text(rt: HostRuntime) {
    let mut reader = StrReader::new("$.가");
    match reader.take_while(|c| *c == '$') {
        Ok(span) => check!(rt; reader.read(&span) == "$"),
        Err(_) => check!(rt; false),
    }
}
