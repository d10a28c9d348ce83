//! The samples that the comments of `jsonpath_paths` show, as they stand there.

use crate::token_list::Collector;
use jsonpath_paths::{
    Condition, Decimal, FilterToken, Inner, Items, ParseToken, ParserNodeVisitor, ParserStep,
    PathParser, ReaderError, StrRange, StrReader, Term, Token, TokenError, TokenReader, Tokenizer,
};
use std::test::Fail;

#[test]
fn samples_of_spans(rt: HostRuntime) {
    let mut reader = StrReader::new("");
    assert!(rt; reader.next_char() == Err(ReaderError::Eof));

    let mut reader = StrReader::new("$.a");
    let dollar = StrRange { pos: 0, offset: 1 };
    assert!(rt; reader.next_char() == Ok((dollar, '$')));

    let word = StrRange::new(2, 3);
    assert!(rt; word.pos == 2 && word.offset == 3);

    let mut reader = StrReader::new("a가b");
    let _ = reader.next_char();
    assert!(rt; reader.next_char() == Ok((StrRange::new(1, 3), '가')));

    let reader = StrReader::new("a가b");
    assert!(rt; reader.current_pos() == 0);
}

#[test]
fn samples_of_characters(rt: HostRuntime) -> Result<(), Fail> {
    let mut reader = StrReader::new("가b");
    assert!(rt; reader.peek_char() == Ok('가'));
    assert!(rt; reader.current_pos() == 0);

    let mut reader = StrReader::new("ab.c");
    let word = reader.take_while(|c| *c != '.');
    assert!(rt; word == Ok(StrRange::new(0, 2)));

    let mut reader = StrReader::new("가b");
    assert!(rt; reader.next_char() == Ok((StrRange::new(0, 3), '가')));
    assert!(rt; reader.next_char() == Ok((StrRange::new(3, 1), 'b')));

    let mut reader = StrReader::new("가b");
    let _ = reader.next_char();
    assert!(rt; reader.current_pos() == 3);

    let mut reader = StrReader::new("가b");
    let _ = reader.next_char();
    assert!(rt; reader.origin_str() == "가b");

    let mut reader = StrReader::new("ab.c");
    let word = reader.take_while(|c| *c != '.')?;
    assert!(rt; reader.read(&word) == "ab");
    Ok(())
}

#[test]
fn samples_of_token_readers(rt: HostRuntime) {
    let mut reader = TokenReader::new("[0]");
    assert!(rt; reader.next_token() == Ok(Token::OpenArray(StrRange::new(0, 1))));
    assert!(rt; reader.next_token() == Ok(Token::Key(StrRange::new(1, 1))));

    let mut reader = TokenReader::new("*");
    assert!(rt; reader.next_token() == Ok(Token::Asterisk(StrRange::new(0, 1))));

    let mut reader = TokenReader::new("==1");
    assert!(rt; reader.peek_token() == Ok(Token::Equal(StrRange::new(0, 2))));
    assert!(rt; reader.next_token() == Ok(Token::Equal(StrRange::new(0, 2))));

    let mut reader = TokenReader::new("@ ");
    let _ = reader.next_token();
    assert!(rt; reader.next_token() == Ok(Token::Whitespace(StrRange::new(1, 1))));
    assert!(rt; reader.next_token() == Err(TokenError::Eof));

    let mut reader = TokenReader::new("$[a]");
    let _ = reader.next_token();
    assert!(rt; reader.to_error() == TokenError::Position(1));

    let mut reader = TokenReader::new("store.book");
    if let Ok(Token::Key(word)) = reader.next_token() {
        assert!(rt; reader.read_value(&word) == "store");
    }
}

#[test]
fn samples_of_tokens(rt: HostRuntime) {
    let mut tokenizer = Tokenizer::new("$.a");
    assert!(rt; tokenizer.next_token() == Ok(Token::Absolute(StrRange::new(0, 1))));
    assert!(rt; tokenizer.next_token() == Ok(Token::Dot(StrRange::new(1, 1))));

    let mut tokenizer = Tokenizer::new("가.b");
    assert!(rt; tokenizer.next_token() == Ok(Token::Key(StrRange::new(0, 3))));

    let mut tokenizer = Tokenizer::new("=1");
    assert!(rt; tokenizer.next_token() == Err(TokenError::Position(0)));

    let mut tokenizer = Tokenizer::new("'a b'");
    assert!(rt; tokenizer.next_token() == Ok(Token::SingleQuoted(StrRange::new(0, 5))));

    let dot = Token::Dot(StrRange::new(1, 1));
    assert!(rt; dot.is_match_token_type(Token::Dot(StrRange::new(5, 1))));

    let mut dot = Token::Dot(StrRange::new(1, 1));
    let other = StrRange::new(5, 1);
    assert!(rt; dot.reset_span(other) == Token::Dot(other));
}

#[test]
fn samples_of_numbers(rt: HostRuntime) {
    assert!(rt; FilterToken::Equal.is_comparison());
    assert!(rt; !FilterToken::And.is_comparison());

    assert!(rt; Decimal::of_i64(-1) < Decimal::of_u64(2));

    let price = Decimal::of_parts(false, 8, 950_000_000_000_000_000);
    assert!(rt; price.is_some_and(|it| it > Decimal::of_i64(8)));

    assert!(rt; Decimal::of_i64(-3).units() == -3_000_000_000_000_000_000);

    assert!(rt; Decimal::of_u64(18_446_744_073_709_551_615) > Decimal::of_i64(0));

    assert!(rt; Decimal::of_u64(2).units() == 2_000_000_000_000_000_000);
}

#[test]
fn samples_of_items(rt: HostRuntime) -> Result<(), Fail> {
    let alloc = rt.alloc();

    let indexes = Items::from_vec(vec![in alloc; 2i64, -1]?);
    assert!(rt; indexes.as_slice() == [2, -1].as_slice());

    let indexes = Items::from_vec(vec![in alloc; 0i64, 1]?);
    assert!(rt; indexes.clone()? == indexes);

    let indexes = Items::from_vec(vec![in alloc; 0i64, 1]?);
    assert!(rt; indexes.into_vec().len() == 2);

    let indexes = Items::from_vec(vec![in alloc; 0i64, 1]?);
    assert!(rt; indexes.as_slice().len() == 2);
    Ok(())
}

#[test]
fn samples_of_steps(rt: HostRuntime) -> Result<(), Fail> {
    let alloc = rt.alloc();

    let path = PathParser::compile(alloc, "$.a[0]")?;
    assert!(rt; path.tree().absolute);
    assert!(rt; path.tree().steps.len() == 2);

    let path = PathParser::compile(alloc, "$..[0]")?;
    let first = path.tree().steps.get(0);
    assert!(rt; first.is_some_and(|it| it.leaves && it.bracket));

    let path = PathParser::compile(alloc, "$.*")?;
    let is_all = |it: &ParserStep| matches!(it.inner, Inner::Token(ParseToken::All));
    assert!(rt; path.tree().steps.get(0).is_some_and(is_all));
    Ok(())
}

#[test]
fn samples_of_conditions(rt: HostRuntime) -> Result<(), Fail> {
    let alloc = rt.alloc();

    let path = PathParser::compile(alloc, "$[?(@.isbn)]")?;
    let is_lone = |it: &ParserStep| matches!(it.inner, Inner::Filter(Condition::Lone(_)));
    assert!(rt; path.tree().steps.get(0).is_some_and(is_lone));

    let path = PathParser::compile(alloc, "$[?(@.price < 10)]")?;
    let is_met = |it: &ParserStep| match &it.inner {
        Inner::Filter(Condition::Compare(Term::Path(_), _, Term::Literal(_))) => true,
        _ => false,
    };
    assert!(rt; path.tree().steps.get(0).is_some_and(is_met));

    let path = PathParser::compile(alloc, "$[?(@.a || @.b)]")?;
    let is_or = |it: &ParserStep| match &it.inner {
        Inner::Filter(Condition::Join(op, _, _)) => *op == FilterToken::Or,
        _ => false,
    };
    assert!(rt; path.tree().steps.get(0).is_some_and(is_or));
    Ok(())
}

#[test]
fn samples_of_paths(rt: HostRuntime) -> Result<(), Fail> {
    let alloc = rt.alloc();

    let path = PathParser::compile(alloc, "$.store['book'][0]")?;
    assert!(rt; path.tree().steps.len() == 3);

    let refused = PathParser::compile(alloc, "$.a[b]").err();
    assert!(rt; refused == Some(TokenError::Position(5)));
    let refused = PathParser::compile(alloc, "$.a[").err();
    assert!(rt; refused == Some(TokenError::Eof));

    let path = PathParser::compile(alloc, "$.a")?;
    assert!(rt; path.text() == "$.a");

    let path = PathParser::compile(alloc, "$[?(@.a)].b")?;
    assert!(rt; path.tree().steps.len() == 2);

    let tree = PathParser::compile(alloc, "$")?.into_tree();
    assert!(rt; tree.absolute && tree.steps.is_empty());
    Ok(())
}

struct Walker;

impl ParserNodeVisitor for Walker {}

#[test]
fn samples_of_token_lists(rt: HostRuntime) -> Result<(), Fail> {
    let alloc = rt.alloc();

    let mut collector = Collector::new(alloc);
    let _ = PathParser::compile(alloc, "$.*")?.parse(&mut collector);
    let tokens = [ParseToken::Absolute, ParseToken::In, ParseToken::All];
    assert!(rt; collector.tokens.as_slice() == tokens.as_slice());

    let path = PathParser::compile(alloc, "$..a")?;
    let mut collector = Collector::new(alloc);
    let _ = path.parse(&mut collector);
    assert!(rt; collector.tokens.len() == 3);
    Ok(())
}
