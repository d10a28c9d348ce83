//! Words, kinds and copies: what a token and its readers answer beside the tokens.

use crate::asserts::check;
use jsonpath_paths::{FilterToken, StrRange, StrReader, Token, TokenReader, Tokenizer};

#[test]
fn words_of_tokens(rt: HostRuntime) {
    let text = "$.가";
    let mut tokens = TokenReader::new(text);
    let _ = tokens.next_token();
    let _ = tokens.next_token();
    match tokens.next_token() {
        Ok(Token::Key(span)) => {
            check!(rt; tokens.read_value(&span) == "가");
            check!(rt; StrReader::new(text).read(&span) == "가");
        }
        _ => check!(rt; false),
    }
}

#[test]
fn kinds_of_tokens(rt: HostRuntime) {
    let mut dot = Token::Dot(StrRange::new(1, 1));
    check!(rt; dot.is_match_token_type(Token::Dot(StrRange::new(5, 1))));
    check!(rt; !dot.is_match_token_type(Token::At(StrRange::new(1, 1))));
    check!(rt; dot.reset_span(StrRange::new(7, 1)) == Token::Dot(StrRange::new(7, 1)));
    check!(rt; dot == Token::Dot(StrRange::new(1, 1)));
    check!(rt; dot.span() == StrRange::new(1, 1));
}

#[test]
fn comparisons(rt: HostRuntime) {
    for op in [
        FilterToken::Equal,
        FilterToken::NotEqual,
        FilterToken::Little,
        FilterToken::LittleOrEqual,
        FilterToken::Greater,
        FilterToken::GreaterOrEqual,
    ] {
        check!(rt; op.is_comparison());
    }
    check!(rt; !FilterToken::And.is_comparison());
    check!(rt; !FilterToken::Or.is_comparison());
}

#[test]
fn copies_of_readers(rt: HostRuntime) {
    let mut tokenizer = Tokenizer::new("$.");
    let mut early = tokenizer.clone().expect(&rt, "a copy");
    check!(rt; tokenizer.next_token() == early.next_token());
    let mut reader = TokenReader::new("$.");
    let mut other = reader.clone().expect(&rt, "a copy");
    check!(rt; reader.next_token() == other.next_token());
}
