//! The tokens of a text and their spans, up to where no token begins.

use crate::asserts::check;
use jsonpath_paths::{StrRange, Token, TokenError, TokenReader, Tokenizer};
use std::process::Abort;

fn at(pos: usize, offset: usize) -> StrRange {
    StrRange::new(pos, offset)
}

// Asserts that the text has these tokens and then ends.
fn reads(rt: &(impl Abort + AllocGlobal), text: &str, want: &[Token]) {
    let mut reader = TokenReader::new(text);
    for token in want {
        check!(rt; reader.next_token() == Ok(*token));
    }
    check!(rt; reader.next_token() == Err(TokenError::Eof));
}

#[test]
fn digits(rt: HostRuntime) {
    reads(
        &rt,
        "$.01.a",
        &[
            Token::Absolute(at(0, 1)),
            Token::Dot(at(1, 1)),
            Token::Key(at(2, 2)),
            Token::Dot(at(4, 1)),
            Token::Key(at(5, 1)),
        ],
    );
}

#[test]
fn blank(rt: HostRuntime) {
    reads(
        &rt,
        "$.   []",
        &[
            Token::Absolute(at(0, 1)),
            Token::Dot(at(1, 1)),
            Token::Whitespace(at(2, 3)),
            Token::OpenArray(at(5, 1)),
            Token::CloseArray(at(6, 1)),
        ],
    );
}

#[test]
fn two_dots(rt: HostRuntime) {
    reads(
        &rt,
        "$..",
        &[
            Token::Absolute(at(0, 1)),
            Token::Dot(at(1, 1)),
            Token::Dot(at(2, 1)),
        ],
    );
}

#[test]
fn word_behind_dots(rt: HostRuntime) {
    reads(
        &rt,
        "$..ab",
        &[
            Token::Absolute(at(0, 1)),
            Token::Dot(at(1, 1)),
            Token::Dot(at(2, 1)),
            Token::Key(at(3, 2)),
        ],
    );
}

#[test]
fn index_list(rt: HostRuntime) {
    reads(
        &rt,
        "[-1, 2 ]",
        &[
            Token::OpenArray(at(0, 1)),
            Token::Key(at(1, 2)),
            Token::Comma(at(3, 1)),
            Token::Whitespace(at(4, 1)),
            Token::Key(at(5, 1)),
            Token::Whitespace(at(6, 1)),
            Token::CloseArray(at(7, 1)),
        ],
    );
}

#[test]
fn blanks_in_brackets(rt: HostRuntime) {
    reads(
        &rt,
        "[ 1 2 , 3 \"abc\" : -10 ]",
        &[
            Token::OpenArray(at(0, 1)),
            Token::Whitespace(at(1, 1)),
            Token::Key(at(2, 1)),
            Token::Whitespace(at(3, 1)),
            Token::Key(at(4, 1)),
            Token::Whitespace(at(5, 1)),
            Token::Comma(at(6, 1)),
            Token::Whitespace(at(7, 1)),
            Token::Key(at(8, 1)),
            Token::Whitespace(at(9, 1)),
            Token::DoubleQuoted(at(10, 5)),
            Token::Whitespace(at(15, 1)),
            Token::Split(at(16, 1)),
            Token::Whitespace(at(17, 1)),
            Token::Key(at(18, 3)),
            Token::Whitespace(at(21, 1)),
            Token::CloseArray(at(22, 1)),
        ],
    );
}

#[test]
fn wide_word(rt: HostRuntime) {
    reads(
        &rt,
        "?(@.a가 <41.01)",
        &[
            Token::Question(at(0, 1)),
            Token::OpenParenthesis(at(1, 1)),
            Token::At(at(2, 1)),
            Token::Dot(at(3, 1)),
            Token::Key(at(4, 4)),
            Token::Whitespace(at(8, 1)),
            Token::Little(at(9, 1)),
            Token::Key(at(10, 2)),
            Token::Dot(at(12, 1)),
            Token::Key(at(13, 2)),
            Token::CloseParenthesis(at(15, 1)),
        ],
    );
}

#[test]
fn word_of_digits(rt: HostRuntime) {
    reads(
        &rt,
        "?(@.a <4a.01)",
        &[
            Token::Question(at(0, 1)),
            Token::OpenParenthesis(at(1, 1)),
            Token::At(at(2, 1)),
            Token::Dot(at(3, 1)),
            Token::Key(at(4, 1)),
            Token::Whitespace(at(5, 1)),
            Token::Little(at(6, 1)),
            Token::Key(at(7, 2)),
            Token::Dot(at(9, 1)),
            Token::Key(at(10, 2)),
            Token::CloseParenthesis(at(12, 1)),
        ],
    );
}

#[test]
fn two_paths(rt: HostRuntime) {
    reads(
        &rt,
        "?($.c>@.d)",
        &[
            Token::Question(at(0, 1)),
            Token::OpenParenthesis(at(1, 1)),
            Token::Absolute(at(2, 1)),
            Token::Dot(at(3, 1)),
            Token::Key(at(4, 1)),
            Token::Greater(at(5, 1)),
            Token::At(at(6, 1)),
            Token::Dot(at(7, 1)),
            Token::Key(at(8, 1)),
            Token::CloseParenthesis(at(9, 1)),
        ],
    );
}

#[test]
fn colon(rt: HostRuntime) {
    reads(
        &rt,
        "$[:]",
        &[
            Token::Absolute(at(0, 1)),
            Token::OpenArray(at(1, 1)),
            Token::Split(at(2, 1)),
            Token::CloseArray(at(3, 1)),
        ],
    );
}

#[test]
fn guarded_quotes(rt: HostRuntime) {
    reads(
        &rt,
        "$['single\\'1','single\\'2']",
        &[
            Token::Absolute(at(0, 1)),
            Token::OpenArray(at(1, 1)),
            Token::SingleQuoted(at(2, 11)),
            Token::Comma(at(13, 1)),
            Token::SingleQuoted(at(14, 11)),
            Token::CloseArray(at(25, 1)),
        ],
    );
}

#[test]
fn guarded_double_quote(rt: HostRuntime) {
    reads(
        &rt,
        "$[\"double\\\"quote\"]",
        &[
            Token::Absolute(at(0, 1)),
            Token::OpenArray(at(1, 1)),
            Token::DoubleQuoted(at(2, 15)),
            Token::CloseArray(at(17, 1)),
        ],
    );
}

#[test]
fn guarded_single_quote(rt: HostRuntime) {
    reads(
        &rt,
        "$['single\\'quote']",
        &[
            Token::Absolute(at(0, 1)),
            Token::OpenArray(at(1, 1)),
            Token::SingleQuoted(at(2, 15)),
            Token::CloseArray(at(17, 1)),
        ],
    );
}

#[test]
fn quote_that_does_not_end(rt: HostRuntime) {
    reads(
        &rt,
        "$['a\\']",
        &[Token::Absolute(at(0, 1)), Token::OpenArray(at(1, 1))],
    );
}

#[test]
fn wide_step(rt: HostRuntime) {
    reads(
        &rt,
        "$..가 [",
        &[
            Token::Absolute(at(0, 1)),
            Token::Dot(at(1, 1)),
            Token::Dot(at(2, 1)),
            Token::Key(at(3, 3)),
            Token::Whitespace(at(6, 1)),
            Token::OpenArray(at(7, 1)),
        ],
    );
}

#[test]
fn operators(rt: HostRuntime) {
    reads(
        &rt,
        "==!=<=>=&&||<",
        &[
            Token::Equal(at(0, 2)),
            Token::NotEqual(at(2, 2)),
            Token::LittleOrEqual(at(4, 2)),
            Token::GreaterOrEqual(at(6, 2)),
            Token::And(at(8, 2)),
            Token::Or(at(10, 2)),
            Token::Little(at(12, 1)),
        ],
    );
}

#[test]
fn dollar_words(rt: HostRuntime) {
    reads(
        &rt,
        "*$a$b.c$d",
        &[
            Token::Asterisk(at(0, 1)),
            Token::Key(at(1, 4)),
            Token::Dot(at(5, 1)),
            Token::Key(at(6, 1)),
            Token::Key(at(7, 2)),
        ],
    );
}

/// What is looked at stays, and is then taken.
#[test]
fn looked_at(rt: HostRuntime) {
    let mut reader = TokenReader::new("$.a");
    check!(rt; reader.next_token() == Ok(Token::Absolute(at(0, 1))));
    check!(rt; reader.to_error() == TokenError::Position(1));
    check!(rt; reader.peek_token() == Ok(Token::Dot(at(1, 1))));
    check!(rt; reader.peek_token() == Ok(Token::Dot(at(1, 1))));
    check!(rt; reader.to_error() == TokenError::Position(2));
    check!(rt; reader.next_token() == Ok(Token::Dot(at(1, 1))));
    check!(rt; reader.next_token() == Ok(Token::Key(at(2, 1))));
    check!(rt; reader.to_error() == TokenError::Eof);
}

/// Each later call is refused as the first one.
#[test]
fn refused_again(rt: HostRuntime) {
    let mut tokenizer = Tokenizer::new("$=1");
    check!(rt; tokenizer.next_token() == Ok(Token::Absolute(at(0, 1))));
    check!(rt; tokenizer.next_token() == Err(TokenError::Position(1)));
    check!(rt; tokenizer.next_token() == Err(TokenError::Position(1)));
    let mut reader = TokenReader::new("$=1");
    check!(rt; reader.next_token() == Ok(Token::Absolute(at(0, 1))));
    check!(rt; reader.next_token() == Err(TokenError::Position(1)));
    check!(rt; reader.to_error() == TokenError::Position(1));
}

/// Blanks are those of Unicode, and other control characters make words.
#[test]
fn blanks_of_unicode(rt: HostRuntime) {
    for blank in ["\u{85}", "\u{a0}", "\u{1680}", "\u{3000}"] {
        let mut tokenizer = Tokenizer::new(blank);
        check!(rt; tokenizer.next_token() == Ok(Token::Whitespace(at(0, blank.len()))));
    }
    for word in [
        "\u{1c}",
        "\u{1f}",
        "\u{200b}",
        "\u{180e}",
        "\u{feff}",
        "{}/%;#-+^~",
    ] {
        let mut tokenizer = Tokenizer::new(word);
        check!(rt; tokenizer.next_token() == Ok(Token::Key(at(0, word.len()))));
    }
}
