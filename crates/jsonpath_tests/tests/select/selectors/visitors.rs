//! Visitors of compiled paths: the tokens that they are given, and where sides of comparisons end.

use crate::asserts::check;
use jsonpath_paths::ParseToken::{Absolute, Array, ArrayEof, Filter, In, Key, Number, Relative};
use jsonpath_paths::{Decimal, FilterToken, ParseToken, StrRange};
use jsonpath_select::{NodeVisitor, Parser};
use std::process::Abort;

// Keeps the tokens, and after how many of them a side of a comparison ended.
#[derive(Drop)]
struct Calls {
    tokens: Vec<ParseToken>,
    ends: Vec<usize>,
    failed: bool,
    lost_ends: bool,
}

impl NodeVisitor for Calls {
    ghost tokens = { λ c. c.tokens.items };

    ghost has_failed = { λ c. c.failed };

    fn visit_token(&mut self, token: &ParseToken) {
        match token.clone() {
            Ok(copy) => {
                if self.tokens.push(copy).is_err() {
                    self.failed = true;
                }
            }
            Err(_) => self.failed = true,
        }
    }

    fn end_term(&mut self) {
        if self.ends.push(self.tokens.len()).is_err() {
            self.lost_ends = true;
        }
    }

    fn failed(&self) -> bool {
        self.failed
    }
}

// Keeps the tokens alone.
#[derive(Drop)]
struct Tokens {
    tokens: Vec<ParseToken>,
    failed: bool,
}

impl NodeVisitor for Tokens {
    ghost tokens = { λ c. c.tokens.items };

    ghost has_failed = { λ c. c.failed };

    fn visit_token(&mut self, token: &ParseToken) {
        match token.clone() {
            Ok(copy) => {
                if self.tokens.push(copy).is_err() {
                    self.failed = true;
                }
            }
            Err(_) => self.failed = true,
        }
    }

    fn failed(&self) -> bool {
        self.failed
    }
}

// The calls that a visit of the path makes.
fn calls_of(rt: &(impl Abort + AllocGlobal), text: &str) -> Calls {
    let node = Parser::compile(rt.alloc(), text).expect(rt, "a path");
    let mut calls = Calls {
        tokens: Vec::new(rt.alloc()),
        ends: Vec::new(rt.alloc()),
        failed: false,
        lost_ends: false,
    };
    calls.visit(&node);
    calls
}

#[test]
fn each_side_of_a_comparison_ends(rt: HostRuntime) {
    let calls = calls_of(&rt, "$[?(@.a == 1)]");
    check!(rt; !calls.failed() && !calls.lost_ends);
    check!(rt; calls.ends.as_slice() == [5, 6].as_slice());
    let want = [
        Absolute,
        Array,
        Relative,
        In,
        Key(StrRange::new(6, 1)),
        Number(Decimal::of_i64(1)),
        Filter(FilterToken::Equal),
        ArrayEof,
    ];
    check!(rt; calls.tokens.as_slice() == want.as_slice());
}

#[test]
fn lone_paths_and_connectives_end_no_term(rt: HostRuntime) {
    let calls = calls_of(&rt, "$[?(@.a && (@ || 1 < @.b[?(@ == 2)]))]");
    check!(rt; !calls.failed() && !calls.lost_ends);
    check!(rt; calls.tokens.len() == 19);
    check!(rt; calls.ends.as_slice() == [7, 12, 13, 15].as_slice());
}

#[test]
fn visitors_need_not_hear_of_ends(rt: HostRuntime) {
    let node = Parser::compile(rt.alloc(), "$[?(@.a == 1)]").expect(&rt, "a path");
    let mut plain = Tokens {
        tokens: Vec::new(rt.alloc()),
        failed: false,
    };
    plain.visit(&node);
    check!(rt; !plain.failed());
    check!(rt; plain.tokens.len() == 8);
}
