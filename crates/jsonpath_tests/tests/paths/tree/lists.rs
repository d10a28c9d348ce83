//! The token lists of paths, as a receiver gets them.

use crate::asserts::check;
use crate::paths::tree::token_list::tokens_of;
use jsonpath_paths::ParseToken::{
    Absolute, All, Array, ArrayEof, Bool, Filter, In, Key, Keys, Leaves, Number, Range, Relative,
    Union,
};
use jsonpath_paths::{Decimal, FilterToken, Items, ParseToken, PathParser, StrRange};
use std::process::Abort;

// Asserts that a receiver of the path's tokens gets these.
pub(crate) fn shows(rt: &(impl Abort + AllocGlobal), text: &str, want: &[ParseToken]) {
    let path = PathParser::compile(rt.alloc(), text).expect(rt, "a path");
    let found = tokens_of(rt.alloc(), &path).expect(rt, "tokens");
    check!(rt; found.as_slice() == want);
}

pub(crate) fn key(pos: usize, offset: usize) -> ParseToken {
    Key(StrRange::new(pos, offset))
}

pub(crate) fn whole(n: i64) -> ParseToken {
    Number(Decimal::of_i64(n))
}

fn and_a_tenth(rt: &impl Abort, n: u64) -> ParseToken {
    Number(Decimal::of_parts(false, n, 100_000_000_000_000_000).expect(rt, "a decimal"))
}

fn half_below_zero(rt: &impl Abort) -> ParseToken {
    Number(Decimal::of_parts(true, 0, 500_000_000_000_000_000).expect(rt, "a decimal"))
}

#[test]
fn names_and_wide_names(rt: HostRuntime) {
    shows(
        &rt,
        "$.00.韓창.seok",
        &[Absolute, In, key(2, 2), In, key(5, 6), In, key(12, 4)],
    );
}

#[test]
fn all_below(rt: HostRuntime) {
    shows(&rt, "$..*", &[Absolute, Leaves, All]);
}

#[test]
fn index_below(rt: HostRuntime) {
    shows(
        &rt,
        "$..[0]",
        &[Absolute, Leaves, Array, whole(0), ArrayEof],
    );
}

#[test]
fn dollar_in_name(rt: HostRuntime) {
    shows(&rt, "$.$a", &[Absolute, In, key(2, 2)]);
}

#[test]
fn quoted_dollar(rt: HostRuntime) {
    shows(&rt, "$.['$a']", &[Absolute, Array, key(3, 4), ArrayEof]);
}

#[test]
fn lone_path(rt: HostRuntime) {
    shows(
        &rt,
        "$.book[?(@.isbn)]",
        &[
            Absolute,
            In,
            key(2, 4),
            Array,
            Relative,
            In,
            key(11, 4),
            ArrayEof,
        ],
    );
}

#[test]
fn all_in_brackets(rt: HostRuntime) {
    shows(
        &rt,
        "$.a[*].가",
        &[Absolute, In, key(2, 1), Array, All, ArrayEof, In, key(7, 3)],
    );
}

#[test]
fn two_indexes(rt: HostRuntime) {
    shows(
        &rt,
        "$.a[0][1]",
        &[
            Absolute,
            In,
            key(2, 1),
            Array,
            whole(0),
            ArrayEof,
            Array,
            whole(1),
            ArrayEof,
        ],
    );
}

#[test]
fn union(rt: HostRuntime) {
    let indexes = [1, 2].to_vec(rt.alloc()).expect(&rt, "a list");
    let union = Union(Items::from_vec(indexes));
    shows(&rt, "$[1,2]", &[Absolute, Array, union, ArrayEof]);
}

#[test]
fn range_from(rt: HostRuntime) {
    shows(
        &rt,
        "$[10:]",
        &[Absolute, Array, Range(Some(10), None, None), ArrayEof],
    );
}

#[test]
fn range_from_to(rt: HostRuntime) {
    shows(
        &rt,
        "$[-12:13]",
        &[Absolute, Array, Range(Some(-12), Some(13), None), ArrayEof],
    );
}

#[test]
fn range_to_step(rt: HostRuntime) {
    shows(
        &rt,
        "$[:3:2]",
        &[Absolute, Array, Range(None, Some(3), Some(2)), ArrayEof],
    );
}

#[test]
fn range_of_all(rt: HostRuntime) {
    shows(
        &rt,
        "$[:]",
        &[Absolute, Array, Range(None, None, None), ArrayEof],
    );
}

#[test]
fn range_of_two_colons(rt: HostRuntime) {
    shows(
        &rt,
        "$[::]",
        &[Absolute, Array, Range(None, None, None), ArrayEof],
    );
}

#[test]
fn range_step(rt: HostRuntime) {
    shows(
        &rt,
        "$[::2]",
        &[Absolute, Array, Range(None, None, Some(2)), ArrayEof],
    );
}

#[test]
fn path_from_root(rt: HostRuntime) {
    shows(
        &rt,
        "$.a[?($.b>3)]",
        &[
            Absolute,
            In,
            key(2, 1),
            Array,
            Absolute,
            In,
            key(8, 1),
            whole(3),
            Filter(FilterToken::Greater),
            ArrayEof,
        ],
    );
}

#[test]
fn quoted_names(rt: HostRuntime) {
    shows(
        &rt,
        "$['a']['bb']",
        &[
            Absolute,
            Array,
            key(2, 3),
            ArrayEof,
            Array,
            key(7, 4),
            ArrayEof,
        ],
    );
}

#[test]
fn truth(rt: HostRuntime) {
    shows(
        &rt,
        "$.a[?(@.e==true)]",
        &[
            Absolute,
            In,
            key(2, 1),
            Array,
            Relative,
            In,
            key(8, 1),
            Bool(true),
            Filter(FilterToken::Equal),
            ArrayEof,
        ],
    );
}

#[test]
fn candidate(rt: HostRuntime) {
    shows(
        &rt,
        "$[?(@ > 1)]",
        &[
            Absolute,
            Array,
            Relative,
            whole(1),
            Filter(FilterToken::Greater),
            ArrayEof,
        ],
    );
}

#[test]
fn guarded_quote(rt: HostRuntime) {
    shows(
        &rt,
        "$[\"single\\\"quote\"]",
        &[Absolute, Array, key(2, 15), ArrayEof],
    );
}

#[test]
fn fractions(rt: HostRuntime) {
    shows(
        &rt,
        "$[?(1.1<2.1)]",
        &[
            Absolute,
            Array,
            and_a_tenth(&rt, 1),
            and_a_tenth(&rt, 2),
            Filter(FilterToken::Little),
            ArrayEof,
        ],
    );
}

#[test]
fn connectives_to_the_right(rt: HostRuntime) {
    shows(
        &rt,
        "$[?($.c>@.d&&(1==2||3>=4))]",
        &[
            Absolute,
            Array,
            Absolute,
            In,
            key(6, 1),
            Relative,
            In,
            key(10, 1),
            Filter(FilterToken::Greater),
            whole(1),
            whole(2),
            Filter(FilterToken::Equal),
            whole(3),
            whole(4),
            Filter(FilterToken::GreaterOrEqual),
            Filter(FilterToken::Or),
            Filter(FilterToken::And),
            ArrayEof,
        ],
    );
}

#[test]
fn list_of_names(rt: HostRuntime) {
    let names = [StrRange::new(2, 3), StrRange::new(7, 3)];
    let names = names.to_vec(rt.alloc()).expect(&rt, "a list");
    let keys = Keys(Items::from_vec(names));
    shows(&rt, "$[\"a\", 'b']", &[Absolute, Array, keys, ArrayEof]);
}

#[test]
fn below_zero(rt: HostRuntime) {
    shows(
        &rt,
        "$[?(@ <= -0.5)]",
        &[
            Absolute,
            Array,
            Relative,
            half_below_zero(&rt),
            Filter(FilterToken::LittleOrEqual),
            ArrayEof,
        ],
    );
}

#[test]
fn grouped(rt: HostRuntime) {
    shows(
        &rt,
        "$[?(@.a && @.b || @.c != 'x')]",
        &[
            Absolute,
            Array,
            Relative,
            In,
            key(6, 1),
            Relative,
            In,
            key(13, 1),
            Relative,
            In,
            key(20, 1),
            key(25, 3),
            Filter(FilterToken::NotEqual),
            Filter(FilterToken::Or),
            Filter(FilterToken::And),
            ArrayEof,
        ],
    );
}
