//! The token lists of paths that the Rust crate's own tests have and no other test here.

use crate::paths::tree::lists::{key, shows, whole};
use jsonpath_paths::ParseToken::{
    Absolute, All, Array, ArrayEof, Filter, In, Leaves, Range, Relative, Union,
};
use jsonpath_paths::{FilterToken, Items, ParseToken};
use std::process::Abort;

#[test]
fn one_name(rt: HostRuntime) {
    shows(&rt, "$.aa", &[Absolute, In, key(2, 2)]);
}

#[test]
fn name_of_digits(rt: HostRuntime) {
    shows(&rt, "$.00.a", &[Absolute, In, key(2, 2), In, key(5, 1)]);
}

#[test]
fn all_of_a_name(rt: HostRuntime) {
    shows(&rt, "$.store.*", &[Absolute, In, key(2, 5), In, All]);
}

#[test]
fn all_of_the_root(rt: HostRuntime) {
    shows(&rt, "$.*", &[Absolute, In, All]);
    shows(&rt, "$.[*]", &[Absolute, Array, All, ArrayEof]);
}

#[test]
fn all_items_of_a_name(rt: HostRuntime) {
    shows(
        &rt,
        "$.a[*]",
        &[Absolute, In, key(2, 1), Array, All, ArrayEof],
    );
}

#[test]
fn range_of_three_numbers(rt: HostRuntime) {
    let range = Range(Some(0), Some(3), Some(2));
    shows(&rt, "$[0:3:2]", &[Absolute, Array, range, ArrayEof]);
}

#[test]
fn guarded_quote_in_a_name(rt: HostRuntime) {
    let want = [Absolute, Array, key(2, 15), ArrayEof];
    shows(&rt, "$['single\\'quote']", &want);
}

#[test]
fn union_of_a_name(rt: HostRuntime) {
    let indexes = [1, 2].to_vec(rt.alloc()).expect(&rt, "a list");
    let union = Union(Items::from_vec(indexes));
    shows(
        &rt,
        "$.a[1,2]",
        &[Absolute, In, key(2, 1), Array, union, ArrayEof],
    );
}

// Asserts that the path of one name and a range has this range.
fn ranges(rt: &(impl Abort + AllocGlobal), text: &str, range: ParseToken) {
    shows(rt, text, &[Absolute, In, key(2, 1), Array, range, ArrayEof]);
}

#[test]
fn ranges_of_a_name(rt: HostRuntime) {
    ranges(&rt, "$.a[10:]", Range(Some(10), None, None));
    ranges(&rt, "$.a[:11]", Range(None, Some(11), None));
    ranges(&rt, "$.a[-12:13]", Range(Some(-12), Some(13), None));
}

#[test]
fn index_of_a_name_below(rt: HostRuntime) {
    shows(
        &rt,
        "$..friends[2]",
        &[Absolute, Leaves, key(3, 7), Array, whole(2), ArrayEof],
    );
}

#[test]
fn all_of_all(rt: HostRuntime) {
    shows(
        &rt,
        "$[*][*][*]",
        &[
            Absolute, Array, All, ArrayEof, Array, All, ArrayEof, Array, All, ArrayEof,
        ],
    );
}

#[test]
fn two_literals(rt: HostRuntime) {
    shows(
        &rt,
        "$.a[?(1>2)]",
        &[
            Absolute,
            In,
            key(2, 1),
            Array,
            whole(1),
            whole(2),
            Filter(FilterToken::Greater),
            ArrayEof,
        ],
    );
}

#[test]
fn two_paths(rt: HostRuntime) {
    shows(
        &rt,
        "$[?(@.a<@.b)]",
        &[
            Absolute,
            Array,
            Relative,
            In,
            key(6, 1),
            Relative,
            In,
            key(10, 1),
            Filter(FilterToken::Little),
            ArrayEof,
        ],
    );
}

#[test]
fn candidate_below(rt: HostRuntime) {
    shows(
        &rt,
        "$.store..price[?(@>13)]",
        &[
            Absolute,
            In,
            key(2, 5),
            Leaves,
            key(9, 5),
            Array,
            Relative,
            whole(13),
            Filter(FilterToken::Greater),
            ArrayEof,
        ],
    );
}

#[test]
fn paths_and_literals(rt: HostRuntime) {
    shows(
        &rt,
        "$[?($.c>@.d && 1==2)]",
        &[
            Absolute,
            Array,
            Absolute,
            In,
            key(6, 1),
            Relative,
            In,
            key(10, 1),
            Filter(FilterToken::Greater),
            whole(1),
            whole(2),
            Filter(FilterToken::Equal),
            Filter(FilterToken::And),
            ArrayEof,
        ],
    );
}
