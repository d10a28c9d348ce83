//! The table of comparisons.

use crate::asserts::check;
use crate::nodes::documents::document;
use jsonpath_nodes::{Cmp, CmpEq, CmpGe, CmpGt, CmpLe, CmpLt, CmpNe, abs_index, holds};
use jsonpath_paths::{Decimal, FilterToken};

// The answers of a comparison: on two truth values, on two numbers in tenths, on two texts, between kinds.
fn answers<C: Cmp>(
    cmp: &C,
    left: bool,
    right: bool,
    a: i64,
    b: i64,
    s: &str,
    t: &str,
) -> [bool; 4] {
    [
        cmp.cmp_bool(left, right),
        cmp.cmp_num(Decimal::of_i64(a), Decimal::of_i64(b)),
        cmp.cmp_string(s, t),
        cmp.default(),
    ]
}

#[test]
fn six_comparisons(rt: HostRuntime) {
    check!(rt; answers(&CmpEq, true, true, 1, 1, "a", "a") == [true, true, true, false]);
    check!(rt; answers(&CmpNe, true, true, 1, 1, "a", "a") == [false, false, false, true]);
    check!(rt; answers(&CmpGt, true, true, 1, 1, "a", "a") == [false, false, false, false]);
    check!(rt; answers(&CmpGe, true, true, 1, 1, "a", "a") == [true, true, true, false]);
    check!(rt; answers(&CmpLt, true, true, 1, 1, "a", "a") == [false, false, false, false]);
    check!(rt; answers(&CmpLe, true, true, 1, 1, "a", "a") == [true, true, true, false]);
    check!(rt; answers(&CmpEq, true, false, 2, 1, "b", "a") == [false, false, false, false]);
    check!(rt; answers(&CmpNe, true, false, 2, 1, "abd", "abc") == [true, true, true, true]);
    check!(rt; answers(&CmpGt, true, false, 2, 1, "b", "a") == [true, true, true, false]);
    check!(rt; answers(&CmpGe, true, false, 2, 1, "abd", "abc") == [true, true, true, false]);
    check!(rt; answers(&CmpLt, true, false, 2, 1, "b", "a") == [false, false, false, false]);
    check!(rt; answers(&CmpLe, true, false, 2, 1, "abd", "abc") == [false, false, false, false]);
    check!(rt; answers(&CmpEq, false, true, 1, 2, "1", "2") == [false, false, false, false]);
    check!(rt; answers(&CmpNe, false, true, 1, 2, "ab", "b") == [true, true, true, true]);
    check!(rt; answers(&CmpGt, false, true, 1, 2, "1", "2") == [false, false, false, false]);
    check!(rt; answers(&CmpGe, false, true, 1, 2, "ab", "b") == [false, false, false, false]);
    check!(rt; answers(&CmpLt, false, true, 1, 2, "1", "2") == [true, true, true, false]);
    check!(rt; answers(&CmpLe, false, true, 1, 2, "ab", "b") == [true, true, true, false]);
}

// Pairs of values, and what `==`, `!=`, `>`, `>=`, `<` and `<=` say of them.
const PAIRS: [(&str, &str, [bool; 6]); 19] = [
    ("true", "true", SAME),
    ("1", "1", SAME),
    ("\"a\"", "\"a\"", SAME),
    ("true", "false", GREATER),
    ("2", "1", GREATER),
    ("\"b\"", "\"a\"", GREATER),
    ("\"abd\"", "\"abc\"", GREATER),
    ("false", "true", LESS),
    ("1", "2", LESS),
    ("-1", "0", LESS),
    ("\"1\"", "\"2\"", LESS),
    ("\"ab\"", "\"b\"", LESS),
    ("18446744073709551614", "18446744073709551615", LESS),
    ("null", "null", [true, false, false, false, false, false]),
    ("0.5", "0.5", OTHER),
    ("[]", "[]", OTHER),
    ("{}", "{}", OTHER),
    ("1", "\"1\"", OTHER),
    ("null", "false", OTHER),
];

const SAME: [bool; 6] = [true, false, false, true, false, true];

const GREATER: [bool; 6] = [false, true, true, true, false, false];

const LESS: [bool; 6] = [false, true, false, false, true, true];

const OTHER: [bool; 6] = [false, true, false, false, false, false];

#[test]
fn comparisons_of_pairs(rt: HostRuntime) {
    for (left, right, want) in PAIRS {
        let (left, right) = (document(&rt, left), document(&rt, right));
        let found = [
            holds(FilterToken::Equal, &left, &right),
            holds(FilterToken::NotEqual, &left, &right),
            holds(FilterToken::Greater, &left, &right),
            holds(FilterToken::GreaterOrEqual, &left, &right),
            holds(FilterToken::Little, &left, &right),
            holds(FilterToken::LittleOrEqual, &left, &right),
        ];
        check!(rt; found == want);
    }
}

#[test]
fn comparison_of_values(rt: HostRuntime) {
    let doc = document(
        &rt,
        "[null,[],{},1.5,18446744073709551615,18446744073709551614]",
    );
    let items = doc.as_array().expect(&rt, "an array");
    assert!(rt; items.len() == 6);
    check!(rt; holds(FilterToken::Equal, &items[0], &items[0]));
    check!(rt; !holds(FilterToken::LittleOrEqual, &items[0], &items[0]));
    check!(rt; !holds(FilterToken::Equal, &items[1], &items[1]));
    check!(rt; holds(FilterToken::NotEqual, &items[2], &items[2]));
    check!(rt; holds(FilterToken::NotEqual, &items[3], &items[3]));
    check!(rt; !holds(FilterToken::GreaterOrEqual, &items[3], &items[3]));
    check!(rt; holds(FilterToken::Greater, &items[4], &items[5]));
    check!(rt; abs_index(-5, 3) == 0 && abs_index(9, 3) == 3);
}
