//! Which texts are paths, and where the others are refused.

use crate::asserts::check;
use jsonpath_paths::{PathParser, TokenError};
use std::alloc::{AllocError, Global};

fn refusal(alloc: Global, text: &str) -> Option<TokenError> {
    PathParser::compile(alloc, text).err()
}

// Texts that are paths.
const PATHS: [&str; 34] = [
    "$.a\"",
    "$",
    "$ ",
    "$[?(@ == tRuE)]",
    "$[?(@ < 0.111111111111111111)]",
    "$['a\\\\']",
    "$[:]",
    "$[::]",
    "$[1:]",
    "$[1::]",
    "$[::2]",
    "$[0:3:2]",
    "$[1:2 :3]",
    "$[0 ,1]",
    "$['a','b' ,'c']",
    "$['a' ]",
    "$..[ 0 ]",
    "$[+0]",
    "$[-0]",
    "$[00]",
    "$[::+2]",
    "$[::18446744073709551615]",
    "$[-9223372036854775808]",
    "$[?(@.a == 18446744073709551615)]",
    "$[?(@.p < 10.5)]",
    "$[?(@.a > -0.5)]",
    "$.$a",
    "$.a'b'",
    "$[?(@ == -9223372036854775808.5)]",
    "$[?(@ == 18446744073709551615.999999999999999999)]",
    "$[?(@[0] == 1)]",
    "$[?(@)]",
    "$[?((@.a && @.b) || @.c)]",
    "$[-12:13 ]..[::2] ",
];

#[test]
fn paths(rt: HostRuntime) {
    for text in PATHS {
        check!(rt; refusal(rt.alloc(), text).is_none(), text);
    }
}

#[test]
fn refused_behind(rt: HostRuntime) {
    for (text, error) in [
        ("$가", TokenError::Eof),
        ("$.가&나", TokenError::Position(6)),
        ("$*||& 가", TokenError::Position(2)),
        ("$$가a=(,@]..", TokenError::Position(6)),
    ] {
        check!(rt; refusal(rt.alloc(), text) == Some(error), text);
    }
}

/// The parts of a text, each as many times as its number says.
fn repeated(alloc: Global, parts: [(&str, usize); 5]) -> Result<String, AllocError> {
    let mut out = String::new(alloc);
    for (part, times) in parts {
        for _ in 0..times {
            out.push_str(part)?;
        }
    }
    Ok(out)
}

// Parts of a text, and where it is refused.
type Row = ([(&'static str, usize); 5], Option<usize>);

const LEVELS: [Row; 9] = [
    (
        [("$[?", 1), ("(", 1000), ("@", 1), (")", 1000), ("]", 1)],
        None,
    ),
    (
        [("$[?", 1), ("(", 1001), ("@", 1), (")", 1001), ("]", 1)],
        Some(1004),
    ),
    (
        [("$[?(@", 1), ("&&@", 999), (")]", 1), ("", 0), ("", 0)],
        None,
    ),
    (
        [("$[?(@", 1), ("&&@", 1000), (")]", 1), ("", 0), ("", 0)],
        Some(3004),
    ),
    (
        [("$[?", 1), ("(", 999), ("(@)&&@", 1), (")", 999), ("]", 1)],
        None,
    ),
    (
        [("$[?", 1), ("(", 100000), ("", 0), ("", 0), ("", 0)],
        Some(1004),
    ),
    (
        [("$", 1), ("[?(@", 1000), (")]", 1000), ("", 0), ("", 0)],
        None,
    ),
    (
        [("$", 1), ("[?(@", 1001), (")]", 1001), ("", 0), ("", 0)],
        Some(4003),
    ),
    ([("$", 1), (".a", 100000), ("", 0), ("", 0), ("", 0)], None),
];

/// At most 1,000 levels, looked at before a token is taken, and any number of steps.
#[test]
fn levels(rt: HostRuntime) {
    for (parts, want) in LEVELS {
        let path = repeated(rt.alloc(), parts).expect(&rt, "a text");
        let found = refusal(rt.alloc(), path.as_str());
        match want {
            None => check!(rt; found == None),
            Some(position) => check!(rt; found == Some(TokenError::Position(position))),
        }
    }
}
