//! What the tests assert by. The branch that fails stands in `holds` alone, so that no test's proof has it.
use std::process::Abort;

/// Ends the test with the condition's text, and where it was, unless it holds.
pub fn holds(rt: &impl Abort, holds: bool, text: &str, place: &str) {
    if !holds {
        panic!(*rt; "does not hold: {text}, {place}")
    }
}

/// `check!(rt; condition)` asserts as `assert!` does, by a call. A text behind it names the row that is tried.
macro_rules! check {
    ($rt:expr; $holds:expr $(,)?) => {
        $crate::asserts::holds(&$rt, $holds, stringify!($holds), concat!("in ", module_path!()))
    };
    ($rt:expr; $holds:expr, $row:expr $(,)?) => {
        $crate::asserts::holds(&$rt, $holds, stringify!($holds), $row)
    };
}

pub(crate) use check;
