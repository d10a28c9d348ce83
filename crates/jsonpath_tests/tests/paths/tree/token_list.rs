//! The token list of a path, as a receiver gets it.

use jsonpath_paths::{ParseToken, ParserTokenHandler, PathParser, StrRange};
use std::alloc::Global;

// Keeps the tokens, and has failed if one of them found no memory.
#[derive(Drop)]
pub struct Collector {
    pub tokens: Vec<ParseToken>,
    pub failed: bool,
}

impl Collector {
    /// No token yet.
    pub fn new(alloc: Global) -> Collector {
        Collector {
            tokens: Vec::new(alloc),
            failed: false,
        }
    }
}

impl<V> ParserTokenHandler<V> for Collector {
    ghost tokens = { λ c. c.tokens.items };

    ghost has_failed = { λ c. c.failed };

    fn handle<R: Fn(&StrRange) -> V>(&mut self, token: &ParseToken, _reader: &R) {
        match token.clone() {
            Ok(copy) => {
                if self.tokens.push(copy).is_err() {
                    self.failed = true;
                }
            }
            Err(_) => self.failed = true,
        }
    }

    fn failed(&self) -> bool {
        self.failed
    }
}

/// The tokens that the path hands over, in order, or `None` for want of memory.
pub fn tokens_of(alloc: Global, path: &PathParser<'_>) -> Option<Vec<ParseToken>> {
    let mut collector = Collector::new(alloc);
    let _ = path.parse(&mut collector);
    let Collector { tokens, failed } = collector;
    if failed {
        return None;
    }
    Some(tokens)
}
