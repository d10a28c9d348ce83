//! Any growth of memory may be refused here, one in a run: the documents of a stream come in full, or memory is wanted once
//! and nothing comes behind that.
use crate::asserts::check;
use crate::outcomes::{NO_MEMORY, is_refusal};
use crate::run::streams::Source;
use jsonpath_lib::{Documents, FaultKind};
use std::process::Abort;

// Asserts that so many documents come, and then the end or this fault; or that memory is wanted before.
fn come(
    rt: &(impl Abort + AllocGlobal),
    text: &[u8],
    wanted: usize,
    then: Option<(FaultKind, usize)>,
) {
    let mut documents = Documents::of_input(rt.alloc(), Source::new(text, usize::MAX, 3));
    let mut count = 0usize;
    let mut last = None;
    for item in documents.by_ref().take(9) {
        check!(rt; last.is_none(), "something behind an error");
        match item {
            Ok(_document) => count += 1,
            Err(fault) => {
                if fault.kind == FaultKind::OutOfMemory {
                    is_refusal(rt, &fault.error, NO_MEMORY);
                }
                last = Some((fault.kind, fault.column));
            }
        }
    }
    let is_short = last.is_some_and(|fault| fault.0 == FaultKind::OutOfMemory);
    check!(rt; is_short || (count == wanted && last == then));
    check!(rt; documents.next().is_none());
}

#[test]
fn growths_of_documents(rt: HostRuntime) {
    come(&rt, b"[1] {\"a\": [2, \"c\"]}\n\"b\"", 3, None);
    come(&rt, b"[1] [2}", 1, Some((FaultKind::WrongByte, 7)));
}
