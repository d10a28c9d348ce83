//! Examples at public items that go on from something made before them, word for word, each in a test.

use jsonpath_lib::{Spot, read_document};
use jsonpath_nodes::in_document_order;
use std::test::Fail;

#[test]
fn example_of_in_document_order(rt: HostRuntime) -> Result<(), Fail> {
    let alloc = rt.alloc();
    let document = read_document(alloc, b"[1, 2]")?;
    let spots = Spot::root(alloc, &document).children(alloc)?;
    assert_eq!(rt; spots.len(), 2);
    let twice = [spots[1].clone()?, spots[0].clone()?, spots[1].clone()?];
    assert_eq!(rt; in_document_order(alloc, &twice)?.len(), 2);
    Ok(())
}
