//! The samples that the comments of `jsonpath_nodes` show, as they stand there. Each has a block of its own, so that
//! what it holds is let go before the next.

use jsonpath_nodes::{
    Atom, Cmp, CmpEq, CmpGe, CmpGt, CmpLe, CmpLt, CmpNe, LocStep, Location, Mark,
    NoMemory, PathStep, PlainStep, Selection, Spot, Stride, TreeNode, ValueWalker, compute_paths, holds,
    holds_atoms, laws, replace_at, set_at_once, steps_on_marks, take_at_once, to_num,
    try_replace_at,
};
use jsonpath_paths::{Decimal, FilterToken};
use serde_json::{Number, Value};
use std::test::Fail;

#[test]
fn samples_of_steps(rt: HostRuntime) -> Result<(), Fail> {
    let alloc = rt.alloc();
    let document = Value::from_str(alloc, r#"[{"a": 1, "b": 2}, [3, 4, 5]]"#)?;
    let root = [Spot::root(alloc, &document)];
    let items = ValueWalker::next_all(alloc, &root)?;
    assert_eq!(rt; items.len(), 2);
    Ok(())
}

#[test]
fn samples_of_steps_on_items(rt: HostRuntime) -> Result<(), Fail> {
    let alloc = rt.alloc();
    let document = Value::from_str(alloc, r#"[{"a": 1, "b": 2}, [3, 4, 5]]"#)?;
    let root = [Spot::root(alloc, &document)];
    let items = ValueWalker::next_all(alloc, &root)?;
    {
        let found = ValueWalker::next_with_str(alloc, items.as_slice(), "b")?;
        assert_eq!(rt; found.len(), 1);
    }
    {
        let found = ValueWalker::all_with_strs(alloc, items.as_slice(), &["b", "a"])?;
        assert_eq!(rt; found.len(), 2);
    }
    {
        let last = ValueWalker::next_with_num(alloc, items.as_slice(), -1)?;
        assert_eq!(rt; last.len(), 1);
        assert!(rt; last[0].value().as_u64() == Some(5));
    }
    {
        let found = ValueWalker::next_with_nums(alloc, items.as_slice(), &[2, 0])?;
        assert_eq!(rt; found.len(), 2);
    }
    {
        let found = ValueWalker::next_with_range(alloc, items.as_slice(), Some(1), None, None)?;
        assert_eq!(rt; found.len(), 2);
    }
    Ok(())
}

#[test]
fn samples_of_steps_below(rt: HostRuntime) -> Result<(), Fail> {
    let alloc = rt.alloc();
    let document = Value::from_str(alloc, r#"[{"a": 1, "b": 2}, [3, 4, 5]]"#)?;
    let root = [Spot::root(alloc, &document)];
    {
        let found = ValueWalker::all(alloc, &root)?;
        assert_eq!(rt; found.len(), 7);
    }
    {
        let found = ValueWalker::all_with_str(alloc, &root, "b")?;
        assert_eq!(rt; found.len(), 1);
    }
    {
        let found = ValueWalker::all_with_num(alloc, &root, 0)?;
        assert_eq!(rt; found.len(), 2);
    }
    Ok(())
}

#[test]
fn samples_of_candidates(rt: HostRuntime) -> Result<(), Fail> {
    let alloc = rt.alloc();
    let document = Value::from_str(alloc, r#"[{"a": 1, "b": 2}, [3, 4, 5]]"#)?;
    let root = [Spot::root(alloc, &document)];
    {
        let found = ValueWalker::below(alloc, &root)?;
        assert_eq!(rt; found.len(), 8);
    }
    {
        let candidates = ValueWalker::walk_dedup_all(alloc, &root)?;
        assert_eq!(rt; candidates.len(), 4);
    }
    {
        let candidates = ValueWalker::candidates_below(alloc, &root)?;
        assert_eq!(rt; candidates.len(), 6);
    }
    Ok(())
}

#[test]
fn samples_of_marks(rt: HostRuntime) -> Result<(), Fail> {
    let alloc = rt.alloc();
    let document = Value::from_str(alloc, r#"[{"a": 1, "b": 2}, [3, 4, 5]]"#)?;
    {
        let items = steps_on_marks::plain_step_from_each(alloc, &[&document], &PlainStep::Every)?;
        assert_eq!(rt; items.len(), 2);
    }
    {
        let found = steps_on_marks::plain_step_from_each(alloc, &[&document], &PlainStep::Range(Some(1), None, None))?;
        assert_eq!(rt; found.len(), 1);
    }
    {
        let last = steps_on_marks::plain_step_from_each(alloc, &[Spot::root(alloc, &document)], &PlainStep::Nth(-1))?;
        assert_eq!(rt; last.len(), 1);
        assert!(rt; last[0].value().is_array());
    }
    {
        let found = steps_on_marks::named_member_from_each(alloc, &[&document], "a")?;
        assert!(rt; found.is_empty());
    }
    {
        let mut found: Vec<&Value> = Vec::new(alloc);
        steps_on_marks::add_named_member(alloc, &&document, "a", &mut found)?;
        assert!(rt; found.is_empty());
    }
    Ok(())
}

#[test]
fn samples_of_marks_below(rt: HostRuntime) -> Result<(), Fail> {
    let alloc = rt.alloc();
    let document = Value::from_str(alloc, r#"[{"a": 1, "b": 2}, [3, 4, 5]]"#)?;
    {
        let found = steps_on_marks::plain_step_from_all_below(alloc, &[&document], &PlainStep::Named("a"))?;
        assert_eq!(rt; found.len(), 1);
    }
    {
        let second = Stride {
            leaves: false,
            selection: Selection::Nth(1),
        };
        let found = steps_on_marks::stride_from_each(alloc, &[&document], &second)?;
        assert_eq!(rt; found.len(), 1);
    }
    {
        let both = Stride {
            leaves: false,
            selection: Selection::Union(&[0, 1]),
        };
        let found = steps_on_marks::stride_from_each(alloc, &[&document], &both)?;
        assert_eq!(rt; found.len(), 2);
    }
    {
        let every = Stride {
            leaves: true,
            selection: Selection::Every,
        };
        let found = steps_on_marks::stride_from_each(alloc, &[&document], &every)?;
        assert_eq!(rt; found.len(), 7);
    }
    {
        let found = steps_on_marks::flattened_from_each(alloc, &[&document])?;
        assert_eq!(rt; found.len(), 4);
    }
    {
        let found = steps_on_marks::flattened_from_mark(alloc, &&document)?;
        assert_eq!(rt; found.len(), 4);
    }
    {
        let found = steps_on_marks::candidates_below_mark(alloc, &&document)?;
        assert_eq!(rt; found.len(), 6);
    }
    {
        laws::candidates_of_disjoint_in_descents();
    }
    {
        laws::steps_keep_locations_disjoint();
    }
    {
        let mut found = Vec::new(alloc);
        (&document).add_flattened(alloc, &mut found)?;
        assert_eq!(rt; found.len(), 4);
    }
    Ok(())
}

#[test]
fn samples_of_spots(rt: HostRuntime) -> Result<(), Fail> {
    let alloc = rt.alloc();
    let document = Value::from_str(alloc, r#"{"a": [7, {"b": 8}]}"#)?;
    {
        let root = Spot::root(alloc, &document);
        assert!(rt; root.value().is_object());
    }
    {
        let root = Spot::root(alloc, &document);
        assert!(rt; root.value().get("a").is_some());
    }
    {
        let root = Spot::root(alloc, &document);
        assert!(rt; root.steps().is_empty());
    }
    {
        let children = Spot::root(alloc, &document).children(alloc)?;
        assert_eq!(rt; children.len(), 1);
    }
    {
        let list = Spot::root(alloc, &document).member(alloc, "a")?;
        assert!(rt; list.is_some());
    }
    {
        let none = Spot::root(alloc, &document).item(alloc, 0)?;
        assert!(rt; none.is_none());
    }
    {
        let below = Spot::root(alloc, &document).below(alloc)?;
        assert_eq!(rt; below.len(), 5);
    }
    {
        let root = TreeNode::at_root(&document);
        assert!(rt; root.location(alloc)?.steps().is_empty());
    }
    {
        let root = TreeNode::at_root(&document);
        assert!(rt; root.value().is_object());
    }
    {
        let handle = &document;
        assert!(rt; TreeNode::at_root(handle).value().is_object());
    }
    Ok(())
}

#[test]
fn samples_of_steps_of_spots(rt: HostRuntime) -> Result<(), Fail> {
    let alloc = rt.alloc();
    let document = Value::from_str(alloc, r#"{"a": [7, {"b": 8}]}"#)?;
    let root = Spot::root(alloc, &document);
    {
        let children = root.children(alloc)?;
        for list in children.as_slice() {
            let last = list.steps().split_last();
            assert!(rt; last.is_some_and(|it| matches!(it.0, PathStep::Name("a"))));
        }
    }
    {
        let below = root.below(alloc)?;
        assert_eq!(rt; below.len(), 5);
        assert_eq!(rt; below[4].steps().len(), 3);
    }
    {
        assert!(rt; root.steps().split_last().is_none());
    }
    {
        assert_eq!(rt; root.steps().len(), 0);
    }
    {
        assert!(rt; root.steps().is_empty());
    }
    {
        let location = root.steps().to_location(alloc)?;
        assert!(rt; location.steps().is_empty());
    }
    {
        for list in root.children(alloc)?.as_slice() {
            for step in list.steps() {
                assert!(rt; matches!(step, PathStep::Name("a")));
            }
        }
    }
    {
        let children = root.children(alloc)?;
        let mut steps = Vec::new(alloc);
        children[0].add_steps(&mut steps)?;
        assert_eq!(rt; steps.len(), 1);
    }
    Ok(())
}

#[test]
fn samples_of_comparisons(rt: HostRuntime) {
    {
        assert!(rt; CmpLt.cmp_bool(false, true));
        assert!(rt; !CmpLt.default());
    }
    {
        assert!(rt; CmpEq.cmp_string("a", "a"));
    }
    {
        assert!(rt; CmpNe.default());
    }
    {
        assert!(rt; CmpGt.cmp_string("b", "a"));
    }
    {
        assert!(rt; CmpGe.cmp_bool(true, true));
    }
    {
        assert!(rt; CmpLt.cmp_num(Decimal::of_i64(-1), Decimal::of_i64(0)));
    }
    {
        assert!(rt; CmpLe.cmp_string("a", "b"));
    }
}

#[test]
fn samples_of_atoms(rt: HostRuntime) {
    {
        assert!(rt; holds_atoms(FilterToken::Equal, &Atom::Null, &Atom::Null));
    }
    {
        let (one, two) = (Value::from(1u64), Value::from(2u64));
        assert!(rt; holds(FilterToken::Little, &one, &two));
    }
    {
        assert!(rt; matches!(Atom::of(&Value::Bool(true)), Atom::Bool(true)));
    }
    {
        assert!(rt; matches!(Atom::of(&Value::Null), Atom::Null));
    }
    {
        let seven = to_num(&Number::from(7u64));
        assert!(rt; seven == Some(Decimal::of_u64(7)));
    }
}

#[test]
fn samples_of_locations(rt: HostRuntime) -> Result<(), Fail> {
    let alloc = rt.alloc();
    {
        assert!(rt; LocStep::Index(2) < LocStep::Index(10));
    }
    {
        let root = Location::from_steps(Vec::new(alloc));
        assert!(rt; root.steps().is_empty());
    }
    {
        let item = Location::from_steps(vec![in alloc; LocStep::Index(2)]?);
        assert!(rt; item.steps().first() == Some(&LocStep::Index(2)));
    }
    {
        let text = format!(in alloc; "{NoMemory}")?;
        assert!(rt; text.as_str() == "out of memory");
    }
    Ok(())
}

#[test]
fn samples_of_updates(rt: HostRuntime) -> Result<(), Fail> {
    let alloc = rt.alloc();
    let mut document = Value::from_str(alloc, "[1, [2, 3]]")?;
    let first = [Location::from_steps(vec![in alloc; LocStep::Index(0)]?)];
    replace_at(&mut document, &first, &mut |_: Value| Some(Value::Null));
    assert!(rt; document.to_string(alloc)?.as_str() == "[null,[2,3]]");
    Ok(())
}

#[test]
fn samples_of_taking(rt: HostRuntime) -> Result<(), Fail> {
    let alloc = rt.alloc();
    let mut document = Value::from_str(alloc, "[1, [2, 3]]")?;
    let spots = Spot::root(alloc, &document).children(alloc)?;
    let locations = compute_paths(alloc, spots.as_slice())?;
    drop(spots);
    take_at_once(&mut document, locations.as_slice())?;
    assert!(rt; document.to_string(alloc)?.as_str() == "[]");
    Ok(())
}

#[test]
fn samples_of_setting(rt: HostRuntime) -> Result<(), Fail> {
    let alloc = rt.alloc();
    let mut document = Value::from_str(alloc, "[1, [2, 3]]")?;
    let spots = Spot::root(alloc, &document).children(alloc)?;
    let locations = compute_paths(alloc, spots.as_slice())?;
    drop(spots);
    set_at_once(alloc, &mut document, locations.as_slice(), &Value::Null)?;
    assert!(rt; document.to_string(alloc)?.as_str() == "[null,null]");
    Ok(())
}

#[test]
fn samples_of_targets(rt: HostRuntime) -> Result<(), Fail> {
    let alloc = rt.alloc();
    {
        let mut document = Value::from_str(alloc, "[1, [2, 3]]")?;
        let first = [Location::from_steps(vec![in alloc; LocStep::Index(0)]?)];
        let refused = try_replace_at(&mut document, &first, &mut |_: &Value| Err("no"));
        assert!(rt; refused == Err("no"));
    }
    {
        let document = Value::from_str(alloc, "[1, [2, 3]]")?;
        let spots = Spot::root(alloc, &document).below(alloc)?;
        let locations = compute_paths(alloc, spots.as_slice())?;
        assert_eq!(rt; locations.len(), 5);
    }
    Ok(())
}
