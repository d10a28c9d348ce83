//! A file that is edited in place.

use jpath_files::{FileToEdit, Way, open_to_edit, put_in_place};
use std::fs;
use std::io;

// The text of a new file behind an edit that puts another in its place.
fn text_behind_edit(rt: &HostRuntime, way: Way) -> io::Result<String> {
    fs::write(rt, "edited.json", "{\"a\":1}")?;
    if let Ok(edited) = open_to_edit(rt, "edited.json", way) {
        let FileToEdit {
            mut disk,
            found,
            way,
        } = edited;
        let _ = put_in_place(rt.alloc(), &mut disk, &found, way, b"{\"a\":22}");
    }
    fs::read_to_string(rt, "edited.json")
}

#[test]
fn new_text_is_put(rt: HostRuntime) {
    for way in [Way::NewFile, Way::IntoFile] {
        let text = text_behind_edit(&rt, way).unwrap_or(String::new(rt.alloc()));
        assert!(rt; text.as_str() == "{\"a\":22}");
    }
}
