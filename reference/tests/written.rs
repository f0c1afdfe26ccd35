//! The cases that are written as text, `cases/*.txt` (docs/CASES.md): the text, the library and the second planner agree.

use std::fs;
use std::path::Path;

use reference::cases::{constant, worked_example};
use reference::{costs, written};

#[test]
fn every_line() {
    let lines = written::lines();
    let wrong: Vec<String> = lines
        .iter()
        .filter_map(|line| {
            let what = written::run(&line.text).err()?;
            Some(format!("{}: {what}", line.place))
        })
        .collect();
    let (all, agree) = (lines.len(), lines.len() - wrong.len());
    println!("{agree} of {all} cases agree: text, library and second planner");
    assert!(wrong.is_empty(), "{}", wrong.join("\n"));
}

/// The small dock of the lines is the example file, and the reference's own.
#[test]
fn the_small_dock_has_31_records() {
    let path = Path::new(env!("CARGO_MANIFEST_DIR")).join("../examples/small.costs");
    let bytes = fs::read(path).expect("the example file can be read");
    assert_eq!(bytes.len(), 248);
    assert_eq!(costs::read(&bytes), Ok(worked_example()));
    assert_eq!(costs::write(&worked_example()), bytes);
    assert_eq!(costs::write(&constant(12, 32, 0)).len(), 12_013 * 8);
}
