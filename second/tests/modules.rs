//! The modules use each other in one direction, as the first page of each package lists them.

use std::fs;
use std::path::{Path, PathBuf};

/// What stands before the list.
const BEFORE: &str =
    "//! The modules from the bottom up, each of which uses only those named before it:\n//! ";

fn read(path: &Path) -> String {
    fs::read_to_string(path).unwrap_or_else(|error| panic!("{}: {error}", path.display()))
}

/// The text of a module and of those in its folder.
fn source(folder: &Path, module: &str) -> String {
    let inside = fs::read_dir(folder.join(module)).into_iter().flatten();
    let mut files: Vec<PathBuf> = inside.map(|entry| entry.unwrap().path()).collect();
    files.push(folder.join(format!("{module}.rs")));
    files.iter().map(|path| read(path)).collect()
}

/// The modules that a text names by `crate::`.
fn used(source: &str) -> impl Iterator<Item = &str> {
    let named = source.split("crate::").skip(1);
    named.filter_map(|rest| rest.split(|c: char| !c.is_lowercase() && c != '_').next())
}

fn one_direction(folder: &str, root: &str) {
    let folder = Path::new(env!("CARGO_MANIFEST_DIR")).join(folder);
    let root = read(&folder.join(root));
    let list = root.split_once(BEFORE).expect("the list of modules").1;
    let list = list.lines().next().unwrap_or_default();
    let listed: Vec<&str> = list.trim_end_matches('.').split(", ").collect();

    let declared = root.lines().filter_map(|line| line.strip_prefix("mod "));
    let mut declared: Vec<&str> = declared.map(|name| name.trim_end_matches(';')).collect();
    declared.retain(|&name| name != "tests");
    let mut sorted = listed.clone();
    sorted.sort_unstable();
    assert_eq!(sorted, declared, "every module is listed once");

    for (place, module) in listed.iter().enumerate() {
        let source = source(&folder, module);
        assert!(!source.contains("super::"), "{module} names its root");
        for name in used(&source) {
            assert!(listed[..place].contains(&name), "{module} uses {name}");
        }
    }
}

#[test]
fn of_the_second_program() {
    one_direction("src", "lib.rs");
}

#[test]
fn of_versus() {
    one_direction("versus/src", "main.rs");
}

#[test]
fn of_the_bench() {
    one_direction("bench/src", "main.rs");
}
