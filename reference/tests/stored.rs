//! The stored run of outside vectors: every call of it gets the line that the outside implementation gave. It is the library's own
//! (`crates/vectors`); YOYOMYRTLE_VECTORS names another folder with a `stdin` and a `stdout`, or with runs NAME.in and NAME.out as the
//! outside vectors have them.

use std::fs::{self, File};
use std::path::{Path, PathBuf};
use std::process::Command;

fn folder() -> PathBuf {
    let own = || Path::new(env!("CARGO_MANIFEST_DIR")).join("../crates/vectors");
    std::env::var_os("YOYOMYRTLE_VECTORS").map_or_else(own, PathBuf::from)
}

/// The runs of the folder: calls, and the lines that they get.
fn runs() -> Vec<(PathBuf, String)> {
    let files = fs::read_dir(folder()).unwrap();
    let paths: Vec<PathBuf> = files.map(|file| file.unwrap().path()).collect();
    let calls = paths.into_iter().filter_map(|path| {
        let lines = match path.file_name()?.to_str()? {
            "stdin" => path.with_file_name("stdout"),
            name if name.ends_with(".in") => path.with_extension("out"),
            _ => return None,
        };
        Some((path, fs::read_to_string(lines).unwrap()))
    });
    calls.collect()
}

/// The first line that two texts don't share, with its number from 1.
fn first_difference(expected: &str, got: &str) -> Option<String> {
    let (mut right, mut found) = (expected.split('\n'), got.split('\n'));
    for number in 1.. {
        match (right.next(), found.next()) {
            (None, None) => break,
            (line, other) if line != other => {
                return Some(format!("line {number}: expected {line:?}, got {other:?}"))
            }
            _ => (),
        }
    }
    None
}

#[test]
fn every_stored_call_gets_its_line() {
    for (calls, expected) in runs() {
        let run = Command::new(env!("CARGO_BIN_EXE_vectors"))
            .stdin(File::open(&calls).unwrap())
            .output()
            .unwrap();
        assert!(run.status.success(), "{} breaks off", calls.display());
        let got = String::from_utf8(run.stdout).unwrap();
        assert_eq!(first_difference(&expected, &got), None, "{calls:?}");
    }
}

/// A run that has lost a kind of call would be met too easily.
#[test]
fn every_kind_of_line_is_stored() {
    let expected: String = runs().into_iter().map(|(_, lines)| lines).collect();
    let heads = [
        "accepted",
        "refused",
        "sum",
        "changed",
        "value",
        "midpoint",
        "table",
        "difference",
        "leaf",
        "pairs",
        "pair ",
        "nothing",
    ];
    for head in heads {
        let kept = expected.lines().any(|line| line.starts_with(head));
        assert!(kept, "no line begins with {head}");
    }
}

#[test]
fn differences_are_seen() {
    assert_eq!(first_difference("a\nb\n", "a\nb\n"), None);
    for other in ["a\nc\n", "a\nb", "a\nb\nb\n", "", "a\n"] {
        assert!(first_difference("a\nb\n", other).is_some(), "{other:?}");
    }
}
