//! What several of the tests need: tables with longer words than TERN has, and runs of the program `vectors`.

use std::io::Write;
use std::process::{Command, Stdio};

use reference::{carried, check, Answer, Parts};

/// The file of TERN with longer words, which is accepted as TERN is.
pub fn longer_words(split: &[&[u8]]) -> Vec<u8> {
    let file = longer_parts(split).write();
    assert!(matches!(check(&file), Answer::Facts(_)));
    file
}

/// TERN with some leaves replaced by all their one-digit extensions, each of which keeps the weight.
pub fn longer_parts(split: &[&[u8]]) -> Parts {
    let mut parts: Parts = carried::tern_parts();
    for word in split {
        let at = parts.leaves.iter().position(|leaf| leaf.0 == *word);
        let at = at.expect("a leaf's word");
        let weight = parts.leaves[at].1.clone();
        let extensions = (0..9).map(|below| ([word, &[below][..]].concat(), weight.clone()));
        parts.leaves.splice(at..=at, extensions);
    }
    parts
}

/// A buffer as the vectors write it.
pub fn buffer(bytes: &[u8]) -> Vec<u8> {
    [&(bytes.len() as u32).to_le_bytes()[..], bytes].concat()
}

/// What the program `vectors` prints for a run of calls, and whether it takes them all.
pub fn lines(calls: &[Vec<u8>]) -> (String, bool) {
    let mut run = Command::new(env!("CARGO_BIN_EXE_vectors"))
        .stdin(Stdio::piped())
        .stdout(Stdio::piped())
        .stderr(Stdio::null())
        .spawn()
        .unwrap();
    let mut input = run.stdin.take().unwrap();
    input.write_all(&calls.concat()).unwrap();
    drop(input);
    let ended = run.wait_with_output().unwrap();
    (
        String::from_utf8(ended.stdout).unwrap(),
        ended.status.success(),
    )
}
