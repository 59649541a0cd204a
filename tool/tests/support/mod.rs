//! Runs the tool.

#![allow(dead_code)]

use std::ffi::OsStr;
use std::io::Write;
use std::process::{Command, Output, Stdio};

/// What a call came to.
pub struct Called {
    pub status: i32,
    pub out: String,
    pub err: String,
}

/// Calls the tool with these words and this standard input, in the repository's folder of examples.
pub fn called_with(words: &[&OsStr], input: &[u8]) -> Called {
    let done = output(words, input);
    Called {
        status: done.status.code().expect("no signal ends the tool"),
        out: String::from_utf8(done.stdout).expect("UTF-8"),
        err: String::from_utf8(done.stderr).expect("UTF-8"),
    }
}

/// The same, with the bytes that it prints.
pub fn output(words: &[&OsStr], input: &[u8]) -> Output {
    let mut child = Command::new(env!("CARGO_BIN_EXE_type-name"))
        .args(words)
        .current_dir(concat!(env!("CARGO_MANIFEST_DIR"), "/../examples"))
        .stdin(Stdio::piped())
        .stdout(Stdio::piped())
        .stderr(Stdio::piped())
        .spawn()
        .expect("the tool runs");
    // A tool that does not read its input closes it.
    let _ = child.stdin.take().expect("a pipe").write_all(input);
    child.wait_with_output().expect("the tool ends")
}

pub fn called(words: &[&str]) -> Called {
    let words: Vec<&OsStr> = words.iter().map(OsStr::new).collect();
    called_with(&words, b"")
}

/// Calls the tool with this table as its standard input.
pub fn called_on(words: &[&str], table: &str) -> Called {
    let words: Vec<&OsStr> = words.iter().map(OsStr::new).collect();
    called_with(&words, table.as_bytes())
}

/// What `read` prints for an accepted name.
pub fn accepted(words: &[&str]) -> String {
    answered(words, 0)
}

/// What `read` prints for a refused name.
pub fn refused(words: &[&str]) -> String {
    answered(words, 1)
}

fn answered(words: &[&str], status: i32) -> String {
    let read = called(&[&["read"], words].concat());
    assert_eq!((read.status, read.err.as_str()), (status, ""), "{words:?}");
    read.out
}

/// What a wrong call says on standard error.
pub fn wrong(words: &[&str]) -> String {
    let call = called(words);
    assert_eq!((call.status, call.out.as_str()), (2, ""), "{words:?}");
    call.err
}
