//! The stored expected output of the test program `picture_test` is what this package gives.

use independent::{owners, picture};
use std::fs::{self, File};
use std::path::{Path, PathBuf};
use std::process::Command;

fn program() -> PathBuf {
    Path::new(env!("CARGO_MANIFEST_DIR")).join("../../crates/picture_test")
}

#[test]
fn stored_output_is_current() {
    let output = Command::new(env!("CARGO_BIN_EXE_picture_test"))
        .stdin(File::open(program().join("stdin")).unwrap())
        .output()
        .unwrap();
    assert!(output.status.success());
    assert!(output.stdout == fs::read(program().join("stdout")).unwrap());
}

/// Pictures with a terminated owner are among them: read by 0, written as the same bytes.
#[test]
fn terminated_owners_are_read() {
    let stored = fs::read_to_string(program().join("stdout")).unwrap();
    for old in owners::old() {
        let shown = picture::hex(&old.picture);
        let at = stored.find(&format!("picture {shown}\n")).expect(old.name);
        let report: Vec<&str> = stored[at..].lines().take(6).collect();
        assert_eq!(report[1], format!("exact 0 {shown}"), "{}", old.name);
        assert_eq!(report[5], "whole 0", "{}", old.name);
    }
}
