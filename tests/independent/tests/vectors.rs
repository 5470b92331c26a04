//! The stored vectors are those that the generator writes, and the program gives their outputs.

use independent::course::without_words;
use std::collections::BTreeMap;
use std::fs;
use std::io::Write;
use std::path::{Path, PathBuf};
use std::process::{Command, Stdio};

const FOLDERS: [&str; 8] =
    ["pictures", "sessions", "course", "turns", "classes", "marks", "words", "neighbours"];

fn stored() -> PathBuf {
    Path::new(env!("CARGO_MANIFEST_DIR")).join("../vectors")
}

fn files(root: &Path) -> BTreeMap<String, Vec<u8>> {
    let mut all = BTreeMap::new();
    for folder in FOLDERS {
        for entry in fs::read_dir(root.join(folder)).unwrap() {
            let path = entry.unwrap().path();
            let name = format!("{folder}/{}", path.file_name().unwrap().to_str().unwrap());
            all.insert(name, fs::read(path).unwrap());
        }
    }
    all
}

#[test]
fn stored_vectors_are_current() {
    let fresh = Path::new(env!("CARGO_TARGET_TMPDIR")).join("vectors");
    let _ = fs::remove_dir_all(&fresh);
    let status = Command::new(env!("CARGO_BIN_EXE_vectors")).arg(&fresh).status().unwrap();
    assert!(status.success());
    let (old, new) = (files(&stored()), files(&fresh));
    assert!(old.keys().eq(new.keys()));
    for (name, content) in &new {
        assert!(old[name] == *content, "{name} differs");
    }
    assert!(old.values().map(Vec::len).sum::<usize>() < 6_100_000);
}

/// Runs a program on the stored sessions of a folder; its outputs are compared as `read` gives them.
fn gives_stored_outputs(program: &str, folder: &str, read: fn(&str) -> String) {
    let all = files(&stored());
    let is_input = |name: &str| name.starts_with(folder) && name.ends_with(".in");
    for (name, input) in all.iter().filter(|(name, _)| is_input(name)) {
        let mut child =
            Command::new(program).stdin(Stdio::piped()).stdout(Stdio::piped()).spawn().unwrap();
        let mut stdin = child.stdin.take().unwrap();
        let input = input.clone();
        let writer = std::thread::spawn(move || stdin.write_all(&input).unwrap());
        let output = child.wait_with_output().unwrap();
        writer.join().unwrap();
        let output = read(std::str::from_utf8(&output.stdout).unwrap());
        assert!(output.as_bytes() == all[&name.replace(".in", ".out")], "{name}");
    }
}

#[test]
fn program_gives_stored_outputs() {
    gives_stored_outputs(env!("CARGO_BIN_EXE_program"), "sessions/", str::to_string);
}

/// Those of the plain program too, whose lines it answers alike but for the words.
#[test]
fn course_gives_stored_outputs() {
    gives_stored_outputs(env!("CARGO_BIN_EXE_course"), "course/", str::to_string);
    gives_stored_outputs(env!("CARGO_BIN_EXE_course"), "sessions/", without_words);
}
