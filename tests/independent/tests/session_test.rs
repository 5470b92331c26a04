//! The stored script and answers of the program `session_test` are those that the generator writes.

use std::fs;
use std::path::Path;
use std::process::Command;

#[test]
fn stored_session_test_is_current() {
    let stored = Path::new(env!("CARGO_MANIFEST_DIR")).join("../../crates/session_test");
    let fresh = Path::new(env!("CARGO_TARGET_TMPDIR")).join("session_test");
    let status = Command::new(env!("CARGO_BIN_EXE_session_test")).arg(&fresh).status().unwrap();
    assert!(status.success());
    for name in ["stdin", "stdout"] {
        let [old, new] = [&stored, &fresh].map(|folder| fs::read(folder.join(name)).unwrap());
        assert!(old == new, "{name} differs");
    }
}
