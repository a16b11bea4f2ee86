//! The sessions that the gate keeps are those that the generator gives today.

use std::fs;
use std::path::Path;
use std::process::Command;

#[test]
fn the_stored_sessions_are_those_of_the_generator() {
    let output = Command::new(env!("CARGO_BIN_EXE_stored")).output().expect("it runs");
    let kept = Path::new(env!("CARGO_MANIFEST_DIR")).join("../crates/stored/stdin");
    let kept = fs::read(&kept).expect("the stored sessions are there");
    assert!(output.stdout == kept, "write them anew: stored >crates/stored/stdin");
    let told = String::from_utf8_lossy(&output.stderr);
    assert!(told.trim_end().ends_with("not reached:"), "{told}");
}
