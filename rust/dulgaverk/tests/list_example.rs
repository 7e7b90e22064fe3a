//! The example program `list` prints what the lists under examples/ expect.

mod common;
use common::root;

use std::fs;
use std::path::Path;
use std::process::Command;

#[test]
fn example_lists() {
    // This test stands in .../deps, the examples beside that folder.
    let this = std::env::current_exe().expect("a path");
    let built = this.parent().and_then(Path::parent).expect("a folder");
    let mut seen = 0;
    for entry in fs::read_dir(root().join("examples")).expect("examples/") {
        let path = entry.expect("an entry").path();
        if !path.join("list").is_file() {
            continue;
        }
        let output = Command::new(built.join("examples/list"))
            .arg(&path)
            .output()
            .expect("the example");
        let expected = fs::read_to_string(path.join("expected")).expect("a file");
        assert_eq!(String::from_utf8_lossy(&output.stdout), expected);
        let refused = expected.starts_with("refused");
        assert_eq!(output.status.code(), Some(i32::from(refused)));
        seen += 1;
    }
    assert_eq!(seen, 2);
}
