//! A line of `src/` or `specs/` has at most 120 characters, so that a contract can be read without scrolling.

use std::path::Path;

use landing::Sources;

const MOST: usize = 120;

#[test]
fn no_line_of_src_or_specs_is_longer_than_120_characters() {
    let root = Path::new(env!("CARGO_MANIFEST_DIR")).join("../../..");
    let sources = Sources::below(&root).expect("the crates are read");
    let mut long = Vec::new();
    for part in ["src", "specs"] {
        for (krate, file, text) in sources.of(part) {
            let lines = text.lines().zip(1..);
            let over = lines.filter(|(line, _)| line.chars().count() > MOST);
            long.extend(over.map(|(_, number)| format!("crates/{krate}/{part}/{file}:{number}")));
        }
    }
    assert!(
        long.is_empty(),
        "longer than {MOST} characters:\n{}",
        long.join("\n")
    );
}
