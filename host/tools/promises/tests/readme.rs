//! README begins with the player, in at most twenty lines.

use std::{fs, path::Path};

#[test]
fn the_first_example_is_the_player() {
    let root = Path::new(env!("CARGO_MANIFEST_DIR")).join("../../..");
    let readme = fs::read_to_string(root.join("README.md")).expect("README.md");
    let mut examples = readme.split("```rust\n").skip(1);
    let lines = |text: &str| -> Vec<String> {
        let lines = text.lines().map(str::to_string);
        lines.take_while(|line| line != "```").collect()
    };
    let first = lines(examples.next().expect("a first example"));
    assert!(first.iter().any(|line| line.contains("Player::play(")));
    assert!(first.len() <= 20, "{} lines", first.len());
    let second = lines(examples.next().expect("a second example"));
    assert!(second.iter().any(|line| line.contains("StaticSound::new(")));
}
