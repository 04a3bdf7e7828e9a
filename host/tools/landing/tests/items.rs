//! Definitions and contracts are found by name, and changes are reported.

use landing::{change, contracts, definitions, is_public};

const SPECS: &str = "-- A block.\nuse Rattle.std.specs.Prelude.{Float}\n\n-- the sum\nunfoldable pub total : Float → Float\nunfolding advance\ntotal dt = add dt\n\npub record Outcome : Type 0 where\n  pub answer : Processed\n\nabbrev pub holds : Lanes → Bool\nholds b = true\n";

const SOURCE: &str = "struct S {\n    a: u32,\n}\n\nfn plain(n: u32) -> u32 {\n    n\n}\n\nimpl Voice {\n    // Moves on.\n    pub fn turned(self, n: u32) -> Voice\n        requires below_four { n < 4 }\n        ensures { result ≡ turned self n }\n    {\n        self\n    }\n}\n\n#[unsafe(no_mangle)]\npub extern \"C\" fn entry(\n    n: u32,\n) -> u32\n    ensures* { result ≡ n }\n{\n    n\n}\n";

#[test]
fn definitions_by_name() {
    let found = definitions(SPECS);
    assert_eq!(
        found.keys().collect::<Vec<_>>(),
        ["Outcome", "holds", "total"]
    );
    assert_eq!(found["total"].len(), 3);
    assert_eq!(found["Outcome"].len(), 2);
}

#[test]
fn contracts_by_function_and_type() {
    let found = contracts(SOURCE);
    assert_eq!(found.keys().collect::<Vec<_>>(), ["Voice::turned", "entry"]);
    assert_eq!(found["entry"].len(), 4);
}

#[test]
fn contracts_of_a_trait_and_of_what_has_it() {
    let source = "pub trait Direction: Copy {\n    ghost backwards: { Bool };\n\n    fn next(at: usize) -> usize\n        requires { at < 9 }\n        ensures { result ≡ next backwards at };\n\n    fn name() -> u8;\n\n    fn twice(at: usize) -> usize\n        ensures { result ≡ record {\n          a = at;\n        } }\n    {\n        at\n    }\n}\n\npub struct Forward;\n\nimpl Direction for Forward {\n    ghost backwards = { false };\n\n    fn next(at: usize) -> usize {\n        at + 1\n    }\n}\n\nimpl<'a> Lanes<'a> {\n    pub fn len(self) -> usize\n        ensures { result ≡ 0 }\n    {\n        0\n    }\n}\n";
    let found = contracts(source);
    assert_eq!(
        found.keys().collect::<Vec<_>>(),
        [
            "Direction for Forward",
            "Lanes<'a>::len",
            "trait Direction",
            "trait Direction::next",
            "trait Direction::twice",
        ]
    );
    assert_eq!(found["trait Direction::next"].len(), 3);
    assert_eq!(found["trait Direction::twice"].len(), 4);
    assert_eq!(found["Direction for Forward"].len(), 2);
    assert!(found.iter().all(|(name, lines)| is_public(name, lines)));
    assert!(!is_public("plain", &["    fn plain() -> u32".to_owned()]));
}

#[test]
fn a_comment_or_a_body_is_no_change() {
    let before = definitions(SPECS);
    assert_eq!(
        change(&before, &definitions(&SPECS.replace("the sum", "a sum"))).stayed,
        3
    );
    let before = contracts(SOURCE);
    let same = contracts(&SOURCE.replace("        self\n", "        self.next()\n"));
    assert_eq!(change(&before, &same).stayed, 2);
}

#[test]
fn what_is_new_changed_and_removed_is_named() {
    let after = SPECS
        .replace("add dt", "sub dt")
        .replace("holds", "has_room");
    let change = change(&definitions(SPECS), &definitions(&after));
    assert_eq!(change.new, ["has_room"]);
    assert_eq!(change.changed, ["total"]);
    assert_eq!(change.removed, ["holds"]);
    assert_eq!(
        (change.stayed, change.added_lines, change.removed_lines),
        (1, 3, 3)
    );
}
