//! The C interface, `cableowl_c`, has each entry of `cableowl`, with its signature and its contract.

use std::{collections::BTreeMap, path::Path};

use landing::{Sources, contracts};

/// The functions with a contract of a crate: each signature and its clauses, without layout.
fn functions(sources: &Sources, krate: &str) -> BTreeMap<String, String> {
    let start = format!("{krate}::");
    let all = sources.items("src", contracts);
    all.iter()
        .filter_map(|(name, lines)| {
            let name = name.strip_prefix(&start)?;
            let public = lines[0].strip_prefix("pub ")?;
            let text = [public.trim_start_matches("extern \"C\" ").to_owned()]
                .into_iter()
                .chain(lines[1..].iter().cloned())
                .collect::<Vec<_>>()
                .join(" ");
            let words: String = text.split_whitespace().collect();
            Some((name.to_owned(), words.replace(",)", ")")))
        })
        .collect()
}

#[test]
fn each_entry_is_exported_with_its_contract() {
    let root = Path::new(env!("CARGO_MANIFEST_DIR")).join("../../..");
    let sources = Sources::below(&root).expect("the crates are read");
    let (entries, exports) = (
        functions(&sources, "cableowl"),
        functions(&sources, "cableowl_c"),
    );
    assert!(entries.len() >= 34, "they are read: {entries:?}");
    let names = |of: &BTreeMap<String, String>| of.keys().cloned().collect::<Vec<_>>();
    assert_eq!(names(&exports), names(&entries));
    for (name, export) in &exports {
        assert_eq!(export, &entries[name], "{name}");
    }
    assert!(functions(&sources, "test_exports").len() >= 20);
}

#[test]
fn another_contract_is_seen() {
    let text = |clause: &str| {
        let source = format!(
            "#[unsafe(no_mangle)]\npub extern \"C\" fn one(\n    n: u32,\n) -> u32\n    ensures {{ {clause} }}\n{{\n    n\n}}\n"
        );
        let files = [("crates/k/src/lib.rt".to_owned(), source)];
        functions(&Sources(files.into()), "k")
    };
    assert_eq!(text("result ≡ n"), text("result  ≡ n"));
    assert_ne!(text("result ≡ n"), text("result ≤ n"));
}
