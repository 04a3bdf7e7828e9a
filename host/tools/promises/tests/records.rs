//! Each record of promises has its table in docs/PROMISES.md, each field has an edit that must fail, and each theorem
//! with a hypothesis has an input that meets it.

use promises::records::{
    Field, Record, Row, Specs, all_records, fields, names_asked, record_contracts, table, unmet,
};
use std::fs;
use std::path::{Path, PathBuf};

fn root() -> PathBuf {
    Path::new(env!("CARGO_MANIFEST_DIR")).join("../../..")
}

fn crates() -> PathBuf {
    root().join("crates")
}

fn rows(record: &Record) -> Vec<Row> {
    let page = fs::read_to_string(root().join("docs/PROMISES.md")).expect("docs/PROMISES.md");
    table(&page, &record.function)
}

fn sorted(mut names: Vec<String>) -> Vec<String> {
    names.sort();
    names
}

#[test]
fn each_table_has_the_fields_of_its_record() {
    let records = all_records(&crates());
    assert!(records.len() >= 8, "only {} found", records.len());
    let mut wrong = Vec::new();
    for record in &records {
        let named = rows(record).into_iter().flat_map(|row| row.fields);
        let named: Vec<String> = named.collect();
        let declared: Vec<String> = record.fields.iter().map(|f| f.name.clone()).collect();
        let function = &record.function;
        for name in declared.iter().filter(|name| !named.contains(name)) {
            wrong.push(format!(
                "{function}: docs/PROMISES.md has no row for {name}"
            ));
        }
        for name in named.iter().filter(|name| !declared.contains(name)) {
            wrong.push(format!("{function}: its record has no field {name}"));
        }
        if named.len() > declared.len() {
            wrong.push(format!("{function}: a field has two rows"));
        }
    }
    assert!(wrong.is_empty(), "{}", wrong.join("\n"));
}

#[test]
fn each_row_has_the_file_and_the_hypotheses_of_its_fields() {
    for record in &all_records(&crates()) {
        let specs = Specs::of(&crates(), &record.krate);
        for row in rows(record) {
            let mut asked: Vec<String> = Vec::new();
            for name in &row.fields {
                let Some(field) = record.fields.iter().find(|field| field.name == *name) else {
                    continue;
                };
                let home = specs.home(&field.says).unwrap_or(&record.file);
                assert_eq!(row.file, home, "{}, {name}: its file", record.function);
                asked.extend(names_asked(&specs, field));
            }
            asked.sort();
            asked.dedup();
            if asked.is_empty() {
                asked.push("nothing".to_string());
            }
            let what = format!("{}, {}", record.function, row.fields.join(", "));
            assert_eq!(sorted(row.asks), asked, "{what}: what it asks");
        }
    }
}

#[test]
fn each_field_has_an_edit_that_must_fail() {
    for record in &all_records(&crates()) {
        for row in rows(record) {
            assert!(!row.edits.is_empty());
            for edit in &row.edits {
                let path = format!("{}/must-fail/{edit}.edit", record.krate);
                let fields = row.fields.join(", ");
                assert!(crates().join(&path).is_file(), "{fields}: no crates/{path}");
            }
        }
    }
}

#[test]
fn each_theorem_that_asks_something_has_a_witness() {
    let crates = crates();
    let mut names = fs::read_dir(&crates).expect("crates/");
    let all: Vec<Specs> = std::iter::from_fn(|| names.next())
        .map(|entry| entry.expect("a crate").file_name())
        .filter(|name| crates.join(name).join("specs").is_dir())
        .map(|name| Specs::of(&crates, &name.to_string_lossy()))
        .collect();
    let is_defined = |name: &str| all.iter().any(|specs| specs.home(name).is_some());
    let records = all_records(&crates);
    let wrong: Vec<String> = records
        .iter()
        .flat_map(|record| unmet(&Specs::of(&crates, &record.krate), record, is_defined))
        .collect();
    assert!(wrong.is_empty(), "{}", wrong.join("\n"));
    let asking = |record: &Record| {
        let specs = Specs::of(&crates, &record.krate);
        let asks = |field: &&Field| !specs.asked(&field.says).is_empty();
        record.fields.iter().filter(asks).count()
    };
    let asking: usize = records.iter().map(asking).sum();
    assert!(asking > 60, "only {asking} theorems ask something");
}

/// The fields of a record whose type names another field of it, in words.
fn named_in_another(fields: &[Field]) -> Vec<String> {
    let is_between = |c: char| c.is_whitespace() || "(){}[];,.".contains(c);
    let mut wrong = Vec::new();
    for field in fields {
        for other in fields.iter().filter(|other| other.name != field.name) {
            if field.says.split(is_between).any(|word| word == other.name) {
                wrong.push(format!("{} names {}", field.name, other.name));
            }
        }
    }
    wrong
}

/// What is wrong with one field must not change another, so that an edit says which field it makes false.
#[test]
fn no_field_mentions_another_of_its_record() {
    let crates = crates();
    let mut count = 0;
    for entry in fs::read_dir(&crates).expect("crates/") {
        let krate = entry.expect("a crate").file_name();
        if !crates.join(&krate).join("specs").is_dir() {
            continue;
        }
        for (file, text) in Specs::of(&crates, &krate.to_string_lossy()).0 {
            for name in ["Promises", "Witnesses", "Coincide"] {
                let Some(fields) = fields(&text, name) else {
                    continue;
                };
                count += fields.len();
                let wrong = named_in_another(&fields);
                assert!(wrong.is_empty(), "{krate:?}, {file}, {name}: {wrong:?}");
            }
        }
    }
    assert!(count > 200, "only {count} fields found");
    let text =
        "pub record Promises : Type 0 where\n  pub low : a ≡ 1\n  pub both : T (f\n      low)\n";
    let wrong = named_in_another(&fields(text, "Promises").expect("the record"));
    assert_eq!(wrong, ["both names low"]);
}

#[test]
fn a_contract_that_is_one_name_is_found() {
    let source = "ghost use Rattle.k.specs.All.{\n  Other,\n  Promises,\n};\nfn low()\n    ensures { result ≡ low x }\n{}\n\npub fn promised()\n    ensures { Promises }\n{}\n\npub fn others()\n    ensures held { Other }\n{}\n";
    let found = record_contracts("k", source);
    let words = |(a, b, c): &(String, String, String)| format!("{a} {b} {c}");
    let found: Vec<String> = found.iter().map(words).collect();
    assert_eq!(found, ["k::promised All Promises", "k::others All Other"]);
}

/// A record with one promise, a theorem of another file, and the witnesses.
fn unmet_in(theorem: &str, witness: &str) -> Vec<String> {
    let promises = format!("pub record Promises : Type 0 where\n  pub cut : {theorem}\n");
    let text = format!(
        "pub record MayCut (k : ℕ) : Type 0 where\n  pub few : k < 4\n\nabbrev pub Empty : ℕ → Type 0\nEmpty k = k ≡ 0\n\npub record Parts (k : ℕ) : Type 0 where\n  pub none : Empty k → k < 1\n  pub some : (j : ℕ) → j < 5\n\nabbrev pub Cut : Type 0\nCut =\n    (k : ℕ) (ks : List ℕ)\n    → let j = k in MayCut j → k < 5\n\npub record Witnesses : Type 0 where\n  {witness}\n"
    );
    let specs = Specs(vec![
        ("Promises".into(), promises.clone()),
        ("Cut".into(), text),
    ]);
    let record = Record {
        function: "k::promised".into(),
        krate: "k".into(),
        file: "Promises".into(),
        fields: fields(&promises, "Promises").expect("the record"),
    };
    unmet(&specs, &record, |name| ["MayCut", "Empty"].contains(&name))
}

#[test]
fn a_hypothesis_without_a_witness_is_found() {
    let met = "pub cut : MayCut 3";
    for theorem in ["Cut", "(k : ℕ) → MayCut k → k < 5"] {
        assert!(unmet_in(theorem, met).is_empty(), "{theorem}");
    }
    for (theorem, witness, says) in [
        ("Cut", "-- none", "Witnesses has no field"),
        ("Cut", "pub cut : Empty 0", "its witness meets Empty"),
        (
            "(k : ℕ) → MayCut k → Empty k → k < 5",
            met,
            "asks MayCut k and Empty k",
        ),
        ("(k : ℕ) → MayCut k → k ≡ 5 → k < 5", met, "k ≡ 5"),
        (
            "(k : ℕ) (h : k ≡ 5) → MayCut k → k < 5",
            met,
            "asks k ≡ 5 and MayCut k",
        ),
        (
            "(k : ℕ) (h : Empty k) → MayCut k → k < 5",
            met,
            "asks Empty k and MayCut k",
        ),
        (
            "(k : ℕ) → T (few k) → k < 5",
            met,
            "no name of its own: T (few k)",
        ),
        (
            "(k : ℕ) → ((i : ℕ) → i < k) → k < 5",
            met,
            "no name of its own",
        ),
        (
            "(k : ℕ) → (MayCut k → k < 5) × (k < 3 → k < 4)",
            met,
            "k < 3",
        ),
        ("(k : ℕ) → k < 5", met, "the witness cut has no promise"),
        (
            "(k : ℕ) → MayCut k → Parts k",
            met,
            "its witness meets MayCut",
        ),
    ] {
        let wrong = unmet_in(theorem, witness).join("\n");
        assert!(wrong.contains(says), "{theorem}: {wrong}");
    }
}
