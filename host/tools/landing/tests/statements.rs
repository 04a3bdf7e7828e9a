//! docs/assurance/STATEMENTS.txt has the digest of each statement in the sources, and a changed statement changes a
//! line.

use std::{collections::BTreeSet, fs, path::Path};

use landing::{FILE, Sources, changes, contracts, definitions, pinned, statements};

const SPECS: &str = "\
-- A block.
use Rattle.std.specs.Float.Ieee.{Float, add}
use Rattle.numbers.specs.Lists.{all}

-- the sum
unfoldable pub total : Float → Float
unfolding advance
total dt = add dt (last dt)

module _ {K : Type 0} where
  abbrev pub Decides : K → Type 0
  Decides k = all k

pub record Promises : Type 0 where
  -- the first
  pub cut_blocks :
    (n : ℕ) → Cut n
  pub cut_mixes : CutMixes
";

const SOURCE: &str = "\
ghost use Rattle.block.specs.Blocks.{total};

use numbers::narrow;

// Plays.
pub fn plays(dt: f64, n: u32) -> f64
    requires { n < 4 }
    ensures value { result ≡ total dt }
{
    narrow(dt)
}

fn helper(n: u32) -> u32
    ensures { result ≡ n }
{
    n
}

pub fn promised()
    ensures { Promises }
{}
";

fn root() -> &'static Path {
    Path::new(concat!(env!("CARGO_MANIFEST_DIR"), "/../../.."))
}

/// The statements of one crate with these two texts.
fn of(krate: &str, specs: &str, source: &str) -> String {
    let files = [("specs/Blocks.antt", specs), ("src/lib.rt", source)];
    let files = files.map(|(path, text)| (format!("crates/{krate}/{path}"), text.to_owned()));
    statements(&Sources(files.into()))
}

/// The statements that change when a text of the specs and one of the source are replaced.
fn differ(specs: (&str, &str), source: (&str, &str)) -> Vec<String> {
    assert!(SPECS.contains(specs.0) && SOURCE.contains(source.0));
    let edited = of(
        "block",
        &SPECS.replace(specs.0, specs.1),
        &SOURCE.replace(source.0, source.1),
    );
    let (change, moved) = changes(&of("block", SPECS, SOURCE), &edited);
    let named = |sign: &'static str, names: Vec<String>| {
        names.into_iter().map(move |name| format!("{sign}{name}"))
    };
    named("", change.changed)
        .chain(named("+", change.new))
        .chain(named("-", change.removed))
        .chain(named("=", moved))
        .collect()
}

#[test]
fn the_statements_are_as_pinned() {
    let sources = Sources::below(root()).expect("the crates are read");
    let pinned = fs::read_to_string(root().join(FILE)).unwrap_or_default();
    let found = statements(&sources);
    let lines = |sign: char, one: &str, other: &str| -> String {
        let other: BTreeSet<&str> = other.lines().collect();
        one.lines()
            .filter(|line| !other.contains(line))
            .map(|line| format!("{sign} {line}\n"))
            .collect()
    };
    let (gone, come) = (lines('-', &pinned, &found), lines('+', &found, &pinned));
    assert!(
        pinned == found,
        "{FILE} differs from the sources:\n{gone}{come}Where each of these is meant, run tools/statements and commit the file.\n"
    );
}

#[test]
fn every_line_of_specs_and_every_clause_is_in_a_statement() {
    let sources = Sources::below(root()).expect("the crates are read");
    for (krate, file, text) in sources.of("specs") {
        let stated: usize = definitions(text).values().map(Vec::len).sum();
        let modules = |line: &&str| line.starts_with("module ");
        let inside = definitions(text).into_values().flatten();
        let repeated = inside.filter(|line| modules(&line.as_str())).count();
        let mut names = false; // inside a list of names that takes several lines
        let written = text.lines().filter(|line| {
            let line = line.trim_start();
            let brings = line.starts_with("use ") || line.starts_with("pub use ");
            let inside = names;
            names = (brings && line.contains('{') || names) && !line.contains('}');
            let named = ["--", "pub mod ", "mod ", "module "];
            !(brings
                || inside
                || line.is_empty()
                || named.iter().any(|word| line.starts_with(word)))
        });
        assert_eq!(stated - repeated, written.count(), "{krate}/specs/{file}");
    }
    let is_clause = |line: &str| {
        let line = line.trim_start();
        line.starts_with("requires ") || line.starts_with("ensures ")
    };
    for (krate, file, text) in sources.of("src") {
        let of_contracts = contracts(text).into_values().flatten();
        let found = of_contracts.filter(|line| is_clause(line)).count();
        let written = text.lines().filter(|line| is_clause(line)).count();
        assert_eq!(found, written, "{krate}/src/{file}");
    }
}

#[test]
fn the_statements_of_a_crate() {
    let found = pinned(&of("block", SPECS, SOURCE));
    assert_eq!(
        found.keys().collect::<Vec<_>>(),
        [
            "block/specs/Blocks.antt names",
            "block/src/lib.rt names",
            "block::Decides definition",
            "block::Promises definition",
            "block::Promises.cut_blocks field",
            "block::Promises.cut_mixes field",
            "block::plays contract",
            "block::promised contract",
            "block::total definition",
        ]
    );
}

#[test]
fn comments_layout_bodies_and_private_functions_do_not_count() {
    let none: [&str; 0] = [];
    let same = ("", "");
    for edit in [
        ("-- the sum\n", "-- a sum\n"),
        (
            "total dt = add dt (last dt)",
            "total dt =\n    add dt ( last dt ) -- all",
        ),
        ("  pub cut_blocks :\n    (n", "  pub cut_blocks : (n"),
        ("{Float, add}", "{add, Float}"),
    ] {
        assert_eq!(differ(edit, same), none, "{edit:?}");
    }
    for edit in [
        ("// Plays.\n", "// Plays on.\n"),
        ("    narrow(dt)\n", "    dt\n"),
        ("(dt: f64, n: u32)", "(\n    dt: f64, n: u32\n)"),
        ("result ≡ n }", "result ≡ 0 }"),
        ("use numbers::narrow;\n", ""),
    ] {
        assert_eq!(differ(same, edit), none, "{edit:?}");
    }
}

#[test]
fn a_weaker_statement_is_a_line() {
    let same = ("", "");
    for (edit, lines) in [
        // a definition; one by a name that is joined to its neighbour; one inside a module with parameters
        (
            ("add dt (last", "add dt (first"),
            vec!["block::total definition"],
        ),
        (("= add dt", "= adddt"), vec!["block::total definition"]),
        (
            ("Decides k = all k", "Decides k = ⊤"),
            vec!["block::Decides definition"],
        ),
        (
            ("module _ {K : Type 0}", "module _ {K : Type 1}"),
            vec!["block::Decides definition"],
        ),
        // a promise, a removed promise, two that changed places
        (
            ("(n : ℕ) → Cut n", "(n : ℕ) → n ≡ 0 → Cut n"),
            vec!["block::Promises.cut_blocks field"],
        ),
        (
            ("  pub cut_mixes : CutMixes\n", ""),
            vec![
                "block::Promises definition",
                "-block::Promises.cut_mixes field",
            ],
        ),
        (
            (
                "  pub cut_mixes : CutMixes\n",
                "  pub cut_mixes : CutMixes\n  pub more : Cut\n",
            ),
            vec!["block::Promises definition", "+block::Promises.more field"],
        ),
        // a name that is imported from another file
        (
            ("numbers.specs.Lists", "frame.specs.Lists"),
            vec!["block/specs/Blocks.antt names"],
        ),
        (
            ("{Float, add}", "{Float, sub as add}"),
            vec!["block/specs/Blocks.antt names"],
        ),
    ] {
        assert_eq!(differ(edit, same), lines, "{edit:?}");
    }
    for (edit, lines) in [
        (
            ("result ≡ total dt", "result ≤ total dt"),
            vec!["block::plays contract"],
        ),
        (("n < 4", "n < 3"), vec!["block::plays contract"]),
        (
            ("    ensures value { result ≡ total dt }\n", ""),
            vec!["block::plays contract"],
        ),
        (
            ("n: u32) -> f64", "n: u64) -> f64"),
            vec!["block::plays contract"],
        ),
        (
            ("    ensures { Promises }\n", ""),
            vec!["-block::promised contract"],
        ),
        (
            ("pub fn promised", "fn promised"),
            vec!["-block::promised contract"],
        ),
        (
            ("Blocks.{total}", "Others.{total}"),
            vec!["block/src/lib.rt names"],
        ),
    ] {
        assert_eq!(differ(same, edit), lines, "{edit:?}");
    }
}

#[test]
fn a_crate_under_another_name_moves_its_lines_and_changes_no_digest() {
    let (change, moved) = changes(&of("block", SPECS, SOURCE), &of("slab", SPECS, SOURCE));
    assert_eq!((change.new.len(), change.removed.len()), (0, 0));
    assert_eq!((change.changed.len(), moved.len()), (0, 9));
    assert!(moved.contains(&"block::plays contract → slab::plays contract".to_owned()));
    // In other files only the lines that say where names come from change.
    assert_eq!(
        differ(("Rattle.numbers", "Rattle.figures"), ("", "")),
        ["block/specs/Blocks.antt names"]
    );
}
