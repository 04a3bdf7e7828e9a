//! The promise of every public function is documented, and docs/EXCEPTIONS.md lists every function with a `requires`.

use promises::{
    Documents, EXCEPTIONS, Function, all_functions, all_laws, clause, files_named, functions, rows,
    with_callers,
};
use std::fs;
use std::path::{Path, PathBuf};

fn root() -> PathBuf {
    Path::new(env!("CARGO_MANIFEST_DIR")).join("../../..")
}

fn read(path: &str) -> String {
    fs::read_to_string(root().join(path)).unwrap_or_else(|e| panic!("{path}: {e}"))
}

fn documents() -> Documents {
    Documents {
        promises: read("docs/PROMISES.md"),
        exceptions: read("docs/EXCEPTIONS.md"),
        laws: all_laws(&root().join("crates")),
    }
}

fn public_functions() -> Vec<Function> {
    let mut all = all_functions(&root().join("crates"));
    all.retain(|f| f.public);
    all
}

#[test]
fn every_promise_is_documented() {
    let documents = documents();
    let functions = public_functions();
    assert!(functions.len() > 50, "only {} found", functions.len());
    let missing: Vec<String> = functions
        .iter()
        .filter_map(|f| documents.missing(f))
        .collect();
    assert!(missing.is_empty(), "{}", missing.join("\n"));
}

#[test]
fn a_function_is_found_in_its_type_and_alone() {
    let source = "impl Transport {\n    pub fn seek_to(mut self) -> Transport\n    {\n    }\n}\n\npub fn judge(\n    dt: f64,\n) -> u32\n{\n}\n#[unsafe(no_mangle)]\npub extern \"C\" fn cableowl_new() -> u32 {\n}\nfn private() {\n}\npub(crate) fn sealed() {\n}\n";
    let found = functions("k", source);
    let named = |public: bool| -> Vec<&str> {
        let found = found.iter().filter(|f| f.public == public);
        found.map(|f| f.path.as_str()).collect()
    };
    assert_eq!(
        named(true),
        ["k::Transport::seek_to", "k::judge", "k::cableowl_new"]
    );
    assert_eq!(named(false), ["k::private", "k::sealed"]);
}

/// A public function with this parameter and contract.
fn public(krate: &str, name: &str, parameter: &str, contract: &str) -> Function {
    let source = format!("pub fn {name}(\n    {parameter},\n)\n    {contract}\n{{\n}}\n");
    functions(krate, &source).remove(0)
}

#[test]
fn a_function_is_found_in_a_trait_and_in_what_has_it() {
    let source = "pub trait Rates: Copy {\n    fn count(self) -> usize\n        ensures { result ≡ 0 };\n}\nimpl Rates for &[f64] {\n    fn count(self) -> usize {\n    }\n}\nimpl From<Refusal> for u32 {\n    fn from(r: Refusal) -> u32 {\n    }\n}\nimpl Lanes<'_> {\n    pub fn len(self) -> usize {\n    }\n}\ntrait Hidden {\n    fn one() -> u32;\n}\nimpl Hidden for f32 {\n    fn one() -> u32 {\n    }\n}\npub(crate) enum Kind {\n    Given,\n}\nimpl TryFrom<u64> for Kind {\n    fn try_from(kind: u64) -> Result<Kind, Refusal> {\n    }\n}\nimpl From<Kind> for Kinds {\n    fn from(kind: Kind) -> Kinds {\n    }\n}\npub(crate) struct Tail;\nimpl Rates for Tail {\n    fn count(self) -> usize {\n    }\n}\n";
    let found = promises::functions("k", source);
    let seen: Vec<_> = found
        .iter()
        .map(|it| (it.path.as_str(), it.public, it.promises))
        .collect();
    assert_eq!(
        seen,
        [
            ("k::Rates::count", true, true),
            ("k::RefSliceF64::count", true, true),
            ("k::u32::from", true, true),
            ("k::Lanes::len", true, false),
            ("k::Hidden::one", false, false),
            ("k::f32::one", false, true),
            ("k::Kind::try_from", false, true),
            ("k::Kinds::from", false, true),
            ("k::Tail::count", false, true),
        ]
    );
    assert_eq!(promises::law_of(&found[1].path), "k_refslicef64_count");
}

#[test]
fn a_clause_is_found_with_its_name_and_without() {
    for (line, says) in [
        ("    ensures { result ≡ x }", Some(" result ≡ x }")),
        ("    ensures value {", Some("")),
        ("    ensures* { x }", Some(" x }")),
        ("    ensures: Struct {", None),
        ("    ensures_more { x }", None),
        ("    requires { x }", None),
    ] {
        assert_eq!(clause(line, "ensures"), says, "{line}");
    }
    let named = public("numbers", "widen", "x: f64", "requires t_2 { x }");
    assert!(named.asks && !named.promises);
}

#[test]
fn a_missing_document_is_found() {
    let mut documents = documents();
    let ensures = "ensures { x }";
    let narrow = public("numbers", "narrow", "x: f64", ensures);
    let widen = public("numbers", "widen", "x: f64", ensures);
    assert!(documents.missing(&narrow).is_none());
    assert!(documents.missing(&widen).is_some());
    documents
        .promises
        .push_str("\n| `numbers::widen` | `wide` | |\n");
    let words = documents.missing(&widen).expect("it has no line");
    assert!(words.contains("numbers_widen"), "{words}");
    let import = "\nuse Rattle.numbers.specs.contracts.widen as NumbersWiden\n";
    let law = "\npub numbers_widen : Decides (Post NumbersWiden.ended NumbersWiden.clauses (λ k a. (tt, λ r s. r_last _)))\n";
    let other = law.replace("NumbersWiden.", "NumbersNarrow.");
    documents.laws.push_str(import);
    documents.laws.push_str(&other);
    let words = documents
        .missing(&widen)
        .expect("its line is about another function");
    assert!(words.contains("NumbersNarrow"), "{words}");
    documents.laws = documents.laws.replace(&other, law);
    assert!(documents.missing(&widen).is_none());
    let aliased = documents
        .laws
        .replace(import, &import.replace(".widen", ".narrow"));
    let laws = std::mem::replace(&mut documents.laws, aliased);
    let words = documents
        .missing(&widen)
        .expect("its name is imported for another function");
    assert!(words.contains("another contract"), "{words}");
    documents.laws = laws;
    assert!(documents.missing(&widen).is_none());
    let unpromised = public("numbers", "widen", "x: f64", "requires { x }");
    let words = documents.missing(&unpromised).expect("it promises nothing");
    assert!(words.contains("no `ensures`"), "{words}");
    let writing = public("numbers", "widen", "x: &mut f64", ensures);
    let words = documents
        .missing(&writing)
        .expect("what it leaves is not documented");
    assert!(words.contains("what it leaves"), "{words}");
    documents.laws.clear();
    assert!(documents.missing(&narrow).is_some());
}

#[test]
fn what_is_excused_has_no_law_and_is_no_entry() {
    let mut documents = documents();
    let ensures = "ensures { x }";
    let excuse = |documents: &mut Documents, name: &str| {
        documents
            .exceptions
            .push_str(&format!("| `{name}` | why not |\n"));
    };
    let narrow = public("numbers", "narrow", "x: f64", ensures);
    excuse(&mut documents, "numbers::narrow");
    let words = documents
        .missing(&narrow)
        .expect("it is excused for nothing");
    assert!(words.contains("need not excuse"), "{words}");
    documents.laws.clear();
    assert!(documents.missing(&narrow).is_none());
    let entry = public("cableowl", "cableowl_new", "x: u32", ensures);
    for name in ["cableowl::cableowl_new", "cableowl::*", "*::cableowl_new"] {
        excuse(&mut documents, name);
        let words = documents
            .missing(&entry)
            .expect("an entry is never excused");
        assert!(words.contains("cableowl_cableowl_new"), "{words}");
    }
}

#[test]
fn each_excuse_is_of_a_function_that_is_there() {
    let documents = documents();
    let functions = public_functions();
    let idle: Vec<&str> = documents
        .excused()
        .filter(|row| {
            !functions.iter().any(|f| match row.split_once('*') {
                Some((start, end)) => f.path.starts_with(start) && f.path.ends_with(end),
                None => f.path == *row,
            })
        })
        .collect();
    assert!(idle.is_empty(), "no such public function: {idle:?}");
}

#[test]
fn each_wrong_answer_named_is_an_edit_that_must_be_refused() {
    let mut named = 0;
    for line in read("docs/PROMISES.md").lines() {
        let Some(rest) = line.strip_prefix("| `") else {
            continue;
        };
        let (function, rest) = rest.split_once('`').expect("a function's name ends");
        if !function.contains("::") {
            continue;
        }
        let krate = function.split("::").next().expect("a crate's name");
        let wrong = rest.trim_end_matches(" |").rsplit(" | ").next();
        for edit in wrong.expect("a last column").split(", ") {
            let path = format!("crates/{krate}/must-fail/{edit}.edit");
            assert!(root().join(&path).is_file(), "{function}: no {path}");
            named += 1;
        }
    }
    assert!(named > 100, "only {named} found");
}

#[test]
fn each_function_that_asks_has_a_row() {
    let all = all_functions(&root().join("crates"));
    let exceptions = read(EXCEPTIONS);
    let rows = rows(&exceptions);
    let mut wrong = Vec::new();
    for asking in all.iter().filter(|f| f.asks) {
        match rows.iter().find(|row| row.path == asking.path) {
            None => wrong.push(format!("{}: no row", asking.path)),
            Some(row) if row.public != asking.public => {
                let table = if asking.public { "public" } else { "private" };
                wrong.push(format!("{}: it is {table}", asking.path));
            }
            Some(_) => (),
        }
    }
    for row in &rows {
        if !all.iter().any(|f| f.asks && f.path == row.path) {
            wrong.push(format!("{}: it has no `requires`", row.path));
        }
    }
    assert!(rows.len() > 20, "only {} found", rows.len());
    assert!(wrong.is_empty(), "{}", wrong.join("\n"));
}

#[test]
fn each_row_lists_the_callers_that_the_sources_have() {
    let page = read(EXCEPTIONS);
    let right = with_callers(&page, &all_functions(&root().join("crates")));
    let lines = page.lines().zip(right.lines());
    let wrong: Vec<String> = lines
        .filter(|(is, should)| is != should)
        .map(|(is, should)| format!("- {is}\n+ {should}\n"))
        .collect();
    assert!(
        page == right,
        "{EXCEPTIONS} differs from the sources; run tools/callers:\n{}",
        wrong.concat()
    );
}

#[test]
fn callers_are_written_into_the_last_column_only() {
    let source = "fn held(x: u32) -> u32\n    requires { x }\n{\n    x\n}\nfn one() -> u32 {\n    held(1)\n}\nfn two() -> u32 {\n    held(2)\n}\n";
    let page = "text\n\n| function | asks | called by |\n|---|---|---|\n| `k::held` | x `y` | `k::gone` |\n| `k::one` | asks nothing | `k::two` |\n\n| function | why |\n|---|---|\n| `k::held` | because |\n";
    let right = page.replace("`k::gone`", "`k::one`, `k::two`");
    let all = functions("k", source);
    assert_eq!(with_callers(page, &all), right);
    for empty in ["`k::gone`", "`k::gone` "] {
        assert_eq!(with_callers(&page.replace(empty, ""), &all), right);
    }
    assert_eq!(with_callers(&right, &all), right);
}

#[test]
fn callers_of_a_traits_function_name_the_trait_or_a_type_that_has_it() {
    let source = "pub trait Way {\n    fn next(at: u32) -> u32\n        requires { at }\n        ensures { at };\n}\nimpl Way for On {\n    fn next(at: u32) -> u32 {\n        at\n    }\n}\nimpl Track {\n    fn next(self) -> u32\n        requires { self }\n    {\n        On::next(self.at)\n    }\n    fn two(self) -> u32 {\n        self.next()\n    }\n}\nfn one<D: Way>() -> u32 {\n    D::next(1)\n}\n";
    let all = functions("k", source);
    let page = "| function | asks | called by |\n|---|---|---|\n| `k::Way::next` | x | |\n| `k::Track::next` | x | |\n";
    let right = page
        .replace(
            "`k::Way::next` | x | |",
            "`k::Way::next` | x | `k::Track::next`, `k::one` |",
        )
        .replace(
            "`k::Track::next` | x | |",
            "`k::Track::next` | x | `k::Track::two`, `k::one` |",
        );
    assert_eq!(with_callers(page, &all), right);
}

#[test]
fn a_call_is_found_by_its_path() {
    let source = "fn held(x: u32) -> u32\n    requires { x }\n{\n    x\n}\nfn one() -> u32 {\n    // held(2)\n    upheld(1) + k::other(held(1))\n}\n";
    let found = functions("k", source);
    assert!(found[0].asks && !found[1].asks);
    assert!(found[1].calls("k::held") && found[1].calls("k::other"));
    assert!(!found[0].calls("k::held") && !found[1].calls("j::held"));
    let source = "use j::{\n    held, low::{Low, of_low},\n    T,\n};\nfn one() -> u32 {\n    held(1) + of_low(2)\n}\n";
    let found = functions("k", source);
    assert_eq!(
        found[0].used,
        ["j::held", "j::low::Low", "j::low::of_low", "j::T"]
    );
    assert!(found[0].calls("j::held") && !found[0].calls("j::T"));
    let source = "use j::T;\nfn one(x: T) -> u32 {\n    x.read(2)\n}\nfn two() -> u32 {\n    n::of(1).write()\n}\n";
    let found = functions("k", source);
    for (path, calls) in [
        ("j::T::read", true),
        ("k::T::read", true),
        ("m::T::read", false),
    ] {
        assert_eq!(found[0].calls(path), calls, "{path}");
    }
    assert!(found[1].calls("n::N::write") && !found[1].calls("m::N::write"));
    let source = "fn one<D: Way>(x: T) -> u32 {\n    fours::<D, T>(x); two::<T>::three(x)\n}\n";
    let found = functions("k", source);
    assert!(found[0].calls("k::fours") && !found[0].calls("k::two"));
}

#[test]
fn each_file_that_a_comment_names_is_there() {
    let mut missing = Vec::new();
    let mut folders = vec![root().join("crates")];
    let mut named = 0;
    while let Some(folder) = folders.pop() {
        for entry in fs::read_dir(&folder).expect("a folder") {
            let path = entry.expect("an entry").path();
            if path.is_dir() {
                folders.push(path);
                continue;
            }
            let end = path.extension().unwrap_or_default();
            if end != "rt" && end != "antt" {
                continue;
            }
            let below = path.strip_prefix(root().join("crates")).expect("below");
            let krate = root()
                .join("crates")
                .join(below.iter().next().expect("a crate"));
            let text = fs::read_to_string(&path).expect("a source is text");
            for file in files_named(&text) {
                named += 1;
                if !krate.join(&file).is_file() && !root().join(&file).is_file() {
                    missing.push(format!("{}: {file}", below.display()));
                }
            }
        }
    }
    assert!(named > 0, "no comment names a file");
    assert!(missing.is_empty(), "{}", missing.join("\n"));
}
