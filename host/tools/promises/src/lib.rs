//! Finds public functions of the Rattle crates whose promise is not documented. Each needs an `ensures`, a row in
//! docs/PROMISES.md, and either a line in a record `Coincide` or, unless C calls it, a row in docs/EXCEPTIONS.md.
//! Also finds the functions with a `requires` and their callers, which docs/EXCEPTIONS.md lists.

pub mod records;

use std::fs;
use std::iter;
use std::path::Path;

/// Collects what `of_one` finds in every source of every crate below `crates/`.
fn of_every_source<T>(crates: &Path, of_one: impl Fn(&str, &str) -> Vec<T>) -> Vec<T> {
    let mut found = Vec::new();
    for krate in sorted(crates) {
        let sources = crates.join(&krate).join("src");
        for file in sorted(&sources) {
            if file.ends_with(".rt") {
                let text = fs::read_to_string(sources.join(&file)).expect("a source is text");
                found.extend(of_one(&krate, &text));
            }
        }
    }
    found
}

fn sorted(folder: &Path) -> Vec<String> {
    let mut names: Vec<String> = fs::read_dir(folder)
        .unwrap_or_else(|e| panic!("{}: {e}", folder.display()))
        .map(|entry| {
            let name = entry.expect("a folder's entry").file_name();
            name.to_string_lossy().into_owned()
        })
        .collect();
    names.sort();
    names
}

/// The Rust packages below `host`, each by its path from there: `cableowl`, `tests/raw`.
pub fn packages(host: &Path) -> Vec<String> {
    let is_package = |path: &String| host.join(path).join("Cargo.toml").is_file();
    let folders = sorted(host);
    let folders = folders.into_iter().filter(|path| host.join(path).is_dir());
    let (mut found, groups): (Vec<_>, Vec<_>) = folders.partition(is_package);
    for group in groups {
        let inside = sorted(&host.join(&group));
        let paths = inside.iter().map(|name| format!("{group}/{name}"));
        found.extend(paths.filter(is_package));
    }
    found
}

/// The name of a function's line in `Coincide`: `transport::Transport::seek_to` has `transport_transport_seek_to`.
pub fn law_of(function: &str) -> String {
    function.replace("::", "_").to_lowercase()
}

/// The texts of the records `Coincide`: `specs/Coincide.antt` of every crate below `crates/` that has one.
pub fn all_laws(crates: &Path) -> String {
    let files = sorted(crates)
        .into_iter()
        .map(|krate| crates.join(krate).join("specs/Coincide.antt"));
    let texts = files.filter_map(|file| fs::read_to_string(file).ok());
    texts.collect()
}

/// The texts that document a promise.
pub struct Documents {
    /// docs/PROMISES.md
    pub promises: String,
    /// docs/EXCEPTIONS.md
    pub exceptions: String,
    /// the records `Coincide`
    pub laws: String,
}

impl Documents {
    /// What is missing for the promise of a public function, in words; `None` if nothing is.
    pub fn missing(&self, function: &Function) -> Option<String> {
        let path = &function.path;
        if !function.promises {
            return Some(format!("{path}: no `ensures`"));
        }
        // The C interface: a test of host/tools/landing compares it with the entries.
        if function.krate() == "cableowl_c" {
            return None;
        }
        let whole_crate = format!("{}::*", function.krate());
        if self.excuses(&whole_crate) && !function.is_entry() {
            return None;
        }
        let row = function.row();
        if !self.promises.contains(&format!("| `{row}` |")) {
            return Some(format!("{row}: no row in docs/PROMISES.md"));
        }
        // What a trait asks has a line for each type that has it.
        if function.of == Of::Trait {
            return None;
        }
        let excused = self.excuses(path) || self.excuses(&format!("*::{}", function.name()));
        match self.law(path) {
            Some(_) if excused => Some(format!(
                "{path}: it has a line in `Coincide`, so docs/EXCEPTIONS.md need not excuse it"
            )),
            Some(law) if !self.is_about(&law, function) => Some(format!(
                "{path}: its line in `Coincide` is about another contract: {law}"
            )),
            Some(law) if function.writes() && !law.starts_with("DecidesWith ") => Some(format!(
                "{path}: it writes through a `&mut`, and its line in `Coincide` says nothing about what it leaves"
            )),
            Some(_) => None,
            None if excused && !function.is_entry() => None,
            None => Some(format!(
                "{path}: no line `{}` in `Coincide`{}",
                law_of(path),
                if function.is_entry() {
                    ", and a C entry is never excused"
                } else {
                    ", and no row in docs/EXCEPTIONS.md"
                }
            )),
        }
    }

    /// A function's line in `Coincide`, joined into one. It ends before the next field and before a comment.
    fn law(&self, path: &str) -> Option<String> {
        let start = format!("pub {} :", law_of(path));
        let mut lines = self.laws.lines().map(str::trim);
        let first = lines.find_map(|line| line.strip_prefix(start.as_str()))?;
        let ends =
            |line: &str| line.is_empty() || ["pub ", "--"].iter().any(|w| line.starts_with(w));
        let more = lines.take_while(|line| !ends(line));
        let law: Vec<_> = iter::once(first).chain(more).collect();
        Some(law.join(" ").trim_start().to_string())
    }

    /// Whether a line is about this function's contract: it has `Post NAME.ended NAME.clauses` once, and NAME is imported
    /// as the contract.
    fn is_about(&self, law: &str, function: &Function) -> bool {
        let start = format!("use Rattle.{}.specs.contracts.", function.krate());
        let function = function.contract();
        let lines = self.laws.lines();
        let mut imports = lines.filter_map(|line| line.strip_prefix(&start)?.split_once(" as "));
        imports.any(|(of, name)| {
            let of_it = of == function || of.ends_with(&format!(".{function}"));
            of_it
                && law.contains(&format!("(Post {name}.ended {name}.clauses "))
                && law.matches("Post ").count() == 1
        })
    }

    /// Whether the last table of docs/EXCEPTIONS.md has a row with this name.
    fn excuses(&self, name: &str) -> bool {
        self.excused().any(|row| row == name)
    }

    /// The names in the last table of docs/EXCEPTIONS.md: functions without a line in `Coincide`.
    pub fn excused(&self) -> impl Iterator<Item = &str> {
        self.exceptions
            .lines()
            .skip_while(|line| !line.starts_with("## Without a line"))
            .filter_map(|line| line.strip_prefix("| `")?.split('`').next())
    }
}

/// What a function is part of.
#[derive(Clone, Default, Debug, PartialEq, Eq)]
pub enum Of {
    /// a file, or a type's own `impl`
    #[default]
    Itself,
    /// a trait: each type that has it keeps the function's contract
    Trait,
    /// the `impl` of a trait, by the trait's name and its parameters
    Impl(String),
}

/// A function of a Rattle source.
#[derive(Default)]
pub struct Function {
    /// what it is part of
    pub of: Of,
    /// `crate::Type::name` or `crate::name`
    pub path: String,
    /// whether it is `pub` or C calls it; `pub(crate)` is private
    pub public: bool,
    /// its parameters and what it returns, as the source has them
    pub signature: String,
    /// whether its contract has a `requires`
    pub asks: bool,
    /// whether its contract has an `ensures`
    pub promises: bool,
    /// its code, without comments and contracts
    pub code: String,
    /// the paths that its file uses by their last name
    pub used: Vec<String>,
}

/// What a line says after `requires {` or `ensures {`, if a clause of this kind begins there. The clause may have a name,
/// as in `requires in_order {`, or a star.
pub fn clause<'a>(line: &'a str, kind: &str) -> Option<&'a str> {
    let (name, says) = line.trim_start().strip_prefix(kind)?.split_once('{')?;
    let is_name = |name: &str| name.chars().all(|c| c.is_alphanumeric() || c == '_');
    let name = name.strip_prefix('*').unwrap_or(name);
    (name.starts_with(' ') && is_name(name.trim())).then_some(says)
}

/// The paths that a source uses: `use a::{b, c::d};` has `a::b` and `a::c::d`. A list may take several lines.
fn used(source: &str) -> Vec<String> {
    let mut found = Vec::new();
    let mut lines = source.lines();
    while let Some(line) = lines.next() {
        let Some(first) = line.trim_start_matches("pub ").strip_prefix("use ") else {
            continue;
        };
        let mut path = first.to_string();
        while !path.contains(';') {
            match lines.next() {
                Some(line) => path.push_str(line.trim()),
                None => break,
            }
        }
        paths_of("", path.split(';').next().expect("a path"), &mut found);
    }
    found
}

/// The paths of a part of a `use`, after what stands before it.
fn paths_of(before: &str, part: &str, found: &mut Vec<String>) {
    let part = part.trim();
    let Some((start, inside)) = part.split_once('{') else {
        if !part.is_empty() {
            found.push(format!("{before}{part}"));
        }
        return;
    };
    let before = format!("{before}{start}");
    let inside = inside.trim_end().strip_suffix('}').unwrap_or(inside);
    let mut depth = 0;
    let outside_lists = |c: char| {
        match c {
            '{' => depth += 1,
            '}' => depth -= 1,
            _ => {}
        }
        c == ',' && depth == 0
    };
    for part in inside.split(outside_lists) {
        paths_of(&before, part, found);
    }
}

/// A type's name without its parameters; one that is no single word as the toolchain writes it: `&[f64]` is `RefSliceF64`.
fn type_name(written: &str) -> String {
    let plain = written.split('<').next().unwrap_or(written).trim();
    if plain.chars().all(|c| c.is_alphanumeric() || c == '_') {
        return plain.to_string();
    }
    camel(written)
}

/// Words in one: `&[f64]` is `RefSliceF64`, `From<Refusal>` is `FromRefusal`.
fn camel(written: &str) -> String {
    let spelled = written.replace('&', "Ref ").replace('[', "Slice ");
    let words = spelled.split(|c: char| !c.is_alphanumeric() && c != '_');
    let capital = |word: &str| -> String {
        let mut rest = word.chars();
        let first = rest.next().map(|c| c.to_ascii_uppercase());
        first.into_iter().chain(rest).collect()
    };
    words.map(capital).collect()
}

/// The type or the trait whose functions begin after a line, and what these are part of.
fn owner(line: &str) -> Option<(String, Of)> {
    let plain = line.strip_prefix("pub(crate) ").unwrap_or(line);
    let plain = plain.strip_prefix("pub ").unwrap_or(plain);
    if let Some(rest) = plain.strip_prefix("trait ") {
        let name = rest.split([':', ' ', '<']).next().unwrap_or(rest);
        return Some((name.to_string(), Of::Trait));
    }
    let rest = plain.strip_prefix("impl")?.trim_end_matches(" {");
    let rest = match rest.strip_prefix('<') {
        Some(parameters) => parameters.split_once("> ")?.1,
        None => rest.trim_start(),
    };
    Some(match rest.split_once(" for ") {
        Some((of, name)) => (type_name(name), Of::Impl(of.to_string())),
        None => (type_name(rest), Of::Itself),
    })
}

/// Every function of one file of Rattle.
pub fn functions(krate: &str, source: &str) -> Vec<Function> {
    let mut in_type = String::new();
    let mut of = Of::Itself;
    // Functions of a public trait, and of its `impl`s for public types, are public without the word.
    let mut sealed = true;
    let declares = |words: String| {
        let ends = |rest: &str| !rest.starts_with(|c: char| c.is_alphanumeric() || c == '_');
        let mut lines = source.lines();
        lines.any(|line| line.strip_prefix(words.as_str()).is_some_and(ends))
    };
    let is_sealed = |line: &str, of: &Of, name: &str| match of {
        Of::Itself => true,
        Of::Trait => !line.starts_with("pub "),
        Of::Impl(of) => {
            // Other crates cannot name the trait, the type or what the trait takes, as in `From<Kind> for u64`.
            let (of, takes) = of.trim_end_matches('>').split_once('<').unwrap_or((of, ""));
            declares(format!("trait {of}"))
                || declares(format!("pub(crate) trait {of}"))
                || [name, takes].iter().any(|name| {
                    declares(format!("pub(crate) enum {name}"))
                        || declares(format!("pub(crate) struct {name}"))
                })
        }
    };
    let mut found: Vec<Function> = Vec::new();
    let used = used(source);
    let mut in_signature = false;
    for line in source.lines() {
        if let Some((name, begun)) = owner(line) {
            sealed = is_sealed(line, &begun, &name);
            (in_type, of) = (name, begun);
        } else if line == "}" {
            in_type.clear();
            (of, sealed) = (Of::Itself, true);
        }
        let text = line.trim_start();
        let unsealed = text.strip_prefix("pub ");
        let rest = unsealed.or(text.strip_prefix("pub(crate) "));
        let rest = rest.unwrap_or(text);
        let exported = rest.strip_prefix("extern \"C\" ");
        let rest = exported.unwrap_or(rest);
        if let Some(rest) = rest.strip_prefix("fn ") {
            let name: String = rest
                .chars()
                .take_while(|c| c.is_alphanumeric() || *c == '_')
                .collect();
            let path = if in_type.is_empty() {
                format!("{krate}::{name}")
            } else {
                format!("{krate}::{in_type}::{name}")
            };
            found.push(Function {
                path,
                of: of.clone(),
                public: unsealed.or(exported).is_some() || !sealed,
                // What it promises stands in its trait.
                promises: matches!(of, Of::Impl(_)),
                used: used.clone(),
                ..Function::default()
            });
            in_signature = true;
        }
        let Some(function) = found.last_mut() else {
            continue;
        };
        if clause(text, "requires").is_some() {
            function.asks = true;
        } else if clause(text, "ensures").is_some() {
            function.promises = true;
        } else if in_signature {
            function.signature.push_str(line);
            function.signature.push('\n');
        } else if !text.starts_with("//") {
            function.code.push_str(line);
            function.code.push('\n');
        }
        in_signature &= !text.starts_with('{') && !text.ends_with(" {") && !text.ends_with(';');
    }
    found
}

/// Every function of every crate below `crates/`.
pub fn all_functions(crates: &Path) -> Vec<Function> {
    of_every_source(crates, functions)
}

impl Function {
    fn krate(&self) -> &str {
        self.path.split("::").next().expect("a crate's name")
    }

    fn name(&self) -> &str {
        self.path.rsplit("::").next().expect("a function's name")
    }

    /// What stands before its name in its path.
    fn owner(&self) -> &str {
        &self.path[..self.path.len() - self.name().len()]
    }

    /// The name of its row in docs/PROMISES.md: of a function of a trait of its own crate, the trait's.
    fn row(&self) -> String {
        match &self.of {
            Of::Impl(name)
                if !["From<", "TryFrom<"]
                    .iter()
                    .any(|std| name.starts_with(std)) =>
            {
                format!("{}::{}::{}", self.krate(), type_name(name), self.name())
            }
            _ => self.path.clone(),
        }
    }

    /// The name of its contract below `specs.contracts` of its crate.
    fn contract(&self) -> String {
        let parts: Vec<&str> = self.path.split("::").skip(1).collect();
        match (&self.of, &parts[..]) {
            (Of::Impl(name), [of, function]) => format!("{}{}.{function}", camel(of), camel(name)),
            _ => parts.join("."),
        }
    }

    /// Whether C calls it: a public function of the crate `cableowl`, which `cableowl_c` exports.
    pub fn is_entry(&self) -> bool {
        self.public && self.krate() == "cableowl"
    }

    /// Whether it has a parameter `&mut`.
    fn writes(&self) -> bool {
        self.signature.contains("&mut ")
    }

    /// Whether its code calls the function with this path: a method by `.name(` or `Type::name(`, another function by
    /// its name inside its crate or if a `use` imports it, and otherwise by `crate::name(`. A name may have types, as in
    /// `name::<T>(`. A method of another crate is called only where the file names that crate.
    pub fn calls(&self, path: &str) -> bool {
        self.calls_as(path, true)
    }

    /// The same of a function that has a `self`, or has none: `.name(` does not call that one.
    fn calls_as(&self, path: &str, has_self: bool) -> bool {
        let parts: Vec<&str> = path.split("::").collect();
        let name = parts[parts.len() - 1];
        let same_crate = self.krate() == parts[0];
        let by_name = same_crate || self.used.iter().any(|used| used == path);
        let of_crate = format!("{}::", parts[0]);
        let names_crate = same_crate
            || self.used.iter().any(|used| used.starts_with(&of_crate))
            || self.code.contains(&of_crate);
        if parts.len() == 3 && !names_crate {
            return false;
        }
        let mut calls = self.code.match_indices(name).filter(|(at, _)| {
            let after = &self.code[at + name.len()..];
            let types = after.strip_prefix("::<").and_then(|it| it.split_once(">("));
            let types = types.filter(|(types, _)| !types.contains(['(', ';', '{']));
            after.starts_with('(') || types.is_some()
        });
        calls.any(|(at, _)| {
            let before = &self.code[..at];
            if parts.len() == 3 {
                // A type parameter is one capital letter.
                let parameter = before.strip_suffix("::").and_then(|it| {
                    let word = it.rsplit(|c: char| !c.is_alphanumeric() && c != '_').next();
                    word.filter(|word| word.len() == 1 || *word == "Self")
                });
                return (has_self && before.ends_with('.'))
                    || before.ends_with(&format!("{}::", parts[1]))
                    || parameter.is_some();
            }
            let alone = !before.ends_with(|c: char| c.is_alphanumeric() || "_.:".contains(c));
            before
                .strip_suffix(&of_crate)
                .is_some_and(|b| !b.ends_with(|c: char| c.is_alphanumeric() || c == '_'))
                || (by_name && alone)
        })
    }

    /// Whether its code calls a function, or the same function of a type if that one is a trait's. A private function is
    /// called in its own crate.
    fn is_caller_of(&self, called: &Function, all: &[Function]) -> bool {
        if !called.public && self.krate() != called.krate() {
            return false;
        }
        let has_self = called.signature.contains("self");
        // A type need not have a text of its own for each function of the trait.
        let of_trait = |f: &&Function| {
            called.of == Of::Trait
                && f.of != Of::Trait
                && f.row().strip_suffix(f.name()) == Some(called.owner())
        };
        let types = all.iter().filter(of_trait).map(Function::owner);
        let mut owners = types.chain(iter::once(called.owner()));
        owners.any(|owner| self.calls_as(&format!("{owner}{}", called.name()), has_self))
    }
}

/// The page that lists the functions with a `requires`, and their callers.
pub const EXCEPTIONS: &str = "docs/EXCEPTIONS.md";

/// A row of docs/EXCEPTIONS.md for a function with a `requires`. Its last column lists the callers.
pub struct Row<'a> {
    pub path: &'a str,
    /// Whether the row is in the table of public functions, which also says who guarantees what they require.
    pub public: bool,
    /// The row without its last column: `| ... | ...`.
    kept: &'a str,
}

/// The lines of docs/EXCEPTIONS.md, each with its row if it is one that lists callers.
fn lines_with_rows(exceptions: &str) -> impl Iterator<Item = (&str, Option<Row<'_>>)> {
    let mut has_callers = false;
    let mut public = false;
    exceptions.lines().map(move |line| {
        if line.starts_with("| function |") {
            has_callers = line.ends_with("| called by |");
            public = line.contains("| who guarantees it |");
        }
        let row = line.strip_prefix("| `").filter(|_| has_callers);
        let row = row.and_then(|rest| {
            let path = rest.split('`').next()?;
            // The last column may be empty.
            let (kept, _) = line.strip_suffix('|')?.trim_end().rsplit_once(" |")?;
            Some(Row { path, public, kept })
        });
        (line, row)
    })
}

/// The rows of docs/EXCEPTIONS.md that list callers.
pub fn rows(exceptions: &str) -> Vec<Row<'_>> {
    let rows = lines_with_rows(exceptions).filter_map(|(_, row)| row);
    rows.collect()
}

/// docs/EXCEPTIONS.md with the callers that the sources have: the last column of its first two tables.
/// The callers are sorted by name. The row of a function without a `requires` stays the same.
pub fn with_callers(exceptions: &str, all: &[Function]) -> String {
    let lines = lines_with_rows(exceptions).map(|(line, row)| match row {
        Some(row) => match all.iter().find(|f| f.asks && f.path == row.path) {
            Some(called) => {
                let callers = all.iter().filter(|f| f.is_caller_of(called, all));
                let mut callers: Vec<String> = callers.map(|f| format!("`{}`", f.path)).collect();
                callers.sort_unstable();
                format!("{} | {} |\n", row.kept, callers.join(", "))
            }
            None => format!("{line}\n"),
        },
        None => format!("{line}\n"),
    });
    lines.collect()
}

/// The files that comments of a Rattle or antt source name: words that end in `.rt`, `.antt` or `.md`.
pub fn files_named(source: &str) -> Vec<String> {
    let comment = |line: &&str| {
        let text = line.trim_start();
        text.starts_with("//") || text.starts_with("--")
    };
    source
        .lines()
        .filter(comment)
        .flat_map(|line| line.split(|c: char| !(c.is_alphanumeric() || "_./".contains(c))))
        .map(|word| word.trim_end_matches('.'))
        .filter(|word| {
            [".rt", ".antt", ".md"]
                .iter()
                .any(|end| word.ends_with(end))
        })
        .map(str::to_string)
        .collect()
}
