//! The records of promises: functions that do nothing, whose contract is one record with a field for each theorem.
//! Finds which theorems have a hypothesis, and whether the record `Witnesses` beside them has an input that meets it.

use super::{clause, of_every_source, sorted};
use std::fs;
use std::path::Path;

/// The definitions of one crate: each file of its `specs/`, by name and text.
pub struct Specs(pub Vec<(String, String)>);

/// One promise, or one witness: its name and its type.
#[derive(Clone, Debug, PartialEq)]
pub struct Field {
    pub name: String,
    pub says: String,
}

/// A function whose contract is a record.
pub struct Record {
    /// the function, `crate::promised`
    pub function: String,
    pub krate: String,
    /// the file of `specs/` that has the record
    pub file: String,
    pub fields: Vec<Field>,
}

/// Every function below `crates/` whose contract is only one name, with the record of that name.
pub fn all_records(crates: &Path) -> Vec<Record> {
    let contracts = of_every_source(crates, |krate, source| {
        let named = record_contracts(krate, source);
        let with_crate = |(function, file, name)| (krate.to_string(), function, file, name);
        named.into_iter().map(with_crate).collect()
    });
    let record = |(krate, function, file, name): (String, String, String, String)| {
        let specs = Specs::of(crates, &krate);
        let text = specs.file(&file);
        let text = text.unwrap_or_else(|| panic!("{function}: no specs/{file}.antt"));
        let fields = fields(text, &name);
        let fields = fields.unwrap_or_else(|| panic!("{function}: {file} has no record {name}"));
        Record {
            function,
            krate,
            file,
            fields,
        }
    };
    contracts.into_iter().map(record).collect()
}

/// The functions of a source whose contract is one name: the function, the file that defines the name, the name.
pub fn record_contracts(krate: &str, source: &str) -> Vec<(String, String, String)> {
    let mut function = String::new();
    let mut found = Vec::new();
    for line in source.lines().map(str::trim_start) {
        let after_pub = line.strip_prefix("pub ").unwrap_or(line);
        if let Some(rest) = after_pub.strip_prefix("fn ") {
            function = format!("{krate}::{}", rest.split('(').next().expect("a name"));
        }
        let contract = clause(line, "ensures").and_then(|says| says.split_once('}'));
        let Some(name) = contract.map(|(name, _)| name.trim()) else {
            continue;
        };
        if is_name(name) {
            let file = file_of(krate, source, name);
            found.push((function.clone(), file, name.to_string()));
        }
    }
    found
}

/// The file of the crate's `specs/` from which a source imports a name. A list of names may take several lines.
fn file_of(krate: &str, source: &str, name: &str) -> String {
    let start = format!("ghost use Rattle.{krate}.specs.");
    let mut imports = source.split(start.as_str()).skip(1);
    let file = imports.find_map(|import| {
        let (file, names) = import.split_once(".{")?;
        let (names, _) = names.split_once('}')?;
        let mut names = names.split(',').map(str::trim);
        names.any(|n| n == name).then(|| file.to_string())
    });
    file.unwrap_or_else(|| panic!("{krate}: no file of specs/ is used for {name}"))
}

impl Specs {
    /// The functions of a crate.
    pub fn of(crates: &Path, krate: &str) -> Self {
        let folder = crates.join(krate).join("specs");
        let files = sorted(&folder).into_iter().filter_map(|file| {
            let name = file.strip_suffix(".antt")?.to_string();
            let text = fs::read_to_string(folder.join(&file)).expect("a definition is text");
            Some((name, text))
        });
        Self(files.collect())
    }

    pub fn file(&self, name: &str) -> Option<&str> {
        let file = self.0.iter().find(|(file, _)| file == name);
        file.map(|(_, text)| text.as_str())
    }

    /// The file that defines a name.
    pub fn home(&self, name: &str) -> Option<&str> {
        let defines = |text: &str| text.lines().any(|line| defines(line, name));
        let file = self.0.iter().find(|(_, text)| defines(text));
        file.map(|(file, _)| file.as_str())
    }

    /// The hypotheses of a type: a list for each statement in it that has any. A name is looked up, and the fields of a
    /// record are separate statements.
    pub fn asked(&self, says: &str) -> Vec<Vec<String>> {
        let says = open(&says.split_whitespace().collect::<Vec<_>>().join(" ")).to_string();
        if is_name(&says) {
            return self.asked_by_name(&says);
        }
        let mut steps: Vec<String> = split(&says, '→').iter().map(|s| open(s).into()).collect();
        let promised = steps.pop().expect("what is promised");
        let asked: Vec<String> = steps.iter().flat_map(|step| asked_in(step)).collect();
        let mut found = Vec::new();
        if !asked.is_empty() {
            found.push(asked);
        }
        for part in split(unlet(&promised), '×') {
            if part.len() < says.len() {
                found.extend(self.asked(&part));
            } else if let Some(name) = head(&part) {
                found.extend(self.asked_by_record(name));
            }
        }
        found
    }

    fn asked_by_name(&self, name: &str) -> Vec<Vec<String>> {
        let text = self.home(name).and_then(|file| self.file(file));
        match text.and_then(|text| body(text, name)) {
            Some(body) => self.asked(&body),
            None => self.asked_by_record(name),
        }
    }

    /// The hypotheses of the fields of a record. Conditions inside a theorem's conclusion count like its hypothesis.
    fn asked_by_record(&self, name: &str) -> Vec<Vec<String>> {
        let text = self.home(name).and_then(|file| self.file(file));
        let fields = text.and_then(|text| fields(text, name));
        let fields = fields.unwrap_or_default();
        fields.iter().flat_map(|f| self.asked(&f.says)).collect()
    }
}

/// The first line of the definition of a name.
fn defines(line: &str, name: &str) -> bool {
    let rest = ["pub record ", "abbrev pub ", "unfoldable pub "]
        .iter()
        .find_map(|start| line.strip_prefix(start));
    rest.and_then(|rest| rest.split_whitespace().next()) == Some(name)
}

/// The fields of a record, if the text has it.
pub fn fields(text: &str, record: &str) -> Option<Vec<Field>> {
    let start = format!("pub record {record} ");
    let mut lines = text.lines().skip_while(|line| !line.starts_with(&start));
    lines.next()?;
    let mut found: Vec<Field> = Vec::new();
    for line in lines.take_while(|line| line.starts_with("  ")) {
        if let Some(rest) = line.strip_prefix("  pub ") {
            let (name, says) = rest.split_once(" :").expect("a field has a type");
            found.push(Field {
                name: name.to_string(),
                says: says.trim_start().to_string(),
            });
        } else if let (false, Some(field)) = (line.trim_start().starts_with("--"), found.last_mut())
        {
            field.says.push(' ');
            field.says.push_str(line.trim());
        }
    }
    Some(found)
}

/// The definition of a name.
fn body(text: &str, name: &str) -> Option<String> {
    let start = format!("{name} =");
    let mut lines = text.lines().skip_while(|line| !line.starts_with(&start));
    let first = lines.next()?[start.len()..].trim().to_string();
    let rest = lines.take_while(|line| line.starts_with("  "));
    Some(rest.fold(first, |all, line| format!("{all} {}", line.trim())))
}

/// What is wrong with the witnesses of a record of promises, in words.
///
/// Each theorem has at most one hypothesis, which has a name, so that no other can be added unseen. The witness of the
/// same name states the hypothesis for one input.
pub fn unmet(specs: &Specs, record: &Record, is_defined: impl Fn(&str) -> bool) -> Vec<String> {
    let witnesses = specs
        .home("Witnesses")
        .and_then(|file| fields(specs.file(file)?, "Witnesses"))
        .unwrap_or_default();
    let mut wrong = Vec::new();
    let mut asking = Vec::new();
    for field in &record.fields {
        let name = format!("{}, {}", record.function, field.name);
        let asked = specs.asked(&field.says);
        if asked.is_empty() {
            continue;
        }
        asking.push(field.name.clone());
        for asks in &asked {
            if asks.len() > 1 {
                wrong.push(format!(
                    "{name}: a theorem asks one thing, by one name, and this one asks {}",
                    asks.join(" and ")
                ));
            }
            for thing in asks {
                if !head(thing).is_some_and(&is_defined) {
                    wrong.push(format!(
                        "{name}: what it asks has no name of its own: {thing}"
                    ));
                }
            }
        }
        let mut names = heads(asked.iter().flatten());
        let Some(witness) = witnesses.iter().find(|w| w.name == field.name) else {
            wrong.push(format!(
                "{name}: Witnesses has no field of that name, so nothing says that {} is ever met",
                names.join(", ")
            ));
            continue;
        };
        let mut met = heads(split(&witness.says, '×').iter());
        names.sort();
        names.dedup();
        met.sort();
        met.dedup();
        if names != met {
            wrong.push(format!(
                "{name}: it asks {}, and its witness meets {}",
                names.join(", "),
                met.join(", ")
            ));
        }
    }
    for witness in witnesses.iter().filter(|w| !asking.contains(&w.name)) {
        wrong.push(format!(
            "{}: the witness {} has no promise that asks something",
            record.function, witness.name
        ));
    }
    wrong
}

/// The names of a promise's hypotheses, each once, in their order.
pub fn names_asked(specs: &Specs, field: &Field) -> Vec<String> {
    let mut found = Vec::new();
    for name in heads(specs.asked(&field.says).iter().flatten()) {
        if !found.contains(&name) {
            found.push(name);
        }
    }
    found
}

fn heads<'a>(things: impl Iterator<Item = &'a String>) -> Vec<String> {
    things
        .map(|thing| head(thing).unwrap_or(thing).to_string())
        .collect()
}

/// The name of a hypothesis, if it is a name with arguments.
fn head(thing: &str) -> Option<&str> {
    let thing = open(thing);
    let operator = |c| ['≡', '≤', '<', '×', '⊎', '→'].contains(&c);
    let plain = !thing
        .char_indices()
        .any(|(at, c)| operator(c) && depth(&thing[..at]) == 0);
    let name = thing.split_whitespace().next()?;
    (plain && is_name(name)).then_some(name)
}

fn is_name(text: &str) -> bool {
    text.starts_with(char::is_uppercase) && text.chars().all(char::is_alphanumeric)
}

/// The hypothesis of one step of a theorem: all of it, or in binders what is not a plain input, as in `(k : ℕ) (none :
/// k ≡ 0)`.
fn asked_in(step: &str) -> Vec<String> {
    let Some(types) = bound(step) else {
        return vec![unlet(step).to_string()];
    };
    types.into_iter().filter(|of| !is_input(of)).collect()
}

/// The type of an input: a name, a list, or a function between such.
fn is_input(of: &str) -> bool {
    split(of, '→').iter().all(|part| {
        let part = open(part).trim_start_matches("List ");
        part == "ℕ" || is_name(open(part))
    })
}

/// The types of binders, if there is nothing but binders: `(a : A) (b c : B)`.
fn bound(step: &str) -> Option<Vec<String>> {
    let mut rest = step.trim();
    let mut types = Vec::new();
    while let Some(inside) = rest.strip_prefix('(') {
        let end = closing(inside)?;
        let (colon, _) = inside[..end]
            .match_indices(" : ")
            .find(|(at, _)| depth(&inside[..*at]) == 0)?;
        types.push(inside[colon + 3..end].to_string());
        rest = inside[end + 1..].trim();
    }
    rest.is_empty().then_some(types)
}

/// Where the bracket closes that is open at the beginning.
fn closing(inside: &str) -> Option<usize> {
    let closes = |&(at, c): &(usize, char)| c == ')' && depth(&inside[..at]) == 0;
    inside.char_indices().find(closes).map(|(at, _)| at)
}

/// How many brackets are open at the end of a text.
fn depth(text: &str) -> i32 {
    text.chars().fold(0, |depth, c| match c {
        '(' | '{' => depth + 1,
        ')' | '}' => depth - 1,
        _ => depth,
    })
}

/// The parts of a text between signs that are outside all brackets.
fn split(text: &str, sign: char) -> Vec<String> {
    let mut parts = vec![String::new()];
    let mut open = 0;
    for c in text.chars() {
        match c {
            '(' | '{' => open += 1,
            ')' | '}' => open -= 1,
            _ => {}
        }
        if c == sign && open == 0 {
            parts.push(String::new());
        } else {
            parts.last_mut().expect("a part").push(c);
        }
    }
    let trimmed = parts.iter().map(|part| part.trim().to_string());
    trimmed.collect()
}

/// A text without the brackets around all of it. Binders keep theirs.
fn open(text: &str) -> &str {
    let text = text.trim();
    let inside = text.strip_prefix('(').filter(|_| bound(text).is_none());
    let inside = inside.filter(|inside| closing(inside) == Some(inside.len() - 1));
    inside.map_or(text, |inside| open(&inside[..inside.len() - 1]))
}

/// A text after its `let .. in`.
fn unlet(text: &str) -> &str {
    let text = text.trim();
    if !text.starts_with("let ") {
        return text;
    }
    let mut ends = text.match_indices(" in ");
    let end = ends.find(|(at, _)| depth(&text[..*at]) == 0);
    end.map_or(text, |(at, _)| unlet(&text[at + 4..]))
}

/// A row of a record's table in docs/PROMISES.md.
pub struct Row {
    pub fields: Vec<String>,
    pub file: String,
    pub asks: Vec<String>,
    pub edits: Vec<String>,
}

/// The table of a record in docs/PROMISES.md: the rows below the heading that names its function.
pub fn table(page: &str, function: &str) -> Vec<Row> {
    let heading = format!("### `{function}`");
    let names = |cell: &str| -> Vec<String> {
        let names = cell.split(", ").map(|name| name.trim_matches('`').into());
        names.collect()
    };
    page.lines()
        .skip_while(|line| *line != heading)
        .skip_while(|line| *line != "| field | file | says | asks | edits |")
        .skip(2)
        .take_while(|line| line.starts_with("| `"))
        .map(|line| {
            let cells = line.trim_start_matches("| ").trim_end_matches(" |");
            let cells: Vec<&str> = cells.split(" | ").collect();
            assert_eq!(cells.len(), 5, "not five cells: {line}");
            Row {
                fields: names(cells[0]),
                file: cells[1].to_string(),
                asks: names(cells[3]),
                edits: names(cells[4]),
            }
        })
        .collect()
}
