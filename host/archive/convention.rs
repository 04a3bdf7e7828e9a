// Reads the exported functions of a crate from its text, and writes C code that calls the functions of its module by
// the C convention. clang compiles that code for this processor.

use std::{
    collections::BTreeMap,
    error::Error,
    fmt::Write as _,
    fs,
    path::{Path, PathBuf},
};

type Result<T> = std::result::Result<T, Box<dyn Error>>;

/// What a crate exports: records with `#[repr(C)]`, and functions with `#[unsafe(no_mangle)] pub extern "C"`.
#[derive(Default)]
pub struct Exports {
    records: Vec<(String, Vec<Named>)>,
    functions: BTreeMap<String, Function>,
}

/// A field or a parameter, with its type as Rattle writes it.
struct Named {
    name: String,
    kind: String,
}

struct Function {
    takes: Vec<Named>,
    gives: String,
}

/// The name of the module's function that an exported function calls.
pub fn inner(exported: &str) -> String {
    format!("module_{exported}")
}

/// The exports of the files of `src/`. Their records may be in crates that this crate depends on.
pub fn exports(src: &Path, below: &[PathBuf]) -> Result<Exports> {
    let mut found = Exports::default();
    for src in below {
        for text in texts(src)? {
            found.read_records(&text)?;
        }
    }
    for text in texts(src)? {
        found.read(&text)?;
    }
    Ok(found)
}

/// The texts of a folder, sorted by file name.
fn texts(src: &Path) -> Result<Vec<String>> {
    let mut files: Vec<_> = fs::read_dir(src)?.collect::<std::result::Result<_, _>>()?;
    files.sort_by_key(fs::DirEntry::file_name);
    let read = |file: &fs::DirEntry| Ok(fs::read_to_string(file.path())?);
    files.iter().map(read).collect()
}

/// A text without its comments.
fn plain(text: &str) -> String {
    let lines = text.lines();
    let lines: Vec<&str> = lines
        .map(|line| line.split("//").next().unwrap_or(""))
        .filter(|line| !line.trim_start().starts_with("#[derive"))
        .collect();
    lines.join("\n")
}

impl Exports {
    /// The records of one text.
    fn read_records(&mut self, text: &str) -> Result<()> {
        for rest in plain(text).split("#[repr(C)]").skip(1) {
            let (name, rest) = after(rest, "pub struct ", " {")?;
            let fields = rest
                .split_once('}')
                .ok_or("a record has no end")?
                .0
                .replace("pub ", "");
            self.records.push((name.to_owned(), named(&fields)?));
        }
        Ok(())
    }

    /// The exports of one text.
    pub fn read(&mut self, text: &str) -> Result<()> {
        self.read_records(text)?;
        for rest in plain(text).split("#[unsafe(no_mangle)]").skip(1) {
            let (name, rest) = after(rest, "pub extern \"C\" fn ", "(")?;
            let (takes, rest) = rest
                .split_once(')')
                .ok_or("a function's parameters have no end")?;
            let gives = rest
                .trim_start()
                .strip_prefix("->")
                .ok_or_else(|| format!("{name} gives nothing"))?;
            let gives = gives.split_whitespace().next().unwrap_or("").to_owned();
            let takes = named(takes)?;
            self.functions
                .insert(name.to_owned(), Function { takes, gives });
        }
        Ok(())
    }

    /// The exported functions, sorted by name.
    pub fn names(&self) -> impl Iterator<Item = &str> {
        self.functions.keys().map(String::as_str)
    }

    /// The types of the module's function that an exported function calls: what it returns, then its parameters.
    pub fn signature(&self, exported: &str) -> Result<String> {
        let function = &self.functions[exported];
        let mut takes = Vec::new();
        let gives = match number(&function.gives) {
            Some(number) => number.in_the_module,
            None => {
                takes.push("ptr");
                "void"
            }
        };
        for Named { kind, .. } in &function.takes {
            takes.push(number(kind).map_or("ptr", |number| number.in_the_module));
        }
        Ok(format!("{gives}({})", takes.join(", ")))
    }

    /// C code for each exported function, which calls the module's function.
    pub fn in_c(&self) -> Result<String> {
        let mut c = "/* Made by host/archive/convention.rs: the C convention over the module's functions. */\n\
                     struct slice { const void *start; unsigned long length; };\n"
            .to_owned();
        for (name, fields) in self.in_order()? {
            writeln!(c, "struct {name} {{")?;
            for field in fields {
                let (kind, count) = array(&field.kind);
                let count = count.map_or(String::new(), |count| format!("[{count}]"));
                writeln!(c, "    {} {}{count};", self.by_value(kind)?, field.name)?;
            }
            writeln!(c, "}};")?;
        }
        for (name, function) in &self.functions {
            self.function_in_c(&mut c, name, function)?;
        }
        Ok(c)
    }

    fn function_in_c(&self, c: &mut String, name: &str, function: &Function) -> Result<()> {
        let inner = inner(name);
        let gives = self.by_value(&function.gives)?;
        // The parameters of the module's function, those of the C function, and the arguments that it passes on.
        let (mut below, mut above, mut handed) = (Vec::new(), Vec::new(), Vec::new());
        let is_number = number(&function.gives).is_some();
        if !is_number {
            below.push(format!("{gives} *"));
            handed.push("&the_result".to_owned());
        }
        for Named { name, kind } in &function.takes {
            if let Some((pointed, constant)) = place(kind) {
                let constant = if constant { "const " } else { "" };
                let pointed = format!("{constant}{} *", self.by_value(pointed)?);
                above.push(format!("{pointed}{name}"));
                below.push(pointed);
                handed.push(name.clone());
            } else if let Some((element, constant)) = slice(kind) {
                let element = self.by_value(element)?;
                let constant = if constant { "const " } else { "" };
                below.push("const struct slice *".to_owned());
                above.push(format!(
                    "{constant}{element} *{name}, unsigned long {name}_len"
                ));
                handed.push(format!("&(struct slice){{{name}, {name}_len}}"));
            } else if number(kind).is_some() {
                below.push(self.by_value(kind)?);
                above.push(format!("{} {name}", self.by_value(kind)?));
                handed.push(name.clone());
            } else {
                let record = self.by_value(kind)?;
                below.push(format!("const {record} *"));
                above.push(format!("{record} {name}"));
                handed.push(format!("&{name}"));
            }
        }
        let list = |words: &[String]| {
            if words.is_empty() {
                "void".to_owned()
            } else {
                words.join(", ")
            }
        };
        let handed = handed.join(", ");
        let result = if is_number { gives.as_str() } else { "void" };
        writeln!(c, "{result} {inner}({});", list(&below))?;
        writeln!(c, "{gives} {name}({}) {{", list(&above))?;
        if is_number {
            writeln!(c, "    return {inner}({handed});\n}}")?;
        } else {
            writeln!(
                c,
                "    {gives} the_result;\n    {inner}({handed});\n    return the_result;\n}}"
            )?;
        }
        Ok(())
    }

    /// A number or a record, by value.
    fn by_value(&self, kind: &str) -> Result<String> {
        if let Some(number) = number(kind) {
            return Ok(number.in_c.to_owned());
        }
        if self.records.iter().any(|(name, _)| name == kind) {
            return Ok(format!("struct {kind}"));
        }
        Err(format!(
            "host/archive/convention.rs knows no C for the type `{kind}`: give it one there"
        )
        .into())
    }

    /// The records, each after the records that it contains.
    fn in_order(&self) -> Result<Vec<&(String, Vec<Named>)>> {
        let mut ordered: Vec<&(String, Vec<Named>)> = Vec::new();
        while ordered.len() < self.records.len() {
            let is_known =
                |kind: &str| number(kind).is_some() || ordered.iter().any(|(name, _)| name == kind);
            let next = self
                .records
                .iter()
                .filter(|(name, _)| !is_known(name))
                .find(|(_, fields)| fields.iter().all(|field| is_known(array(&field.kind).0)));
            let next =
                next.ok_or("a record of an exported function holds a type that is none of C's")?;
            ordered.push(next);
        }
        Ok(ordered)
    }
}

/// A number type as C writes it, and as the module does.
struct Number {
    in_c: &'static str,
    in_the_module: &'static str,
}

fn number(kind: &str) -> Option<Number> {
    let (in_c, in_the_module) = match kind {
        "u8" => ("unsigned char", "i8"),
        "u32" => ("unsigned int", "i32"),
        "u64" | "usize" => ("unsigned long", "i64"),
        "f32" => ("float", "float"),
        "f64" => ("double", "double"),
        _ => return None,
    };
    Some(Number {
        in_c,
        in_the_module,
    })
}

/// The target of `&T` or `&mut T`, and whether it is only read.
fn target_of(kind: &str) -> Option<(&str, bool)> {
    let rest = kind.strip_prefix('&')?.trim_start();
    let written = rest.strip_prefix("mut ");
    Some((written.unwrap_or(rest), written.is_none()))
}

/// The element of `&[T]` or `&mut [T]`, and whether it is only read.
fn slice(kind: &str) -> Option<(&str, bool)> {
    let (target, constant) = target_of(kind)?;
    let element = target.strip_prefix('[')?.strip_suffix(']')?;
    Some((element, constant))
}

/// The number type that a reference to a number or to an array of numbers refers to, and whether it is only read.
fn place(kind: &str) -> Option<(&str, bool)> {
    let (target, constant) = target_of(kind)?;
    let (element, _) = array(target);
    number(element).map(|_| (element, constant))
}

/// The element of `[T; N]` and N, or the type itself.
fn array(kind: &str) -> (&str, Option<&str>) {
    let inside = kind
        .strip_prefix('[')
        .and_then(|rest| rest.strip_suffix(']'));
    match inside.and_then(|inside| inside.split_once(';')) {
        Some((element, count)) => (element.trim(), Some(count.trim())),
        None => (kind, None),
    }
}

/// The text between two words at the start of a text, and the text after them.
fn after<'a>(text: &'a str, start: &str, end: &str) -> Result<(&'a str, &'a str)> {
    let head = text.trim_start();
    let found = head
        .strip_prefix(start)
        .and_then(|rest| rest.split_once(end));
    let line = head.lines().next().unwrap_or("");
    found.ok_or_else(|| {
        format!("`{start}NAME{end}` was looked for, and this was found: {line}").into()
    })
}

/// `name: type, name: type`.
fn named(list: &str) -> Result<Vec<Named>> {
    let each = list.split(',').map(str::trim).filter(|one| !one.is_empty());
    each.map(|one| {
        let (name, kind) = one
            .split_once(':')
            .ok_or_else(|| format!("`{one}` has no type"))?;
        Ok(Named {
            name: name.trim().to_owned(),
            kind: kind.trim().to_owned(),
        })
    })
    .collect()
}
