//! Compares the declarations of the C interface with each other (the archive's own source, `cableowl.h` and
//! `cableowl-sys`), and calls the archive from C.

use std::{
    collections::BTreeMap,
    fs,
    io::{self, Write},
    mem::size_of,
    path::{Path, PathBuf},
    process::Command,
};

use crate::{MAX_BLOCK_FRAMES, PlaybackState, Refusal, ffi};

/// A field: its name and its type as Rust writes it.
type Field = (String, String);
/// The structs in their order, each with its fields in their order.
type Structs = Vec<(String, Vec<Field>)>;
/// The functions by their names, each with its parameters and the type that it returns.
type Functions = BTreeMap<String, (Vec<Field>, String)>;

fn here() -> &'static Path {
    Path::new(env!("CARGO_MANIFEST_DIR"))
}

fn read(path: &str) -> String {
    let path = here().join(path);
    fs::read_to_string(&path).unwrap_or_else(|error| panic!("{}: {error}", path.display()))
}

/// The name of a struct in `cableowl-sys`.
fn short(name: &str) -> String {
    name.replace("Cableowl", "")
}

/// The `#[repr(C)]` structs of Rust or Rattle text.
fn rust_structs(text: &str) -> Structs {
    let in_c_order = text.split("#[repr(C)]").skip(1);
    in_c_order
        .map(|text| {
            let (_, text) = text.split_once("pub struct ").expect("a struct");
            let (name, rest) = text.split_once('{').expect("its fields");
            let (fields, _) = rest.split_once('}').expect("its end");
            let fields = fields.lines().filter_map(|line| {
                let (name, kind) = line.trim().strip_prefix("pub ")?.split_once(": ")?;
                Some((name.into(), short(kind.trim_end_matches(','))))
            });
            (short(name.trim()), fields.collect())
        })
        .collect()
}

/// The functions of `extern "C"` blocks.
fn rust_functions(text: &str) -> Functions {
    let blocks = text.split("unsafe extern \"C\" {").skip(1);
    let blocks = blocks.map(|text| text.split_once("\n}").expect("its end").0);
    blocks
        .flat_map(|block| block.split("fn ").skip(1))
        .map(|text| {
            let (text, _) = text.split_once(';').expect("its end");
            let (name, rest) = text.split_once('(').expect("its parameters");
            let (parameters, returned) = rest.split_once(')').expect("their end");
            let parameters = parameters.split(',').filter_map(|parameter| {
                let (name, kind) = parameter.trim().split_once(": ")?;
                Some((name.into(), kind.into()))
            });
            let returned = returned.trim().trim_start_matches("-> ");
            (name.into(), (parameters.collect(), returned.into()))
        })
        .collect()
}

/// A type of the header as Rust writes it.
fn in_rust(kind: &str) -> String {
    match kind {
        "float" => "f32".into(),
        "double" => "f64".into(),
        "uint8_t" => "u8".into(),
        "uint32_t" => "u32".into(),
        "uint64_t" => "u64".into(),
        "int64_t" => "i64".into(),
        "size_t" => "usize".into(),
        other => short(other),
    }
}

/// The functions that the header declares and does not define.
fn c_functions(text: &str) -> Functions {
    let is_declared =
        |line: &str| line.contains(" cableowl_") && line.starts_with(char::is_alphanumeric);
    let starts = text.match_indices('\n').map(|(at, _)| &text[at + 1..]);
    starts
        .filter(|text| is_declared(text.lines().next().unwrap_or_default()))
        .filter(|text| !text.starts_with("static"))
        .map(|text| {
            let (text, _) = text.split_once(';').expect("its end");
            let (returned, rest) = text.split_once(' ').expect("a name");
            let (name, parameters) = rest.split_once('(').expect("its parameters");
            let parameters = parameters.trim_end_matches(')').split(',');
            let parameters = parameters.filter_map(|parameter| {
                let (kind, name) = parameter.trim().rsplit_once(' ')?;
                let pointed = |kind: &str| match kind.strip_prefix("const ") {
                    Some(kind) => format!("*const {}", in_rust(kind)),
                    None => format!("*mut {}", in_rust(kind)),
                };
                Some(match name.strip_prefix('*') {
                    Some(name) => (name.into(), pointed(kind)),
                    None => (name.into(), in_rust(kind)),
                })
            });
            (name.into(), (parameters.collect(), in_rust(returned)))
        })
        .collect()
}

/// The structs of the header.
fn c_structs(text: &str) -> Structs {
    let structs = text.split("typedef struct ").skip(1);
    structs
        .map(|text| {
            let (name, rest) = text.split_once('{').expect("its fields");
            let (fields, _) = rest.split_once('}').expect("its end");
            let fields = fields.lines().filter_map(|line| {
                let (kind, name) = line.trim().split_once(';')?.0.split_once(' ')?;
                let kind = in_rust(kind);
                Some(match name.split_once('[') {
                    Some((name, many)) => {
                        let many = many.trim_end_matches(']');
                        (name.into(), format!("[{kind}; {many}]"))
                    }
                    None => (name.into(), kind),
                })
            });
            (short(name.trim()), fields.collect())
        })
        .collect()
}

fn header_text() -> String {
    read("../include/cableowl.h")
}

fn sys_text() -> String {
    read("../sys/src/lib.rs")
}

/// The header's constants: those of its enums and its plain numbers.
fn constants(header: &str) -> BTreeMap<&str, u64> {
    let words = header.split(|c: char| !c.is_ascii_alphanumeric() && c != '_');
    let words: Vec<&str> = words.filter(|word| !word.is_empty()).collect();
    let pairs = words.windows(2);
    pairs
        .filter(|pair| pair[0].starts_with("CABLEOWL_"))
        .filter_map(|pair| Some((pair[0], pair[1].parse().ok()?)))
        .collect()
}

/// Size and alignment of a type by C's rules, and a struct's offsets.
fn layout(structs: &Structs, kind: &str, offsets: &mut Vec<usize>) -> (usize, usize) {
    match kind {
        "u32" | "f32" => return (4, 4),
        "u64" | "i64" | "f64" => return (8, 8),
        _ => {}
    }
    if let Some(array) = kind.strip_prefix('[') {
        let (kind, many) = array
            .trim_end_matches(']')
            .split_once("; ")
            .expect("a length");
        let (size, align) = layout(structs, kind, &mut Vec::new());
        return (many.parse::<usize>().expect("a number") * size, align);
    }
    let (_, fields) = structs
        .iter()
        .find(|(name, _)| name == kind)
        .unwrap_or_else(|| panic!("no struct {kind}"));
    let (mut end, mut most) = (0_usize, 1);
    for (_, kind) in fields {
        let (size, align) = layout(structs, kind, &mut Vec::new());
        let start = end.next_multiple_of(align);
        offsets.push(start);
        (end, most) = (start + size, most.max(align));
    }
    (end.next_multiple_of(most), most)
}

/// C assertions that each struct has this size, and each field this offset.
fn assertions(structs: &Structs) -> String {
    let mut lines = String::new();
    for (name, fields) in structs {
        let mut offsets = Vec::new();
        let (size, _) = layout(structs, name, &mut offsets);
        lines += &format!("_Static_assert(sizeof(Cableowl{name}) == {size}, \"size\");\n");
        for ((field, _), offset) in fields.iter().zip(offsets) {
            lines += &format!(
                "_Static_assert(offsetof(Cableowl{name}, {field}) == {offset}, \"{field}\");\n"
            );
        }
    }
    lines
}

/// A folder of one test's own, removed at the end.
struct Folder(PathBuf);

impl Folder {
    fn new(name: &str) -> Self {
        let name = format!("cableowl-{name}-{}", std::process::id());
        let path = std::env::temp_dir().join(name);
        fs::create_dir_all(&path).unwrap();
        Self(path)
    }
}

impl Drop for Folder {
    fn drop(&mut self) {
        // An error leaves files only in the system's folder for temporary files.
        let _ = fs::remove_dir_all(&self.0);
    }
}

/// Compiles a C program of tests/c together with more C text, links the archive and runs it. The program must find no
/// difference.
fn run_c(name: &str, more: &str) {
    if Command::new("cc").arg("--version").output().is_err() {
        // Written past the test's capture, so that a person sees it.
        let _ = writeln!(
            io::stderr(),
            "skipped: no C compiler 'cc' on PATH, so {name}.c was not tried"
        );
        return;
    }
    let Some(archive) = ffi::LINKED_ARCHIVE else {
        panic!("built without the archive");
    };
    let folder = Folder::new(name);
    let (beside, program) = (folder.0.join("beside.c"), folder.0.join(name));
    let text = format!("#include <stddef.h>\n#include \"cableowl.h\"\n{more}");
    fs::write(&beside, text).unwrap();
    let compiled = Command::new("cc")
        .args([
            "-std=c11",
            "-O1",
            "-Wall",
            "-Wextra",
            "-Wpedantic",
            "-Werror",
            "-pthread",
            "-I",
        ])
        .arg(here().join("../include"))
        .arg(here().join(format!("tests/c/{name}.c")))
        .arg(&beside)
        .arg(archive)
        .arg("-o")
        .arg(&program)
        .output()
        .unwrap();
    let said = String::from_utf8_lossy(&compiled.stderr);
    assert!(compiled.status.success(), "cc refused it:\n{said}");
    let run = Command::new(&program).output().unwrap();
    assert_eq!(String::from_utf8_lossy(&run.stdout), "0 differ\n");
    assert!(run.status.success());
}

#[test]
fn three_declarations_are_one() {
    let sources = [
        "c_state/src/lib",
        "c_inputs/src/lib",
        "cableowl/src/lib",
        "loop_table/src/lib",
        "cableowl/src/loops",
        "loop_copies/src/lib",
        "cableowl/src/copies",
        "cableowl/src/traces",
        "cableowl/src/replays",
    ];
    let sources = sources.map(|name| read(&format!("../../crates/{name}.rt")));
    // An offset in bytes has 64 bits on every processor that the archive is made for.
    let ours = rust_structs(&sources.concat().replace(": usize,", ": u64,"));
    let fields: usize = ours.iter().map(|(_, fields)| fields.len()).sum();
    assert!(ours.len() >= 11 && fields >= 58, "they are read: {ours:?}");
    // Saved settings and halves are words in the archive's source, and records only in C and Rust.
    let [in_c, in_rust] = [c_structs(&header_text()), rust_structs(&sys_text())];
    assert_eq!(in_c, in_rust, "cableowl.h and cableowl-sys");
    let is_named =
        |(name, _): &(String, Vec<Field>)| !["SavedSettings", "LoopHalf"].contains(&name.as_str());
    let named: Structs = in_c.into_iter().filter(is_named).collect();
    assert_eq!(named, ours, "cableowl.h");
    for (name, size) in [
        ("Entry", size_of::<ffi::Entry>()),
        ("State", size_of::<ffi::State>()),
        ("Place", size_of::<ffi::Place>()),
        ("Region", size_of::<ffi::Region>()),
        ("Settings", size_of::<ffi::Settings>()),
        ("Commands", size_of::<ffi::Commands>()),
        ("Signals", size_of::<ffi::Signals>()),
        ("Created", size_of::<ffi::Created>()),
        ("Commanded", size_of::<ffi::Commanded>()),
        ("Processed", size_of::<ffi::Processed>()),
        ("Part", size_of::<ffi::Part>()),
        ("LoopSlot", size_of::<ffi::LoopSlot>()),
        ("LoopTable", size_of::<ffi::LoopTable>()),
        ("LoopChanged", size_of::<ffi::LoopChanged>()),
        ("LoopFound", size_of::<ffi::LoopFound>()),
        ("LoopCopy", size_of::<ffi::LoopCopy>()),
        ("CopyChanged", size_of::<ffi::CopyChanged>()),
        ("Record", size_of::<ffi::Record>()),
        ("Sent", size_of::<ffi::Sent>()),
        ("Saved", size_of::<ffi::Saved>()),
        ("Replay", size_of::<ffi::Replay>()),
        ("Replayed", size_of::<ffi::Replayed>()),
    ] {
        let (by_rule, _) = layout(&ours, name, &mut Vec::new());
        assert_eq!(size, by_rule, "{name}");
    }
}

/// The name of a variant as the header spells it, after a `_`.
fn in_c(name: &str) -> String {
    let mut spelt = String::new();
    for letter in name.chars() {
        if letter.is_uppercase() {
            spelt.push('_');
        }
        spelt.push(letter.to_ascii_uppercase());
    }
    spelt
}

/// The variants of the enum of the crate `refusals`, counted from 1 in their order.
fn refusals() -> BTreeMap<String, u64> {
    let text = read("../../crates/refusals/src/lib.rt");
    let (_, text) = text.split_once("pub enum Refusal {").expect("the enum");
    let (text, _) = text.split_once("\n}").expect("its end");
    let variants = text.lines().filter_map(|line| {
        let name = line.trim().strip_suffix(',')?;
        let is_name = name.chars().all(|letter| letter.is_ascii_alphanumeric());
        is_name.then(|| in_c(name).trim_start_matches('_').to_string())
    });
    variants.zip(1..).collect()
}

#[test]
fn refusals_have_the_names_of_the_header() {
    let header = header_text();
    let named = constants(&header).into_iter();
    let in_c: BTreeMap<String, u64> = named
        .filter_map(|(name, number)| {
            let name = name.strip_prefix("CABLEOWL_REFUSAL_")?;
            Some((name.to_string(), number))
        })
        .collect();
    assert_eq!(in_c.len(), 28);
    assert_eq!(refusals(), in_c);
}

#[test]
fn rust_declares_each_function_of_the_header() {
    let [in_c, in_rust] = [c_functions(&header_text()), rust_functions(&sys_text())];
    assert!(in_c.len() >= 23, "they are read: {in_c:?}");
    assert_eq!(in_c, in_rust, "cableowl.h and cableowl-sys");
}

#[test]
fn a_slip_in_a_function_is_seen() {
    let header = header_text();
    let ours = c_functions(&header);
    for (from, to) in [
        (
            "cableowl_stretch(CableowlState state, const",
            "cableowl_stretch(CableowlState state,",
        ),
        ("uint64_t from,\n", "uint32_t from,\n"),
        (
            "CableowlPart cableowl_stretch",
            "CableowlSent cableowl_stretch",
        ),
        (", float *to)", ", double *to)"),
        (
            "uint32_t hall, uint64_t slot);",
            "uint64_t slot, uint32_t hall);",
        ),
    ] {
        let slipped = header.replacen(from, to, 1);
        assert_ne!(slipped, header, "{from} is there");
        assert_ne!(c_functions(&slipped), ours, "{from}");
    }
}

#[test]
fn a_slip_in_a_struct_is_seen() {
    let header = header_text();
    let ours = c_structs(&header);
    for (from, to) in [
        ("uint32_t reverse;", "uint64_t reverse;"),
        ("double position;", "float position;"),
        (
            "    uint32_t started;\n    uint32_t playing;",
            "    uint32_t playing;\n    uint32_t started;",
        ),
        ("    uint64_t length;\n", ""),
    ] {
        let slipped = header.replacen(from, to, 1);
        assert_ne!(slipped, header, "{from} is there");
        assert_ne!(c_structs(&slipped), ours, "{from}");
    }
}

#[test]
fn constants_are_rust_s() {
    let header = header_text();
    let constants = constants(&header);
    let value = |name: &str| {
        let found = constants.get(name).copied();
        found.unwrap_or_else(|| panic!("cableowl.h has no {name}"))
    };
    assert_eq!(value("CABLEOWL_VERSION"), crate::version().into());
    assert_eq!(value("CABLEOWL_MAX_BLOCK_FRAMES"), MAX_BLOCK_FRAMES as u64);
    let named = |prefix: &str| {
        let of_this_kind = constants
            .iter()
            .filter(|(name, _)| name.starts_with(prefix));
        let mut numbers: Vec<u64> = of_this_kind.map(|(_, number)| *number).collect();
        numbers.sort_unstable();
        numbers
    };
    assert_eq!(named("CABLEOWL_STATE_"), Vec::from_iter(0..7));
    let refusals = named("CABLEOWL_REFUSAL_");
    assert!(
        refusals.is_sorted_by(|one, next| one < next),
        "{refusals:?}"
    );
    for prefix in ["PLACE", "LOOP", "RESUME", "ANSWER"] {
        assert_eq!(named(&format!("CABLEOWL_{prefix}_")), [0, 1, 2], "{prefix}");
    }
    for state in PlaybackState::ALL {
        let name = format!("CABLEOWL_STATE{}", in_c(&format!("{state:?}")));
        assert_eq!(value(&name), state.number().into());
    }
    for refusal in Refusal::PLAIN {
        let name = format!("CABLEOWL_REFUSAL{}", in_c(&format!("{refusal:?}")));
        assert_eq!(value(&name), refusal.number().into());
    }
    assert_eq!(refusals.len(), Refusal::PLAIN.len() + 2, "lane and advance");
    assert_eq!(value("CABLEOWL_REFUSAL_LANE"), 11);
    assert_eq!(value("CABLEOWL_REFUSAL_ADVANCE"), 12);
}

#[test]
fn header_agrees_and_c_can_call_each_entry() {
    let header = header_text();
    let mut more = assertions(&c_structs(&header));
    for (name, number) in constants(&header) {
        more += &format!("_Static_assert({name} == {number}, \"{name}\");\n");
    }
    run_c("calls", &more);
}

#[test]
fn c_has_the_sentences_of_rust() {
    let texts = (0..40).map(|number| {
        let text = Refusal::text(number).unwrap_or(match number {
            0 => "accepted",
            _ => "no refusal has this number",
        });
        format!("{text:?},\n")
    });
    let texts: String = texts.collect();
    run_c(
        "refusals",
        &format!("const char *const TEXTS[40] = {{\n{texts}}};\n"),
    );
    for refusal in Refusal::PLAIN {
        let number = refusal.number();
        let text = Refusal::text(number).expect("a sentence");
        assert_eq!(refusal.to_string(), format!("refusal {number}: {text}"));
    }
    let last = Refusal::Queue.number();
    assert_eq!(Refusal::text(last + 1), None);
}

#[test]
fn a_call_needs_4_kilobytes_of_stack_at_most_one_of_a_trace_12_of_version_2_64() {
    run_c("stack", "");
}

#[test]
fn c_in_any_float_mode() {
    run_c("float_mode", "");
}
