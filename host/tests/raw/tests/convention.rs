// The C code that host/archive/convention.rs writes for a crate, as archives for Arm contain it.

#[path = "../../../archive/convention.rs"]
mod convention;

use std::path::Path;

use convention::Exports;

const TEXT: &str = "// A pair.\n#[repr(C)]\npub struct Pair {\n    pub first: Half, // held\n    pub all: [f32; 4],\n}\n\n#[repr(C)]\npub struct Half {\n    pub n: u64,\n}\n\n#[unsafe(no_mangle)]\npub extern \"C\" fn pair(h: Half, lent: &[f32], out: &mut [f64], to: &mut f32, words: &[u64; 8], dt: f64) -> Pair\n    ensures { λ r. ⌜ r ≡ made h ⌝ }\n{\n}\n\n#[unsafe(no_mangle)]\npub extern \"C\" fn version() -> u32\n{\n    1\n}\n";

fn read(text: &str) -> Exports {
    let mut exports = Exports::default();
    exports.read(text).unwrap();
    exports
}

#[test]
fn records_go_by_pointer_below_and_by_value_above() {
    let exports = read(TEXT);
    assert!(exports.names().eq(["pair", "version"]));
    assert_eq!(
        exports.signature("pair").unwrap(),
        "void(ptr, ptr, ptr, ptr, ptr, ptr, double)"
    );
    assert_eq!(exports.signature("version").unwrap(), "i32()");
    let c = exports.in_c().unwrap();
    for line in [
        "void module_pair(struct Pair *, const struct Half *, const struct slice *, const struct slice *, float *, const unsigned long *, double);",
        "struct Pair pair(struct Half h, const float *lent, unsigned long lent_len, double *out, unsigned long out_len, float *to, const unsigned long *words, double dt) {",
        "    module_pair(&the_result, &h, &(struct slice){lent, lent_len}, &(struct slice){out, out_len}, to, words, dt);",
        "    float all[4];",
        "    return module_version();",
    ] {
        assert!(c.contains(line), "no `{line}` in\n{c}");
    }
    // A record comes after those that it contains.
    assert!(c.find("struct Half {") < c.find("struct Pair {"));
}

#[test]
fn what_has_no_c_is_said() {
    let said = |text: &str| read(text).in_c().unwrap_err().to_string();
    assert!(said(&TEXT.replace("dt: f64", "dt: i7")).contains("`i7`"));
    assert!(said(&TEXT.replace("n: u64", "n: Lost")).contains("none of C's"));
}

#[test]
fn the_crates_that_are_linked_have_theirs() {
    let src = |name: &str| {
        Path::new(env!("CARGO_MANIFEST_DIR"))
            .join("../../../crates")
            .join(name)
            .join("src")
    };
    for (name, count) in [("cableowl_c", 34), ("test_exports", 20)] {
        let below = [
            "cableowl",
            "c_state",
            "c_inputs",
            "loop_table",
            "loop_copies",
            "trace_records",
            "trace_salvage",
        ]
        .map(src);
        let exports = convention::exports(&src(name), &below).unwrap();
        assert!(exports.names().count() >= count);
        exports.in_c().unwrap();
    }
}
