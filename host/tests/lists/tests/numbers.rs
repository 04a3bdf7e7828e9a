// The committed list is the generated one, and its lines have the documented layout.

use std::{collections::BTreeSet, fs};

const COMMITTED: &str = concat!(
    env!("CARGO_MANIFEST_DIR"),
    "/../../../crates/test_numbers_list/stdin"
);

#[test]
fn committed_list_is_the_generated_one() {
    let committed = fs::read_to_string(COMMITTED).unwrap();
    assert!(committed == lists::numbers(), "run `lists numbers` again");
}

#[test]
fn lines_have_one_shape() {
    let list = lists::numbers();
    let mut kinds = BTreeSet::new();
    for line in list.strip_suffix('\n').unwrap().split('\n') {
        let fields: Vec<&str> = line.split(' ').collect();
        let lengths: Vec<usize> = fields.iter().map(|field| field.len()).collect();
        assert_eq!(lengths, [1, 16, 8, 16], "{line}");
        let hex = |c: char| c.is_ascii_digit() || ('a'..='f').contains(&c);
        assert!(fields[1..].concat().chars().all(hex), "{line}");
        let given = f64::from_bits(u64::from_str_radix(fields[1], 16).unwrap());
        assert!(!given.is_nan(), "{line}");
        kinds.extend(fields[0].chars());
    }
    assert_eq!(kinds.iter().collect::<String>(), "cmnr");
}

#[test]
fn known_cases_are_there() {
    let list = lists::numbers();
    for case in [
        // 1 - 2^-25 narrows to 1
        (1.0 - 2f64.powi(-25), 'n', 0, 0x3f80_0000),
        // the double below one half rounds down
        (0.5f64.next_down(), 'r', 1, 0),
        (0.5, 'r', 1, 1),
        (2.5, 'r', 1, 3),
        (2.5, 'c', 1, 2),
        (-0.0, 'r', 1, 0),
        (f64::INFINITY, 'r', 1, 1 << 32),
        (f64::NEG_INFINITY, 'c', 768_000, 0),
    ] {
        let (given, kind, rate, answer): (f64, char, u32, u64) = case;
        let line = format!("{kind} {:016x} {rate:08x} {answer:016x}\n", given.to_bits());
        assert!(list.contains(&line), "{line}");
    }
}
