// The committed list of scenarios is the generated one, has its layout, and covers what it should.

use std::{
    collections::{BTreeMap, BTreeSet},
    fs,
};

const PROGRAM: &str = concat!(
    env!("CARGO_MANIFEST_DIR"),
    "/../../../crates/test_sound_list"
);

#[test]
fn committed_list_is_the_generated_one() {
    let committed = fs::read_to_string(format!("{PROGRAM}/stdin")).unwrap();
    assert!(
        committed == lists::scenarios(),
        "run `lists scenarios` again"
    );
}

#[test]
fn numbers_have_one_shape() {
    let list = lists::scenarios();
    assert!(list.len() < 1_000_000);
    for line in list.strip_suffix('\n').unwrap().split('\n') {
        let number = u64::from_str_radix(line, 16).unwrap();
        assert_eq!(format!("{number:x}"), line);
    }
}

#[test]
fn the_program_counts_what_is_there() {
    let seen = Seen::whole_list();
    let calls: usize = seen.refusals.values().sum();
    let (scenarios, stretches) = (seen.scenarios, seen.stretches);
    let line = format!(
        "{scenarios} scenarios, {} calls, 0 differ\n",
        calls + stretches
    );
    assert_eq!(
        fs::read_to_string(format!("{PROGRAM}/stdout")).unwrap(),
        line
    );
}

#[test]
fn every_refusal_of_every_entry_is_there() {
    let seen = Seen::whole_list();
    let given: BTreeSet<(u64, u64)> = seen.refusals.keys().copied().collect();
    let numbers = |kind, numbers: &[u64]| -> Vec<(u64, u64)> {
        numbers.iter().map(|number| (kind, *number)).collect()
    };
    let expected: BTreeSet<(u64, u64)> = [
        numbers(4, &[0, 2, 3, 4, 5, 6, 7]),
        numbers(5, &[0, 1, 6, 7, 8]),
        numbers(6, &[0, 1, 9, 10, 11, 12]),
        numbers(7, &[0, 1, 9, 10, 11, 12]),
    ]
    .into_iter()
    .flatten()
    .collect();
    assert_eq!(given, expected);
}

#[test]
fn every_state_and_length_is_there() {
    let seen = Seen::whole_list();
    assert_eq!(seen.states, (0..7).collect());
    assert_eq!(seen.lengths, (0..=12).collect());
    assert_eq!(seen.frames, (1..=16).collect());
}

/// What a list contains, found from its layout alone (docs/formats/LISTS.md).
#[derive(Default)]
struct Seen {
    scenarios: usize,
    stretches: usize,
    /// How often an entry returned each refusal.
    refusals: BTreeMap<(u64, u64), usize>,
    /// States after accepted calls.
    states: BTreeSet<u64>,
    /// Lengths of accepted blocks.
    lengths: BTreeSet<u64>,
    /// Frames of sounds that are played.
    frames: BTreeSet<u64>,
}

impl Seen {
    fn whole_list() -> Self {
        let list = lists::scenarios();
        let numbers = list
            .lines()
            .map(|line| u64::from_str_radix(line, 16).unwrap());
        let mut reader = Reader(numbers);
        let mut seen = Self::default();
        while let Some(kind) = reader.0.next() {
            seen.record(kind, &mut reader);
        }
        seen
    }

    fn record(&mut self, kind: u64, reader: &mut Reader<impl Iterator<Item = u64>>) {
        match kind {
            1 => {
                self.scenarios += 1;
                reader.counted();
            }
            2 => {
                reader.state();
            }
            3 => {
                reader.next();
            }
            4 => {
                reader.settings();
                let refusal = reader.next();
                self.call(kind, refusal, reader.state());
            }
            5 => {
                reader.commands();
                let refusal = reader.next();
                reader.next();
                self.call(kind, refusal, reader.state());
            }
            6 | 7 => {
                let length = reader.lanes();
                reader.skip(4);
                let samples = reader.next();
                reader.skip(kind - 6);
                let refusal = reader.next();
                reader.skip(2);
                self.call(kind, refusal, reader.state());
                reader.skip(samples);
                if refusal == 0 {
                    self.lengths.insert(length);
                }
            }
            8 => {
                self.stretches += 1;
                reader.counted();
            }
            other => panic!("no record is of kind {other}"),
        }
    }

    fn call(&mut self, kind: u64, refusal: u64, (frames, state): (u64, u64)) {
        *self.refusals.entry((kind, refusal)).or_default() += 1;
        if refusal == 0 {
            self.states.insert(state);
            self.frames.insert(frames);
        }
    }
}

struct Reader<I>(I);

impl<I: Iterator<Item = u64>> Reader<I> {
    fn next(&mut self) -> u64 {
        self.0.next().expect("a whole record")
    }

    fn skip(&mut self, count: u64) {
        (0..count).for_each(|_| {
            self.next();
        });
    }

    fn counted(&mut self) -> u64 {
        let count = self.next();
        self.skip(count);
        count
    }

    /// The recorded frames and the state's number.
    fn state(&mut self) -> (u64, u64) {
        self.next();
        let frames = self.next();
        self.skip(7);
        let state = self.next();
        self.skip(20);
        (frames, state)
    }

    fn position(&mut self) {
        self.skip(2);
    }

    fn optional_region(&mut self, present: u64) {
        if self.next() == present {
            self.position();
            if self.next() == 1 {
                self.position();
            }
        }
    }

    fn settings(&mut self) {
        self.next();
        self.optional_region(1);
        self.position();
        self.optional_region(1);
        self.skip(3);
    }

    fn amount(&mut self) {
        let given = self.next();
        self.skip(given);
    }

    fn commands(&mut self) {
        self.amount();
        self.optional_region(2);
        self.skip(3);
        self.amount();
        self.amount();
    }

    /// The rate lane's length.
    fn lanes(&mut self) -> u64 {
        (0..4).for_each(|_| {
            self.counted();
        });
        self.counted()
    }
}
