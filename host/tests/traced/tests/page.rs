//! The examples of docs/formats/TRACE.md, read from the page: its records, its short inputs, what is printed, and the
//! salvages.

use cableowl::{
    Commands, Frames, PlaybackPosition, Region, Settings,
    trace::{Block, Record, ShortSound, read, salvage, write},
};
use traced::{
    entries, hex,
    make::second::Named,
    page::{self, second},
    runs,
};

const PAGE: &str = include_str!("../../../../docs/formats/TRACE.md");

/// The bytes of each block of code in a part of the page: the words of two hex digits at the start of a line.
fn codes_of(part: &str) -> Vec<Vec<u8>> {
    let is_byte = |word: &&str| word.len() == 2 && u8::from_str_radix(word, 16).is_ok();
    let blocks = part.split("```").skip(1).step_by(2);
    let bytes = blocks.map(|block| {
        let lines = block.lines();
        let words = lines.flat_map(|line| line.split_whitespace().take_while(is_byte));
        hex(&words.collect::<Vec<_>>().join(" "))
    });
    bytes.collect()
}

/// The text below a heading.
fn below(heading: &str) -> &'static str {
    let (_, part) = PAGE.split_once(heading).unwrap();
    part.split("\n## ").next().unwrap()
}

/// A creation, a command set, a block, and the rules' three-frame example.
fn codes() -> Vec<Vec<u8>> {
    codes_of(below("\n## Examples\n"))
}

fn creation() -> Record<'static> {
    Record::Creation {
        settings: Settings::new(1),
        sound: ShortSound::new(&[1.0, 1.0, 2.0, 2.0, 3.0, 3.0]).unwrap(),
    }
}

#[test]
fn its_records() {
    let codes = codes();
    assert_eq!(codes.len(), 4);
    let from_a_second_to_frame_3 = Region {
        start: PlaybackPosition::Seconds(1.0),
        ..Region::from(..Frames(3))
    };
    let commands = Commands::new()
        .set_playback_rate(0.5)
        .set_loop_region(from_a_second_to_frame_3)
        .resume()
        .seek_to(2.5);
    let records = [
        creation(),
        Record::Commands(commands),
        Record::Block(Block::new(6, 1.0)),
    ];
    for (bytes, record) in codes.iter().zip(&records) {
        assert_eq!(read(bytes, 0), Ok((*record, bytes.len())));
        let mut written = vec![0; bytes.len()];
        assert_eq!(write(record, &mut written, 0), Ok(bytes.len()));
        assert_eq!(&written, bytes);
    }
    assert_eq!(codes[3], [&codes[0][..], &codes[2][..]].concat());
    assert_eq!(codes[3].len(), 97);
}

#[test]
fn what_its_example_prints() {
    let printed = String::from_utf8(runs::library_prints(&codes()[3]).unwrap()).unwrap();
    assert_eq!(printed, "block=1 frames=6 steps=6 state=6 position=3\n");
    let said = format!("It prints `{}`.", printed.trim_end());
    assert!(PAGE.contains(&said), "{said}");
}

/// The rows of the page's table with this head.
fn rows(head: &str) -> impl Iterator<Item = &'static str> {
    let (_, table) = PAGE.split_once(head).unwrap();
    let rows = table.lines().skip(2);
    rows.take_while(|line| line.starts_with('|'))
}

#[test]
fn its_short_inputs() {
    let mut tried = 0;
    for row in rows("| input | answer |") {
        let [_, inputs, answer, _] = row.split('|').collect::<Vec<_>>()[..] else {
            panic!("{row}");
        };
        let number: String = answer
            .trim()
            .chars()
            .take_while(char::is_ascii_digit)
            .collect();
        for input in inputs.split('`').skip(1).step_by(2) {
            let bytes = hex(input);
            assert_eq!(
                entries::read(&bytes, 0).refusal.to_string(),
                number,
                "{input}"
            );
            assert_eq!(page::read(&bytes, 0).refusal.to_string(), number, "{input}");
            let printed = runs::library_prints(&bytes).unwrap();
            let line = format!("refused={number} at=0\n");
            assert_eq!(String::from_utf8(printed).unwrap(), line, "{input}");
            tried += 1;
        }
    }
    assert_eq!(tried, 14);
    // An empty trace prints nothing, although a read returns 18.
    assert_eq!(runs::library_prints(&[]), Ok(Vec::new()));
    assert_eq!(entries::read(&[], 0).refusal, 18);
    // A line feed after the last record.
    let with_line_feed = [&codes()[3][..], b"\n"].concat();
    let printed = String::from_utf8(runs::library_prints(&with_line_feed).unwrap()).unwrap();
    assert_eq!(
        printed,
        "block=1 frames=6 steps=6 state=6 position=3\nrefused=15 at=97\n"
    );
}

#[test]
fn blocks_before_a_creation_and_after_a_refused_one() {
    let block = codes()[2].clone();
    let refused = page::bytes(1, &{
        let mut values = [0; 80];
        values[10] = 1.0_f64.to_bits();
        values
    });
    let parts = [&block, &codes()[0], &block, &refused.unwrap(), &block];
    let trace: Vec<u8> = parts.into_iter().flatten().copied().collect();
    let printed = String::from_utf8(runs::library_prints(&trace).unwrap()).unwrap();
    assert_eq!(
        printed,
        "block=1 refused=1\nblock=2 frames=6 steps=6 state=6 position=3\nblock=3 refused=1\n"
    );
}

/// Each example of a false record is salvaged as the page says.
#[test]
fn false_records() {
    let part = below("\n## Salvage\n");
    let counts: Vec<&str> = part.split(" bytes skipped, the first at ").collect();
    let examples = codes_of(part);
    assert_eq!((counts.len(), examples.len()), (3, 2));
    for (words, bytes) in counts.windows(2).zip(&examples) {
        let mut out = vec![0; bytes.len()];
        let salvaged = salvage(bytes, &mut out).unwrap();
        let skipped = salvaged.skipped.to_string();
        assert!(
            words[0].ends_with(&format!(": 1 record, {skipped}")),
            "{skipped}"
        );
        let first = format!("{}.", salvaged.first_skipped);
        assert!(words[1].starts_with(&first), "{first}");
        assert_eq!(salvaged.records, 1);
        assert_eq!(read(&out, 0).unwrap().1, salvaged.kept);
    }
}

/// A creation over a given sound, and a block of two frames.
fn sealed_codes() -> Vec<Vec<u8>> {
    codes_of(below("\n### Examples of version 2\n"))
}

#[test]
fn its_records_of_version_2() {
    let codes = sealed_codes();
    assert_eq!(codes.len(), 2);
    let samples = [1.0_f32, 1.0, 2.0, 2.0, 3.0, 3.0];
    let named = Named::of(&samples);
    let mut creation = [0; 80];
    creation[0] = 1;
    creation[10] = 1.0_f64.to_bits();
    creation[12] = named.frames;
    creation[13..17].copy_from_slice(&named.digest);
    let mut block = [0; 80];
    block[..2].copy_from_slice(&[2, 1.0_f64.to_bits()]);
    let frame = |fade: f32| {
        let singles = [fade, 1.0, 1.0, 1.0].map(f32::to_le_bytes).concat();
        [&singles[..], &1.0_f64.to_le_bytes()].concat()
    };
    let lanes = [frame(1.0), frame(0.5)].concat();
    for (kind, values, lanes, bytes) in [
        (4, creation, &[][..], &codes[0]),
        (5, block, &lanes, &codes[1]),
    ] {
        assert_eq!(&second::bytes(kind, &values, lanes).unwrap(), bytes);
        let read = second::read(bytes, 0);
        assert_eq!((read.kind, read.next), (kind, bytes.len() as u64));
        assert_eq!(read.values, values);
        assert_eq!(second::lanes(bytes, &read), lanes);
        // Any change of one byte after the head's length is refused, and reader 1 does not know the kind.
        for place in 5..bytes.len() {
            for bit in 0..8 {
                let mut changed = bytes.clone();
                changed[place] ^= 1 << bit;
                assert_eq!(second::read(&changed, 0).refusal, 17, "{place}");
            }
        }
        assert_eq!(page::read(bytes, 0).refusal, 16);
        assert_eq!(page::bytes(kind, &values), Err(16));
        // The checksum that the page prints is that of its bytes.
        let seal = bytes.len() - second::CHECKSUM;
        let sum = format!("checksum {:08X}\n", second::checksum(&bytes[2..seal]));
        assert!(PAGE.contains(&sum), "{sum}");
    }
    assert_eq!(second::checksum(b"123456789"), 0xcbf4_3926);
    assert!(PAGE.contains("`123456789` is CBF43926"));
}

#[test]
fn its_short_inputs_of_version_2() {
    let mut tried = 0;
    for row in rows("| input | reader 1 | reader 2 |") {
        let [_, inputs, first, then, _] = row.split('|').collect::<Vec<_>>()[..] else {
            panic!("{row}");
        };
        let number = |answer: &str| {
            let digits = answer.trim().chars().take_while(char::is_ascii_digit);
            digits.collect::<String>().parse::<u64>().unwrap()
        };
        for input in inputs.split('`').skip(1).step_by(2) {
            let mut bytes = hex(input);
            if let Some((_, rest)) = inputs.split_once(", and ") {
                let (count, _) = rest.split_once(" bytes of 0").unwrap();
                bytes.resize(bytes.len() + count.parse::<usize>().unwrap(), 0);
            }
            assert_eq!(page::read(&bytes, 0).refusal, number(first), "{row}");
            assert_eq!(entries::read(&bytes, 0).refusal, number(first), "{row}");
            assert_eq!(second::read(&bytes, 0).refusal, number(then), "{row}");
            tried += 1;
        }
    }
    assert_eq!(tried, 8);
}

/// The lengths and sizes that the page states for version 2.
#[test]
fn its_lengths_of_version_2() {
    for kind in 0..=6 {
        let lengths: Vec<u16> = (0..=u16::MAX)
            .filter(|length| second::is_length(kind, *length))
            .collect();
        let expected: Vec<u16> = match kind {
            1 => (0..=68).map(|k| 26 + 8 * k).collect(),
            2 => (0..=5).map(|k| 7 + 8 * k).collect(),
            3 => vec![37],
            4 => (0..=4).map(|k| 65 + 8 * k).collect(),
            5 => (1..=1_024).map(|n| 17 + 24 * n).collect(),
            _ => Vec::new(),
        };
        assert_eq!(lengths, expected, "kind {kind}");
    }
    let mut block = [0; 80];
    block[0] = 1_024;
    let longest = second::bytes(5, &block, &[0; 24 * 1_024]).unwrap();
    assert_eq!(longest.len(), second::LONGEST);
    assert!(PAGE.contains("at most 24,598 bytes"));
}
