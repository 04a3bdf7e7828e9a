//! A hall's half as bytes, compared with docs/formats/LOOPS.md and a second implementation of it.

use cableowl::{Hall, LoopHalf, Refusal};
use random::Random;

const PAGE: &str = include_str!("../../../docs/formats/LOOPS.md");

/// The fields of a record, as the page has them.
struct Fields {
    hall: u8,
    frames: u64,
    changes: u64,
    slots: [(u64, u64); 8],
    names: [[u8; 64]; 8],
}

/// The checksum of IEEE 802.3, bit by bit.
fn crc(bytes: &[u8]) -> u32 {
    let step = |crc: u32, _| (crc >> 1) ^ (0xedb8_8320 * (crc & 1));
    let register = bytes.iter().fold(u32::MAX, |crc, byte| {
        (0..8).fold(crc ^ u32::from(*byte), step)
    });
    !register
}

impl Fields {
    /// The record of these fields, well formed or not.
    fn record(&self) -> Vec<u8> {
        let mut bytes = vec![0xa7, 0x4c, 1, 0x95, 0x02, self.hall];
        bytes.extend(self.frames.to_le_bytes());
        bytes.extend(self.changes.to_le_bytes());
        for (start, end) in self.slots {
            bytes.extend(start.to_le_bytes());
            bytes.extend(end.to_le_bytes());
        }
        bytes.extend(self.names.concat());
        bytes.extend(crc(&bytes).to_le_bytes());
        bytes
    }

    fn is_well_formed(&self) -> bool {
        let is_slot = |&(start, end): &(u64, u64)| {
            (start, end) == (0, 0) || start < end && end <= self.frames
        };
        let is_name = |name: &[u8; 64]| {
            let text = name.split(|byte| *byte == 0).next().unwrap_or_default();
            name[text.len()..].iter().all(|byte| *byte == 0) && str::from_utf8(text).is_ok()
        };
        self.hall < 2 && self.slots.iter().all(is_slot) && self.names.iter().all(is_name)
    }

    /// Fields of which sometimes one is wrong.
    fn any(random: &mut Random) -> Self {
        let frames = [0, 1, 40, u64::MAX][random.below(4)];
        let number = |random: &mut Random| match random.below(9) {
            0 => u64::MAX,
            _ => random.below(44) as u64,
        };
        let slots = [(); 8].map(|()| match random.below(40) {
            0 => (number(random), number(random)),
            1..20 if frames > 0 => {
                let start = random.below(frames.min(40) as usize) as u64;
                (start, start + 1)
            }
            _ => (0, 0),
        });
        let names = [(); 8].map(|()| {
            let mut name = [0; 64];
            let longest = "x".repeat(64);
            let text = ["", "Lücke", "one", &longest][random.below(4)];
            name[..text.len()].copy_from_slice(text.as_bytes());
            if random.below(40) == 0 {
                name[random.below(64)] = random.below(256) as u8;
            }
            name
        });
        Self {
            hall: [0, 1, 0, 1, 0, 1, 2][random.below(7)],
            frames,
            changes: number(random),
            slots,
            names,
        }
    }
}

#[test]
fn records_are_the_second_implementation_s() {
    let mut random = Random::new(139);
    let mut accepted = 0;
    for _ in 0..20_000 {
        let fields = Fields::any(&mut random);
        let mut bytes = fields.record();
        let loaded = LoopHalf::load(&bytes);
        if !fields.is_well_formed() {
            assert_eq!(loaded, Err(Refusal::SavedField));
            continue;
        }
        accepted += 1;
        let half = loaded.expect("a well formed record");
        let hall = [Hall::A, Hall::B][usize::from(fields.hall)];
        let found = (half.hall(), half.num_frames(), half.changes());
        assert_eq!(found, (hall, fields.frames, fields.changes));
        for (place, ((start, end), name)) in fields.slots.iter().zip(fields.names).enumerate() {
            let slot = place + 8 * usize::from(fields.hall);
            assert_eq!(half.read(slot), (start < end).then_some(*start..*end));
            assert_eq!(
                half.name(slot).as_bytes(),
                name.split(|byte| *byte == 0).next().unwrap()
            );
            assert_eq!(
                (half.read((slot + 8) % 16), half.name((slot + 8) % 16)),
                (None, "")
            );
        }
        assert_eq!(half.store()[..], bytes);
        // Bytes after the record are not read.
        bytes.push(9);
        assert_eq!(LoopHalf::load(&bytes), Ok(half));
    }
    assert!(accepted > 5_000, "{accepted} were accepted");
}

/// The page's example.
fn example() -> Vec<u8> {
    let mut bytes = vec![0; LoopHalf::SIZE];
    let block = PAGE.split("```text\n").nth(1).expect("an example");
    for line in block.split("```").next().unwrap_or_default().lines() {
        let mut words = line.split_whitespace();
        let at: usize = words
            .next()
            .and_then(|at| at.parse().ok())
            .expect("a place");
        for (index, byte) in words.enumerate() {
            bytes[at + index] = u8::from_str_radix(byte, 16).expect("a byte");
        }
    }
    bytes
}

#[test]
fn the_page_s_example() {
    let half = LoopHalf::load(&example()).expect("the example");
    let found = (half.hall(), half.num_frames(), half.changes());
    assert_eq!(found, (Hall::A, 480_690, 2));
    let slots = [half.read(0), half.read(1), half.read(2)];
    assert_eq!(slots, [Some(0..24_000), Some(273_420..480_690), None]);
    assert_eq!((half.name(0), half.name(1)), ("first", "Lücke"));
    assert_eq!(half.store()[..], example());
}

#[test]
fn the_page_s_refusals() {
    let rows = PAGE.lines().filter_map(|line| {
        let (bytes, refusal) = line
            .strip_prefix("| ")?
            .strip_suffix(" |")?
            .split_once(" | ")?;
        Some((
            bytes.trim_matches('`').to_owned(),
            refusal.parse::<u32>().ok()?,
        ))
    });
    let mut seen = 0;
    for (bytes, refusal) in rows {
        let words = bytes.split(' ').filter(|word| *word != "none");
        let read = words.map(|byte| u8::from_str_radix(byte, 16));
        let bytes: Vec<u8> = read.collect::<Result<_, _>>().expect("bytes");
        assert_eq!(
            LoopHalf::load(&bytes).map_err(Refusal::number),
            Err(refusal),
            "{bytes:x?}"
        );
        seen += 1;
    }
    assert_eq!(seen, 7);
}

#[test]
fn each_wrong_bit_is_refused_and_so_is_each_cut() {
    let bytes = example();
    for at in 0..bytes.len() {
        assert_eq!(LoopHalf::load(&bytes[..at]), Err(Refusal::Truncated));
        for bit in 0..8 {
            let mut wrong = bytes.clone();
            wrong[at] ^= 1 << bit;
            let refusal = match at {
                0 | 1 => Refusal::Mark,
                2 => Refusal::Version,
                _ => Refusal::SavedField,
            };
            assert_eq!(LoopHalf::load(&wrong), Err(refusal), "byte {at}");
        }
    }
}
