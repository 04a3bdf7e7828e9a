//! Compares the compiled reader, writer and salvage of version 2 with the page: short inputs exhaustively, then
//! changed, cut, sealed again and random ones.

use random::Random;
use traced::{
    make::second as make,
    page::{
        self,
        second::{self, CHECKSUM, FRAME, LONGEST},
    },
    runs::COMPILED_V2,
};

fn compare(bytes: &[u8]) {
    COMPILED_V2.compare_read(bytes, 0).unwrap();
}

#[test]
fn every_input_of_at_most_three_bytes() {
    random::short_inputs(compare);
}

#[test]
fn every_length_of_every_kind() {
    COMPILED_V2.compare_heads(0..=6).unwrap();
}

/// Each byte of each record changed to each value, with the old checksum and with a correct one; and each cut.
#[test]
fn every_change_of_one_byte_and_every_cut() {
    let trace = make::all_kinds();
    let mut at = 0;
    while at < trace.len() {
        let read = second::read(&trace, at as u64);
        let (next, kind) = (read.next as usize, read.kind);
        for place in at..next {
            COMPILED_V2
                .compare_read(&trace[..place], at as u64)
                .unwrap();
            for byte in 0..=255 {
                let mut changed = trace.clone();
                changed[place] = byte;
                COMPILED_V2.compare_read(&changed, at as u64).unwrap();
                let cut = COMPILED_V2.compare_read(&changed[..next], at as u64);
                let seal = next - CHECKSUM;
                if kind >= 4 && (at + 5..seal).contains(&place) {
                    assert_eq!(cut == Ok(0), byte == trace[place], "{place}");
                    let sum = second::checksum(&changed[at + 2..seal]).to_le_bytes();
                    changed[seal..next].copy_from_slice(&sum);
                    COMPILED_V2.compare_read(&changed, at as u64).unwrap();
                    // The checksum is missing, wholly or in part.
                    for there in seal..next {
                        COMPILED_V2
                            .compare_read(&changed[..there], at as u64)
                            .unwrap();
                    }
                }
            }
        }
        at = next;
    }
}

/// The longest record: every cut near its ends, and a flipped bit in any of its bytes.
#[test]
fn the_longest_record() {
    let mut values = [0; 80];
    values[..5].copy_from_slice(&[1_024, 1.0_f64.to_bits(), 1, 2, 2]);
    let lanes: Vec<u8> = (0..FRAME * 1_024).map(|byte| byte as u8).collect();
    let record = second::bytes(5, &values, &lanes).unwrap();
    assert_eq!(record.len(), LONGEST);
    compare(&record);
    for cut in (0..64).chain(LONGEST - 64..LONGEST) {
        compare(&record[..cut]);
    }
    let mut random = Random::new(38);
    for _ in 0..300 {
        let mut changed = record.clone();
        changed[random.below(LONGEST)] ^= 1 << random.below(8);
        compare(&changed);
    }
}

#[test]
fn random_traces_with_faults() {
    let tally = COMPILED_V2.reads(381, 60_000).unwrap();
    println!("{tally}");
    for refusal in [0, 15, 16, 17, 18] {
        assert!(tally.refused[refusal] > 100, "{tally}");
    }
}

#[test]
fn random_records_out_and_back() {
    let tally = COMPILED_V2.writes(382, 60_000).unwrap();
    println!("{tally}");
    for refusal in [0, 16, 17, 19] {
        assert!(tally.refused[refusal] > 1_000, "{tally}");
    }
}

/// What is kept if a byte of a trace of all kinds is changed, removed or added.
#[test]
fn every_fault_of_one_byte() {
    COMPILED_V2.compare_faults(&make::all_kinds()).unwrap();
}

/// A false head of the longest kind before good records: its checksum is wrong, and no record is lost.
#[test]
fn a_false_head_loses_no_record() {
    let mut random = Random::new(386);
    for _ in 0..40 {
        let good = make::trace(&mut random, &[], 60);
        // A block of 1,024 frames, cut after its signals.
        let head = [
            0xa5, 0x1d, 5, 0x11, 0x60, 0, 4, 0, 0, 0, 0, 0, 0, 0, 0, 0, 0, 0,
        ];
        let bytes = [&head[..], &good, &[0; 25_000]].concat();
        let (_, kept, _) = COMPILED_V2.compare_salvage(&bytes, bytes.len()).unwrap();
        assert_eq!(kept, good);
    }
}

#[test]
fn random_faults() {
    let tally = COMPILED_V2.salvages(387, 4_000).unwrap();
    println!("{tally}");
    assert!(tally.refused[25] > 100, "{tally}");
}

/// Kinds 1 to 3 are written and read as in version 1, whatever the lanes are.
#[test]
fn version_1_stays_as_it_is() {
    let mut random = Random::new(383);
    for _ in 0..20_000 {
        let (kind, values) = traced::make::any(&mut random);
        let lanes = vec![7; random.below(40)];
        let mut both = [[0x77; 600]; 2];
        let sent = (COMPILED_V2.write)(&mut both[0], 3, kind, &values, &lanes);
        let first = page::write(&mut both[1], 3, kind, &values);
        if ![4, 5].contains(&kind) {
            assert_eq!((sent, both[0]), (first, both[1]), "{kind} {values:?}");
            assert_eq!((COMPILED_V2.read)(&both[0], 3), page::read(&both[1], 3));
        }
    }
}
