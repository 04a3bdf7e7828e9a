//! Compares the compiled reader with the page: short inputs exhaustively, then changed, cut and random ones.

use std::io::{self, Read};

use cableowl::trace::{TraceReader, replay};
use traced::{
    make, page,
    runs::{self, COMPILED},
};

fn compare(bytes: &[u8]) {
    COMPILED.compare_read(bytes, 0).unwrap();
}

#[test]
fn every_input_of_at_most_three_bytes() {
    random::short_inputs(compare);
}

#[test]
fn every_length_of_every_kind() {
    COMPILED.compare_heads(0..=4).unwrap();
}

/// Each byte of each record changed to each value, and each cut.
#[test]
fn every_change_of_one_byte_and_every_cut() {
    let mut trace = make::all_kinds();
    let mut at = 0;
    while at < trace.len() {
        let next = page::read(&trace, at as u64).next as usize;
        assert!(next > at);
        for place in at..next {
            COMPILED.compare_read(&trace[..place], at as u64).unwrap();
            runs::compare_record(&trace[..place], at).unwrap();
            let right = trace[place];
            for byte in 0..=255 {
                trace[place] = byte;
                COMPILED.compare_read(&trace, at as u64).unwrap();
                runs::compare_record(&trace, at).unwrap();
                // The same with nothing after the record.
                COMPILED.compare_read(&trace[..next], at as u64).unwrap();
            }
            trace[place] = right;
        }
        at = next;
    }
}

/// What is printed of each cut: the refusal is at the offset at which the page's reader finds it.
#[test]
fn every_cut_of_a_trace_is_printed() {
    let trace = make::all_kinds();
    for cut in 0..=trace.len() {
        let printed = String::from_utf8(runs::library_prints(&trace[..cut]).unwrap()).unwrap();
        let mut at = 0;
        let refusal = loop {
            if at == cut as u64 {
                break None;
            }
            let read = page::read(&trace[..cut], at);
            if read.refusal != 0 {
                break Some(read.refusal);
            }
            at = read.next;
        };
        match refusal {
            Some(refusal) => {
                let line = format!("refused={refusal} at={at}\n");
                assert!(printed.ends_with(&line), "{cut}: {printed}");
            }
            None => assert!(!printed.contains("at="), "{cut}: {printed}"),
        }
    }
}

#[test]
fn random_traces_with_faults() {
    let tally = COMPILED.reads(104, 60_000).unwrap();
    println!("{tally}");
    for refusal in [0, 15, 16, 17, 18] {
        assert!(tally.refused[refusal] > 100, "{tally}");
    }
}

/// After the first bufferful the offsets continue. A read error ends the records and is reported.
#[test]
fn a_trace_longer_than_what_is_held() {
    let (mut trace, mut part) = (Vec::new(), Vec::new());
    for _ in 0..3 {
        make::long(&mut part, 1_000, 1);
        trace.extend_from_slice(&part);
    }
    let length = trace.len();
    assert!(length > 100_000);
    trace.push(b'\n');
    let printed = String::from_utf8(runs::library_prints(&trace).unwrap()).unwrap();
    assert!(printed.ends_with(&format!("\nrefused=15 at={length}\n")));
    assert_eq!(printed.lines().count(), 3_001);

    struct Broken<'a>(&'a [u8]);
    impl Read for Broken<'_> {
        fn read(&mut self, into: &mut [u8]) -> io::Result<usize> {
            match self.0.read(into)? {
                0 => Err(io::ErrorKind::TimedOut.into()),
                got => Ok(got),
            }
        }
    }
    let mut records = TraceReader::new(Broken(&trace[..70_000]));
    let mut read = 0;
    while records.read_next().is_some_and(|at| at.is_ok()) {
        read += 1;
    }
    let (mut at, mut whole) = (0, 0);
    while page::read(&trace[..70_000], at).refusal == 0 {
        at = page::read(&trace[..70_000], at).next;
        whole += 1;
    }
    assert_eq!(read, whole, "the records before the error");
    assert!(records.read_next().is_none());
    let failed = replay(Broken(&trace[..70_000]), io::sink());
    assert_eq!(failed.unwrap_err().kind(), io::ErrorKind::TimedOut);
}
