//! Copies of a loop table at two boxes, merged in any order, compared with one shared table.

use cableowl::{Hall, LoopCopy, LoopTable, Refusal};
use random::Random;

const FRAMES: usize = 40;

/// A write or a clear of a slot, mostly by the slot's own hall, sometimes by the other.
fn change(
    random: &mut Random,
    hall: Hall,
    copy: &mut LoopCopy,
    table: &mut LoopTable,
) -> Result<(), Refusal> {
    let slot = random.below(17);
    let (start, end) = (
        random.below(FRAMES + 2) as u64,
        random.below(FRAMES + 3) as u64,
    );
    let (ours, shared) = if random.below(3) == 0 {
        (copy.clear(hall, slot), table.clear(hall, slot))
    } else {
        (
            copy.write(hall, slot, start..end),
            table.write(hall, slot, start..end),
        )
    };
    assert_eq!(ours, shared);
    ours
}

#[test]
fn two_boxes_come_to_hold_the_shared_table() {
    let mut random = Random::new(39);
    for _ in 0..2_000 {
        let mut shared = LoopTable::new(FRAMES as u64);
        let mut boxes = [LoopCopy::new(FRAMES as u64); 2];
        let mut accepted = [0_u64; 2];
        let mut sent = Vec::new();
        for _ in 0..random.below(60) {
            let at = random.below(2);
            let hall = [Hall::A, Hall::B][at];
            match random.below(4) {
                0 => sent.push(boxes[at]),
                // Any copy that was ever sent, late, repeated, or the box's own; most are lost.
                1 if !sent.is_empty() => {
                    let copy: LoopCopy = sent[random.below(sent.len())];
                    let before = boxes[at];
                    boxes[at].merge(&copy).unwrap();
                    for hall in [Hall::A, Hall::B] {
                        assert!(boxes[at].changes(hall) >= before.changes(hall));
                    }
                    let again = boxes[at];
                    boxes[at].merge(&copy).unwrap();
                    assert_eq!(boxes[at], again);
                }
                _ => {
                    accepted[at] +=
                        u64::from(change(&mut random, hall, &mut boxes[at], &mut shared).is_ok())
                }
            }
            for (own, slots) in boxes.iter().zip([0..8, 8..16]) {
                for slot in slots {
                    assert_eq!(own.table().read(slot), shared.read(slot));
                }
            }
        }
        let [a, b] = boxes;
        let (mut at_a, mut at_b) = (a, b);
        at_a.merge(&b).unwrap();
        at_b.merge(&a).unwrap();
        assert_eq!(at_a, at_b);
        assert_eq!(at_a.table(), shared);
        assert_eq!([at_a.changes(Hall::A), at_a.changes(Hall::B)], accepted);
    }
}

#[test]
fn copies_over_other_sounds_are_refused() {
    let (mut ours, theirs) = (LoopCopy::new(10), LoopCopy::new(11));
    assert_eq!(ours.merge(&theirs), Err(Refusal::OtherFrames));
    assert_eq!(ours, LoopCopy::new(10));
}

#[test]
fn one_number_for_two_halves_is_said() {
    let mut ours = LoopCopy::new(10);
    let mut theirs = ours;
    ours.write(Hall::A, 0, 1..3).unwrap();
    theirs.write(Hall::A, 0, 1..4).unwrap();
    theirs.write(Hall::B, 9, 2..5).unwrap();
    let before = ours;
    // Neither half is taken, not even the other hall's newer one.
    assert_eq!(ours.merge(&theirs), Err(Refusal::TwoHalves));
    assert_eq!(ours, before);
    // A change that leaves the slots the same still counts, and then one half is the newer.
    theirs.clear(Hall::A, 1).unwrap();
    ours.merge(&theirs).unwrap();
    assert_eq!(ours, theirs);
}
