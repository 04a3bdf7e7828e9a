// The compiled numbers and Rust's own agree on random doubles of every kind.

use leaves::numbers;

#[test]
fn numbers_agree_with_rust() {
    for tally in numbers::compare(2_000_000, 2) {
        assert!(tally.report());
    }
}

#[test]
fn what_is_not_asked_for_gets_the_fixed_answer() {
    for x in [-0.0, -0.5, 1.0, f64::INFINITY, f64::NAN] {
        assert_eq!(numbers::narrow(x).to_bits(), 0, "{x:?}");
        let (steps, rest) = numbers::advance_by(x, 2.0);
        assert_eq!((steps, rest.to_bits()), (0, 0), "{x:?}");
    }
    let (steps, rest) = numbers::advance_by(0.5, 256f64.next_up());
    assert_eq!((steps, rest.to_bits()), (0, 0));
    assert_eq!(numbers::advance_by(0.5, -256.0), (256, 0.5));
}
