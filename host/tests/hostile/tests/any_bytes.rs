// A million calls of any bytes. The program `hostile` makes more, and tools/hostile-valgrind runs it under valgrind.

#[test]
fn any_bytes_are_refused_or_answered() {
    let report = hostile::run(1, 1_000_000);
    println!("{report}");
    assert_eq!(report.faults, 0, "\n{report}");
    assert!(report.answers.iter().all(|count| *count > 100), "{report}");
}
