// A voice that plays inside its loop stays inside it: sequences of 10,000 calls on the compiled library and on the
// model, and wrong players that leave the loop.

use differential::{
    DOCUMENT, Ours, Player,
    runs::{Seen, in_the_loop},
    wrong,
};
use random::Random;

fn rows(player: &dyn Player, count: u64) -> Result<Seen, String> {
    let mut seen = Seen::default();
    for seed in 0..count {
        in_the_loop(player, &mut Random::new(seed), 10_000, &mut seen)?;
    }
    Ok(seen)
}

#[test]
fn ours_and_the_model_stay() {
    let players: [&dyn Player; 2] = [&Ours, &DOCUMENT];
    for player in players {
        let seen = rows(player, 20).unwrap();
        println!("{}: {seen:?}", player.name());
        assert_eq!(seen.accepted + seen.refused, 200_000);
        assert!(seen.refused > 10_000 && seen.seeks > 10_000 && seen.ended > 10);
    }
}

#[test]
fn players_that_leave_are_found() {
    let leave = [
        "a backward step wraps at p < s",
        "the loop's end is inclusive",
    ];
    let found = wrong::all()
        .iter()
        .filter(|player| leave.contains(&player.name()) && rows(player.as_ref(), 1).is_err())
        .count();
    assert_eq!(found, leave.len());
}
