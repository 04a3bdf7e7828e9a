//! A player could not take a loop from a table.

use cableowl::{Hall, LoopTable, Player, Refusal, Settings};

#[test]
fn a_player_takes_a_loop_from_a_table() {
    let sound = [0.5; 20];
    let settings = Settings::new(1).slice(0.0..8.0);
    let mut player = Player::play(settings, 1, &sound).unwrap();
    let mut table = LoopTable::new(10);
    table.write(Hall::A, 3, 2..6).unwrap();
    table.write(Hall::B, 9, 2..10).unwrap();
    player.take_loop(&table, 3).unwrap();
    assert_eq!(player.take_loop(&table, 4), Err(Refusal::EmptySlot));
    assert_eq!(player.take_loop(&table, 16), Err(Refusal::LoopSlot));
    assert_eq!(
        player.take_loop(&table, 9),
        Err(Refusal::LoopRegion),
        "past the slice"
    );
    table.clear(Hall::A, 3).unwrap();
    player.process(&sound, &mut [0.0; 2]).unwrap();
    assert_eq!(player.voice().state().loop_region, Some((2, 6)));
}
