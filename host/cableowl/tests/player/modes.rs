// The host's float mode does not matter to a player.

use random::Random;

use crate::{
    evening::Evening,
    mode::{self, Mode},
};

#[test]
fn the_same_evening_in_every_float_mode() {
    let before = Mode::now();
    for seed in 0..60 {
        let mut evening = Evening::any(&mut Random::new(seed));
        // Some subnormal samples.
        for sample in evening.sound.iter_mut().step_by(3) {
            *sample *= f32::MIN_POSITIVE;
        }
        let plain = evening.played(&mut evening.player(), &mut || 100);
        for mode in mode::ALL {
            mode.set();
            let other = evening.played(&mut evening.player(), &mut || 100);
            let after = Mode::now();
            before.set();
            assert_eq!(after, mode);
            assert_eq!(other, plain, "seed {seed}, in {mode:?}");
        }
        let mixed = || {
            let mut out = vec![f32::MIN_POSITIVE / 3.0; 2 * evening.frames];
            evening.player().mix(&evening.sound, &mut out).unwrap();
            crate::evening::bits(&out)
        };
        let plain = mixed();
        for mode in mode::ALL {
            mode.set();
            let other = mixed();
            before.set();
            assert_eq!(other, plain, "seed {seed}, in {mode:?}");
        }
    }
}
