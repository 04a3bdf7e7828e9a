//! A player and its sound as one value.

use std::{
    ops::{Deref, DerefMut},
    sync::Arc,
};

use crate::{Player, Processed, Refusal, Settings, Tween, Unreadable};

/// A [`Player`] with a shared sound: one value to send to the audio thread. It derefs to [`Player`] for
/// the commands; its own [`process`](SharedPlayer::process()) and [`mix`](SharedPlayer::mix()) need no
/// sound.
///
/// The last `Arc` frees the sound. Keep an `Arc` of your own to free it outside the audio thread.
///
/// ```
/// use std::{sync::Arc, thread};
///
/// use cableowl::{Settings, SharedPlayer, Tween};
///
/// let sound: Arc<[f32]> = vec![0.25; 2_000].into();
/// let mut player = SharedPlayer::play(Settings::new(48_000), 48_000, Arc::clone(&sound))?;
/// player.pause(Tween::from_millis(5));
/// let audio = thread::spawn(move || {
///     let mut out = [0.0; 600];
///     player.process(&mut out).map(|_| out)
/// });
/// let out = audio.join().unwrap()?;
/// assert!(out[0] > out[400] && out[599] == 0.0);
/// # Ok::<(), cableowl::Refusal>(())
/// ```
#[derive(Debug, Clone)]
pub struct SharedPlayer {
    player: Player,
    sound: Arc<[f32]>,
}

impl SharedPlayer {
    /// Plays a shared sound, as [`Player::play`].
    ///
    /// # Errors
    ///
    /// As [`Player::play`].
    pub fn play(settings: Settings, output_rate: u32, sound: Arc<[f32]>) -> Result<Self, Refusal> {
        let player = Player::play(settings, output_rate, &sound)?;
        Ok(Self { player, sound })
    }

    /// As [`Player::fade_in_tween`].
    #[must_use]
    pub fn fade_in_tween(mut self, tween: impl Into<Tween>) -> Self {
        self.player.fade_in(tween.into());
        self
    }

    /// As [`Player::from_bytes`].
    ///
    /// # Errors
    ///
    /// As [`Player::from_bytes`].
    pub fn from_bytes(bytes: &[u8], sound: Arc<[f32]>) -> Result<Self, Unreadable> {
        let player = Player::from_bytes(bytes, &sound)?;
        Ok(Self { player, sound })
    }

    /// As [`Player::process`].
    ///
    /// # Errors
    ///
    /// [`Refusal::OddOutput`].
    pub fn process(&mut self, out: &mut [f32]) -> Result<Processed, Refusal> {
        self.player.process(&self.sound, out)
    }

    /// As [`Player::mix`].
    ///
    /// # Errors
    ///
    /// [`Refusal::OddOutput`].
    pub fn mix(&mut self, out: &mut [f32]) -> Result<Processed, Refusal> {
        self.player.mix(&self.sound, out)
    }

    /// The sound.
    #[must_use]
    pub fn sound(&self) -> &Arc<[f32]> {
        &self.sound
    }
}

impl Deref for SharedPlayer {
    type Target = Player;

    fn deref(&self) -> &Player {
        &self.player
    }
}

impl DerefMut for SharedPlayer {
    fn deref_mut(&mut self) -> &mut Player {
        &mut self.player
    }
}
