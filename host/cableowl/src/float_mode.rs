//! The float mode of a call. Audio hosts often flush subnormals to zero on the callback thread, but the
//! library's promises are about plain IEEE 754. So each call runs in the mode in which a program begins
//! (round to nearest, keep subnormals, no traps), and restores the host's mode afterwards.
#![allow(unsafe_code)]

use std::arch::asm;

/// Makes a call in the plain mode. `call` must cross into the archive or hide its float operations
/// from the optimizer, which assumes the plain mode.
#[inline]
pub fn plain<T>(call: impl FnOnce() -> T) -> T {
    let given = Mode::now();
    if given.is_plain() {
        return call();
    }
    Mode::PLAIN.set();
    let answer = call();
    given.set();
    answer
}

/// The word that says how floats are computed: MXCSR.
#[cfg(target_arch = "x86_64")]
#[derive(Debug, Clone, Copy, PartialEq, Eq)]
struct Mode(u32);

#[cfg(target_arch = "x86_64")]
impl Mode {
    /// All exceptions masked, to nearest, neither FTZ nor DAZ.
    const PLAIN: Self = Self(0x1f80);
    /// The exception flags, which are not part of the mode.
    const FLAGS: u32 = 0x3f;

    fn now() -> Self {
        let mut word = 0;
        // SAFETY: stores MXCSR's four bytes into `word` and does nothing else.
        unsafe { asm!("stmxcsr [{}]", in(reg) &raw mut word, options(nostack, preserves_flags)) };
        Self(word)
    }

    fn is_plain(self) -> bool {
        self.0 & !Self::FLAGS == Self::PLAIN.0
    }

    fn set(self) {
        // SAFETY: loads a word that MXCSR held or may hold; no Rust float operation lies between
        // `plain`'s two uses of it. Not `preserves_flags`, as MXCSR's flags change.
        unsafe { asm!("ldmxcsr [{}]", in(reg) &raw const self.0, options(nostack)) };
    }
}

/// The word that says how floats are computed: FPCR.
#[cfg(target_arch = "aarch64")]
#[derive(Debug, Clone, Copy, PartialEq, Eq)]
struct Mode(u64);

#[cfg(target_arch = "aarch64")]
impl Mode {
    /// To nearest, no FZ, no traps, NaNs as they come.
    const PLAIN: Self = Self(0);

    fn now() -> Self {
        let word;
        // SAFETY: reads FPCR and does nothing else.
        unsafe { asm!("mrs {}, fpcr", out(reg) word, options(nostack, preserves_flags)) };
        Self(word)
    }

    fn is_plain(self) -> bool {
        self == Self::PLAIN
    }

    fn set(self) {
        // SAFETY: writes a word that FPCR held or may hold; no Rust float operation lies between
        // `plain`'s two uses of it.
        unsafe { asm!("msr fpcr, {}", in(reg) self.0, options(nostack, preserves_flags)) };
    }
}

#[cfg(not(any(target_arch = "x86_64", target_arch = "aarch64")))]
compile_error!("cableowl sets the float mode of its calls on x86-64 and on 64-bit Arm alone");

#[cfg(test)]
mod test {
    use super::*;

    /// Flush to zero: FTZ and DAZ on x86-64, FZ on Arm.
    #[cfg(target_arch = "x86_64")]
    const FLUSHING: Mode = Mode(0x9fc0);
    #[cfg(target_arch = "aarch64")]
    const FLUSHING: Mode = Mode(1 << 24);

    #[test]
    fn the_given_mode_comes_back() {
        let first = Mode::now();
        FLUSHING.set();
        let (within, after) = (plain(Mode::now), Mode::now());
        first.set();
        assert!(within.is_plain());
        assert_eq!(after, FLUSHING);
        assert!(plain(Mode::now).is_plain());
    }
}
