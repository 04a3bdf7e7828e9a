// The float modes that a host may have set on its thread, for tests.
#![allow(dead_code, unused_imports)]

pub use word::{ALL, FLUSHING, Mode};

#[cfg(target_arch = "x86_64")]
mod word {
    use std::arch::asm;

    #[derive(Debug, Clone, Copy, PartialEq, Eq)]
    pub struct Mode(u32);

    /// FTZ and DAZ, as audio hosts set them.
    pub const FLUSHING: Mode = Mode(0x9fc0);

    /// Plain; FTZ; DAZ; both; rounding down, up and to zero; up with both; exceptions not masked.
    pub const ALL: [Mode; 9] = [
        Mode(0x1f80),
        Mode(0x9f80),
        Mode(0x1fc0),
        Mode(0x9fc0),
        Mode(0x3f80),
        Mode(0x5f80),
        Mode(0x7f80),
        Mode(0xdfc0),
        Mode(0x0000),
    ];

    impl Mode {
        pub fn now() -> Self {
            let mut word = 0_u32;
            // SAFETY: stores MXCSR into `word`.
            unsafe { asm!("stmxcsr [{}]", in(reg) &raw mut word, options(nostack)) };
            // The flags of past exceptions are not part of the mode.
            Self(word & !0x3f)
        }

        /// Whether an exception is masked.
        pub fn masks(self) -> bool {
            self.0 & 0x1f80 == 0x1f80
        }

        pub fn set(self) {
            // SAFETY: nobody reads what the thread computes in this mode.
            unsafe { asm!("ldmxcsr [{}]", in(reg) &raw const self.0, options(nostack)) };
        }
    }
}

#[cfg(target_arch = "aarch64")]
mod word {
    use std::arch::asm;

    #[derive(Debug, Clone, Copy, PartialEq, Eq)]
    pub struct Mode(u64);

    /// FZ, as audio hosts set it.
    pub const FLUSHING: Mode = Mode(1 << 24);

    /// Plain; FZ; rounding up, down and to zero; up with FZ; NaNs by default.
    pub const ALL: [Mode; 7] = [
        Mode(0),
        Mode(1 << 24),
        Mode(1 << 22),
        Mode(2 << 22),
        Mode(3 << 22),
        Mode(1 << 24 | 1 << 22),
        Mode(1 << 25),
    ];

    impl Mode {
        pub fn now() -> Self {
            let word;
            // SAFETY: reads FPCR.
            unsafe { asm!("mrs {}, fpcr", out(reg) word, options(nostack)) };
            Self(word)
        }

        /// Whether an exception is masked.
        pub fn masks(self) -> bool {
            self.0 & 0x9f00 == 0
        }

        pub fn set(self) {
            // SAFETY: nobody reads what the thread computes in this mode.
            unsafe { asm!("msr fpcr, {}", in(reg) self.0, options(nostack)) };
        }
    }
}
