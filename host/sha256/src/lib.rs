//! SHA-256 (FIPS 180-4), in pieces or at once.
#![forbid(unsafe_code)]
#![warn(missing_docs)]

/// The first 32 bits of the fractional parts of the cube roots of the first 64 primes.
const ROUNDS: [u32; 64] = [
    0x428a_2f98,
    0x7137_4491,
    0xb5c0_fbcf,
    0xe9b5_dba5,
    0x3956_c25b,
    0x59f1_11f1,
    0x923f_82a4,
    0xab1c_5ed5,
    0xd807_aa98,
    0x1283_5b01,
    0x2431_85be,
    0x550c_7dc3,
    0x72be_5d74,
    0x80de_b1fe,
    0x9bdc_06a7,
    0xc19b_f174,
    0xe49b_69c1,
    0xefbe_4786,
    0x0fc1_9dc6,
    0x240c_a1cc,
    0x2de9_2c6f,
    0x4a74_84aa,
    0x5cb0_a9dc,
    0x76f9_88da,
    0x983e_5152,
    0xa831_c66d,
    0xb003_27c8,
    0xbf59_7fc7,
    0xc6e0_0bf3,
    0xd5a7_9147,
    0x06ca_6351,
    0x1429_2967,
    0x27b7_0a85,
    0x2e1b_2138,
    0x4d2c_6dfc,
    0x5338_0d13,
    0x650a_7354,
    0x766a_0abb,
    0x81c2_c92e,
    0x9272_2c85,
    0xa2bf_e8a1,
    0xa81a_664b,
    0xc24b_8b70,
    0xc76c_51a3,
    0xd192_e819,
    0xd699_0624,
    0xf40e_3585,
    0x106a_a070,
    0x19a4_c116,
    0x1e37_6c08,
    0x2748_774c,
    0x34b0_bcb5,
    0x391c_0cb3,
    0x4ed8_aa4a,
    0x5b9c_ca4f,
    0x682e_6ff3,
    0x748f_82ee,
    0x78a5_636f,
    0x84c8_7814,
    0x8cc7_0208,
    0x90be_fffa,
    0xa450_6ceb,
    0xbef9_a3f7,
    0xc671_78f2,
];

/// The first 32 bits of the fractional parts of the square roots of the first 8 primes.
const START: [u32; 8] = [
    0x6a09_e667,
    0xbb67_ae85,
    0x3c6e_f372,
    0xa54f_f53a,
    0x510e_527f,
    0x9b05_688c,
    0x1f83_d9ab,
    0x5be0_cd19,
];

/// A digest that is being computed.
#[derive(Debug, Clone)]
pub struct Sha256 {
    state: [u32; 8],
    /// The bytes of a block that is not full yet; `length % 64` of them are used.
    block: [u8; 64],
    length: u64,
}

impl Default for Sha256 {
    fn default() -> Self {
        Self {
            state: START,
            block: [0; 64],
            length: 0,
        }
    }
}

impl Sha256 {
    /// A digest of no bytes yet.
    #[must_use]
    pub fn new() -> Self {
        Self::default()
    }

    /// Adds bytes. How they are cut into calls changes nothing.
    pub fn update(&mut self, bytes: &[u8]) {
        // Up to the end of the current block, then whole blocks, then the rest.
        let begun = (self.length % 64) as usize;
        let (first, rest) = bytes.split_at(bytes.len().min((64 - begun) % 64));
        let (blocks, last) = rest.as_chunks();
        first.iter().for_each(|byte| self.push(*byte));
        for block in blocks {
            self.block = *block;
            self.length = self.length.wrapping_add(64);
            self.compress();
        }
        last.iter().for_each(|byte| self.push(*byte));
    }

    /// The digest of all bytes added.
    #[must_use]
    pub fn finish(mut self) -> [u8; 32] {
        let bits = self.length.wrapping_mul(8);
        self.push(0x80);
        while self.length % 64 != 56 {
            self.push(0);
        }
        for byte in bits.to_be_bytes() {
            self.push(byte);
        }
        let mut digest = [0; 32];
        for (bytes, word) in digest.chunks_exact_mut(4).zip(self.state) {
            bytes.copy_from_slice(&word.to_be_bytes());
        }
        digest
    }

    fn push(&mut self, byte: u8) {
        self.block[(self.length % 64) as usize] = byte;
        self.length = self.length.wrapping_add(1);
        if self.length.is_multiple_of(64) {
            self.compress();
        }
    }

    /// Mixes the full block into the state.
    fn compress(&mut self) {
        let mut schedule = [0_u32; 64];
        for (word, bytes) in schedule.iter_mut().zip(self.block.chunks_exact(4)) {
            *word = bytes
                .iter()
                .fold(0, |word, byte| (word << 8) | u32::from(*byte));
        }
        for at in 16..64 {
            let (near, far) = (schedule[at - 15], schedule[at - 2]);
            let low = near.rotate_right(7) ^ near.rotate_right(18) ^ (near >> 3);
            let high = far.rotate_right(17) ^ far.rotate_right(19) ^ (far >> 10);
            schedule[at] = schedule[at - 16]
                .wrapping_add(low)
                .wrapping_add(schedule[at - 7])
                .wrapping_add(high);
        }
        let [mut a, mut b, mut c, mut d, mut e, mut f, mut g, mut h] = self.state;
        for (constant, word) in ROUNDS.into_iter().zip(schedule) {
            let of_e = e.rotate_right(6) ^ e.rotate_right(11) ^ e.rotate_right(25);
            let choice = (e & f) ^ (!e & g);
            let first = h
                .wrapping_add(of_e)
                .wrapping_add(choice)
                .wrapping_add(constant)
                .wrapping_add(word);
            let of_a = a.rotate_right(2) ^ a.rotate_right(13) ^ a.rotate_right(22);
            let majority = (a & b) ^ (a & c) ^ (b & c);
            let second = of_a.wrapping_add(majority);
            (h, g, f, e) = (g, f, e, d.wrapping_add(first));
            (d, c, b, a) = (c, b, a, first.wrapping_add(second));
        }
        for (word, mixed) in self.state.iter_mut().zip([a, b, c, d, e, f, g, h]) {
            *word = word.wrapping_add(mixed);
        }
    }
}

/// The digest of these bytes.
#[must_use]
pub fn digest(bytes: &[u8]) -> [u8; 32] {
    let mut sha256 = Sha256::new();
    sha256.update(bytes);
    sha256.finish()
}

/// Bytes as hexadecimal digits, in lower case.
#[must_use]
pub fn hex(bytes: &[u8]) -> String {
    bytes.iter().map(|byte| format!("{byte:02x}")).collect()
}

#[cfg(test)]
mod tests {
    use super::{Sha256, digest, hex};

    /// The examples of FIPS 180-4 that NIST publishes, and the digest of nothing.
    #[test]
    fn the_published_examples() {
        for (text, expected) in [
            (
                "",
                "e3b0c44298fc1c149afbf4c8996fb92427ae41e4649b934ca495991b7852b855",
            ),
            (
                "abc",
                "ba7816bf8f01cfea414140de5dae2223b00361a396177a9cb410ff61f20015ad",
            ),
            (
                "abcdbcdecdefdefgefghfghighijhijkijkljklmklmnlmnomnopnopq",
                "248d6a61d20638b8e5c026930c3e6039a33ce45964ff2167f6ecedd419db06c1",
            ),
            (
                "abcdefghbcdefghicdefghijdefghijkefghijklfghijklmghijklmnhijklmnoijklmnopjklmnopqklmnopqrlmnopqrsmnopqrstnopqrstu",
                "cf5b16a778af8380036ce59e7b0492370b249b11e8f07a51afac45037afee9d1",
            ),
        ] {
            assert_eq!(hex(&digest(text.as_bytes())), expected, "{text}");
        }
        assert_eq!(
            hex(&digest(&vec![b'a'; 1_000_000])),
            "cdc76e5c9914fb9281a1c7e284d73e67f1809a48a497200e046d39ccc7112cd0"
        );
    }

    /// What `sha256sum` prints for files of random bytes. Without the program nothing is compared.
    #[test]
    fn as_sha256sum() {
        let mut word = 0x9e37_79b9_7f4a_7c15_u64;
        let mut random = || {
            word ^= word << 13;
            word ^= word >> 7;
            word ^= word << 17;
            word
        };
        let path = std::env::temp_dir().join(format!("sha256-{}", std::process::id()));
        for round in 0..40 {
            let length = match round {
                0..20 => random() % 300,
                20..35 => random() % 70_000,
                _ => 1_000_000 + random() % 3_000_000,
            };
            let bytes: Vec<u8> = (0..length).map(|_| random() as u8).collect();
            std::fs::write(&path, &bytes).unwrap();
            let sum = std::process::Command::new("sha256sum").arg(&path).output();
            let Ok(sum) = sum else {
                eprintln!("skipped: no sha256sum on PATH");
                return;
            };
            let sum = String::from_utf8(sum.stdout).unwrap();
            assert_eq!(
                sum.split(' ').next(),
                Some(&*hex(&digest(&bytes))),
                "{length}"
            );
        }
        std::fs::remove_file(&path).unwrap();
    }

    /// Every length around the limits of the padding, cut in two at every byte, has the same digest.
    #[test]
    fn pieces_are_as_the_whole() {
        let bytes: Vec<u8> = (0..200_u8).collect();
        for length in 0..bytes.len() {
            let whole = digest(&bytes[..length]);
            for cut in 0..=length {
                let mut pieces = Sha256::new();
                pieces.update(&bytes[..cut]);
                pieces.update(&bytes[cut..length]);
                assert_eq!(pieces.finish(), whole, "{length} cut at {cut}");
            }
        }
    }
}
