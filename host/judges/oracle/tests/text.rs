// kira's text is unchanged: every file has its digest, and the compiled sound.rs differs in one line.

use std::{fs, path::Path};

use oracle::{SOUND_AS_COMPILED, edit};

const KIRA: &str = concat!(env!("CARGO_MANIFEST_DIR"), "/kira");

#[test]
fn digests_are_the_recorded_ones() {
    let sums = fs::read_to_string(Path::new(KIRA).join("SHA256SUMS")).unwrap();
    let mut named: Vec<_> = sums
        .lines()
        .map(|line| line.split_once("  ").unwrap())
        .collect();
    for (digest, file) in &named {
        let text = fs::read(Path::new(KIRA).join(file)).unwrap();
        assert_eq!(sha256(&text), *digest, "{file}");
    }
    named.sort_by_key(|(_, file)| *file);
    let files: Vec<_> = named.iter().map(|(_, file)| file.to_string()).collect();
    assert_eq!(files, files_below("src"));
}

#[test]
fn one_line_is_edited() {
    let path = "src/sound/static_sound/sound.rs";
    let pristine = fs::read_to_string(Path::new(KIRA).join(path)).unwrap();
    let (before, after): (Vec<_>, Vec<_>) = (
        pristine.split('\n').collect(),
        SOUND_AS_COMPILED.split('\n').collect(),
    );
    assert_eq!(before.len(), after.len());
    let differing: Vec<_> = before
        .iter()
        .zip(&after)
        .filter(|(a, b)| a != b)
        .map(|(a, b)| (a.trim_start(), b.trim_start()))
        .collect();
    assert_eq!(differing, [(edit::ORIGINAL, edit::REPLACEMENT)]);
}

#[test]
fn digest_of_a_known_text() {
    assert_eq!(
        sha256(b"abc"),
        "ba7816bf8f01cfea414140de5dae2223b00361a396177a9cb410ff61f20015ad"
    );
}

fn files_below(folder: &str) -> Vec<String> {
    let mut files = Vec::new();
    for entry in fs::read_dir(Path::new(KIRA).join(folder)).unwrap() {
        let entry = entry.unwrap();
        let path = format!("{folder}/{}", entry.file_name().into_string().unwrap());
        if entry.file_type().unwrap().is_dir() {
            files.extend(files_below(&path));
        } else {
            files.push(path);
        }
    }
    files.sort();
    files
}

/// SHA-256 (FIPS 180-4), so that anyone can repeat the digests with common tools.
fn sha256(text: &[u8]) -> String {
    let primes: Vec<u32> = (2..312).filter(|n| (2..*n).all(|d| n % d != 0)).collect();
    let keys: Vec<u32> = primes.iter().map(|p| root_bits(*p, 3)).collect();
    let mut hash: Vec<u32> = primes[..8].iter().map(|p| root_bits(*p, 2)).collect();

    let mut padded = text.to_vec();
    padded.push(0x80);
    padded.resize(padded.len().next_multiple_of(64), 0);
    if padded.len() < text.len() + 9 {
        padded.resize(padded.len() + 64, 0);
    }
    let end = padded.len() - 8;
    padded[end..].copy_from_slice(&(8 * text.len() as u64).to_be_bytes());

    for block in padded.as_chunks::<64>().0 {
        let mut words: Vec<u32> = block
            .as_chunks::<4>()
            .0
            .iter()
            .map(|bytes| u32::from_be_bytes(*bytes))
            .collect();
        for i in 16..64 {
            let (early, late) = (words[i - 15], words[i - 2]);
            let s0 = early.rotate_right(7) ^ early.rotate_right(18) ^ early >> 3;
            let s1 = late.rotate_right(17) ^ late.rotate_right(19) ^ late >> 10;
            words.push(sum(&[words[i - 16], s0, words[i - 7], s1]));
        }
        let mut now = hash.clone();
        for (key, word) in keys.iter().zip(words) {
            let (a, e) = (now[0], now[4]);
            let s1 = e.rotate_right(6) ^ e.rotate_right(11) ^ e.rotate_right(25);
            let choice = e & now[5] ^ !e & now[6];
            let first = sum(&[now[7], s1, choice, *key, word]);
            let s0 = a.rotate_right(2) ^ a.rotate_right(13) ^ a.rotate_right(22);
            let majority = a & now[1] ^ a & now[2] ^ now[1] & now[2];
            now.rotate_right(1);
            now[4] = sum(&[now[4], first]);
            now[0] = sum(&[first, s0, majority]);
        }
        for (held, new) in hash.iter_mut().zip(now) {
            *held = held.wrapping_add(new);
        }
    }
    hash.iter().map(|word| format!("{word:08x}")).collect()
}

fn sum(words: &[u32]) -> u32 {
    words.iter().fold(0, |all, word| all.wrapping_add(*word))
}

/// The first 32 bits of the fractional part of a prime's square or cube root.
fn root_bits(prime: u32, degree: u32) -> u32 {
    let wanted = u128::from(prime) << (32 * degree);
    let (mut low, mut high) = (0u128, 1 << 40);
    while high - low > 1 {
        let middle = (low + high) / 2;
        if middle.pow(degree) <= wanted {
            low = middle;
        } else {
            high = middle;
        }
    }
    low as u32
}
