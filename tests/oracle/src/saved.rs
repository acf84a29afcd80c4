//! The bytes of a saved state, and what saving and loading must answer and
//! leave. The format is the library's own; its sentences are quoted here.

use crate::run::refusal::{LIST_TOO_SHORT, NOT_SOUND};
use crate::words::{self, SIZE};

/// "eight that say what it is, "LEMIDROS", two of the version of this format, 1"
const HEADING: [u8; 10] = *b"LEMIDROS\x01\x00";

/// How many bytes a saved state has.
pub const SAVED: usize = HEADING.len() + 2 * SIZE + 4;

/// CRC-32C: the polynomial of Castagnoli, lowest bit first. By a table, of
/// which an entry is what is left of one byte.
pub fn crc32c(bytes: &[u8]) -> u32 {
    let table: [u32; 256] = std::array::from_fn(|byte| {
        (0..8).fold(byte as u32, |rest, _| {
            let taken_off = if rest & 1 == 1 { 0x82f6_3b78 } else { 0 };
            rest >> 1 ^ taken_off
        })
    });
    let rest = bytes.iter().fold(u32::MAX, |rest, byte| {
        let [low, ..] = rest.to_le_bytes();
        rest >> 8 ^ table[usize::from(low ^ byte)]
    });
    !rest
}

/// "two of each of the 6,464 words, and four of the checksum of all these. Every
/// number has its lowest byte first, on every machine."
pub fn bytes(words: &[u16]) -> Vec<u8> {
    let mut bytes = HEADING.to_vec();
    bytes.extend(words.iter().flat_map(|word| word.to_le_bytes()));
    bytes.extend(crc32c(&bytes).to_le_bytes());
    bytes
}

/// Whether words stand for a sound state.
pub fn is_sound(words: &[u16]) -> bool {
    words::state(words).is_some_and(|state| state.is_sound())
}

/// The words that bytes give: those of a sound state whose bytes they are.
pub fn loaded(bytes: &[u8]) -> Option<Vec<u16>> {
    let held = bytes.get(HEADING.len()..HEADING.len() + 2 * SIZE)?;
    let pairs = held.chunks_exact(2);
    let words: Vec<u16> = pairs
        .map(|pair| u16::from_le_bytes([pair[0], pair[1]]))
        .collect();
    (self::bytes(&words) == bytes && is_sound(&words)).then_some(words)
}

/// What it answers to save these words, and the lent bytes then: "2 if the words
/// stand for no sound state, 3 if there is room for fewer bytes than are saved".
/// The value is in bits 24 to 47, bit 23 says that there is one.
pub fn saving(words: &[u16], lent: &[u8]) -> (u64, Vec<u8>) {
    let mut after = lent.to_vec();
    if !is_sound(words) {
        return (u64::from(NOT_SOUND), after);
    }
    if lent.len() < SAVED {
        return (u64::from(LIST_TOO_SHORT), after);
    }
    after[..SAVED].copy_from_slice(&bytes(words));
    ((SAVED as u64) << 24 | 1 << 23, after)
}

/// What it answers to load these bytes, and the lent words then: "2 if the bytes
/// give no words, or if room for another number of words is lent: then no word is
/// written."
pub fn loading(bytes: &[u8], lent: &[u16]) -> (u64, Vec<u16>) {
    match loaded(bytes) {
        Some(words) if lent.len() == SIZE => (0, words),
        _ => (u64::from(NOT_SOUND), lent.to_vec()),
    }
}
