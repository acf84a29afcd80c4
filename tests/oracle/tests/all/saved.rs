//! The bytes of a saved state: the checksum against what is published of it, and
//! the bytes of words written out.

use oracle::saved::{bytes, crc32c, loaded, loading, saving, SAVED};
use oracle::words::{BLOCKS, HELD, INDEXES, PARTS, PINS, SIZE, STORED, WRITTEN};

/// The check value of CRC-32C, and the examples of RFC 3720, B.4.
#[test]
fn the_checksum_is_the_published_one() {
    assert_eq!(crc32c(b"123456789"), 0xe306_9283);
    assert_eq!(crc32c(&[0; 32]), 0x8a91_36aa);
    assert_eq!(crc32c(&[0xff; 32]), 0x62a8_ab43);
    let ascending: Vec<u8> = (0..32).collect();
    assert_eq!(crc32c(&ascending), 0x46dd_794e);
    let descending: Vec<u8> = (0..32).rev().collect();
    assert_eq!(crc32c(&descending), 0x113f_db5c);
}

/// One process, with 7 blocks, has its first checkpoint and nothing else.
fn one_process() -> Vec<u16> {
    let mut words = vec![0; SIZE];
    words[0] = 1;
    words[WRITTEN] = 7;
    words[HELD] = 1;
    words[BLOCKS] = 7;
    words[PARTS] = 1;
    words[PARTS + PINS] = 1;
    words[PARTS + INDEXES] = 1;
    words[PARTS + STORED] = 0;
    words
}

#[test]
fn words_are_written_out() {
    let saved = bytes(&one_process());
    assert_eq!(saved.len(), 12_942);
    assert_eq!(saved.len(), SAVED);
    assert_eq!(&saved[..12], b"LEMIDROS\x01\x00\x01\x00");
    assert_eq!(&saved[10 + 2 * BLOCKS..12 + 2 * BLOCKS], &[7, 0]);
    assert_eq!(saved[12_938..], crc32c(&saved[..12_938]).to_le_bytes());
}

#[test]
fn what_is_saved_is_loaded() {
    let words = one_process();
    let saved = bytes(&words);
    assert_eq!(loaded(&saved), Some(words.clone()));
    assert_eq!(saving(&words, &[9; SAVED + 1]).0, 12_942 << 24 | 1 << 23);
    assert_eq!(saving(&words, &[9; SAVED + 1]).1[SAVED..], [9]);
    assert_eq!(saving(&words, &[9; SAVED - 1]), (3, vec![9; SAVED - 1]));
    assert_eq!(loading(&saved, &[5; SIZE]), (0, words));
    assert_eq!(loading(&saved, &[5; SIZE - 1]), (2, vec![5; SIZE - 1]));
    assert_eq!(loading(&saved[..SAVED - 1], &[5; SIZE]), (2, vec![5; SIZE]));
}

/// A byte changed, and a sum that is right of words that are not sound.
#[test]
fn what_is_no_saved_state_is_not_loaded() {
    let mut changed = bytes(&one_process());
    changed[100] ^= 1;
    assert_eq!(loaded(&changed), None);
    let unsound = vec![0; SIZE];
    assert_eq!(loaded(&bytes(&unsound)), None);
    assert_eq!(saving(&unsound, &[0; SAVED]).0, 2);
}
