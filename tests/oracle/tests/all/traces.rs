//! The trace and the listing: first bytes, left-over bytes, damaged records,
//! short reads, the last record.

use crate::common::{self, listing, stopped_listing, trace};
use oracle::replay::{replay, replay_up_to, AfterRefusal};
use std::io::{self, ErrorKind, Read, Write};

const CHECKPOINT: u32 = 0;
const SEND: u32 = 1;
const DELIVER: u32 = 2;
const LOSE: u32 = 3;
const RECOVER: u32 = 4;

#[test]
fn no_first_byte() {
    assert_eq!(listing(&[]), "0 12\n");
    assert_eq!(stopped_listing(&[]), "0 12\n");
}

#[test]
fn a_bad_first_byte() {
    for first in [0, 17, 18, 128, 255] {
        assert_eq!(listing(&[first]), "0 1\n");
        // What follows is not looked at.
        assert_eq!(listing(&trace(first, &[(CHECKPOINT, 0, 0)])), "0 1\n");
        assert_eq!(listing(&[first, 0, 0]), "0 1\n");
        assert_eq!(stopped_listing(&[first, 0, 0]), "0 1\n");
    }
}

#[test]
fn a_first_byte_alone() {
    for first in 1..=16 {
        assert_eq!(listing(&[first]), "");
    }
}

#[test]
fn left_over_bytes() {
    for left in 1..=3 {
        let mut bytes = vec![1];
        bytes.extend(vec![0; left]);
        assert_eq!(listing(&bytes), "1 13\n");
        assert_eq!(stopped_listing(&bytes), "1 13\n");

        let mut bytes = trace(1, &[(CHECKPOINT, 0, 0), (7, 0, 0)]);
        // Also where the bytes begin a record of an unused kind.
        bytes.extend(vec![255; left]);
        assert_eq!(listing(&bytes), "1 0 1 1 0:0\n2 14\n3 13\n");
        // After the stop they are not judged.
        assert_eq!(stopped_listing(&bytes), "1 0 1 1 0:0\n2 14\n");
    }
}

#[test]
fn a_bad_record_comes_before_any_other_number() {
    let records = [
        (5, 0, 0),
        (6, 15, 0x1FF_FFFF),
        (7, 0, 1),
        // Also 4: process 9 is not below 2.
        (CHECKPOINT, 9, 1),
        (CHECKPOINT, 0, 1 << 24),
        // Also 8.
        (DELIVER, 1, 5),
        (LOSE, 15, 0),
        // Also 7.
        (RECOVER, 8, 1 << 24),
        // Fine but for one field.
        (RECOVER, 1, 0),
        (RECOVER, 1, 1),
    ];
    for (place, line) in listing(&trace(2, &records)).lines().enumerate() {
        assert_eq!(line, format!("{} 14", place + 1));
    }
    assert_eq!(listing(&trace(2, &records)).lines().count(), records.len());
}

#[test]
fn it_goes_on_after_a_refusal() {
    let records = [
        (CHECKPOINT, 3, 0),
        (SEND, 1, 1),
        (SEND, 1, 2),
        (SEND, 1, 16),
        (SEND, 1, 1 << 16),
        (SEND, 1, 0x1FF_FFFF),
        (SEND, 15, 15),
        (SEND, 1, 0),
        (DELIVER, 0, 0),
        (DELIVER, 0, 2),
        (LOSE, 0, 1 << 16 | 1),
        (RECOVER, 0, 0),
        (RECOVER, 0, 4),
        // Not empty, though 16 bits of it are.
        (RECOVER, 0, 1 << 16),
        (RECOVER, 0, 0x1FF_0000),
        (RECOVER, 0, 1 << 24 | 1),
        (LOSE, 0, 1),
        (LOSE, 0, 1),
        (RECOVER, 0, 3),
    ];
    let numbers = [4, 5, 4, 4, 4, 4, 4, 0, 8, 8, 8, 0, 7, 7, 7, 7, 0, 8, 0];
    let listing = listing(&trace(2, &records));
    let lines: Vec<&str> = listing.lines().collect();
    assert_eq!(lines.len(), records.len());
    for (place, number) in numbers.into_iter().enumerate() {
        let expected = match (place + 1, number) {
            (8, 0) => "8 0 1 0".to_string(),
            (12, 0) => "12 0 0 0".to_string(),
            (17, 0) => "17 0 - 0".to_string(),
            (19, 0) => "19 0 2 0".to_string(),
            (record, number) => format!("{record} {number}"),
        };
        assert_eq!(lines[place], expected);
    }
}

/// Note 11: "The replay program now stops after printing the first refusal."
#[test]
fn it_stops_after_the_first_refusal() {
    let refused = [
        (CHECKPOINT, 2, 0),
        (SEND, 1, 1),
        (SEND, 0, 2),
        (DELIVER, 0, 9),
        (LOSE, 0, 0),
        (RECOVER, 0, 4),
        (RECOVER, 1, 0),
        (7, 0, 0),
    ];
    for bad in refused {
        let records = [(CHECKPOINT, 0, 0), bad, (CHECKPOINT, 0, 0), bad];
        let whole = listing(&trace(2, &records));
        let stopped = stopped_listing(&trace(2, &records));
        assert_eq!(whole.lines().count(), 4);
        assert_eq!(stopped.lines().count(), 2);
        assert!(whole.starts_with(&stopped));
        // As the last record it makes no difference.
        let last = trace(2, &records[..2]);
        assert_eq!(stopped_listing(&last), listing(&last));
    }
}

#[test]
fn both_ways_agree_up_to_the_first_refusal() {
    let (mut stopped, mut whole) = (0, 0);
    for seed in 0..300 {
        let arguments = [seed.to_string()];
        let plan = oracle::generate::Plan::from_arguments(&arguments).unwrap();
        let mut bytes = Vec::new();
        oracle::generate::write_trace(plan, &mut bytes).unwrap();
        let all = listing(&bytes);
        let first = stopped_listing(&bytes);
        assert_eq!(first, common::up_to_first_refusal(&all));
        stopped += (first != all) as usize;
        whole += (first == all) as usize;
    }
    assert!(stopped > 50 && whole > 50);
}

/// Hands over some bytes at once, and must not be asked again.
struct Once<'a>(Option<&'a [u8]>);

impl Read for Once<'_> {
    fn read(&mut self, buffer: &mut [u8]) -> io::Result<usize> {
        let bytes = self.0.take().expect("reads on behind the stop");
        buffer[..bytes.len()].copy_from_slice(bytes);
        Ok(bytes.len())
    }
}

#[test]
fn nothing_is_read_behind_the_stop() {
    for left in 0..=5 {
        let mut bytes = trace(1, &[(CHECKPOINT, 0, 0), (CHECKPOINT, 1, 0)]);
        bytes.extend(vec![0; left]);
        let mut output = Vec::new();
        replay(AfterRefusal::Stop, Once(Some(&bytes)), &mut output).unwrap();
        assert_eq!(output, b"1 0 1 1 0:0\n2 4\n");
    }
}

#[test]
fn deletions_ascend_by_process_then_index() {
    // Both processes come to keep two checkpoints (record 5 forces one); the
    // recovery of both rolls each back to its last and deletes the other.
    let records = [
        (SEND, 0, 1),
        (DELIVER, 0, 1),
        (CHECKPOINT, 1, 0),
        (SEND, 1, 0),
        (DELIVER, 0, 2),
        (CHECKPOINT, 0, 0),
        (CHECKPOINT, 1, 0),
        (RECOVER, 0, 3),
    ];
    let listing = listing(&trace(2, &records));
    assert_eq!(
        listing,
        "1 0 1 0\n2 0 - 0\n3 0 1 0\n4 0 2 0\n5 0 1 1 0:0\n6 0 2 0\n7 0 2 1 1:1\n8 0 2 2 0:1 1:0\n"
    );
}

/// Note 4: a recover record of the empty set deletes what no failure could use,
/// and the message under way can still be delivered.
#[test]
fn a_sweep() {
    let records = [
        (SEND, 0, 1),
        (CHECKPOINT, 1, 0),
        (DELIVER, 0, 1),
        (CHECKPOINT, 1, 0),
        (CHECKPOINT, 0, 0),
        (SEND, 0, 1),
        (RECOVER, 0, 0),
        (RECOVER, 0, 0),
        (DELIVER, 0, 2),
    ];
    let listing = listing(&trace(2, &records));
    assert_eq!(
        listing,
        "1 0 1 0\n2 0 1 1 1:0\n3 0 - 0\n4 0 2 0\n5 0 1 1 0:0\n6 0 2 0\n\
         7 0 0 1 1:1\n8 0 0 0\n9 0 - 0\n"
    );
}

/// Hands over at most that many bytes at a time, and is interrupted in between.
struct ShortReads<'a> {
    bytes: &'a [u8],
    most: usize,
    interrupted: bool,
}

impl Read for ShortReads<'_> {
    fn read(&mut self, buffer: &mut [u8]) -> io::Result<usize> {
        self.interrupted = !self.interrupted;
        if self.interrupted {
            return Err(ErrorKind::Interrupted.into());
        }
        let most = self.most.min(buffer.len());
        self.bytes.read(&mut buffer[..most])
    }
}

#[test]
fn short_reads_change_nothing() {
    let mut bytes = trace(3, &[]);
    let mut random = common::Random(1);
    for _ in 0..3000 {
        let kind = random.below(6) as u32;
        let process = if kind < 2 { random.below(4) as u32 } else { 0 };
        let argument = match kind {
            0 => 0,
            1 => random.below(4) as u32,
            4 => random.below(9) as u32,
            _ => random.below(600) as u32,
        };
        bytes.extend(common::record(kind, process, argument));
    }
    for left in 0..=3 {
        bytes.extend(vec![0; (left > 0) as usize]);
        let whole = listing(&bytes);
        assert_eq!(whole.lines().count(), 3000 + (left > 0) as usize);
        for most in [1, 2, 3, 4, 5, 7, 4096] {
            let input = ShortReads {
                bytes: &bytes,
                most,
                interrupted: false,
            };
            let mut output = Vec::new();
            replay(AfterRefusal::GoOn, input, &mut output).unwrap();
            assert_eq!(String::from_utf8(output).unwrap(), whole);
        }
    }
}

/// Fails if more is asked for than may be read.
struct NotPast {
    allowed: usize,
}

impl Read for NotPast {
    fn read(&mut self, buffer: &mut [u8]) -> io::Result<usize> {
        assert!(buffer.len() <= self.allowed, "reads past the last record");
        let most = buffer.len().min(3);
        buffer[..most].fill(1);
        self.allowed -= most;
        Ok(most)
    }
}

#[test]
fn nothing_is_read_past_the_last_record() {
    for last in [1, 2, 3, 100, 50_000] {
        let input = NotPast {
            allowed: 1 + 4 * last as usize,
        };
        let mut output = Vec::new();
        replay_up_to(last, AfterRefusal::GoOn, input, &mut output).unwrap();
        let output = String::from_utf8(output).unwrap();
        assert_eq!(output.lines().count(), last as usize);
        assert_eq!(output.lines().last().unwrap(), format!("{last} 14"));
    }
    assert_eq!(oracle::replay::LAST_RECORD, 1_000_000_000);
}

/// Gives some bytes, then an error.
struct Failing<'a>(&'a [u8]);

impl Read for Failing<'_> {
    fn read(&mut self, buffer: &mut [u8]) -> io::Result<usize> {
        match self.0.read(buffer)? {
            0 => Err(ErrorKind::Other.into()),
            got => Ok(got),
        }
    }
}

#[test]
fn after_a_reading_error_the_listing_so_far_is_written() {
    let bytes = trace(1, &[(CHECKPOINT, 0, 0)]);
    let mut output = Vec::new();
    assert!(replay(AfterRefusal::Stop, Failing(&bytes), &mut output).is_err());
    assert_eq!(output, b"1 0 1 1 0:0\n");
}

struct Full;

impl Write for Full {
    fn write(&mut self, _: &[u8]) -> io::Result<usize> {
        Err(ErrorKind::StorageFull.into())
    }

    fn flush(&mut self) -> io::Result<()> {
        Ok(())
    }
}

#[test]
fn a_writing_error_is_handed_on() {
    let mut bytes = trace(1, &[]);
    bytes.extend(vec![0; 4 * 100_000]);
    assert!(replay(AfterRefusal::Stop, &bytes[..], Full).is_err());
    assert!(replay(AfterRefusal::Stop, &[][..], Full).is_err());
}
