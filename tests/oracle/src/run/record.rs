//! Note 9: a recorder. "A writer takes a call, does it, and appends the record
//! to a lent buffer whose first byte is the count; the start writes that byte."

use super::{Checkpointed, Counts, Delivered, Entry, Recovered, Run, MAX_PROCESSES, ONES};

/// "21, after all numbers of the call itself, for fewer bytes left in the buffer
/// than it would write."
pub const NO_ROOM: u8 = 21;

/// The state, the buffer and the place that the call before left.
pub struct Recorder<'a> {
    run: Run,
    buffer: &'a mut [u8],
    place: usize,
}

/// Each call is done on a copy of the state and of its lent lists, and they are
/// taken over once its record is written: where there is no room for it nothing
/// is done. "A refused call writes no byte".
impl<'a> Recorder<'a> {
    pub fn start(count: usize, counts: &Counts, buffer: &'a mut [u8]) -> Result<Recorder<'a>, u8> {
        let run = Run::start(count, counts)?;
        let mut recorder = Recorder {
            run,
            buffer,
            place: 0,
        };
        recorder.append(&[u8::try_from(count).expect("1 to 16")])?;
        Ok(recorder)
    }

    pub fn checkpoint(&mut self, i: usize, deletions: &mut [Entry]) -> Result<Checkpointed, u8> {
        let (mut run, mut deleted) = (self.run.clone(), deletions.to_vec());
        let answer = run.checkpoint(i, &mut deleted)?;
        self.append_record(0, i as u64, 0)?;
        self.run = run;
        deletions.copy_from_slice(&deleted);
        Ok(answer)
    }

    pub fn send(&mut self, i: usize, j: usize) -> Result<u64, u8> {
        let mut run = self.run.clone();
        let answer = run.send(i, j)?;
        self.append_record(1, i as u64, j as u64)?;
        self.run = run;
        Ok(answer)
    }

    pub fn deliver(&mut self, number: u64, deletions: &mut [Entry]) -> Result<Delivered, u8> {
        let (mut run, mut deleted) = (self.run.clone(), deletions.to_vec());
        let answer = run.deliver(number, &mut deleted)?;
        self.append_record(2, 0, number)?;
        self.run = run;
        deletions.copy_from_slice(&deleted);
        Ok(answer)
    }

    pub fn lose(&mut self, number: u64) -> Result<(), u8> {
        let mut run = self.run.clone();
        run.lose(number)?;
        self.append_record(3, 0, number)?;
        self.run = run;
        Ok(())
    }

    pub fn recover(
        &mut self,
        failed: u64,
        deletions: &mut [Entry],
        line: &mut [Entry],
    ) -> Result<Recovered, u8> {
        let mut run = self.run.clone();
        let (mut deleted, mut written) = (deletions.to_vec(), line.to_vec());
        let answer = run.recover(failed, &mut deleted, &mut written)?;
        self.append_record(4, 0, failed)?;
        self.run = run;
        deletions.copy_from_slice(&deleted);
        line.copy_from_slice(&written);
        Ok(answer)
    }

    /// "a line request [...] writes none."
    pub fn line(&self, failed: u64, line: &mut [Entry]) -> Result<(), u8> {
        self.run.line(failed, line)
    }

    pub fn run(&self) -> &Run {
        &self.run
    }

    /// How many bytes are recorded.
    pub fn place(&self) -> usize {
        self.place
    }

    fn append_record(&mut self, kind: u64, process: u64, argument: u64) -> Result<(), u8> {
        self.append(&record_bytes(kind, process, argument))
    }

    fn append(&mut self, bytes: &[u8]) -> Result<(), u8> {
        let left = &mut self.buffer[self.place..];
        if left.len() < bytes.len() {
            return Err(NO_ROOM);
        }
        left[..bytes.len()].copy_from_slice(bytes);
        self.place += bytes.len();
        Ok(())
    }
}

/// "records of 32 bits": what an accepted call names fits its field.
pub fn record_bytes(kind: u64, process: u64, argument: u64) -> [u8; 4] {
    let record = u32::try_from(kind << 29 | process << 25 | argument);
    record.expect("an accepted call fits").to_be_bytes()
}

/// What a buffer of this many bytes has recorded once each record of the trace
/// was a call, and a line for each record that was refused, for left-over bytes
/// and for a first byte that is none: which record, which number.
pub struct Recording {
    pub bytes: Vec<u8>,
    pub lines: String,
}

/// "14: unused kind [..]", "13: [..] left over", "12: no first byte".
const MALFORMED: u8 = 14;
const LEFT_OVER: u8 = 13;
const NO_FIRST_BYTE: u8 = 12;

pub fn recorded(trace: &[u8], room: usize) -> Recording {
    let mut buffer = vec![0; room];
    let mut lines = String::new();
    let length = record_trace(trace, &mut buffer, &mut |record, number| {
        lines += &format!("record: record {record}: refused {number}\n");
    });
    buffer.truncate(length);
    Recording {
        bytes: buffer,
        lines,
    }
}

fn record_trace(trace: &[u8], buffer: &mut [u8], say: &mut dyn FnMut(usize, u8)) -> usize {
    let Some((first, records)) = trace.split_first() else {
        say(0, NO_FIRST_BYTE);
        return 0;
    };
    let mut recorder = match Recorder::start(usize::from(*first), &ONES, buffer) {
        Ok(recorder) => recorder,
        Err(number) => {
            say(0, number);
            return 0;
        }
    };
    let deletions = &mut [0; 2 * MAX_PROCESSES * MAX_PROCESSES];
    let line = &mut [0; MAX_PROCESSES];
    for (index, bytes) in records.chunks(4).enumerate() {
        let Ok(bytes) = <[u8; 4]>::try_from(bytes) else {
            say(index + 1, LEFT_OVER);
            break;
        };
        let record = u32::from_be_bytes(bytes);
        let (process, argument) = ((record >> 25 & 0b1111) as usize, record & 0x1FF_FFFF);
        let refused = match (record >> 29, process, argument) {
            (0, _, 0) => recorder.checkpoint(process, deletions).err(),
            (1, _, _) => recorder.send(process, argument as usize).err(),
            (2, 0, _) => recorder.deliver(argument.into(), deletions).err(),
            (3, 0, _) => recorder.lose(argument.into()).err(),
            (4, 0, _) => recorder.recover(argument.into(), deletions, line).err(),
            _ => Some(MALFORMED),
        };
        // Refused or not: the next record comes.
        if let Some(number) = refused {
            say(index + 1, number);
        }
    }
    recorder.place()
}
