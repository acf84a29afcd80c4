//! Why a call was refused.

use crate::library;
use std::error::Error;
use std::fmt;

/// Why the library refused a call; where several hold, it gives the one with the lowest number.
#[derive(Clone, Copy, Debug, PartialEq, Eq, PartialOrd, Ord, Hash)]
#[non_exhaustive]
#[repr(u8)]
pub enum Refusal {
    /// The number of processes is not from 1 to 16.
    CountOutsideRange = 1,
    /// The state is not sound, or no line exists on it.
    UnsoundState = 2,
    /// A lent list has too few entries. Lists are lent in this crate, so that no call of its gives it.
    ListTooShort = 3,
    /// A process that is not in the run.
    NoSuchProcess = 4,
    /// The sender is the receiver.
    SenderIsReceiver = 5,
    /// A set that names a process which is not in the run.
    NoSuchFailedProcess = 7,
    /// No such message is under way.
    NotUnderWay = 8,
    /// 64 messages are under way already.
    TooManyUnderWay = 9,
    /// All 1,000,000 message numbers are used.
    MessageNumbersUsed = 10,
    /// A checkpoint, taken or forced, where the process's own entry is 65,535.
    IntervalsUsed = 11,
    /// A trace without a first byte.
    NoFirstByte = 12,
    /// One to three bytes are left over after the last record of a trace.
    LeftOverBytes = 13,
    /// A record of an unused kind, or with a field that must be zero and is not.
    MalformedRecord = 14,
    /// A block count is not from 1 to 65,535.
    BlockCountOutsideRange = 15,
    /// A checkpoint, taken or forced, that would take the blocks written past 1,000,000,000,000,000.
    BlocksUsed = 16,
    /// A trace of more than 4,096 records.
    TooManyRecords = 17,
    /// No checkpoint is named, more than there are processes, or two of one process.
    UnfitNamedList = 18,
    /// A named checkpoint is not kept.
    NotKept = 19,
    /// One of the named checkpoints comes causally before another.
    CausallyOrdered = 20,
    /// A recorder's buffer has too few bytes left.
    BufferTooShort = 21,
    /// The processes, the spacing or the steps of a simulation are out of range.
    TrialOutsideRange = 22,
    /// Halves that differ in their number of processes, or a record that is not of its half.
    HalvesMismatch = 23,
    /// Records are left and neither half is ready.
    NeitherReady = 24,
    /// The caller may not do this.
    Denied = 25,
}

use Refusal::*;

/// All of them.
const REFUSALS: [Refusal; 24] = [
    CountOutsideRange,
    UnsoundState,
    ListTooShort,
    NoSuchProcess,
    SenderIsReceiver,
    NoSuchFailedProcess,
    NotUnderWay,
    TooManyUnderWay,
    MessageNumbersUsed,
    IntervalsUsed,
    NoFirstByte,
    LeftOverBytes,
    MalformedRecord,
    BlockCountOutsideRange,
    BlocksUsed,
    TooManyRecords,
    UnfitNamedList,
    NotKept,
    CausallyOrdered,
    BufferTooShort,
    TrialOutsideRange,
    HalvesMismatch,
    NeitherReady,
    Denied,
];

impl Refusal {
    /// Its number, from 1 to 25.
    pub fn number(self) -> u8 {
        self as u8
    }

    /// The refusal with this number, if there is one.
    pub fn with_number(number: u8) -> Option<Refusal> {
        REFUSALS
            .into_iter()
            .find(|refusal| refusal.number() == number)
    }

    /// What it says, in words.
    pub fn text(self) -> &'static str {
        library::refusal_text(self.number())
    }
}

/// Its text and its number.
///
/// ```
/// let refused = lemidrosy::Run::start(&[]).unwrap_err();
/// assert_eq!(refused.to_string(), "the number of processes is not from 1 to 16 (refused with 1)");
/// ```
impl fmt::Display for Refusal {
    fn fmt(&self, to: &mut fmt::Formatter) -> fmt::Result {
        write!(to, "{} (refused with {})", self.text(), self.number())
    }
}

impl Error for Refusal {}
