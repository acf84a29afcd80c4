//! The state of a run and its calls, straight from the paper.
//!
//! The state is changed in place and holds fixed arrays only. A call that is
//! refused returns the refusal number and changes neither the state nor the
//! lent lists: every call judges first and writes afterwards.
//!
//! The checks of a call stand in ascending order of their numbers, so the
//! first that holds is the lowest: "Where several hold, the lowest number is
//! given."
//!
//! Soundness of the state (number 2) is not judged here: a `Run` is had from a
//! start and the calls on it, or, by `forged`, from a state that was judged.
//! (The door for tests, at the end, judges the sums that it is handed.)

pub mod forged;
pub mod record;

/// "A run has n processes, 1 to 16, numbered from 0."
pub const MAX_PROCESSES: usize = 16;

/// "At most 64 messages are under way."
pub const MAX_UNDER_WAY: usize = 64;

/// "Message numbers run from 1 to 1,000,000."
pub const LAST_MESSAGE_NUMBER: u64 = 1_000_000;

/// An entry of a vector, an index, a place of a lent list. There is room above
/// every value that the paper lets it have, so that none is cut short and none
/// has to stand for something else.
pub type Entry = u32;

/// "Vector entries are 0 to 65,535."
pub const LAST_ENTRY: Entry = 65_535;

/// Note 5: "block counts from 1 to 65,535".
pub const MOST_BLOCKS_EACH: u32 = 65_535;

/// Note 5: "16, [...] for a stored checkpoint that would take written past
/// 1,000,000,000,000,000."
pub const MOST_WRITTEN: u64 = 1_000_000_000_000_000;

/// The block counts of a start, one for each process. "The start takes 16
/// counts".
pub type Counts = [u32; MAX_PROCESSES];

/// Note 5: "a trace run uses 1."
pub const ONES: Counts = [1; MAX_PROCESSES];

/// The refusal numbers of the paper that a call on a run can give.
pub mod refusal {
    pub const COUNT_OUTSIDE: u8 = 1;
    pub const NOT_SOUND: u8 = 2;
    pub const LIST_TOO_SHORT: u8 = 3;
    pub const NO_SUCH_PROCESS: u8 = 4;
    pub const SENDER_IS_RECEIVER: u8 = 5;
    pub const FAILED_SET_OUTSIDE: u8 = 7;
    pub const NOT_UNDER_WAY: u8 = 8;
    pub const TOO_MANY_UNDER_WAY: u8 = 9;
    pub const NUMBERS_USED_UP: u8 = 10;
    pub const INTERVALS_USED_UP: u8 = 11;
    pub const COUNT_OF_BLOCKS_OUTSIDE: u8 = 15;
    pub const BLOCKS_USED_UP: u8 = 16;
    pub const BAD_NAMED_LIST: u8 = 18;
    pub const NOT_KEPT: u8 = 19;
    pub const CAUSALLY_ORDERED: u8 = 20;
}
use refusal::*;

/// A dependency vector. Entries at n and above are always zero, so loops may
/// run over all 16 of them.
pub type Vector = [Entry; MAX_PROCESSES];

/// For each process what its entry in a vector must stay below, if anything.
type Bounds = [Option<Entry>; MAX_PROCESSES];

/// The pins of one process: each names a checkpoint by its index, or none.
pub type Pins = [Option<Entry>; MAX_PROCESSES];

/// A process keeps at most n checkpoints between calls; while a call runs, the
/// one just stored may come on top.
const MAX_STORED: usize = MAX_PROCESSES + 1;

/// Note 5: "its cause (0 initial, 1 basic, 2 forced)".
const INITIAL: u8 = 0;
const BASIC: u8 = 1;
const FORCED: u8 = 2;

/// A stored checkpoint: its index, the vector stored under it, and, by Note 5,
/// "its cause [...] and its process's block count".
#[derive(Clone, Copy, Debug, PartialEq, Eq)]
struct Checkpoint {
    index: Entry,
    vector: Vector,
    cause: u8,
    blocks: u32,
}

const NO_CHECKPOINT: Checkpoint = Checkpoint {
    index: 0,
    vector: [0; MAX_PROCESSES],
    cause: INITIAL,
    blocks: 0,
};

/// The kept checkpoints of one process, ascending by index.
#[derive(Clone, Debug, PartialEq, Eq)]
struct Kept {
    len: usize,
    places: [Checkpoint; MAX_STORED],
}

impl Kept {
    fn checkpoints(&self) -> &[Checkpoint] {
        &self.places[..self.len]
    }

    fn add(&mut self, checkpoint: Checkpoint) {
        self.places[self.len] = checkpoint;
        self.len += 1;
    }
}

/// A message under way.
#[derive(Clone, Copy, Debug, PartialEq, Eq)]
pub struct Message {
    pub number: u64,
    pub sender: usize,
    pub receiver: usize,
    pub carried: Vector,
}

const NO_MESSAGE: Message = Message {
    number: 0,
    sender: 0,
    receiver: 0,
    carried: [0; MAX_PROCESSES],
};

/// The state of a whole run.
#[derive(Clone, Debug, PartialEq, Eq)]
pub struct Run {
    count: usize,
    vectors: [Vector; MAX_PROCESSES],
    pins: [Pins; MAX_PROCESSES],
    sent: [bool; MAX_PROCESSES],
    kept: [Kept; MAX_PROCESSES],
    under_way: usize,
    messages: [Message; MAX_UNDER_WAY],
    last_number: u64,
    /// Note 5: each process's block count, "fixed at the start", and "blocks
    /// written and blocks deleted."
    blocks: Counts,
    written: u64,
    deleted: u64,
}

/// The answer of an accepted checkpoint.
#[derive(Clone, Copy, Debug, PartialEq, Eq)]
pub struct Checkpointed {
    pub index: Entry,
    pub deletions: usize,
}

/// The answer of an accepted delivery.
#[derive(Clone, Copy, Debug, PartialEq, Eq)]
pub struct Delivered {
    pub forced: Option<Entry>,
    pub deletions: usize,
    /// Note 1: "the set of entries that rose, as a number of 16 bits": bit f
    /// stands for entry f.
    pub rose: u64,
}

/// The answer of an accepted recover.
#[derive(Clone, Copy, Debug, PartialEq, Eq)]
pub struct Recovered {
    pub rolled_back: usize,
    pub deletions: usize,
}

/// Note 8: "a list of named checkpoints, each a process and an index".
#[derive(Clone, Copy, Debug, PartialEq, Eq)]
pub struct Named {
    pub process: usize,
    pub index: u64,
}

/// The state of one process that a line names: its live state, or the
/// checkpoint in a place of its kept list.
#[derive(Clone, Copy)]
enum Member {
    Live,
    Stored(usize),
}

/// Writes deletions into the lent list: "as pairs process, index, by process,
/// then index, ascending; what lies past the pairs is unchanged."
struct Deletions<'a> {
    list: &'a mut [Entry],
    count: usize,
}

impl<'a> Deletions<'a> {
    fn new(list: &'a mut [Entry]) -> Self {
        Deletions { list, count: 0 }
    }

    fn add(&mut self, process: usize, index: Entry) {
        self.list[2 * self.count] = as_entry(process);
        self.list[2 * self.count + 1] = index;
        self.count += 1;
    }
}

/// The calls.
impl Run {
    /// "Start." The counts are those of Note 5: "those at n and above are
    /// neither judged nor stored."
    pub fn start(count: usize, counts: &Counts) -> Result<Run, u8> {
        // "1: start with a count outside 1 to 16."
        if !(1..=MAX_PROCESSES).contains(&count) {
            return Err(COUNT_OUTSIDE);
        }
        // "15, at the start after 1, for a block count outside 1 to 65,535".
        let outside = |blocks: &u32| !(1..=MOST_BLOCKS_EACH).contains(blocks);
        if counts[..count].iter().any(outside) {
            return Err(COUNT_OF_BLOCKS_OUTSIDE);
        }
        let mut run = Run {
            count,
            vectors: [[0; MAX_PROCESSES]; MAX_PROCESSES],
            pins: [[None; MAX_PROCESSES]; MAX_PROCESSES],
            // "No process has sent."
            sent: [false; MAX_PROCESSES],
            kept: std::array::from_fn(|_| Kept {
                len: 0,
                places: [NO_CHECKPOINT; MAX_STORED],
            }),
            under_way: 0,
            messages: [NO_MESSAGE; MAX_UNDER_WAY],
            last_number: 0,
            blocks: [0; MAX_PROCESSES],
            written: 0,
            deleted: 0,
        };
        for i in 0..count {
            run.blocks[i] = counts[i];
            // "Each process stores checkpoint 0 with a vector of zeros."
            run.kept[i].add(Checkpoint {
                blocks: run.blocks[i],
                ..NO_CHECKPOINT
            });
            run.written += u64::from(counts[i]);
            // "Then own entries are 1, others 0."
            run.vectors[i][i] = 1;
            // "Each own pin names checkpoint 0, others none."
            run.pins[i][i] = Some(0);
        }
        Ok(run)
    }

    /// "Checkpoint at i."
    pub fn checkpoint(&mut self, i: usize, deletions: &mut [Entry]) -> Result<Checkpointed, u8> {
        self.judge_deletion_list(deletions)?;
        self.judge_process(i)?;
        // "11: a checkpoint [...] where the own entry is 65,535."
        if self.own_entry(i) == LAST_ENTRY {
            return Err(INTERVALS_USED_UP);
        }
        self.judge_blocks(i)?;

        let mut deletions = Deletions::new(deletions);
        let index = self.store_checkpoint(i, BASIC);
        self.delete_unpinned(i, &mut deletions);
        Ok(Checkpointed {
            index,
            deletions: deletions.count,
        })
    }

    /// "Send from i to j." Gives the message's number.
    pub fn send(&mut self, i: usize, j: usize) -> Result<u64, u8> {
        self.judge_process(i)?;
        self.judge_process(j)?;
        // "5: sender is receiver."
        if i == j {
            return Err(SENDER_IS_RECEIVER);
        }
        // "9: send with 64 under way."
        if self.under_way == MAX_UNDER_WAY {
            return Err(TOO_MANY_UNDER_WAY);
        }
        // "10: send with number 1,000,000 used."
        if self.last_number == LAST_MESSAGE_NUMBER {
            return Err(NUMBERS_USED_UP);
        }

        // "Message numbers run from 1 to 1,000,000, one for each accepted
        // send, never reused."
        self.last_number += 1;
        // "The message carries i's vector." The newest number is the greatest,
        // so the messages stay ascending by number.
        self.messages[self.under_way] = Message {
            number: self.last_number,
            sender: i,
            receiver: j,
            carried: self.vectors[i],
        };
        self.under_way += 1;
        // "Set i's sent mark."
        self.sent[i] = true;
        Ok(self.last_number)
    }

    /// "Deliver to i": the message's number names its receiver.
    pub fn deliver(&mut self, number: u64, deletions: &mut [Entry]) -> Result<Delivered, u8> {
        self.judge_deletion_list(deletions)?;
        let place = self.find_under_way(number)?;
        let i = self.messages[place].receiver;
        let carried = self.messages[place].carried;
        let newer = some_entry_greater(&carried, &self.vectors[i]);
        // "If the sent mark is set and some carried entry is greater than i's,
        // first do a checkpoint at i (forced)."
        let forces = self.sent[i] && newer;
        // "11: [...] a delivery that forces one, where the own entry is 65,535."
        if forces && self.own_entry(i) == LAST_ENTRY {
            return Err(INTERVALS_USED_UP);
        }
        if forces {
            self.judge_blocks(i)?;
        }

        let mut deletions = Deletions::new(deletions);
        let forced = forces.then(|| self.store_checkpoint(i, FORCED));
        // Without a newer entry nothing is taken, no pin moves and no
        // checkpoint goes.
        let mut rose = 0;
        if newer {
            rose = self.take_entries(i, &carried);
            self.delete_unpinned(i, &mut deletions);
        }
        self.remove_message(place);
        Ok(Delivered {
            forced,
            deletions: deletions.count,
            rose,
        })
    }

    /// "Lose. The message is no longer under way; nothing else changes."
    pub fn lose(&mut self, number: u64) -> Result<(), u8> {
        let place = self.find_under_way(number)?;
        self.remove_message(place);
        Ok(())
    }

    /// "Line for a failed set." Bit p of the set stands for process p.
    pub fn line(&self, failed: u64, line: &mut [Entry]) -> Result<(), u8> {
        self.judge_line_list(line)?;
        self.judge_failed(failed)?;
        let members = self.find_line(failed)?;
        self.write_line(&members, line);
        Ok(())
    }

    /// "Recover." Of an empty set it is a sweep (Note 4): no rule below needs
    /// another word for it. No state is ruled out by a failed process, so "the
    /// line has every process live, nobody rolls back", and the pin step and
    /// the messages go by the same rules.
    pub fn recover(
        &mut self,
        failed: u64,
        deletions: &mut [Entry],
        line: &mut [Entry],
    ) -> Result<Recovered, u8> {
        self.judge_deletion_list(deletions)?;
        self.judge_line_list(line)?;
        self.judge_failed(failed)?;
        // "Take the line."
        let members = self.find_line(failed)?;
        self.write_line(&members, line);

        let mut rolled_back = 0;
        for i in 0..self.count {
            if let Member::Stored(place) = members[i] {
                self.roll_back(i, place);
                rolled_back += 1;
            }
        }
        // "Then let own(f) be the own entries after this."
        let own: Vector = std::array::from_fn(|f| self.own_entry(f));
        let mut deletions = Deletions::new(deletions);
        for i in 0..self.count {
            self.renew_pins(i, members[i], &own);
            // "loses [...] later checkpoints; these count as deleted." No pin
            // of a rolled-back process names one of those any more, so they go
            // together with the others that are no longer pinned.
            self.delete_unpinned(i, &mut deletions);
        }
        self.lose_sent_after(line);
        Ok(Recovered {
            rolled_back,
            deletions: deletions.count,
        })
    }
}

/// Note 8.
impl Run {
    /// "the earliest consistent line through all of them", the named
    /// checkpoints.
    pub fn earliest(&self, named: &[Named], line: &mut [Entry]) -> Result<(), u8> {
        self.judge_line_list(line)?;
        // "The list is judged for 4 before 18."
        for one in named {
            self.judge_process(one.process)?;
        }
        // "18, after 7, for a list that is empty, longer than n or names a
        // process twice".
        let twice = |place: usize| {
            let mut earlier = named[..place].iter();
            earlier.any(|one| one.process == named[place].process)
        };
        if named.is_empty() || named.len() > self.count || (0..named.len()).any(twice) {
            return Err(BAD_NAMED_LIST);
        }
        // "19 for a checkpoint not kept".
        let found: Option<Vec<Checkpoint>> = named.iter().map(|one| self.find_kept(*one)).collect();
        let vectors = found.ok_or(NOT_KEPT)?;
        // "20 for two of which one comes causally before the other."
        for one in named {
            if vectors
                .iter()
                .any(|other| comes_before(*one, &other.vector))
            {
                return Err(CAUSALLY_ORDERED);
            }
        }

        // "At each process the line, written to a lent line list, has the
        // greatest of the named checkpoints' entries for it."
        for f in 0..self.count {
            let entries = vectors.iter().map(|checkpoint| checkpoint.vector[f]);
            line[f] = entries.max().expect("the list is not empty");
        }
        Ok(())
    }

    fn find_kept(&self, named: Named) -> Option<Checkpoint> {
        let kept = self.kept[named.process].checkpoints().iter();
        kept.copied()
            .find(|checkpoint| u64::from(checkpoint.index) == named.index)
    }
}

/// What the calls judge. None of these changes anything.
impl Run {
    /// "3: deletion list below 2 × n × n entries"
    fn judge_deletion_list(&self, list: &[Entry]) -> Result<(), u8> {
        if list.len() < 2 * self.count * self.count {
            return Err(LIST_TOO_SHORT);
        }
        Ok(())
    }

    /// "3: [...] or line list below n."
    fn judge_line_list(&self, list: &[Entry]) -> Result<(), u8> {
        if list.len() < self.count {
            return Err(LIST_TOO_SHORT);
        }
        Ok(())
    }

    /// "4: process not below n."
    fn judge_process(&self, process: usize) -> Result<(), u8> {
        if process >= self.count {
            return Err(NO_SUCH_PROCESS);
        }
        Ok(())
    }

    /// "7: failed set has a bit at n or above." Note 4: "An empty failed set
    /// now means a sweep"; "Refusal 6 never occurs any more." A set whose only
    /// bits are at n and above is not empty.
    fn judge_failed(&self, failed: u64) -> Result<(), u8> {
        if failed >= 1 << self.count {
            return Err(FAILED_SET_OUTSIDE);
        }
        Ok(())
    }

    /// Note 5: "16, after 11, for a stored checkpoint that would take written
    /// past 1,000,000,000,000,000."
    fn judge_blocks(&self, i: usize) -> Result<(), u8> {
        if self.written + u64::from(self.blocks[i]) > MOST_WRITTEN {
            return Err(BLOCKS_USED_UP);
        }
        Ok(())
    }

    /// "8: message not under way." Gives the message's place.
    fn find_under_way(&self, number: u64) -> Result<usize, u8> {
        self.under_way()
            .binary_search_by_key(&number, |message| message.number)
            .map_err(|_| NOT_UNDER_WAY)
    }

    /// "At each process, the latest among kept checkpoints and the live state
    /// whose entry f is less than f's current own entry, for every failed f."
    ///
    /// 2 is for a process without such a state, which no reached state has:
    /// it is judged "after all other numbers".
    fn find_line(&self, failed: u64) -> Result<[Member; MAX_PROCESSES], u8> {
        let bounds: Bounds = std::array::from_fn(|f| {
            let has_failed = failed >> f & 1 == 1;
            has_failed.then(|| self.own_entry(f))
        });
        let mut members = [Member::Live; MAX_PROCESSES];
        for i in 0..self.count {
            members[i] = self.find_member(i, &bounds).ok_or(NOT_SOUND)?;
        }
        Ok(members)
    }

    /// The latest state comes first: the live state, then the checkpoints
    /// from the last one down.
    fn find_member(&self, i: usize, bounds: &Bounds) -> Option<Member> {
        if every_entry_below(&self.vectors[i], bounds) {
            return Some(Member::Live);
        }
        self.kept[i]
            .checkpoints()
            .iter()
            .rposition(|checkpoint| every_entry_below(&checkpoint.vector, bounds))
            .map(Member::Stored)
    }
}

/// The parts of the steps.
impl Run {
    /// The steps of a checkpoint at i, without the deletions. Gives the index.
    fn store_checkpoint(&mut self, i: usize, cause: u8) -> Entry {
        let index = self.own_entry(i);
        // "Store the vector under index own entry."
        self.kept[i].add(Checkpoint {
            index,
            vector: self.vectors[i],
            cause,
            blocks: self.blocks[i],
        });
        // Note 5: "each checkpoint ever stored, rolled back or not, counts
        // once."
        self.written += u64::from(self.blocks[i]);
        // "The own pin names it."
        self.pins[i][i] = Some(index);
        // "Add 1 to the own entry."
        self.vectors[i][i] += 1;
        // "Clear the sent mark."
        self.sent[i] = false;
        index
    }

    /// "Then each entry that is smaller than the carried one takes it, and
    /// that entry's pin becomes the own pin." Gives the set of entries that
    /// rose.
    fn take_entries(&mut self, i: usize, carried: &Vector) -> u64 {
        let own_pin = self.pins[i][i];
        let mut rose = 0;
        for f in 0..self.count {
            if self.vectors[i][f] < carried[f] {
                self.vectors[i][f] = carried[f];
                self.pins[i][f] = own_pin;
                rose |= 1 << f;
            }
        }
        rose
    }

    /// "A checkpoint is kept exactly while a pin names it." Deletes the others
    /// of process i, ascending by index.
    fn delete_unpinned(&mut self, i: usize, deletions: &mut Deletions) {
        let kept = &mut self.kept[i];
        let mut staying = 0;
        for place in 0..kept.len {
            let index = kept.places[place].index;
            if names(&self.pins[i], index) {
                if staying != place {
                    kept.places[staying] = kept.places[place];
                }
                staying += 1;
            } else {
                deletions.add(i, index);
                // Note 5: "deleted is defined from the pairs handed out."
                self.deleted += u64::from(kept.places[place].blocks);
            }
        }
        kept.len = staying;
    }

    /// The message in this place "is no longer under way". The later ones move
    /// up, so the messages stay ascending by number.
    fn remove_message(&mut self, place: usize) {
        self.messages.copy_within(place + 1..self.under_way, place);
        self.under_way -= 1;
    }

    /// "A process whose member is stored takes that vector with 1 added to its
    /// own entry, loses its sent mark". (It loses the later checkpoints when
    /// its pins are renewed.)
    fn roll_back(&mut self, i: usize, place: usize) {
        self.vectors[i] = self.kept[i].places[place].vector;
        self.vectors[i][i] += 1;
        self.sent[i] = false;
    }

    /// The pin step of a recover at process i.
    fn renew_pins(&mut self, i: usize, member: Member, own: &Vector) {
        for f in 0..self.count {
            if self.vectors[i][f] != own[f] {
                // "At each process, a pin for f whose vector entry is not
                // own(f) becomes none."
                self.pins[i][f] = None;
            } else if let Member::Stored(place) = member {
                // "In a rolled-back process a pin whose entry is own(f) names
                // the latest checkpoint with entry f below own(f) among those
                // kept before the call and not lost, none if there is none."
                let not_lost = &self.kept[i].places[..=place];
                self.pins[i][f] = not_lost
                    .iter()
                    .rfind(|checkpoint| checkpoint.vector[f] < own[f])
                    .map(|checkpoint| checkpoint.index);
            }
        }
    }

    /// Note 2: "a recovery loses a message exactly if its sender's entry in the
    /// carried vector is above the sender's index in the line; the others
    /// remain under way with their numbers." They move up, in their order.
    fn lose_sent_after(&mut self, line: &[Entry]) {
        let mut staying = 0;
        for place in 0..self.under_way {
            let sender = self.messages[place].sender;
            if self.messages[place].carried[sender] <= line[sender] {
                if staying != place {
                    self.messages[staying] = self.messages[place];
                }
                staying += 1;
            }
        }
        self.under_way = staying;
    }

    /// "Recover and line write n indexes into a lent line list; the rest of it
    /// is unchanged." "The live state counts as the checkpoint whose index is
    /// the own entry."
    fn write_line(&self, members: &[Member; MAX_PROCESSES], line: &mut [Entry]) {
        for i in 0..self.count {
            line[i] = match members[i] {
                Member::Live => self.own_entry(i),
                Member::Stored(place) => self.kept[i].places[place].index,
            };
        }
    }
}

/// Looking at the state.
impl Run {
    /// The number of processes.
    pub fn count(&self) -> usize {
        self.count
    }

    /// "its own entry is its current interval."
    pub fn own_entry(&self, i: usize) -> Entry {
        self.vectors[i][i]
    }

    /// The n entries of i's vector.
    pub fn vector(&self, i: usize) -> &[Entry] {
        &self.vectors[i][..self.count]
    }

    /// Has i sent since its last checkpoint?
    pub fn sent_mark(&self, i: usize) -> bool {
        self.sent[i]
    }

    /// "A pin of i for f names one kept checkpoint of i, or none."
    pub fn pin(&self, i: usize, f: usize) -> Option<Entry> {
        self.pins[i][f]
    }

    /// The indexes and vectors of i's kept checkpoints, ascending.
    pub fn kept(&self, i: usize) -> impl Iterator<Item = (Entry, &[Entry])> {
        self.kept[i]
            .checkpoints()
            .iter()
            .map(|checkpoint| (checkpoint.index, &checkpoint.vector[..self.count]))
    }

    /// The cause and the block count that each of i's kept checkpoints
    /// records, in the same order.
    pub fn records(&self, i: usize) -> impl Iterator<Item = (u8, u32)> + '_ {
        self.kept[i]
            .checkpoints()
            .iter()
            .map(|checkpoint| (checkpoint.cause, checkpoint.blocks))
    }

    /// Blocks written.
    pub fn written(&self) -> u64 {
        self.written
    }

    /// Blocks deleted.
    pub fn deleted(&self) -> u64 {
        self.deleted
    }

    /// The messages under way, ascending by number.
    pub fn under_way(&self) -> &[Message] {
        &self.messages[..self.under_way]
    }

    /// The last message number used, 0 if none.
    pub fn last_number(&self) -> u64 {
        self.last_number
    }
}

/// A door for tests: number 16 is too far away to be reached by calls.
impl Run {
    /// The same state with other sums. Gives 2 if it is not sound: "written
    /// equals blocks of all kept checkpoints plus blocks deleted", "that sum,
    /// within the bound of 16."
    pub fn with_sums(&self, written: u64, deleted: u64) -> Result<Run, u8> {
        let kept: u64 = (0..self.count)
            .flat_map(|i| self.kept[i].checkpoints())
            .map(|checkpoint| u64::from(checkpoint.blocks))
            .sum();
        if deleted.checked_add(kept) != Some(written) || written > MOST_WRITTEN {
            return Err(NOT_SOUND);
        }
        let mut run = self.clone();
        (run.written, run.deleted) = (written, deleted);
        Ok(run)
    }
}

/// "Checkpoint a of f comes causally before a state exactly if a is less than
/// that state's entry f". Not before itself: its own entry is its index.
fn comes_before(checkpoint: Named, state: &Vector) -> bool {
    checkpoint.index < u64::from(state[checkpoint.process])
}

/// A process as a place of a lent list holds it.
pub fn as_entry(process: usize) -> Entry {
    Entry::try_from(process).expect("a process is below 16")
}

/// Is some entry of `carried` greater than the one in `vector`? Goes over all
/// entries without stopping early, which lets the compiler compare them at once.
fn some_entry_greater(carried: &Vector, vector: &Vector) -> bool {
    let mut greater = false;
    for f in 0..MAX_PROCESSES {
        greater |= carried[f] > vector[f];
    }
    greater
}

/// Is every entry less than its bound? All at once, as above.
fn every_entry_below(vector: &Vector, bounds: &Bounds) -> bool {
    let mut reached = false;
    for f in 0..MAX_PROCESSES {
        reached |= bounds[f].is_some_and(|bound| vector[f] >= bound);
    }
    !reached
}

/// Does one of the pins name this checkpoint? All at once, as above.
fn names(pins: &Pins, index: Entry) -> bool {
    let mut named = false;
    for pin in pins {
        named |= *pin == Some(index);
    }
    named
}
