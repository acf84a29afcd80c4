/* Checkpoints, garbage collection and recovery lines of message-passing runs.

   A state is 6,464 words of 16 bits in the caller's memory: store them, copy them, hand in any words at all. Every call judges them first, and words that stand for
   no sound state are refused with number 2. The library allocates nothing, keeps nothing and has no state of its own.

   A lent list goes as a pointer and how many entries it has; with none, the pointer may be null. Lent lists must not overlap each other or the words. What is written
   goes to the front of a list, and its rest is left as it was. A refused call leaves every word and every entry as it was; only a refused start makes the words zero (but with 25, of the console, it leaves them too).
   Where several refusals hold, the lowest number is given. Numbers are judged with all their bits.

   Every function is re-entrant: threads may call any of them at the same time, on words and lists that nobody else writes meanwhile. None of them fails in another way,
   calls back, waits or touches errno.

   What is proved of each function is its contract in crates/lemidrosy/src, crates/lemidrosy_machines/src or crates/lemidrosy_replay/src. C11 or later, C++17 or later. */
#ifndef LEMIDROSY_H
#define LEMIDROSY_H

#include <stdbool.h>
#include <stddef.h>
#include <stdint.h>

#define LEMIDROSY_VERSION "1.0.0"

#ifdef __cplusplus
extern "C" {
#endif

enum {
    LEMIDROSY_WORDS = 6464,    /* the words of a state */
    LEMIDROSY_PROCESSES = 16,  /* processes of a run, at most */
    LEMIDROSY_MESSAGES = 64,   /* messages under way, at most */
    LEMIDROSY_DELETIONS = 512, /* entries of a deletion list, which is enough for every n: 2 n n are asked for */
    LEMIDROSY_NUMBERS = 5,     /* what lemidrosy_numbers writes */
    LEMIDROSY_THREES = 192,    /* what lemidrosy_messages and lemidrosy_lost ask for: three numbers for each of 64 messages */
    LEMIDROSY_FIGURES = 5,     /* what lemidrosy_simulate writes */
    LEMIDROSY_SAVED = 12942,   /* the bytes of a saved state */
    LEMIDROSY_LINE = 3102,     /* the bytes of a record's line, at most: a text with less room takes no record */
    LEMIDROSY_PROGRESS = 3     /* what lemidrosy_replay writes besides the text */
};

/* An answer is one number with fields, the same for every call:
   bits 0 to 7    the number of the refusal, 0 if the call was accepted
   bits 8 to 22   how many checkpoints were deleted
   bit 23         1 if there is a value
   bits 24 to 47  the value
   bits 48 to 63  the set of vector entries that rose, of a delivery: bit f stands for entry f */
static inline unsigned lemidrosy_refused(uint64_t answer) { return (unsigned)(answer & 255); }
static inline unsigned lemidrosy_deletions(uint64_t answer) { return (unsigned)(answer >> 8 & 32767); }
static inline bool lemidrosy_has_value(uint64_t answer) { return answer >> 23 & 1; }
static inline uint32_t lemidrosy_value(uint64_t answer) { return (uint32_t)(answer >> 24 & 16777215); }
static inline unsigned lemidrosy_rose(uint64_t answer) { return (unsigned)(answer >> 48); }

/* The same as a struct. */
struct lemidrosy_answer {
    unsigned refused;   /* an enum lemidrosy_refusal */
    unsigned deletions;
    bool has_value;
    uint32_t value;     /* 0 if there is none */
    unsigned rose;
};

static inline struct lemidrosy_answer lemidrosy_answer(uint64_t answer) {
    struct lemidrosy_answer fields = {lemidrosy_refused(answer), lemidrosy_deletions(answer), lemidrosy_has_value(answer), lemidrosy_value(answer), lemidrosy_rose(answer)};
    return fields;
}

/* The numbers of the refusals; 6 is not used. */
enum lemidrosy_refusal {
    LEMIDROSY_ACCEPTED = 0,
    LEMIDROSY_COUNT_OUTSIDE_RANGE = 1,        /* a start with n outside 1 to 16 */
    LEMIDROSY_UNSOUND_STATE = 2,              /* the words stand for no sound state */
    LEMIDROSY_LIST_TOO_SHORT = 3,             /* a lent list has too few entries */
    LEMIDROSY_NO_SUCH_PROCESS = 4,            /* a process not below n */
    LEMIDROSY_SENDER_IS_RECEIVER = 5,
    LEMIDROSY_NO_SUCH_FAILED_PROCESS = 7,     /* a failed set with a bit at n or above */
    LEMIDROSY_NOT_UNDER_WAY = 8,              /* no such message is under way */
    LEMIDROSY_TOO_MANY_UNDER_WAY = 9,         /* a send with 64 under way */
    LEMIDROSY_MESSAGE_NUMBERS_USED = 10,      /* a send with number 1,000,000 used */
    LEMIDROSY_INTERVALS_USED = 11,            /* a checkpoint, taken or forced, where the own entry is 65,535 */
    LEMIDROSY_NO_FIRST_BYTE = 12,             /* of a trace or a half, and so are 13, 14 and 17 */
    LEMIDROSY_LEFT_OVER_BYTES = 13,
    LEMIDROSY_MALFORMED_RECORD = 14,
    LEMIDROSY_BLOCK_COUNT_OUTSIDE_RANGE = 15, /* a block count outside 1 to 65,535 */
    LEMIDROSY_BLOCKS_USED = 16,               /* a checkpoint, taken or forced, that would take the blocks written past 1,000,000,000,000,000 */
    LEMIDROSY_TOO_MANY_RECORDS = 17,
    LEMIDROSY_UNFIT_NAMED_LIST = 18,          /* no named checkpoint, too many, or two of one process */
    LEMIDROSY_NOT_KEPT = 19,                  /* a named checkpoint that is not kept */
    LEMIDROSY_CAUSALLY_ORDERED = 20,          /* no consistent line passes through all named checkpoints */
    LEMIDROSY_BUFFER_TOO_SHORT = 21,          /* of the recorder: too few bytes left for the record */
    LEMIDROSY_TRIAL_OUTSIDE_RANGE = 22,       /* of a simulation */
    LEMIDROSY_HALVES_MISMATCH = 23,           /* of a merge, and so is 24 */
    LEMIDROSY_NEITHER_READY = 24,
    LEMIDROSY_DENIED = 25                     /* of the console: the caller may not do this */
};

/* A refusal's number in words: a text that is always there, in English, without a full stop. Any number has one. */
const char *lemidrosy_refusal_text(unsigned number);

/* Whether the words stand for a sound state. */
bool lemidrosy_is_sound(const uint16_t *words, size_t words_length);

/* A run of n processes begins, each with a block count for its checkpoints; counts from n on are not looked at. Refused with 1, 2 (not 6,464 words: then nothing is
   written), 3 (fewer than n counts) or 15. */
uint64_t lemidrosy_start(uint16_t *words, size_t words_length, size_t n, const uint32_t *counts, size_t counts_length);

/* A process takes a checkpoint; the value is its index. What is deleted goes to the list, which has room for 2 n n entries, as pairs of a process and an index. Refused
   with 2, 3, 4, 11 or 16. */
uint64_t lemidrosy_checkpoint(uint16_t *words, size_t words_length, size_t process, uint16_t *deleted, size_t deleted_length);

/* A process sends a message to another; the value is the message's number. Refused with 2, 4, 5, 9 or 10. */
uint64_t lemidrosy_send(uint16_t *words, size_t words_length, size_t sender, size_t receiver);

/* A message reaches its receiver, which takes in the vector that it carries; the value is the index of the checkpoint that it forces, if it forces one, and the set has
   the entries that rose. What is deleted goes to the list, which has room for 2 n n entries, as pairs of a process and an index. Refused with 2, 3, 8, 11 or 16. */
uint64_t lemidrosy_deliver(uint16_t *words, size_t words_length, uint32_t message, uint16_t *deleted, size_t deleted_length);

/* A message is lost. Refused with 2 or 8. */
uint64_t lemidrosy_lose(uint16_t *words, size_t words_length, uint32_t message);

/* The line for a failed set, bit p of which stands for process p: the n indexes of the line go to the list, which has room for n. The index of a process that stays live
   is its own entry. The set is judged with all its 32 bits. Refused with 2, 3 or 7. */
uint64_t lemidrosy_line(const uint16_t *words, size_t words_length, uint32_t failed, uint16_t *line, size_t line_length);

/* Every process goes back to the line for a failed set, bit p of which stands for process p; the value is how many rolled back. The n indexes of the line go to the one list,
   which has room for n; what is deleted goes to the other, which has room for 2 n n entries, as pairs of a process and an index. The messages stay under way that were sent
   up to the line. With an empty set it is a sweep: nobody rolls back, and what no failure would use is deleted. Refused with 2, 3 or 7. */
uint64_t lemidrosy_recover(uint16_t *words, size_t words_length, uint32_t failed, uint16_t *deleted, size_t deleted_length, uint16_t *line, size_t line_length);

/* The earliest consistent line through the named checkpoints, pairs of a process and an index: it may name deleted checkpoints, so it is to be shown, not restarted from.
   Refused with 2, 3, 4, 18, 19 or 20. */
uint64_t lemidrosy_earliest(const uint16_t *words, size_t words_length, const uint32_t *named, size_t named_length, uint16_t *line, size_t line_length);

/* A block of records, four bytes each as in a trace and without a trace's first byte, applied to the words one after the other: what a run-time that hands its events over
   in batches calls, as the words are judged once, and once more after each recovery that deletes a checkpoint. The line of each record goes to the text, as the replay of
   a trace prints it. A record is taken as long as a whole one is left, the one before was accepted (with `all`: in any case), fewer than 1,000,000,000 were taken, `done`
   before the block included, and the text has room for LEMIDROSY_LINE bytes more. Three numbers go to the progress: how many records were taken, how many bytes of lines
   were written, and 1 if the replay goes on after them. So the next block begins 4 times the records taken further on, with `done` more by as many. What is refused is a
   record, not the call; words that stand for no sound state refuse each record, with 14 or else with 2. Refused with 3 (fewer than three numbers lent): then nothing is
   written. */
uint64_t lemidrosy_replay(uint16_t *words, size_t words_length, bool all, uint64_t done, const uint8_t *records, size_t records_length, uint8_t *text, size_t text_length, uint64_t *progress, size_t progress_length);

/* The recorder: each of these calls once more, with a buffer that is lent and a list with the place that its next byte goes to (of the list the first entry counts). The
   buffer is a trace: its first byte is n, which the start writes, wherever the place was; after it stand the records of the accepted calls, four bytes each, in their order,
   and the place is then after the last of them. A line request writes none. The call answers, leaves and is refused as it is without the recorder; besides with 3, before any
   other number, where no place is lent (then a start, too, leaves every word), and with 21, after every other number, where the buffer has too few bytes from the place on.
   A refused call changes no byte and no place. A replay of the buffer up to the place, from a start with the same block counts, ends in the same state and answers the same. */
uint64_t lemidrosy_record_start(uint16_t *words, size_t words_length, size_t n, const uint32_t *counts, size_t counts_length, uint8_t *buffer, size_t buffer_length, uint64_t *place, size_t place_length);
uint64_t lemidrosy_record_checkpoint(uint16_t *words, size_t words_length, size_t process, uint16_t *deleted, size_t deleted_length, uint8_t *buffer, size_t buffer_length, uint64_t *place, size_t place_length);
uint64_t lemidrosy_record_send(uint16_t *words, size_t words_length, size_t sender, size_t receiver, uint8_t *buffer, size_t buffer_length, uint64_t *place, size_t place_length);
uint64_t lemidrosy_record_deliver(uint16_t *words, size_t words_length, uint32_t message, uint16_t *deleted, size_t deleted_length, uint8_t *buffer, size_t buffer_length, uint64_t *place, size_t place_length);
uint64_t lemidrosy_record_lose(uint16_t *words, size_t words_length, uint32_t message, uint8_t *buffer, size_t buffer_length, uint64_t *place, size_t place_length);
uint64_t lemidrosy_record_line(const uint16_t *words, size_t words_length, uint32_t failed, uint16_t *line, size_t line_length, uint8_t *buffer, size_t buffer_length, uint64_t *place, size_t place_length);
uint64_t lemidrosy_record_recover(uint16_t *words, size_t words_length, uint32_t failed, uint16_t *deleted, size_t deleted_length, uint16_t *line, size_t line_length, uint8_t *buffer, size_t buffer_length, uint64_t *place, size_t place_length);
uint64_t lemidrosy_record_earliest(const uint16_t *words, size_t words_length, const uint32_t *named, size_t named_length, uint16_t *line, size_t line_length, uint8_t *buffer, size_t buffer_length, uint64_t *place, size_t place_length);

/* The console for shared clusters: each of these calls once more, and two more. First comes the caller: its role, an enum lemidrosy_role, and the set of a job owner's
   processes, bit p of which stands for process p; bits at n and above count for nothing, and the set of another role is not looked at. Then come the call's own arguments.
   An operator may do everything; a job owner may checkpoint, send from, deliver to, lose to and list its own processes, and see its own members of a line; a viewer may see
   the counts. Refused with 25, before any other number: what the caller may not do, a number that is no role's, and to an owner a process that is not its own (the receiver
   of a send may be anyone's) and a message that is not under way to one of its own. So 4 and 8 are given to operators alone. A call that is refused with 25 leaves every
   word and every entry as it was, a start too. Otherwise the call answers, leaves and is refused as it is without the console. */
enum lemidrosy_role { LEMIDROSY_OPERATOR = 0, LEMIDROSY_JOB_OWNER = 1, LEMIDROSY_VIEWER = 2 };

uint64_t lemidrosy_console_start(uint32_t role, uint32_t owned, uint16_t *words, size_t words_length, size_t n, const uint32_t *counts, size_t counts_length);
uint64_t lemidrosy_console_checkpoint(uint32_t role, uint32_t owned, uint16_t *words, size_t words_length, size_t process, uint16_t *deleted, size_t deleted_length);
uint64_t lemidrosy_console_send(uint32_t role, uint32_t owned, uint16_t *words, size_t words_length, size_t sender, size_t receiver);
uint64_t lemidrosy_console_deliver(uint32_t role, uint32_t owned, uint16_t *words, size_t words_length, uint32_t message, uint16_t *deleted, size_t deleted_length);
uint64_t lemidrosy_console_lose(uint32_t role, uint32_t owned, uint16_t *words, size_t words_length, uint32_t message);
uint64_t lemidrosy_console_recover(uint32_t role, uint32_t owned, uint16_t *words, size_t words_length, uint32_t failed, uint16_t *deleted, size_t deleted_length, uint16_t *line, size_t line_length);
uint64_t lemidrosy_console_earliest(uint32_t role, uint32_t owned, const uint16_t *words, size_t words_length, const uint32_t *named, size_t named_length, uint16_t *line, size_t line_length);

/* The members of the caller's own processes go to their places in the list, and no other place of it changes. Refused with 2, 3, 7 or 25. */
uint64_t lemidrosy_console_line(uint32_t role, uint32_t owned, const uint16_t *words, size_t words_length, uint32_t failed, uint16_t *line, size_t line_length);

/* The checkpoints that the caller's own processes keep, to an operator those of all: they go to the list, which has room for 2 n n entries, as pairs of a process and an
   index, ascending. The value is how many they are. Refused with 2, 3 or 25. */
uint64_t lemidrosy_console_list(uint32_t role, uint32_t owned, const uint16_t *words, size_t words_length, uint16_t *deleted, size_t deleted_length);

/* How many checkpoints each process keeps: n numbers go to the list, which has room for n. Refused with 2, 3 or 25. */
uint64_t lemidrosy_console_counts(uint32_t role, uint32_t owned, const uint16_t *words, size_t words_length, uint16_t *counts, size_t counts_length);

/* The readers. Each is refused with 2, and with 3 if the list is too short for what it may have to hold; those of a process with 4. */

/* n, the last message number used, how many messages are under way, the blocks written, the blocks deleted. */
uint64_t lemidrosy_numbers(const uint16_t *words, size_t words_length, uint64_t *numbers, size_t numbers_length);

/* The n entries of a process's vector. */
uint64_t lemidrosy_vector(const uint16_t *words, size_t words_length, size_t process, uint16_t *vector, size_t vector_length);

/* The n pins of a process: one more than the index of the checkpoint that the pin names, 0 if it names none. */
uint64_t lemidrosy_pins(const uint16_t *words, size_t words_length, size_t process, uint16_t *pins, size_t pins_length);

/* The checkpoints that a process keeps, ascending, three numbers each: index, cause (0 initial, 1 basic, 2 forced), blocks. The value is how many they are; the list has
   room for 3 n numbers. */
uint64_t lemidrosy_kept(const uint16_t *words, size_t words_length, size_t process, uint32_t *kept, size_t kept_length);

/* The messages under way, ascending, three numbers each: number, sender, receiver. The value is how many they are; the list has room for 192 numbers. */
uint64_t lemidrosy_messages(const uint16_t *words, size_t words_length, uint32_t *messages, size_t messages_length);

/* The n entries of the vector that a message carries. Refused with 8 too. */
uint64_t lemidrosy_carried(const uint16_t *words, size_t words_length, uint32_t message, uint16_t *vector, size_t vector_length);

/* The messages under way that a recovery of a failed set would lose, asked before it: ascending, three numbers each, as lemidrosy_messages has them. The value is how many
   they are; the list has room for 192 numbers. The set is judged with all its 32 bits. Refused with 7 too, and with 2 where the set has no line. */
uint64_t lemidrosy_lost(const uint16_t *words, size_t words_length, uint32_t failed, uint32_t *messages, size_t messages_length);

/* The verdict on a trace of another run-time, with fields of its own: bits 0 to 7 the number of the refusal; bit 8 whether a pair of states breaks trackability; of that
   pair bits 16 to 23 the process and bits 24 to 39 the index of the near end, bits 40 to 47 the process and bits 48 to 63 the index of the far end. 0: the trace is
   trackable. It takes 0.4 MB of stack. */
uint64_t lemidrosy_judge(const uint8_t *trace, size_t trace_length);

/* The same as a struct; the ends are 0 if no pair breaks. */
struct lemidrosy_verdict {
    unsigned refused;
    bool breaks;
    unsigned near_process, near_index, far_process, far_index;
};

static inline struct lemidrosy_verdict lemidrosy_verdict(uint64_t verdict) {
    struct lemidrosy_verdict fields = {(unsigned)(verdict & 255), (bool)(verdict >> 8 & 1), (unsigned)(verdict >> 16 & 255), (unsigned)(verdict >> 24 & 65535), (unsigned)(verdict >> 40 & 255), (unsigned)(verdict >> 48)};
    return fields;
}

/* Programs as machines. A machine asks for one thing at a time; the caller does that with its own files and hands back what came of it, until the machine has stopped. Its
   state is in the lent lists: between two steps the caller changes nothing in them but the bytes of input that a request names. bindings/examples/drive.c drives each.

   A request is four numbers: its kind, a size, a place, the number of a word. */
enum {
    LEMIDROSY_REQUEST = 4
};
enum lemidrosy_request {
    LEMIDROSY_REQUEST_STOP = 0,     /* the machine has stopped */
    LEMIDROSY_REQUEST_READ = 1,     /* bytes are to be read: at most `size` of them, to `place` of input */
    LEMIDROSY_REQUEST_WRITE = 2,    /* the first `size` bytes of out are to be written to standard output, all of them */
    LEMIDROSY_REQUEST_SAY = 3,      /* the same to standard error; what comes of it counts for nothing */
    LEMIDROSY_REQUEST_FAIL = 4,     /* the first `size` bytes of out name what failed: they are to be written to standard error with the system's reason */
    LEMIDROSY_REQUEST_COUNT = 5,    /* how many words the program was started with, its own name among them */
    LEMIDROSY_REQUEST_ARGUMENT = 6, /* the word of that number, of at most `size` bytes, to `place` of input; word 0 is the program's name */
    LEMIDROSY_REQUEST_OPEN = 7      /* the file whose name is the first `size` bytes of out is to be opened, as the input from then on */
};

/* An answer is a kind and a number. Every other kind, and an answer that does not fit the request, stands for a call that failed. */
enum lemidrosy_answered {
    LEMIDROSY_ANSWER_FAILED = 0,
    LEMIDROSY_ANSWER_BYTES = 1,     /* that many bytes were brought: by READ one at least, by ARGUMENT the whole word, which may be empty */
    LEMIDROSY_ANSWER_END = 2,       /* of READ: there are no more bytes */
    LEMIDROSY_ANSWER_DONE = 3,      /* of WRITE, SAY, FAIL and OPEN */
    LEMIDROSY_ANSWER_NUMBER = 4     /* of COUNT: that many words */
};

/* Each machine has two functions. The one begins: 0, and the first request; 3 if a list is too short, or the words are not as many as a run has: then nothing is written.
   The other takes the answer to the request before, any answer at all: 0, and the next request; 3 if the request's list is too short: then nothing is written. A state
   that no machine left has stopped. */

/* The program judge. It asks for bytes alone. For every list of answers it is proved that what is to be written is the line of the verdict on all that was read, that
   nothing is read past the end or a settled verdict, and that it ends. Two numbers of memory, 16,389 bytes of input, 96 bytes of out. A step takes 0.4 MB of stack. */
enum {
    LEMIDROSY_JUDGE_MEMORY = 2,
    LEMIDROSY_JUDGE_INPUT = 16389,
    LEMIDROSY_JUDGE_OUT = 96
};

uint64_t lemidrosy_judge_begin(uint64_t *memory, size_t memory_length, const uint8_t *input, size_t input_length, const uint8_t *out, size_t out_length, uint64_t *request, size_t request_length);
uint64_t lemidrosy_judge_step(uint64_t *memory, size_t memory_length, const uint8_t *input, size_t input_length, uint8_t *out, size_t out_length, uint64_t kind, size_t number, uint64_t *request, size_t request_length);

/* The program replay, with the words of a run lent besides. It asks for how many words it was started with, for the first argument (`all` goes on after a refusal), and
   for the trace. For every list of answers it is proved that what is to be written is the listing of all that was read, as far as was read; that nothing is read past the
   end, a refusal that stops it, or record 1,000,000,000; and that it ends. Each record on words that stand for no sound state is refused. Six numbers of memory,
   LEMIDROSY_WORDS words, 8 bytes of input or more and 3,102 bytes of out or more; 65,536 of both are good sizes. */
enum {
    LEMIDROSY_REPLAY_MEMORY = 6,
    LEMIDROSY_REPLAY_INPUT = 8,
    LEMIDROSY_REPLAY_OUT = 3102
};

uint64_t lemidrosy_replay_begin(const uint16_t *words, size_t words_length, uint64_t *memory, size_t memory_length, const uint8_t *input, size_t input_length, const uint8_t *out, size_t out_length, uint64_t *request, size_t request_length);
uint64_t lemidrosy_replay_step(uint16_t *words, size_t words_length, uint64_t *memory, size_t memory_length, uint8_t *input, size_t input_length, uint8_t *out, size_t out_length, uint64_t kind, size_t number, uint64_t *request, size_t request_length);

/* The program record, with the words of a run lent besides, and with lines, in which it keeps what it is about to say. It asks for how many words it was started with, for
   the first argument (the bytes of a buffer, at most 1,048,576; without it the buffer holds every trace), and for the trace. For every list of answers it is proved that
   what is to be written is what the recorder holds after the calls of all that was read, the first byte and the accepted records; that whenever it asks for more of the
   trace, one line was said of each refused record, and nothing else; that nothing is read past the end, a first byte that is refused, or record 1,000,000,000; and that
   it ends. Six numbers of memory, LEMIDROSY_WORDS words, 4,099 bytes of input or more, 67,584 bytes of out or more and as many of lines. A step takes 24 KB of stack. */
enum {
    LEMIDROSY_RECORD_MEMORY = 6,
    LEMIDROSY_RECORD_INPUT = 4099,
    LEMIDROSY_RECORD_OUT = 67584,
    LEMIDROSY_RECORD_LINES = 67584
};

uint64_t lemidrosy_record_begin(uint64_t *memory, size_t memory_length, const uint16_t *words, size_t words_length, const uint8_t *input, size_t input_length, const uint8_t *out, size_t out_length, const uint8_t *lines, size_t lines_length, uint64_t *request, size_t request_length);
uint64_t lemidrosy_record_step(uint64_t *memory, size_t memory_length, uint16_t *words, size_t words_length, uint8_t *input, size_t input_length, uint8_t *out, size_t out_length, uint8_t *lines, size_t lines_length, uint64_t kind, size_t number, uint64_t *request, size_t request_length);

/* The program merge. It asks for how many words it was started with, for the third (the set), and then for one file after the other: its name, that it is opened, its bytes
   to their end. For every list of answers it is proved that what is to be written is the merged trace of the two files that were read, once both have ended, and that what
   is to be said is why there is none; that nothing is read of a file that has ended; and that it ends. Seven numbers of memory, 131,072 bytes of input, 32,784 bytes of
   out. A step takes less than 56 KB of stack. */
enum {
    LEMIDROSY_MERGE_MEMORY = 7,
    LEMIDROSY_MERGE_INPUT = 131072,
    LEMIDROSY_MERGE_OUT = 32784
};

uint64_t lemidrosy_merge_begin(uint64_t *memory, size_t memory_length, const uint8_t *input, size_t input_length, const uint8_t *out, size_t out_length, uint64_t *request, size_t request_length);
uint64_t lemidrosy_merge_step(uint64_t *memory, size_t memory_length, const uint8_t *input, size_t input_length, uint8_t *out, size_t out_length, uint64_t kind, size_t number, uint64_t *request, size_t request_length);

/* The program simulate. It asks for how many words it was started with, for words 1 to 4 (N, SPACING or FROM-TO, STEPS, SEED), and to write a text, or a table line by
   line. For every list of answers it is proved that what is to be written is the front of the text of the numbers in those words, the figures, the table or `refused 22`,
   and all of it where nothing failed; that the usage is reported where there are not four words or one of them is wrong, what failed is reported, and nothing else; and that it
   ends. Eight numbers of memory, 65,536 bytes of input or more and 260 bytes of out or more. A step takes 20 KB of stack. */
enum {
    LEMIDROSY_SIMULATE_MEMORY = 8,
    LEMIDROSY_SIMULATE_INPUT = 65536,
    LEMIDROSY_SIMULATE_OUT = 260
};

uint64_t lemidrosy_simulate_begin(uint64_t *memory, size_t memory_length, const uint8_t *input, size_t input_length, const uint8_t *out, size_t out_length, uint64_t *request, size_t request_length);
uint64_t lemidrosy_simulate_step(uint64_t *memory, size_t memory_length, const uint8_t *input, size_t input_length, uint8_t *out, size_t out_length, uint64_t kind, size_t number, uint64_t *request, size_t request_length);

/* The program console, with the words of a run lent besides. It asks for the script's first byte, then for its calls of eight bytes one at a time, and has the line of each
   written before it asks for the next. For every list of answers it is proved that what is to be written is the facts of the script that was read, as far as was read;
   that nothing is read past the end, or after a first byte that is refused; and that it ends. Each call on words that stand for no sound state is refused. Four numbers
   of memory, LEMIDROSY_WORDS words, 8 bytes of input or more and 12,000 bytes of out or more. */
enum {
    LEMIDROSY_CONSOLE_MEMORY = 4,
    LEMIDROSY_CONSOLE_INPUT = 8,
    LEMIDROSY_CONSOLE_OUT = 12000
};

uint64_t lemidrosy_console_begin(const uint16_t *words, size_t words_length, uint64_t *memory, size_t memory_length, const uint8_t *input, size_t input_length, const uint8_t *out, size_t out_length, uint64_t *request, size_t request_length);
uint64_t lemidrosy_console_step(uint16_t *words, size_t words_length, uint64_t *memory, size_t memory_length, const uint8_t *input, size_t input_length, uint8_t *out, size_t out_length, uint64_t kind, size_t number, uint64_t *request, size_t request_length);

/* The merge of two halves of one run: bit p of the set says that process p belongs to the first half. The merged trace goes to the list, which has as many bytes as both
   halves together; the value is how many bytes were written. The set is judged with all its 32 bits. Refused with 1, 3, 4, 5, 7, 12, 13, 14, 17, 23 or 24. It takes
   40 KB of stack. */
uint64_t lemidrosy_merge(const uint8_t *first, size_t first_length, const uint8_t *second, size_t second_length, uint32_t set, uint8_t *trace, size_t trace_length);

/* A simulation of n processes (1 to 16), each of which takes a checkpoint after the given number of sends and deliveries of its own (1 to 1,000), for that many steps (1 to 30,000), with
   a starting value. Five figures go to the list: the deliveries, the forced checkpoints, the most checkpoints that a process kept after any step, and 1,000 times the forced
   ones divided by the deliveries, as quotient and remainder. Refused with 3 (fewer than five entries), then with 22. It takes 20 KB of stack. */
uint64_t lemidrosy_simulate(size_t n, uint32_t spacing, uint32_t steps, uint32_t seed, uint64_t *figures, size_t figures_length);

/* A saved state is 12,942 bytes, the same on every machine: "LEMIDROS", the version 1 in two bytes, the 6,464 words in two bytes each, and in four the CRC-32C of all
   these, every number lowest byte first. Its bytes are one to one with the words: proved. */

/* The bytes of the state go to the front of the lent ones; the value is how many they are. Refused with 2, or with 3 if fewer than 12,942 are lent. */
uint64_t lemidrosy_save(const uint16_t *words, size_t words_length, uint8_t *bytes, size_t bytes_length);

/* Bytes, any at all: where they are a saved sound state, and nothing after it, the words are those that were saved. Refused with 2 otherwise, or if not 6,464 words are
   lent: then no word is written. No change of up to four bytes in a row is overlooked: proved. It takes 13 KB of stack. */
uint64_t lemidrosy_load(const uint8_t *bytes, size_t bytes_length, uint16_t *words, size_t words_length);

/* A state in a file, of LEMIDROSY_WORDS words. These two are C (lemidrosy_file.c) over the two above, and no part of what is proved. They answer 0, the number of a
   refusal, or below 0 the system's error, -ENOENT and so on. */

/* Stores the state at the path. Until it stands there whole, on the disk, the old file does: a crash, a full disk or an error in between leaves that, and a crash may
   leave a file next to it whose name ends in .new, which counts for nothing. A file that was there is replaced with its mode kept; a symbolic link is replaced itself. Two
   stores at a time leave one of the two states. An error after the new file has its name (the folder does not reach the disk) is the one that leaves the new state. */
int lemidrosy_store_file(const char *path, const uint16_t *words);

/* Loads the state of a file. Refused with 2 where the file is no saved sound state, or has anything after it; then, and with an error, no word is written. */
int lemidrosy_load_file(const char *path, uint16_t *words);

#ifdef __cplusplus
}
#endif

#endif
