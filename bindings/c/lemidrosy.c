/* The refusals in words. What is decided, is decided in the proved code; here is text. */
#include "lemidrosy.h"

static const char *const texts[] = {
    [LEMIDROSY_ACCEPTED] = "accepted",
    [LEMIDROSY_COUNT_OUTSIDE_RANGE] = "the number of processes is not from 1 to 16",
    [LEMIDROSY_UNSOUND_STATE] = "the state is not sound, or no line exists on it",
    [LEMIDROSY_LIST_TOO_SHORT] = "a lent list or buffer has too few entries",
    [LEMIDROSY_NO_SUCH_PROCESS] = "there is no such process in the run",
    [LEMIDROSY_SENDER_IS_RECEIVER] = "the sender is the receiver",
    [LEMIDROSY_NO_SUCH_FAILED_PROCESS] = "the set names a process that is not in the run",
    [LEMIDROSY_NOT_UNDER_WAY] = "no such message is under way",
    [LEMIDROSY_TOO_MANY_UNDER_WAY] = "64 messages are under way already",
    [LEMIDROSY_MESSAGE_NUMBERS_USED] = "all 1,000,000 message numbers are used",
    [LEMIDROSY_INTERVALS_USED] = "the process has stored its last checkpoint: its own entry is 65,535",
    [LEMIDROSY_NO_FIRST_BYTE] = "the trace is empty, so it has no first byte",
    [LEMIDROSY_LEFT_OVER_BYTES] = "one to three bytes are left over after the last record",
    [LEMIDROSY_MALFORMED_RECORD] = "the record has an unused kind, or a field that must be zero is not",
    [LEMIDROSY_BLOCK_COUNT_OUTSIDE_RANGE] = "a block count is not from 1 to 65,535",
    [LEMIDROSY_BLOCKS_USED] = "the blocks written would pass 1,000,000,000,000,000",
    [LEMIDROSY_TOO_MANY_RECORDS] = "the trace has more than 4,096 records",
    [LEMIDROSY_UNFIT_NAMED_LIST] = "no checkpoint is named, more than there are processes, or two of one process",
    [LEMIDROSY_NOT_KEPT] = "a named checkpoint is not kept",
    [LEMIDROSY_CAUSALLY_ORDERED] = "one of the named checkpoints comes causally before another",
    [LEMIDROSY_BUFFER_TOO_SHORT] = "the buffer has too few bytes left for the record",
    [LEMIDROSY_TRIAL_OUTSIDE_RANGE] = "the processes, the spacing or the steps of the simulation are out of range",
    [LEMIDROSY_HALVES_MISMATCH] = "the halves differ in their number of processes, or a record is not of its half",
    [LEMIDROSY_NEITHER_READY] = "records are left and neither half is ready",
    [LEMIDROSY_DENIED] = "the caller may not do this",
};

const char *lemidrosy_refusal_text(unsigned number) {
    if (number < sizeof texts / sizeof texts[0] && texts[number] != NULL)
        return texts[number];
    return "no refusal has this number";
}
