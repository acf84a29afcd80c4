/* refused: the numbers that the functions of the library answer with, each by a call that meets it. */
#include "lemidrosy.h"
#include <stdio.h>

enum { W = LEMIDROSY_WORDS, D = LEMIDROSY_DELETIONS };
static uint16_t words[W], deleted[D], line[LEMIDROSY_PROCESSES];
static uint32_t ones[] = {1, 1, 1};

static void say(const char *what, uint64_t answer) { printf("%2u  %s\n", lemidrosy_refused(answer), what); }

/* The blocks written and deleted, put into the words by hand: a run would need more than fifteen billion checkpoints to come there. */
static void put_blocks(uint64_t written, uint64_t gone) {
    for (int k = 0; k < 4; k++) {
        words[4 + k] = (uint16_t)(written >> 16 * k);
        words[8 + k] = (uint16_t)(gone >> 16 * k);
    }
}

int main(void) {
    say("a start with 17 processes", lemidrosy_start(words, W, 17, ones, 3));
    say("a send on words that hold no run", lemidrosy_send(words, W, 0, 1));
    say("a start with three processes and two block counts", lemidrosy_start(words, W, 3, ones, 2));
    say("a start with a block count of 65,536", lemidrosy_start(words, W, 1, (uint32_t[]){65536}, 1));

    lemidrosy_start(words, W, 3, ones, 3);
    say("a checkpoint with a deletion list of 17 entries", lemidrosy_checkpoint(words, W, 0, deleted, 17));
    say("a checkpoint of process 3 of 0 to 2", lemidrosy_checkpoint(words, W, 3, deleted, D));
    say("a send from process 1 to itself", lemidrosy_send(words, W, 1, 1));
    say("a line for the failure of process 3", lemidrosy_line(words, W, 1 << 3, line, 3));
    say("a delivery of message 1 before it is sent", lemidrosy_deliver(words, W, 1, deleted, D));

    for (int k = 0; k < 64; k++)
        lemidrosy_send(words, W, 0, 1);
    say("the 65th message under way", lemidrosy_send(words, W, 0, 1));
    for (uint32_t m = 1; m < 1000000; m++) {
        lemidrosy_lose(words, W, m);
        lemidrosy_send(words, W, 0, 1);
    }
    lemidrosy_lose(words, W, 999999);
    say("a send after 1,000,000 messages", lemidrosy_send(words, W, 0, 1));

    lemidrosy_start(words, W, 1, ones, 1);
    for (int k = 1; k < 65535; k++)
        lemidrosy_checkpoint(words, W, 0, deleted, D);
    say("a checkpoint of a process whose own entry is 65,535", lemidrosy_checkpoint(words, W, 0, deleted, D));

    lemidrosy_start(words, W, 1, ones, 1);
    put_blocks(1000000000000000, 999999999999999);
    say("a checkpoint with 1,000,000,000,000,000 blocks written", lemidrosy_checkpoint(words, W, 0, deleted, D));

    lemidrosy_start(words, W, 3, ones, 3);
    lemidrosy_send(words, W, 0, 1);
    lemidrosy_deliver(words, W, 1, deleted, D);
    lemidrosy_checkpoint(words, W, 1, deleted, D);
    say("an earliest line through two checkpoints of process 0", lemidrosy_earliest(words, W, (uint32_t[]){0, 0, 0, 1}, 4, line, 3));
    say("an earliest line through checkpoint 5 of process 0", lemidrosy_earliest(words, W, (uint32_t[]){0, 5}, 2, line, 3));
    say("an earliest line through 0:0 and 1:1, which depends on it", lemidrosy_earliest(words, W, (uint32_t[]){0, 0, 1, 1}, 4, line, 3));
    return 0;
}
