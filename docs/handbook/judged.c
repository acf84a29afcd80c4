/* judged < TRACE: the verdict on a trace, in its fields. */
#include "lemidrosy.h"
#include <stdio.h>

int main(void) {
    static uint8_t trace[16389];
    struct lemidrosy_verdict verdict = lemidrosy_verdict(lemidrosy_judge(trace, fread(trace, 1, sizeof trace, stdin)));
    printf("refused %u, breaks %d, near %u:%u, far %u:%u\n", verdict.refused, verdict.breaks, verdict.near_process, verdict.near_index, verdict.far_process,
        verdict.far_index);
    return 0;
}
