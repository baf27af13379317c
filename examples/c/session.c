/* Replays one derivation and prints the six numbers of its answer. */
#include "fejogbu.h"
#include <stdio.h>

static const char session[] = "types=1\nbasis=1:0\nvar=O 1:0 1:0\nleft=22 18 15 1:0 16 3:0\nright=16 3:0\nstep=L 71 1 0 0\nstep=L 102 0 0 0\nend=2\n";
static const char *const names[] = {"code", "side", "step", "at", "left", "right"};

int main(void) {
    static uint16_t left[FEJOGBU_WORDS], right[FEJOGBU_WORDS];
    uint64_t answer[FEJOGBU_ANSWER];
    if (fejogbu_replay((const uint8_t *)session, sizeof session - 1, left, FEJOGBU_WORDS, right, FEJOGBU_WORDS, answer, FEJOGBU_ANSWER) != FEJOGBU_ANSWERED)
        return 1;
    for (int k = 0; k < FEJOGBU_ANSWER; k++)
        printf("%s=%llu\n", names[k], (unsigned long long)answer[k]);
    return 0;
}
