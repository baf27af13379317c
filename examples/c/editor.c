/* What an editor offers: for each place of a term, the rules that fit there and what they would leave. */
#include "fejogbu.h"
#include <stdio.h>

int main(void) {
    static uint16_t declared[FEJOGBU_DECLARATIONS];
    /* (1+)|b>, as the scope's derivation begins */
    static uint16_t term[FEJOGBU_WORDS] = {22 * 256, 18 * 256, 15 * 256, 1 * 256, 16 * 256, 3 * 256};
    uint16_t type = 1 * 256, rows[FEJOGBU_INDEX], columns[FEJOGBU_INDEX];
    uint64_t answer[FEJOGBU_TYPING_ANSWER];
    if (fejogbu_start_declarations(declared, FEJOGBU_DECLARATIONS, 1) != FEJOGBU_PUT_DONE || fejogbu_put_basis(declared, FEJOGBU_DECLARATIONS, &type, 1) != FEJOGBU_PUT_DONE)
        return 1;
    for (uint16_t place = 0; place < 6; place++)
        for (uint16_t rule = 0; rule < 256; rule++) {
            if (fejogbu_preview(declared, FEJOGBU_DECLARATIONS, term, FEJOGBU_WORDS, 6, rule, place, 0, 0, answer, FEJOGBU_TYPING_ANSWER, rows, FEJOGBU_INDEX, columns, FEJOGBU_INDEX) != FEJOGBU_ANSWERED)
                return 1;
            if (answer[0] == FEJOGBU_ACCEPTED)
                printf("word %u: rule %u leaves %u words, %u deep\n", place, rule, (unsigned)answer[4], (unsigned)answer[5]);
        }
    return 0;
}
