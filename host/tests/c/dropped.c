/* Answers that are dropped. With WRONG as 0 the program is right; each other number drops one answer, and the compiler
 * must warn of it. */
#include "brinetrellis.h"

#ifndef WRONG
#define WRONG 0
#endif

int main(void) {
    struct brinetrellis_rebase_state state;
    struct brinetrellis_rebase_item item;
    struct brinetrellis_verdict verdict;
    const uint8_t stream[1] = {0x51};
    const uint64_t sizes[1] = {8};
    uint64_t answers = 0;

#if WRONG == 1
    brinetrellis_judge_rebases(stream, sizeof stream, 8, sizes, 1, &verdict);
#else
    answers += brinetrellis_judge_rebases(stream, sizeof stream, 8, sizes, 1, &verdict);
#endif
#if WRONG == 2
    brinetrellis_rebases_start(8, &state);
#else
    answers += brinetrellis_rebases_start(8, &state);
#endif
#if WRONG == 3
    brinetrellis_rebases_next(stream, sizeof stream, &state, &item);
#else
    answers += brinetrellis_rebases_next(stream, sizeof stream, &state, &item);
#endif
#if WRONG == 4
    brinetrellis_rebase_step(stream, sizeof stream, (uint8_t *)&state, sizeof state, (uint8_t *)&item, sizeof item);
#else
    answers += brinetrellis_rebase_step(stream, sizeof stream, (uint8_t *)&state, sizeof state, (uint8_t *)&item,
                                        sizeof item);
#endif
    return answers != 0;
}
