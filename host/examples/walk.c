#include "brinetrellis.h"
#include <inttypes.h>
#include <stdio.h>

int main(void) {
    const uint8_t stream[] = {0x11, 0x22, 0x10, 0x53, 0x00};
    struct brinetrellis_rebase_state state;
    struct brinetrellis_rebase_item item;
    enum brinetrellis_answer answer = brinetrellis_rebases_start(8, &state);
    while (answer == BRINETRELLIS_ITEM) {
        answer = brinetrellis_rebases_next(stream, sizeof stream, &state, &item);
        if (answer == BRINETRELLIS_ITEM)
            printf("segment %" PRIu64 ", offset %" PRIu64 ", type %" PRIu64 "\n", item.segment, item.place,
                   item.type);
    }
    if (answer == BRINETRELLIS_END)
        return 0;
    fprintf(stderr, "refused: %s\n", brinetrellis_refusal_text(answer));
    return 1;
}
