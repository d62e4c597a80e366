/* A stand-in for the library, of a version to come: every entry point answers a number that nobody knows yet. */
#include <stdint.h>

#define ANSWERS(name) \
    uint64_t brinetrellis_##name(void); \
    uint64_t brinetrellis_##name(void) { return 99; }

ANSWERS(rebase_start)
ANSWERS(rebase_step)
ANSWERS(bind_plain)
ANSWERS(bind_weak)
ANSWERS(bind_lazy)
ANSWERS(bind_step)
ANSWERS(preflight_rebase)
ANSWERS(preflight_plain)
ANSWERS(preflight_weak)
ANSWERS(preflight_lazy)
ANSWERS(trie_start)
ANSWERS(trie_step)
ANSWERS(segment_start)
ANSWERS(segment_step)
ANSWERS(page_start)
ANSWERS(page_step)
ANSWERS(import_start)
ANSWERS(import_step)
ANSWERS(name)
