/* Every typed function, on the samples of the other tests: each hands on what it is lent. All of it runs on a stack of
 * 64 KiB, which the header says is enough, above memory that nobody may touch. C99 and C++, on Linux. */
#ifndef _GNU_SOURCE
#define _GNU_SOURCE
#endif
#include "brinetrellis.h"
#include <stdio.h>
#include <string.h>
#include <sys/mman.h>
#include <ucontext.h>

static int failed = 0;

#define CHECK(truth) \
    do { \
        if (!(truth)) { \
            printf("line %d: not so: %s\n", __LINE__, #truth); \
            failed = 1; \
        } \
    } while (0)

/* Type 1; segment 2 at offset 16; three pointers; Done. */
static const uint8_t rebases[] = {0x11, 0x22, 0x10, 0x53, 0x00};

/* Library 1; the name `_a`; type 1; segment 2 at offset 8; one bind. */
static const uint8_t binds[] = {0x11, 0x40, '_', 'a', 0x00, 0x51, 0x72, 0x08, 0x90};

/* The same without type and library. */
static const uint8_t untyped[] = {0x40, '_', 'a', 0x00, 0x72, 0x08, 0x90};

/* Two edges, `ab` and `c`, to one node at 9, with the flags 1 and the address 16. */
static const uint8_t trie[] = {0x00, 0x02, 'a', 'b', 0x00, 0x09, 'c', 0x00, 0x09, 0x02, 0x01, 0x10, 0x00};

/* The root is a re-export of `_x` of library 2. */
static const uint8_t reexport[] = {0x05, 0x08, 0x02, '_', 'x', 0x00, 0x00};

/* Three segments, of which the second has fixups, and two imports: `_a` of library 1, and weak `_b` of library -2. */
static const uint8_t fixups[] = {
    0,    0,   0,   0, 28,   0,    0, 0, 68, 0,    0, 0, 76, 0, 0, 0, 2, 0, 0, 0, 1, 0, 0, 0, 0, 0, 0, 0, /* 0 */
    3,    0,   0,   0, 0,    0,    0, 0, 16, 0,    0, 0, 0,  0, 0, 0,                                     /* 28 */
    24,   0,   0,   0, 0,    0x10, 2, 0, 0,  0x40, 0, 0, 0,  0, 0, 0, 0, 0, 0, 0, 1, 0, 8, 0,             /* 44 */
    0x01, 2,   0,   0, 0xfe, 9,    0, 0,                                                                  /* 68 */
    0,    '_', 'a', 0, '_',  'b',  0,                                                                     /* 76 */
};

/* At 8 a rebase with target 0x1234 and high8 0x56, then at 16 a bind of ordinal 1 with the addend 7. */
static const uint64_t contents[] = {
    0,
    UINT64_C(0x1234) | UINT64_C(0x56) << 36 | UINT64_C(2) << 51,
    UINT64_C(1) | UINT64_C(7) << 24 | UINT64_C(1) << 63,
};

static const uint64_t sizes[17] = {0, 0, 40};

static void rebase_walk(void) {
    struct brinetrellis_rebase_state state;
    struct brinetrellis_rebase_item item;
    uint64_t place;
    CHECK(brinetrellis_rebases_start(7, &state) == BRINETRELLIS_POINTER_SIZE);
    CHECK(brinetrellis_rebases_start(8, &state) == BRINETRELLIS_ITEM);
    for (place = 16; place <= 32; place += 8) {
        CHECK(brinetrellis_rebases_next(rebases, sizeof rebases, &state, &item) == BRINETRELLIS_ITEM);
        CHECK(item.segment == 2 && item.place == place && item.type == BRINETRELLIS_REBASE_TYPE_POINTER);
    }
    CHECK(brinetrellis_rebases_next(rebases, sizeof rebases, &state, &item) == BRINETRELLIS_END);
}

static void bind_walks(void) {
    struct brinetrellis_bind_state state;
    struct brinetrellis_bind_item item;
    struct brinetrellis_part part;
    CHECK(brinetrellis_binds_plain(8, &state) == BRINETRELLIS_ITEM);
    CHECK(brinetrellis_binds_next(binds, sizeof binds, &state, &item) == BRINETRELLIS_ITEM);
    CHECK(item.segment == 2 && item.place == 8 && item.type == BRINETRELLIS_BIND_TYPE_POINTER && item.library == 1);
    CHECK(item.position == 2 && item.length == 2 && item.flags == 0 && item.addend == 0);
    CHECK(brinetrellis_part_of(binds, sizeof binds, item.position, item.length, &part) == BRINETRELLIS_ITEM);
    CHECK(part.position == 2 && part.length == 2);
    CHECK(brinetrellis_part_of(binds, sizeof binds, 8, 2, &part) == BRINETRELLIS_ITEM);
    CHECK(part.position == 0 && part.length == 0);
    CHECK(brinetrellis_binds_next(binds, sizeof binds, &state, &item) == BRINETRELLIS_END);

    CHECK(brinetrellis_binds_plain(8, &state) == BRINETRELLIS_ITEM);
    CHECK(brinetrellis_binds_next(untyped, sizeof untyped, &state, &item) == BRINETRELLIS_NO_TYPE);
    CHECK(brinetrellis_binds_weak(8, &state) == BRINETRELLIS_ITEM);
    CHECK(brinetrellis_binds_next(untyped, sizeof untyped, &state, &item) == BRINETRELLIS_ITEM);
    CHECK(item.library == BRINETRELLIS_BIND_SPECIAL_DYLIB_WEAK_LOOKUP);
    CHECK(brinetrellis_binds_lazy(8, &state) == BRINETRELLIS_ITEM);
    CHECK(brinetrellis_binds_next(untyped, sizeof untyped, &state, &item) == BRINETRELLIS_NO_LIBRARY);
}

static void verdicts(void) {
    struct brinetrellis_verdict verdict;
    CHECK(brinetrellis_judge_rebases(rebases, sizeof rebases, 8, sizes, 3, &verdict) == BRINETRELLIS_ITEM);
    CHECK(verdict.position == 4 && verdict.index == 0);
    CHECK(brinetrellis_judge_rebases(rebases, sizeof rebases, 8, sizes, 2, &verdict) == BRINETRELLIS_PLACE_OUTSIDE);
    CHECK(verdict.position == 3 && verdict.index == 0);
    CHECK(brinetrellis_judge_rebases(rebases, sizeof rebases, 8, sizes, 16, &verdict) == BRINETRELLIS_ITEM);
    CHECK(brinetrellis_judge_rebases(rebases, sizeof rebases, 8, sizes, 17, &verdict) == BRINETRELLIS_UNFIT_SIZES);
    /* No number of sizes wraps. */
    CHECK(brinetrellis_judge_rebases(rebases, sizeof rebases, 8, sizes, SIZE_MAX / 8 + 4, &verdict) ==
          BRINETRELLIS_UNFIT_SIZES);
    CHECK(brinetrellis_judge_plain_binds(untyped, sizeof untyped, 8, sizes, 3, &verdict) == BRINETRELLIS_NO_TYPE);
    CHECK(brinetrellis_judge_weak_binds(untyped, sizeof untyped, 8, sizes, 3, &verdict) == BRINETRELLIS_ITEM);
    CHECK(brinetrellis_judge_lazy_binds(untyped, sizeof untyped, 8, sizes, 3, &verdict) == BRINETRELLIS_NO_LIBRARY);
    CHECK(verdict.position == 6 && verdict.index == 0);
}

/* A place of four bytes, in 64 bits: in the last of its segment, and with one byte less. */
static void text_relocations(void) {
    static const uint8_t text[] = {0x10 | BRINETRELLIS_REBASE_TYPE_TEXT_ABSOLUTE32, 0x22, 36, 0x51};
    static const uint8_t bind[] = {0x11, 0x40, 'a', 0, 0x50 | BRINETRELLIS_BIND_TYPE_TEXT_PCREL32, 0x72, 36, 0x90};
    static const uint64_t whole[] = {0, 0, 40}, less[] = {0, 0, 39};
    struct brinetrellis_verdict verdict;
    CHECK(brinetrellis_judge_rebases(text, sizeof text, 8, whole, 3, &verdict) == BRINETRELLIS_ITEM);
    CHECK(brinetrellis_judge_rebases(text, sizeof text, 8, less, 3, &verdict) == BRINETRELLIS_PLACE_OUTSIDE);
    CHECK(verdict.position == 3 && verdict.index == 0);
    CHECK(brinetrellis_judge_plain_binds(bind, sizeof bind, 8, whole, 3, &verdict) == BRINETRELLIS_ITEM);
    CHECK(brinetrellis_judge_plain_binds(bind, sizeof bind, 8, less, 3, &verdict) == BRINETRELLIS_PLACE_OUTSIDE);
    CHECK(brinetrellis_judge_weak_binds(bind, sizeof bind, 8, whole, 3, &verdict) == BRINETRELLIS_ITEM);
    CHECK(brinetrellis_judge_weak_binds(bind, sizeof bind, 8, less, 3, &verdict) == BRINETRELLIS_PLACE_OUTSIDE);
    CHECK(brinetrellis_judge_lazy_binds(bind, sizeof bind, 8, whole, 3, &verdict) == BRINETRELLIS_ITEM);
    CHECK(brinetrellis_judge_lazy_binds(bind, sizeof bind, 8, less, 3, &verdict) == BRINETRELLIS_PLACE_OUTSIDE);
    CHECK(verdict.position == 7 && verdict.index == 0);
}

static void export_walk(void) {
    static struct brinetrellis_trie_state state;
    struct brinetrellis_trie_item item;
    uint8_t name[2];
    CHECK(brinetrellis_exports_start(&state) == BRINETRELLIS_ITEM);
    CHECK(brinetrellis_exports_next(trie, sizeof trie, &state, name, sizeof name, 1, &item) == BRINETRELLIS_MORE);
    CHECK(item.visits == 1);
    CHECK(brinetrellis_exports_next(trie, sizeof trie, &state, name, sizeof name, 9, &item) == BRINETRELLIS_ITEM);
    CHECK(item.length == 2 && memcmp(name, "ab", 2) == 0);
    CHECK(item.flags == BRINETRELLIS_EXPORT_SYMBOL_FLAGS_KIND_THREAD_LOCAL);
    CHECK(item.kind == BRINETRELLIS_EXPORT_REGULAR && item.address == 16);
    CHECK(brinetrellis_exports_next(trie, sizeof trie, &state, name, sizeof name, 9, &item) == BRINETRELLIS_ITEM);
    CHECK(item.length == 1 && name[0] == 'c');
    CHECK(brinetrellis_exports_next(trie, sizeof trie, &state, name, sizeof name, 9, &item) == BRINETRELLIS_END);

    CHECK(brinetrellis_exports_start(&state) == BRINETRELLIS_ITEM);
    CHECK(brinetrellis_exports_next(reexport, sizeof reexport, &state, name, 0, 1, &item) == BRINETRELLIS_ITEM);
    CHECK(item.kind == BRINETRELLIS_EXPORT_REEXPORT && item.library == 2 && item.position == 3 && item.size == 2);
    CHECK(item.flags == BRINETRELLIS_EXPORT_SYMBOL_FLAGS_REEXPORT);
}

static void fixup_walks(void) {
    struct brinetrellis_segment_state segments;
    struct brinetrellis_segment_item segment;
    struct brinetrellis_page_state state;
    struct brinetrellis_page_item item;
    const uint8_t *bytes = (const uint8_t *)contents;
    CHECK(brinetrellis_segments_start(fixups, sizeof fixups, &segments) == BRINETRELLIS_ITEM);
    CHECK(brinetrellis_segments_next(fixups, sizeof fixups, &segments, &segment) == BRINETRELLIS_ITEM);
    CHECK(segment.index == 1 && segment.page_size == 0x1000 && segment.offset == 0x4000);
    CHECK(segment.format == BRINETRELLIS_DYLD_CHAINED_PTR_64);
    CHECK(segment.limit == 0 && segment.pages == 1 && segment.position == 66 && segment.count == 1);
    CHECK(brinetrellis_fixups_start(fixups, sizeof fixups, &segment, 0x1000, &state) == BRINETRELLIS_ITEM);
    CHECK(brinetrellis_fixups_next(fixups, sizeof fixups, bytes, sizeof contents, &state, &item) == BRINETRELLIS_ITEM);
    CHECK(item.place == 8 && item.kind == BRINETRELLIS_FIXUP_REBASE);
    CHECK(item.target == (UINT64_C(0x56) << 56 | 0x234));
    CHECK(brinetrellis_fixups_next(fixups, sizeof fixups, bytes, sizeof contents, &state, &item) == BRINETRELLIS_ITEM);
    CHECK(item.place == 16 && item.kind == BRINETRELLIS_FIXUP_BIND && item.ordinal == 1 && item.addend == 7);
    CHECK(brinetrellis_fixups_next(fixups, sizeof fixups, bytes, sizeof contents, &state, &item) == BRINETRELLIS_END);
    CHECK(brinetrellis_segments_next(fixups, sizeof fixups, &segments, &segment) == BRINETRELLIS_END);
}

static void import_walk(void) {
    struct brinetrellis_import_state state;
    struct brinetrellis_import_item item;
    CHECK(brinetrellis_imports_start(fixups, sizeof fixups, &state) == BRINETRELLIS_ITEM);
    CHECK(brinetrellis_imports_next(fixups, sizeof fixups, &state, &item) == BRINETRELLIS_ITEM);
    CHECK(item.library == 1 && item.weak == 0 && item.addend == 0 && item.position == 77 && item.length == 2);
    CHECK(brinetrellis_imports_next(fixups, sizeof fixups, &state, &item) == BRINETRELLIS_ITEM);
    CHECK(item.library == BRINETRELLIS_BIND_SPECIAL_DYLIB_FLAT_LOOKUP && item.weak == 1 && item.position == 80);
    CHECK(brinetrellis_imports_next(fixups, sizeof fixups, &state, &item) == BRINETRELLIS_END);
}

static void answers(void) {
    const char *unknown = "answer that this header does not know";
    CHECK(strcmp(brinetrellis_refusal_text(BRINETRELLIS_NO_LIBRARY), "bind before any library was chosen") == 0);
    CHECK(strcmp(brinetrellis_refusal_text(BRINETRELLIS_END), "no refusal") == 0);
    CHECK(strcmp(brinetrellis_refusal_text(99), unknown) == 0);
    CHECK(strcmp(brinetrellis_refusal_text(UINT64_C(1) << 32), unknown) == 0);
    CHECK((uint64_t)brinetrellis_answer_of(99) == 99);
    CHECK(brinetrellis_answer_of(256) == BRINETRELLIS_END);
    /* The low bits of these are those of an item, and of the end. */
    CHECK(brinetrellis_answer_of(UINT64_C(1) << 32) == BRINETRELLIS_UNKNOWN_ANSWER);
    CHECK(brinetrellis_answer_of((UINT64_C(1) << 32) + 256) == BRINETRELLIS_UNKNOWN_ANSWER);
    CHECK(brinetrellis_answer_of(UINT64_MAX) == BRINETRELLIS_UNKNOWN_ANSWER);
}

static void all(void) {
    rebase_walk();
    bind_walks();
    verdicts();
    text_relocations();
    export_walk();
    fixup_walks();
    import_walk();
    answers();
}

/* A thread's stack may not be that small on every processor, so the stack is changed by hand. */
int main(void) {
    const size_t stack = 65536, guard = 65536;
    ucontext_t here, there;
    void *memory = mmap(NULL, guard + stack, PROT_NONE, MAP_PRIVATE | MAP_ANONYMOUS, -1, 0);
    char *lowest = (char *)memory + guard;
    if (memory == MAP_FAILED || mprotect(lowest, stack, PROT_READ | PROT_WRITE) != 0 || getcontext(&there) != 0)
        return 1;
    there.uc_stack.ss_sp = lowest;
    there.uc_stack.ss_size = stack;
    there.uc_link = &here;
    makecontext(&there, all, 0);
    CHECK(swapcontext(&here, &there) == 0);
    return failed;
}
