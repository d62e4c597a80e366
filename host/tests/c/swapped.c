/* Records that are swapped, or of another type. With WRONG as 0 the program is right; each other number changes one
 * call, and then it must not compile. */
#include "brinetrellis.h"

#ifndef WRONG
#define WRONG 0
#endif

int main(void) {
    static struct brinetrellis_trie_state trie;
    struct brinetrellis_rebase_state rebases;
    struct brinetrellis_rebase_item rebase;
    struct brinetrellis_bind_state binds;
    struct brinetrellis_bind_item bind;
    struct brinetrellis_trie_item exported;
    struct brinetrellis_segment_state segments;
    struct brinetrellis_segment_item segment;
    struct brinetrellis_page_state fixups;
    struct brinetrellis_page_item fixup;
    struct brinetrellis_import_state imports;
    struct brinetrellis_import_item import;
    struct brinetrellis_verdict verdict;
    struct brinetrellis_part part;
    const uint8_t bytes[1] = {0};
    const uint64_t sizes[1] = {0};
    uint8_t name[1];
    int answers = 0;

#if WRONG == 1
    answers += brinetrellis_rebases_next(bytes, 1, &rebase, &rebases);
#else
    answers += brinetrellis_rebases_next(bytes, 1, &rebases, &rebase);
#endif
#if WRONG == 2
    answers += brinetrellis_binds_next(bytes, 1, &bind, &binds);
#else
    answers += brinetrellis_binds_next(bytes, 1, &binds, &bind);
#endif
#if WRONG == 3
    answers += brinetrellis_exports_next(bytes, 1, &exported, name, 1, 1, &trie);
#else
    answers += brinetrellis_exports_next(bytes, 1, &trie, name, 1, 1, &exported);
#endif
#if WRONG == 4
    answers += brinetrellis_segments_next(bytes, 1, &segment, &segments);
#else
    answers += brinetrellis_segments_next(bytes, 1, &segments, &segment);
#endif
#if WRONG == 5
    answers += brinetrellis_fixups_start(bytes, 1, &fixups, 0, &segment);
#else
    answers += brinetrellis_fixups_start(bytes, 1, &segment, 0, &fixups);
#endif
#if WRONG == 6
    answers += brinetrellis_fixups_next(bytes, 1, bytes, 1, &fixup, &fixups);
#else
    answers += brinetrellis_fixups_next(bytes, 1, bytes, 1, &fixups, &fixup);
#endif
#if WRONG == 7
    answers += brinetrellis_imports_next(bytes, 1, &import, &imports); /* two records of 40 bytes */
#else
    answers += brinetrellis_imports_next(bytes, 1, &imports, &import);
#endif
#if WRONG == 8
    answers += brinetrellis_judge_rebases(bytes, 1, 8, sizes, 1, &part); /* two records of 16 bytes */
#else
    answers += brinetrellis_judge_rebases(bytes, 1, 8, sizes, 1, &verdict);
#endif
#if WRONG == 9
    answers += brinetrellis_part_of(bytes, 1, 0, 1, &verdict);
#else
    answers += brinetrellis_part_of(bytes, 1, 0, 1, &part);
#endif
#if WRONG == 10
    answers += brinetrellis_binds_weak(8, &rebases);
#else
    answers += brinetrellis_binds_weak(8, &binds);
#endif
    return answers;
}
