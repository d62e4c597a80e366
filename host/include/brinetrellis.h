/*
 * The C boundary of libbrinetrellis.a: readers of the rebase and bind opcode streams, the exports trie and the
 * chained fixups of Mach-O files. C99, or C++.
 *
 * A walk: a start writes the first state, and each step takes the state that the last one left and writes the next,
 * and an item. A refused start writes nothing. Where the answer is no item, the item is all zero (but for `visits`
 * of the trie's). A refusal leaves the state as it was, marked as ended, so that later steps say the end; but
 * BRINETRELLIS_STATE_OUT_OF_RANGE leaves it as it was, and after BRINETRELLIS_FAULTY_CHAINS a segment walk goes on.
 * A preflight is one call, and writes a verdict.
 *
 * Call the typed functions, at the end: they take states, items and verdicts by pointers to their structs, so that a
 * program with two of them swapped does not compile. They are inline, and call the entry points, which take every
 * record as bytes. A program that drops an answer is warned of by GCC and Clang,
 * and in C++17.
 *
 * Threads: nothing is kept between calls, so any number of threads may call at once, if what one call writes is lent
 * to no other at the same time. Allocation: nothing is allocated, all memory is the caller's. Stack: a call takes less
 * than 64 KiB (measured).
 *
 * There are archives for x86-64 and for Arm of 64 bits, for Linux and for macOS. A record is only laid out as its struct
 * below on a little-endian host, which these are. Every entry point takes numbers and byte slices, a pointer and then a
 * length, and answers one number. Every slice may have any length, 0 too: what does not fit is answered, never read.
 * Slices that are written must not overlap any other slice of the call.
 *
 * A record is words of eight bytes, one behind the other: numbers without a sign, but for those that are int64_t
 * below, which are in two's complement; a mark is 0 or 1. Bare entry points are lent one as
 * `(uint8_t *)&state, sizeof state`.
 *
 * BRINETRELLIS_STATE_OUT_OF_RANGE is also the answer where a state, an item, a verdict, a segment or a part has not
 * exactly the length of its record, where `sizes` is no whole number of words, or where a field that is narrower
 * than its word (the comments say which) has a value that it cannot have. Then nothing at all is written.
 */
#ifndef BRINETRELLIS_H
#define BRINETRELLIS_H

#include <stddef.h>
#include <stdint.h>

#ifdef __cplusplus
extern "C" {
#endif

/* The version of this header. */
#define BRINETRELLIS_VERSION "4.0.0"
#define BRINETRELLIS_VERSION_MAJOR 4
#define BRINETRELLIS_VERSION_MINOR 0
#define BRINETRELLIS_VERSION_PATCH 0

/* A function whose answer must not be dropped: a gate that does not look at it lets everything pass. */
#if defined(__GNUC__)
#define BRINETRELLIS_MUST_USE __attribute__((warn_unused_result))
#elif defined(__cplusplus) && __cplusplus >= 201703L
#define BRINETRELLIS_MUST_USE [[nodiscard]]
#else
#define BRINETRELLIS_MUST_USE
#endif

/* Answers. Refusals are added now and then, and not in order: take every answer that is not listed as one, too. */
enum brinetrellis_answer {
    BRINETRELLIS_ITEM = 0,                   /* an item; of a start: begun; of a preflight: passes; of a name: told */
    BRINETRELLIS_END = 256,                  /* no more items */
    BRINETRELLIS_MORE = 257,                 /* the node limit is reached (trie only) */

    /* Refusals: each with exactly when it is given; brinetrellis_refusal_text has plain words. */
    BRINETRELLIS_POINTER_SIZE = 1,           /* pointer size is neither 4 nor 8, at a start */
    BRINETRELLIS_UNKNOWN_OPCODE = 2,         /* opcode not in the list */
    BRINETRELLIS_FAULTY_OPERAND = 3,         /* LEB128 or string operand of an opcode is faulty */
    BRINETRELLIS_ORDINAL_TOO_LARGE = 4,      /* ULEB library ordinal above 2147483647 */
    BRINETRELLIS_NO_SEGMENT = 5,             /* a place is due, and the segment is unset */
    BRINETRELLIS_NO_TYPE = 6,                /* a place is due, and the type is unset but not the segment */
    BRINETRELLIS_NO_LIBRARY = 7,             /* a place is due, and the library is unset but neither segment nor type */
    BRINETRELLIS_NO_SYMBOL = 8,              /* a place is due, and only the symbol is unset */
    BRINETRELLIS_FAULTY_CHAINS = 9,          /* header, starts or segment record do not fit, or record size below 22 */
    BRINETRELLIS_UNKNOWN_VERSION = 10,       /* fixups version is not 0 */
    BRINETRELLIS_UNSUPPORTED_FORMAT = 11,    /* pointer format, import format or symbols format unsupported */
    BRINETRELLIS_BEYOND_STARTS = 12,         /* page index or chain index at or beyond the starts list */
    BRINETRELLIS_POINTER_OUTSIDE = 13,       /* 4 or 8 pointer bytes do not lie in the segment's bytes */
    BRINETRELLIS_FAULTY_IMPORT = 14,         /* imports, symbols, an import record or its name do not lie in the data */
    BRINETRELLIS_FAULTY_NODE = 15,           /* trie node or edge faulty */
    BRINETRELLIS_CHILD_IS_OPEN = 16,         /* child offset is that of an open node */
    BRINETRELLIS_TOO_MANY_OPEN_NODES = 17,   /* a 257th node would be opened */
    BRINETRELLIS_NAME_TOO_LONG = 18,         /* name longer than the lent name buffer */
    BRINETRELLIS_STATE_OUT_OF_RANGE = 19,    /* state out of range, or a record that is none (above) */
    BRINETRELLIS_PLACE_OUTSIDE = 20,         /* preflight: a place is outside its segment */
    BRINETRELLIS_UNFIT_SIZES = 21,           /* preflight: more than 16 sizes, or one above 2^62 */

    /* A number that is beyond every answer, of an archive of another version. Only the typed functions say it. */
    BRINETRELLIS_UNKNOWN_ANSWER = 2147483647
};

/* Types of rebases and binds, flags of binds and of exports, and special libraries, by their names in loader.h. */
#define BRINETRELLIS_REBASE_TYPE_POINTER 1
#define BRINETRELLIS_REBASE_TYPE_TEXT_ABSOLUTE32 2
#define BRINETRELLIS_REBASE_TYPE_TEXT_PCREL32 3
#define BRINETRELLIS_BIND_TYPE_POINTER 1
#define BRINETRELLIS_BIND_TYPE_TEXT_ABSOLUTE32 2
#define BRINETRELLIS_BIND_TYPE_TEXT_PCREL32 3
#define BRINETRELLIS_BIND_SPECIAL_DYLIB_SELF 0
#define BRINETRELLIS_BIND_SPECIAL_DYLIB_MAIN_EXECUTABLE (-1)
#define BRINETRELLIS_BIND_SPECIAL_DYLIB_FLAT_LOOKUP (-2)
#define BRINETRELLIS_BIND_SPECIAL_DYLIB_WEAK_LOOKUP (-3)
#define BRINETRELLIS_BIND_SYMBOL_FLAGS_WEAK_IMPORT 0x01
#define BRINETRELLIS_BIND_SYMBOL_FLAGS_NON_WEAK_DEFINITION 0x08
#define BRINETRELLIS_EXPORT_SYMBOL_FLAGS_KIND_MASK 0x03
#define BRINETRELLIS_EXPORT_SYMBOL_FLAGS_KIND_REGULAR 0x00
#define BRINETRELLIS_EXPORT_SYMBOL_FLAGS_KIND_THREAD_LOCAL 0x01
#define BRINETRELLIS_EXPORT_SYMBOL_FLAGS_KIND_ABSOLUTE 0x02
#define BRINETRELLIS_EXPORT_SYMBOL_FLAGS_WEAK_DEFINITION 0x04
#define BRINETRELLIS_EXPORT_SYMBOL_FLAGS_REEXPORT 0x08
#define BRINETRELLIS_EXPORT_SYMBOL_FLAGS_STUB_AND_RESOLVER 0x10

/* Formats of chained pointers and of imports that are read, by their names in fixup-chains.h. */
#define BRINETRELLIS_DYLD_CHAINED_PTR_64 2
#define BRINETRELLIS_DYLD_CHAINED_PTR_32 3
#define BRINETRELLIS_DYLD_CHAINED_PTR_64_OFFSET 6
#define BRINETRELLIS_DYLD_CHAINED_IMPORT 1
#define BRINETRELLIS_DYLD_CHAINED_IMPORT_ADDEND 2
#define BRINETRELLIS_DYLD_CHAINED_IMPORT_ADDEND64 3

/* The `kind` of an export, and of a fixup. */
#define BRINETRELLIS_EXPORT_REGULAR 0
#define BRINETRELLIS_EXPORT_REEXPORT 1
#define BRINETRELLIS_EXPORT_STUB_AND_RESOLVER 2
#define BRINETRELLIS_FIXUP_REBASE 0
#define BRINETRELLIS_FIXUP_BIND 1

/* Lengths of records, in bytes. */
#define BRINETRELLIS_REBASE_STATE 80
#define BRINETRELLIS_REBASE_ITEM 24
#define BRINETRELLIS_BIND_STATE 144
#define BRINETRELLIS_BIND_ITEM 64
#define BRINETRELLIS_VERDICT 16
#define BRINETRELLIS_TRIE_STATE 6416
#define BRINETRELLIS_TRIE_ITEM 72
#define BRINETRELLIS_SEGMENT_STATE 24
#define BRINETRELLIS_SEGMENT_ITEM 64
#define BRINETRELLIS_PAGE_STATE 128
#define BRINETRELLIS_PAGE_ITEM 40
#define BRINETRELLIS_IMPORT_STATE 40
#define BRINETRELLIS_IMPORT_ITEM 40
#define BRINETRELLIS_PART 16

/* How many nodes of a trie may be open at once. */
#define BRINETRELLIS_OPEN_NODES 256

/* ---- Records. Where a step writes one, every field is written. ---- */

/* Where a walk over a rebase stream stands. */
struct brinetrellis_rebase_state {
    uint64_t at;        /* where the next operation is read */
    uint64_t size;      /* the pointer size; at most 255 */
    uint64_t remaining; /* places of the last repeat that are still due */
    uint64_t advance;   /* from one of them to the next */
    uint64_t offset;
    uint64_t ended;     /* a mark: the walk was refused */
    uint64_t segmented; /* a mark: the segment is set */
    uint64_t typed;     /* a mark: the type is set */
    uint64_t segment;   /* at most 255 */
    uint64_t type;      /* at most 255 */
};

/* A place that the loader slides. */
struct brinetrellis_rebase_item {
    uint64_t segment;
    uint64_t place; /* its offset in the segment */
    uint64_t type;
};

/* Where a walk over a bind stream stands. */
struct brinetrellis_bind_state {
    uint64_t at;        /* where the next operation is read */
    uint64_t size;      /* the pointer size; at most 255 */
    uint64_t remaining; /* places of the last repeat that are still due */
    uint64_t advance;   /* from one of them to the next */
    uint64_t offset;
    uint64_t ended;     /* a mark: the walk was refused */
    uint64_t lazy;      /* a mark: Done does not end the walk */
    uint64_t segmented; /* a mark: the segment is set */
    uint64_t typed;     /* a mark: the type is set */
    uint64_t sourced;   /* a mark: the library is set */
    uint64_t named;     /* a mark: the symbol is set */
    uint64_t segment;   /* at most 255 */
    uint64_t type;      /* at most 255 */
    int64_t library;    /* from -2^31 to 2^31 - 1 */
    uint64_t place;     /* of the symbol's name in the stream */
    uint64_t length;
    uint64_t flags;     /* at most 255 */
    int64_t addend;
};

/* A place that the loader binds to a symbol. */
struct brinetrellis_bind_item {
    uint64_t segment;
    uint64_t place; /* its offset in the segment */
    uint64_t type;
    int64_t library;
    uint64_t position; /* of the symbol's name in the stream */
    uint64_t length;
    uint64_t flags;
    int64_t addend;
};

/* What a preflight says: of a pass, the operations that were read, and 0; of a fault, the byte position where its
 * operation starts, and the index in the repeat. */
struct brinetrellis_verdict {
    uint64_t position; /* or the number of operations */
    uint64_t index;
};

/* Where a walk over an exports trie stands. The first `depth` elements of each array are those of the open nodes, the
 * one on top last. A walk that has not ended and has no node open has not begun. */
struct brinetrellis_trie_state {
    uint64_t depth;
    uint64_t ended; /* a mark: the walk has said the end or a refusal */
    uint64_t places[BRINETRELLIS_OPEN_NODES];  /* where the next edge is read */
    uint64_t offsets[BRINETRELLIS_OPEN_NODES]; /* of the node, from the start of the trie */
    uint64_t lengths[BRINETRELLIS_OPEN_NODES]; /* of the node's name */
    uint8_t left[BRINETRELLIS_OPEN_NODES];     /* children still to be read */
};

/* An export. Its name is the first `length` bytes of the name buffer. */
struct brinetrellis_trie_item {
    uint64_t visits;   /* nodes visited in this call, whatever its answer */
    uint64_t length;   /* of the name */
    uint64_t flags;
    uint64_t kind;     /* 0: an address; 1: a re-export; 2: a stub and a resolver */
    uint64_t address;  /* of kind 0, or the stub's of kind 2 */
    uint64_t resolver; /* of kind 2 */
    uint64_t library;  /* of kind 1: the library that the symbol is taken from */
    uint64_t position; /* of kind 1: where in the trie's bytes the symbol's name in that library is */
    uint64_t size;     /* and how long it is */
};

/* Where a walk over the segments of chained fixups stands. */
struct brinetrellis_segment_state {
    uint64_t place; /* of the starts, in the fixups */
    uint64_t count; /* of segments */
    uint64_t index; /* of the next */
};

/* What chained fixups know of a segment. */
struct brinetrellis_segment_item {
    uint64_t index;
    uint64_t page_size; /* at most 65535 */
    uint64_t format;    /* of its pointers; at most 65535 */
    uint64_t offset;    /* in memory, from the start of the image */
    uint64_t limit;     /* the largest value that is a pointer; not applied */
    uint64_t pages;     /* at most 65535 */
    uint64_t position;  /* of its starts list, in the fixups */
    uint64_t count;     /* of starts in the list */
};

/* Where a walk over the fixups of a segment stands. */
struct brinetrellis_page_state {
    struct brinetrellis_segment_item segment;
    uint64_t base;   /* the preferred load address */
    uint64_t linked; /* a mark: a pointer is due */
    uint64_t more;   /* a mark: behind it, a chain of the page's list is due */
    uint64_t page;   /* the index of the next page */
    uint64_t chain;  /* the index of the next chain */
    uint64_t origin; /* the page's offset in the segment */
    uint64_t offset; /* of the next pointer in the segment */
    uint64_t ended;  /* a mark: the walk was refused */
};

/* A pointer that the loader patches. */
struct brinetrellis_page_item {
    uint64_t place;   /* its offset in the segment */
    uint64_t kind;    /* 0: a rebase; 1: a bind */
    uint64_t target;  /* of a rebase: the offset from the start of the image, with high8 in the top byte */
    uint64_t ordinal; /* of a bind: the index of the import */
    uint64_t addend;  /* of a bind */
};

/* Where a walk over the imports of chained fixups stands. */
struct brinetrellis_import_state {
    uint64_t place;   /* where the next import is read */
    uint64_t symbols; /* where the names are */
    uint64_t left;    /* imports still to be read */
    uint64_t format;
    uint64_t ended;   /* a mark: the walk was refused */
};

/* A symbol that is imported. */
struct brinetrellis_import_item {
    int64_t library;
    uint64_t weak; /* a mark: it may be missing */
    int64_t addend;
    uint64_t position; /* of its name in the fixups */
    uint64_t length;
};

/* A part of lent bytes. */
struct brinetrellis_part {
    uint64_t position;
    uint64_t length;
};

#if defined(__cplusplus) && __cplusplus >= 201103L
#define BRINETRELLIS_ASSERT(truth, text) static_assert(truth, text)
#elif defined(__STDC_VERSION__) && __STDC_VERSION__ >= 201112L
#define BRINETRELLIS_ASSERT(truth, text) _Static_assert(truth, text)
#endif
#ifdef BRINETRELLIS_ASSERT
BRINETRELLIS_ASSERT(sizeof(struct brinetrellis_rebase_state) == BRINETRELLIS_REBASE_STATE, "rebase state");
BRINETRELLIS_ASSERT(sizeof(struct brinetrellis_rebase_item) == BRINETRELLIS_REBASE_ITEM, "rebase item");
BRINETRELLIS_ASSERT(sizeof(struct brinetrellis_bind_state) == BRINETRELLIS_BIND_STATE, "bind state");
BRINETRELLIS_ASSERT(sizeof(struct brinetrellis_bind_item) == BRINETRELLIS_BIND_ITEM, "bind item");
BRINETRELLIS_ASSERT(sizeof(struct brinetrellis_verdict) == BRINETRELLIS_VERDICT, "verdict");
BRINETRELLIS_ASSERT(sizeof(struct brinetrellis_trie_state) == BRINETRELLIS_TRIE_STATE, "trie state");
BRINETRELLIS_ASSERT(sizeof(struct brinetrellis_trie_item) == BRINETRELLIS_TRIE_ITEM, "trie item");
BRINETRELLIS_ASSERT(sizeof(struct brinetrellis_segment_state) == BRINETRELLIS_SEGMENT_STATE, "segment state");
BRINETRELLIS_ASSERT(sizeof(struct brinetrellis_segment_item) == BRINETRELLIS_SEGMENT_ITEM, "segment item");
BRINETRELLIS_ASSERT(sizeof(struct brinetrellis_page_state) == BRINETRELLIS_PAGE_STATE, "page state");
BRINETRELLIS_ASSERT(sizeof(struct brinetrellis_page_item) == BRINETRELLIS_PAGE_ITEM, "page item");
BRINETRELLIS_ASSERT(sizeof(struct brinetrellis_import_state) == BRINETRELLIS_IMPORT_STATE, "import state");
BRINETRELLIS_ASSERT(sizeof(struct brinetrellis_import_item) == BRINETRELLIS_IMPORT_ITEM, "import item");
BRINETRELLIS_ASSERT(sizeof(struct brinetrellis_part) == BRINETRELLIS_PART, "part");
#undef BRINETRELLIS_ASSERT
#endif

/* ---- Entry points: opcode streams ---- */

/* Begins a walk over a rebase stream of a pointer size. */
BRINETRELLIS_MUST_USE
uint64_t brinetrellis_rebase_start(uint64_t pointer_size, uint8_t *state, size_t state_length);

/* The next place of a rebase stream. After the end of a Done, the next step goes on behind it. */
BRINETRELLIS_MUST_USE
uint64_t brinetrellis_rebase_step(const uint8_t *stream, size_t stream_length, uint8_t *state, size_t state_length,
                                  uint8_t *item, size_t item_length);

/* Begin a walk over a stream of plain, weak or lazy binds: weak begins with type 1 and library -3 set, lazy with
 * type 1 set. */
BRINETRELLIS_MUST_USE
uint64_t brinetrellis_bind_plain(uint64_t pointer_size, uint8_t *state, size_t state_length);
BRINETRELLIS_MUST_USE
uint64_t brinetrellis_bind_weak(uint64_t pointer_size, uint8_t *state, size_t state_length);
BRINETRELLIS_MUST_USE
uint64_t brinetrellis_bind_lazy(uint64_t pointer_size, uint8_t *state, size_t state_length);

/* The next place of a bind stream. After the end of a Done, the next step goes on behind it; a Done in a lazy walk
 * puts it back to its start, and it reads on. */
BRINETRELLIS_MUST_USE
uint64_t brinetrellis_bind_step(const uint8_t *stream, size_t stream_length, uint8_t *state, size_t state_length,
                                uint8_t *item, size_t item_length);

/* Judge a whole stream, up to the first end, against the sizes of the segments in order: words, at most 16 of them.
 * However many places a repeat has, it is not stepped through. A place is inside its segment if all its bytes are: four
 * of a text relocation, type 2 or 3, and of any other type the pointer size. */
BRINETRELLIS_MUST_USE
uint64_t brinetrellis_preflight_rebase(const uint8_t *stream, size_t stream_length, uint64_t pointer_size,
                                       const uint8_t *sizes, size_t sizes_length, uint8_t *verdict,
                                       size_t verdict_length);
BRINETRELLIS_MUST_USE
uint64_t brinetrellis_preflight_plain(const uint8_t *stream, size_t stream_length, uint64_t pointer_size,
                                      const uint8_t *sizes, size_t sizes_length, uint8_t *verdict,
                                      size_t verdict_length);
BRINETRELLIS_MUST_USE
uint64_t brinetrellis_preflight_weak(const uint8_t *stream, size_t stream_length, uint64_t pointer_size,
                                     const uint8_t *sizes, size_t sizes_length, uint8_t *verdict,
                                     size_t verdict_length);
BRINETRELLIS_MUST_USE
uint64_t brinetrellis_preflight_lazy(const uint8_t *stream, size_t stream_length, uint64_t pointer_size,
                                     const uint8_t *sizes, size_t sizes_length, uint8_t *verdict,
                                     size_t verdict_length);

/* ---- Entry points: the exports trie ---- */

/* Begins a walk over an exports trie. */
BRINETRELLIS_MUST_USE
uint64_t brinetrellis_trie_start(uint8_t *state, size_t state_length);

/* Visits at most `limit` nodes, until there is an export. Lend the name buffer as the last step left it. */
BRINETRELLIS_MUST_USE
uint64_t brinetrellis_trie_step(const uint8_t *trie, size_t trie_length, uint8_t *state, size_t state_length,
                                uint8_t *name, size_t name_length, uint64_t limit, uint8_t *item, size_t item_length);

/* ---- Entry points: chained fixups ---- */

/* Begins a walk over the segments of chained fixups. */
BRINETRELLIS_MUST_USE
uint64_t brinetrellis_segment_start(const uint8_t *fixups, size_t fixups_length, uint8_t *state, size_t state_length);

/* The next segment that has fixups. */
BRINETRELLIS_MUST_USE
uint64_t brinetrellis_segment_step(const uint8_t *fixups, size_t fixups_length, uint8_t *state, size_t state_length,
                                   uint8_t *item, size_t item_length);

/* Begins a walk over the fixups of a segment, an item of the segment walk; `base` is the preferred load address. */
BRINETRELLIS_MUST_USE
uint64_t brinetrellis_page_start(const uint8_t *fixups, size_t fixups_length, const uint8_t *segment,
                                 size_t segment_length, uint64_t base, uint8_t *state, size_t state_length);

/* The next fixup of a segment; `contents` are the segment's bytes. */
BRINETRELLIS_MUST_USE
uint64_t brinetrellis_page_step(const uint8_t *fixups, size_t fixups_length, const uint8_t *contents,
                                size_t contents_length, uint8_t *state, size_t state_length, uint8_t *item,
                                size_t item_length);

/* Begins a walk over the imports of chained fixups. */
BRINETRELLIS_MUST_USE
uint64_t brinetrellis_import_start(const uint8_t *fixups, size_t fixups_length, uint8_t *state, size_t state_length);

/* The next import; a fixup's ordinal counts them from 0. */
BRINETRELLIS_MUST_USE
uint64_t brinetrellis_import_step(const uint8_t *fixups, size_t fixups_length, uint8_t *state, size_t state_length,
                                  uint8_t *item, size_t item_length);

/* ---- Entry points: names ---- */

/* The part of the bytes at a position and of a length, as they are in an item; empty (0, 0) where it does not lie in
 * them. */
BRINETRELLIS_MUST_USE
uint64_t brinetrellis_name(const uint8_t *bytes, size_t bytes_length, uint64_t position, uint64_t length,
                           uint8_t *part, size_t part_length);

/* ---- What an answer says ---- */

/* Plain words for a refusal, as a release manager reads them. */
static inline const char *brinetrellis_refusal_text(uint64_t answer) {
    switch (answer) {
    case BRINETRELLIS_POINTER_SIZE: return "pointer size is neither 4 nor 8";
    case BRINETRELLIS_UNKNOWN_OPCODE: return "opcode that this reader does not know";
    case BRINETRELLIS_FAULTY_OPERAND: return "operand cut off or malformed";
    case BRINETRELLIS_ORDINAL_TOO_LARGE: return "library number too large";
    case BRINETRELLIS_NO_SEGMENT: return "place before any segment was chosen";
    case BRINETRELLIS_NO_TYPE: return "place before any type was chosen";
    case BRINETRELLIS_NO_LIBRARY: return "bind before any library was chosen";
    case BRINETRELLIS_NO_SYMBOL: return "bind before any symbol was named";
    case BRINETRELLIS_FAULTY_CHAINS: return "chained fixups do not fit their bytes";
    case BRINETRELLIS_UNKNOWN_VERSION: return "version of chained fixups that this reader does not know";
    case BRINETRELLIS_UNSUPPORTED_FORMAT: return "format that this reader does not know";
    case BRINETRELLIS_BEYOND_STARTS: return "page or chain beyond the list of starts";
    case BRINETRELLIS_POINTER_OUTSIDE: return "chained pointer outside the segment's bytes";
    case BRINETRELLIS_FAULTY_IMPORT: return "import does not fit its bytes";
    case BRINETRELLIS_FAULTY_NODE: return "trie node or edge malformed";
    case BRINETRELLIS_CHILD_IS_OPEN: return "trie node is its own ancestor";
    case BRINETRELLIS_TOO_MANY_OPEN_NODES: return "too many trie nodes open at once";
    case BRINETRELLIS_NAME_TOO_LONG: return "exported name longer than the room for it";
    case BRINETRELLIS_STATE_OUT_OF_RANGE: return "walk state that no walk can have";
    case BRINETRELLIS_PLACE_OUTSIDE: return "place outside its segment";
    case BRINETRELLIS_UNFIT_SIZES: return "too many segment sizes, or one too large";
    case BRINETRELLIS_ITEM:
    case BRINETRELLIS_END:
    case BRINETRELLIS_MORE: return "no refusal";
    default: return "answer that this header does not know";
    }
}

/* The answer of a number, whole: a number beyond the enum is no answer that is known, whatever its low bits are. */
static inline enum brinetrellis_answer brinetrellis_answer_of(uint64_t number) {
    return number < BRINETRELLIS_UNKNOWN_ANSWER ? (enum brinetrellis_answer)number : BRINETRELLIS_UNKNOWN_ANSWER;
}

/* ---- Typed functions. Each calls the entry point that its body names; see there. ---- */

/* Begins a walk over a rebase stream of a pointer size. */
BRINETRELLIS_MUST_USE
static inline enum brinetrellis_answer
brinetrellis_rebases_start(uint64_t pointer_size, struct brinetrellis_rebase_state *state) {
    uint64_t number = brinetrellis_rebase_start(pointer_size, (uint8_t *)state, sizeof *state);
    return brinetrellis_answer_of(number);
}

/* The next place of a rebase stream. After the end of a Done, the next call goes on behind it. */
BRINETRELLIS_MUST_USE
static inline enum brinetrellis_answer
brinetrellis_rebases_next(const uint8_t *stream, size_t stream_length, struct brinetrellis_rebase_state *state,
                          struct brinetrellis_rebase_item *item) {
    uint64_t number = brinetrellis_rebase_step(stream, stream_length, (uint8_t *)state, sizeof *state, (uint8_t *)item,
                                               sizeof *item);
    return brinetrellis_answer_of(number);
}

/* Begin a walk over a stream of plain, weak or lazy binds, of a pointer size. */
BRINETRELLIS_MUST_USE
static inline enum brinetrellis_answer
brinetrellis_binds_plain(uint64_t pointer_size, struct brinetrellis_bind_state *state) {
    uint64_t number = brinetrellis_bind_plain(pointer_size, (uint8_t *)state, sizeof *state);
    return brinetrellis_answer_of(number);
}

BRINETRELLIS_MUST_USE
static inline enum brinetrellis_answer
brinetrellis_binds_weak(uint64_t pointer_size, struct brinetrellis_bind_state *state) {
    uint64_t number = brinetrellis_bind_weak(pointer_size, (uint8_t *)state, sizeof *state);
    return brinetrellis_answer_of(number);
}

BRINETRELLIS_MUST_USE
static inline enum brinetrellis_answer
brinetrellis_binds_lazy(uint64_t pointer_size, struct brinetrellis_bind_state *state) {
    uint64_t number = brinetrellis_bind_lazy(pointer_size, (uint8_t *)state, sizeof *state);
    return brinetrellis_answer_of(number);
}

/* The next place of a bind stream. After the end of a Done, the next call goes on behind it. */
BRINETRELLIS_MUST_USE
static inline enum brinetrellis_answer
brinetrellis_binds_next(const uint8_t *stream, size_t stream_length, struct brinetrellis_bind_state *state,
                        struct brinetrellis_bind_item *item) {
    uint64_t number = brinetrellis_bind_step(stream, stream_length, (uint8_t *)state, sizeof *state, (uint8_t *)item,
                                             sizeof *item);
    return brinetrellis_answer_of(number);
}

/* The length of so many sizes. Seventeen are already too many. */
static inline size_t brinetrellis_sizes_length(size_t sizes_count) {
    return (sizes_count < 17 ? sizes_count : 17) * sizeof(uint64_t);
}

/* Judge a whole stream against the sizes of the segments in order, at most 16 of them. A text relocation, type 2 or 3,
 * has four bytes, a place of any other type the pointer size. */
BRINETRELLIS_MUST_USE
static inline enum brinetrellis_answer
brinetrellis_judge_rebases(const uint8_t *stream, size_t stream_length, uint64_t pointer_size, const uint64_t *sizes,
                           size_t sizes_count, struct brinetrellis_verdict *verdict) {
    uint64_t number = brinetrellis_preflight_rebase(stream, stream_length, pointer_size, (const uint8_t *)sizes,
                                                    brinetrellis_sizes_length(sizes_count), (uint8_t *)verdict,
                                                    sizeof *verdict);
    return brinetrellis_answer_of(number);
}

BRINETRELLIS_MUST_USE
static inline enum brinetrellis_answer
brinetrellis_judge_plain_binds(const uint8_t *stream, size_t stream_length, uint64_t pointer_size,
                               const uint64_t *sizes, size_t sizes_count, struct brinetrellis_verdict *verdict) {
    uint64_t number = brinetrellis_preflight_plain(stream, stream_length, pointer_size, (const uint8_t *)sizes,
                                                   brinetrellis_sizes_length(sizes_count), (uint8_t *)verdict,
                                                   sizeof *verdict);
    return brinetrellis_answer_of(number);
}

BRINETRELLIS_MUST_USE
static inline enum brinetrellis_answer
brinetrellis_judge_weak_binds(const uint8_t *stream, size_t stream_length, uint64_t pointer_size, const uint64_t *sizes,
                              size_t sizes_count, struct brinetrellis_verdict *verdict) {
    uint64_t number = brinetrellis_preflight_weak(stream, stream_length, pointer_size, (const uint8_t *)sizes,
                                                  brinetrellis_sizes_length(sizes_count), (uint8_t *)verdict,
                                                  sizeof *verdict);
    return brinetrellis_answer_of(number);
}

BRINETRELLIS_MUST_USE
static inline enum brinetrellis_answer
brinetrellis_judge_lazy_binds(const uint8_t *stream, size_t stream_length, uint64_t pointer_size, const uint64_t *sizes,
                              size_t sizes_count, struct brinetrellis_verdict *verdict) {
    uint64_t number = brinetrellis_preflight_lazy(stream, stream_length, pointer_size, (const uint8_t *)sizes,
                                                  brinetrellis_sizes_length(sizes_count), (uint8_t *)verdict,
                                                  sizeof *verdict);
    return brinetrellis_answer_of(number);
}

/* Begins a walk over an exports trie. */
BRINETRELLIS_MUST_USE
static inline enum brinetrellis_answer
brinetrellis_exports_start(struct brinetrellis_trie_state *state) {
    uint64_t number = brinetrellis_trie_start((uint8_t *)state, sizeof *state);
    return brinetrellis_answer_of(number);
}

/* Visits at most `limit` nodes, until there is an export. Lend the name buffer as the last call left it. */
BRINETRELLIS_MUST_USE
static inline enum brinetrellis_answer
brinetrellis_exports_next(const uint8_t *trie, size_t trie_length, struct brinetrellis_trie_state *state, uint8_t *name,
                          size_t name_length, uint64_t limit, struct brinetrellis_trie_item *item) {
    uint64_t number = brinetrellis_trie_step(trie, trie_length, (uint8_t *)state, sizeof *state, name, name_length,
                                             limit, (uint8_t *)item, sizeof *item);
    return brinetrellis_answer_of(number);
}

/* Begins a walk over the segments of chained fixups. */
BRINETRELLIS_MUST_USE
static inline enum brinetrellis_answer
brinetrellis_segments_start(const uint8_t *fixups, size_t fixups_length, struct brinetrellis_segment_state *state) {
    uint64_t number = brinetrellis_segment_start(fixups, fixups_length, (uint8_t *)state, sizeof *state);
    return brinetrellis_answer_of(number);
}

/* The next segment that has fixups. */
BRINETRELLIS_MUST_USE
static inline enum brinetrellis_answer
brinetrellis_segments_next(const uint8_t *fixups, size_t fixups_length, struct brinetrellis_segment_state *state,
                           struct brinetrellis_segment_item *item) {
    uint64_t number = brinetrellis_segment_step(fixups, fixups_length, (uint8_t *)state, sizeof *state, (uint8_t *)item,
                                                sizeof *item);
    return brinetrellis_answer_of(number);
}

/* Begins a walk over the fixups of a segment, an item of the walk over segments; `base` is the preferred load
 * address. */
BRINETRELLIS_MUST_USE
static inline enum brinetrellis_answer
brinetrellis_fixups_start(const uint8_t *fixups, size_t fixups_length, const struct brinetrellis_segment_item *segment,
                          uint64_t base, struct brinetrellis_page_state *state) {
    uint64_t number = brinetrellis_page_start(fixups, fixups_length, (const uint8_t *)segment, sizeof *segment, base,
                                              (uint8_t *)state, sizeof *state);
    return brinetrellis_answer_of(number);
}

/* The next fixup of a segment; `contents` are the segment's bytes. */
BRINETRELLIS_MUST_USE
static inline enum brinetrellis_answer
brinetrellis_fixups_next(const uint8_t *fixups, size_t fixups_length, const uint8_t *contents, size_t contents_length,
                         struct brinetrellis_page_state *state, struct brinetrellis_page_item *item) {
    uint64_t number = brinetrellis_page_step(fixups, fixups_length, contents, contents_length, (uint8_t *)state,
                                             sizeof *state, (uint8_t *)item, sizeof *item);
    return brinetrellis_answer_of(number);
}

/* Begins a walk over the imports of chained fixups. */
BRINETRELLIS_MUST_USE
static inline enum brinetrellis_answer
brinetrellis_imports_start(const uint8_t *fixups, size_t fixups_length, struct brinetrellis_import_state *state) {
    uint64_t number = brinetrellis_import_start(fixups, fixups_length, (uint8_t *)state, sizeof *state);
    return brinetrellis_answer_of(number);
}

/* The next import; the ordinal of a bind among the fixups counts them from 0. */
BRINETRELLIS_MUST_USE
static inline enum brinetrellis_answer
brinetrellis_imports_next(const uint8_t *fixups, size_t fixups_length, struct brinetrellis_import_state *state,
                          struct brinetrellis_import_item *item) {
    uint64_t number = brinetrellis_import_step(fixups, fixups_length, (uint8_t *)state, sizeof *state, (uint8_t *)item,
                                               sizeof *item);
    return brinetrellis_answer_of(number);
}

/* The part of the bytes at a position and of a length, as they are in an item. */
BRINETRELLIS_MUST_USE
static inline enum brinetrellis_answer
brinetrellis_part_of(const uint8_t *bytes, size_t bytes_length, uint64_t position, uint64_t length,
                     struct brinetrellis_part *part) {
    uint64_t number = brinetrellis_name(bytes, bytes_length, position, length, (uint8_t *)part, sizeof *part);
    return brinetrellis_answer_of(number);
}

/* A pointer to a struct of another type is an error in C++; many compilers of C only warn of it. So in C each call
 * also has the struct that is lent and the one that is due as the two sides of a choice, which must be of one type.
 * Nothing of that is run: it is the operand of a sizeof. */
#ifndef __cplusplus
#define BRINETRELLIS_IS(type, record) ((void)sizeof(1 ? *(record) : *(const struct brinetrellis_##type *)0), (record))
#define brinetrellis_rebases_start(pointer_size, state) \
    brinetrellis_rebases_start(pointer_size, BRINETRELLIS_IS(rebase_state, state))
#define brinetrellis_rebases_next(stream, stream_length, state, item) \
    brinetrellis_rebases_next(stream, stream_length, BRINETRELLIS_IS(rebase_state, state), \
                              BRINETRELLIS_IS(rebase_item, item))
#define brinetrellis_binds_plain(pointer_size, state) \
    brinetrellis_binds_plain(pointer_size, BRINETRELLIS_IS(bind_state, state))
#define brinetrellis_binds_weak(pointer_size, state) \
    brinetrellis_binds_weak(pointer_size, BRINETRELLIS_IS(bind_state, state))
#define brinetrellis_binds_lazy(pointer_size, state) \
    brinetrellis_binds_lazy(pointer_size, BRINETRELLIS_IS(bind_state, state))
#define brinetrellis_binds_next(stream, stream_length, state, item) \
    brinetrellis_binds_next(stream, stream_length, BRINETRELLIS_IS(bind_state, state), BRINETRELLIS_IS(bind_item, item))
#define brinetrellis_judge_rebases(stream, stream_length, pointer_size, sizes, sizes_count, judged) \
    brinetrellis_judge_rebases(stream, stream_length, pointer_size, sizes, sizes_count, \
                               BRINETRELLIS_IS(verdict, judged))
#define brinetrellis_judge_plain_binds(stream, stream_length, pointer_size, sizes, sizes_count, judged) \
    brinetrellis_judge_plain_binds(stream, stream_length, pointer_size, sizes, sizes_count, \
                                   BRINETRELLIS_IS(verdict, judged))
#define brinetrellis_judge_weak_binds(stream, stream_length, pointer_size, sizes, sizes_count, judged) \
    brinetrellis_judge_weak_binds(stream, stream_length, pointer_size, sizes, sizes_count, \
                                  BRINETRELLIS_IS(verdict, judged))
#define brinetrellis_judge_lazy_binds(stream, stream_length, pointer_size, sizes, sizes_count, judged) \
    brinetrellis_judge_lazy_binds(stream, stream_length, pointer_size, sizes, sizes_count, \
                                  BRINETRELLIS_IS(verdict, judged))
#define brinetrellis_exports_start(state) \
    brinetrellis_exports_start(BRINETRELLIS_IS(trie_state, state))
#define brinetrellis_exports_next(trie, trie_length, state, name, name_length, limit, item) \
    brinetrellis_exports_next(trie, trie_length, BRINETRELLIS_IS(trie_state, state), name, name_length, limit, \
                              BRINETRELLIS_IS(trie_item, item))
#define brinetrellis_segments_start(fixups, fixups_length, state) \
    brinetrellis_segments_start(fixups, fixups_length, BRINETRELLIS_IS(segment_state, state))
#define brinetrellis_segments_next(fixups, fixups_length, state, item) \
    brinetrellis_segments_next(fixups, fixups_length, BRINETRELLIS_IS(segment_state, state), \
                               BRINETRELLIS_IS(segment_item, item))
#define brinetrellis_fixups_start(fixups, fixups_length, segment, base, state) \
    brinetrellis_fixups_start(fixups, fixups_length, BRINETRELLIS_IS(segment_item, segment), base, \
                              BRINETRELLIS_IS(page_state, state))
#define brinetrellis_fixups_next(fixups, fixups_length, contents, contents_length, state, item) \
    brinetrellis_fixups_next(fixups, fixups_length, contents, contents_length, BRINETRELLIS_IS(page_state, state), \
                             BRINETRELLIS_IS(page_item, item))
#define brinetrellis_imports_start(fixups, fixups_length, state) \
    brinetrellis_imports_start(fixups, fixups_length, BRINETRELLIS_IS(import_state, state))
#define brinetrellis_imports_next(fixups, fixups_length, state, item) \
    brinetrellis_imports_next(fixups, fixups_length, BRINETRELLIS_IS(import_state, state), \
                              BRINETRELLIS_IS(import_item, item))
#define brinetrellis_part_of(bytes, bytes_length, position, length, told) \
    brinetrellis_part_of(bytes, bytes_length, position, length, BRINETRELLIS_IS(part, told))
#endif

#ifdef __cplusplus
}
#endif

#endif
