// Prints the numbers that LLVM's header llvm/BinaryFormat/MachO.h gives for rebase and bind streams, the exports trie and chained
// fixups. A line has a name of the header and its number. Behind the name of a structure, a field or a mark stands what the number is:
//   :size, :at    how many bytes it has, and the place of its first byte in the structure
//   :each         how many bytes an element of an array has
//   :bit, :width  the place of its lowest bit, and how many bits it has
//   :signed       1 if it is of a signed type, else 0
// .ci/headers compiles this file. The files that the header includes are empty there, and what it needs of them stands here.
#include <cstddef>
#include <cstdint>
#include <cstdio>
#include <cstdlib>
#include <cstring>
#include <type_traits>

#define LLVM_PACKED_START _Pragma("pack(push, 1)")
#define LLVM_PACKED_END _Pragma("pack(pop)")

namespace llvm {
template <typename T> class Expected;
namespace sys {
template <typename T> void swapByteOrder(T &);
}
} // namespace llvm

#include "llvm/BinaryFormat/MachO.h"

using namespace llvm::MachO;

struct Bits {
    int lowest, width;
};

// The bits that are set in an object, which follow each other.
template <typename Object> static Bits bits_of(const char *name, const Object &object) {
    unsigned char bytes[sizeof object];
    std::memcpy(bytes, &object, sizeof object);
    Bits found = {-1, 0};
    for (int i = 0; i < int(8 * sizeof object); i++)
        if (bytes[i / 8] >> i % 8 & 1) {
            if (found.width == 0)
                found.lowest = i;
            if (found.lowest + found.width++ != i) {
                std::fprintf(stderr, "%s: its bits do not follow each other\n", name);
                std::exit(1);
            }
        }
    return found;
}

// A field is set to ones in an object of zeros, so that it is the compiler that says where it lies.
template <typename Object> static void print_field(const char *name, void (*set)(Object &, std::uint64_t)) {
    Object object;
    std::memset(&object, 0, sizeof object);
    set(object, ~std::uint64_t(0));
    const Bits found = bits_of(name, object);
    std::printf("%s:bit %d\n%s:width %d\n", name, found.lowest, name, found.width);
}

#define NUMBER(name) std::printf("%s %d\n", #name, int(name))
#define HEX(name) std::printf("%s 0x%02x\n", #name, unsigned(name))
#define BIT(name) std::printf("%s:bit %d\n", #name, bits_of(#name, std::uint32_t(name)).lowest)
#define SIZE(type) std::printf("%s:size %zu\n", #type, sizeof(type))
#define AT(type, field) std::printf("%s.%s:at %zu\n", #type, #field, offsetof(type, field))
#define FIELD(type, field) AT(type, field), std::printf("%s.%s:size %zu\n", #type, #field, sizeof(type::field))
#define ARRAY(type, field) AT(type, field), std::printf("%s.%s:each %zu\n", #type, #field, sizeof(type::field[0]))
#define SIGN(type, field) std::printf("%s.%s:signed %d\n", #type, #field, int(std::is_signed<decltype(type::field)>::value))
#define BITS(type, field) print_field<type>(#type "." #field, [](type &object, std::uint64_t ones) { object.field = ones; })

int main() {
    HEX(REBASE_OPCODE_MASK);
    HEX(REBASE_IMMEDIATE_MASK);
    HEX(REBASE_OPCODE_DONE);
    HEX(REBASE_OPCODE_SET_TYPE_IMM);
    HEX(REBASE_OPCODE_SET_SEGMENT_AND_OFFSET_ULEB);
    HEX(REBASE_OPCODE_ADD_ADDR_ULEB);
    HEX(REBASE_OPCODE_ADD_ADDR_IMM_SCALED);
    HEX(REBASE_OPCODE_DO_REBASE_IMM_TIMES);
    HEX(REBASE_OPCODE_DO_REBASE_ULEB_TIMES);
    HEX(REBASE_OPCODE_DO_REBASE_ADD_ADDR_ULEB);
    HEX(REBASE_OPCODE_DO_REBASE_ULEB_TIMES_SKIPPING_ULEB);
    NUMBER(REBASE_TYPE_POINTER);
    NUMBER(REBASE_TYPE_TEXT_ABSOLUTE32);
    NUMBER(REBASE_TYPE_TEXT_PCREL32);

    HEX(BIND_OPCODE_MASK);
    HEX(BIND_IMMEDIATE_MASK);
    HEX(BIND_OPCODE_DONE);
    HEX(BIND_OPCODE_SET_DYLIB_ORDINAL_IMM);
    HEX(BIND_OPCODE_SET_DYLIB_ORDINAL_ULEB);
    HEX(BIND_OPCODE_SET_DYLIB_SPECIAL_IMM);
    HEX(BIND_OPCODE_SET_SYMBOL_TRAILING_FLAGS_IMM);
    HEX(BIND_OPCODE_SET_TYPE_IMM);
    HEX(BIND_OPCODE_SET_ADDEND_SLEB);
    HEX(BIND_OPCODE_SET_SEGMENT_AND_OFFSET_ULEB);
    HEX(BIND_OPCODE_ADD_ADDR_ULEB);
    HEX(BIND_OPCODE_DO_BIND);
    HEX(BIND_OPCODE_DO_BIND_ADD_ADDR_ULEB);
    HEX(BIND_OPCODE_DO_BIND_ADD_ADDR_IMM_SCALED);
    HEX(BIND_OPCODE_DO_BIND_ULEB_TIMES_SKIPPING_ULEB);
    NUMBER(BIND_TYPE_POINTER);
    NUMBER(BIND_TYPE_TEXT_ABSOLUTE32);
    NUMBER(BIND_TYPE_TEXT_PCREL32);
    NUMBER(BIND_SPECIAL_DYLIB_SELF);
    NUMBER(BIND_SPECIAL_DYLIB_MAIN_EXECUTABLE);
    NUMBER(BIND_SPECIAL_DYLIB_FLAT_LOOKUP);
    NUMBER(BIND_SPECIAL_DYLIB_WEAK_LOOKUP);
    HEX(BIND_SYMBOL_FLAGS_WEAK_IMPORT);
    HEX(BIND_SYMBOL_FLAGS_NON_WEAK_DEFINITION);

    HEX(EXPORT_SYMBOL_FLAGS_KIND_MASK);
    HEX(EXPORT_SYMBOL_FLAGS_KIND_REGULAR);
    HEX(EXPORT_SYMBOL_FLAGS_KIND_THREAD_LOCAL);
    HEX(EXPORT_SYMBOL_FLAGS_KIND_ABSOLUTE);
    HEX(EXPORT_SYMBOL_FLAGS_WEAK_DEFINITION);
    HEX(EXPORT_SYMBOL_FLAGS_REEXPORT);
    HEX(EXPORT_SYMBOL_FLAGS_STUB_AND_RESOLVER);

    SIZE(dyld_chained_fixups_header);
    FIELD(dyld_chained_fixups_header, fixups_version);
    FIELD(dyld_chained_fixups_header, starts_offset);
    FIELD(dyld_chained_fixups_header, imports_offset);
    FIELD(dyld_chained_fixups_header, symbols_offset);
    FIELD(dyld_chained_fixups_header, imports_count);
    FIELD(dyld_chained_fixups_header, imports_format);
    FIELD(dyld_chained_fixups_header, symbols_format);

    SIZE(dyld_chained_starts_in_image);
    FIELD(dyld_chained_starts_in_image, seg_count);
    ARRAY(dyld_chained_starts_in_image, seg_info_offset);

    SIZE(dyld_chained_starts_in_segment);
    FIELD(dyld_chained_starts_in_segment, size);
    FIELD(dyld_chained_starts_in_segment, page_size);
    FIELD(dyld_chained_starts_in_segment, pointer_format);
    FIELD(dyld_chained_starts_in_segment, segment_offset);
    FIELD(dyld_chained_starts_in_segment, max_valid_pointer);
    FIELD(dyld_chained_starts_in_segment, page_count);
    ARRAY(dyld_chained_starts_in_segment, page_start);

    HEX(DYLD_CHAINED_PTR_START_NONE);
    HEX(DYLD_CHAINED_PTR_START_MULTI);
    BIT(DYLD_CHAINED_PTR_START_MULTI);
    HEX(DYLD_CHAINED_PTR_START_LAST);
    BIT(DYLD_CHAINED_PTR_START_LAST);

    NUMBER(DYLD_CHAINED_PTR_ARM64E);
    NUMBER(DYLD_CHAINED_PTR_64);
    NUMBER(DYLD_CHAINED_PTR_32);
    NUMBER(DYLD_CHAINED_PTR_32_CACHE);
    NUMBER(DYLD_CHAINED_PTR_32_FIRMWARE);
    NUMBER(DYLD_CHAINED_PTR_64_OFFSET);
    NUMBER(DYLD_CHAINED_PTR_ARM64E_KERNEL);
    NUMBER(DYLD_CHAINED_PTR_64_KERNEL_CACHE);
    NUMBER(DYLD_CHAINED_PTR_ARM64E_USERLAND);
    NUMBER(DYLD_CHAINED_PTR_ARM64E_FIRMWARE);
    NUMBER(DYLD_CHAINED_PTR_X86_64_KERNEL_CACHE);
    NUMBER(DYLD_CHAINED_PTR_ARM64E_USERLAND24);

    SIZE(dyld_chained_ptr_64_rebase);
    BITS(dyld_chained_ptr_64_rebase, target);
    BITS(dyld_chained_ptr_64_rebase, high8);
    BITS(dyld_chained_ptr_64_rebase, reserved);
    BITS(dyld_chained_ptr_64_rebase, next);
    BITS(dyld_chained_ptr_64_rebase, bind);

    SIZE(dyld_chained_ptr_64_bind);
    BITS(dyld_chained_ptr_64_bind, ordinal);
    BITS(dyld_chained_ptr_64_bind, addend);
    SIGN(dyld_chained_ptr_64_bind, addend);
    BITS(dyld_chained_ptr_64_bind, reserved);
    BITS(dyld_chained_ptr_64_bind, next);
    BITS(dyld_chained_ptr_64_bind, bind);

    NUMBER(DYLD_CHAINED_IMPORT);
    NUMBER(DYLD_CHAINED_IMPORT_ADDEND);
    NUMBER(DYLD_CHAINED_IMPORT_ADDEND64);
    NUMBER(DYLD_CHAINED_SYMBOL_UNCOMPRESSED);
    NUMBER(DYLD_CHAINED_SYMBOL_ZLIB);

    SIZE(dyld_chained_import);
    BITS(dyld_chained_import, lib_ordinal);
    BITS(dyld_chained_import, weak_import);
    BITS(dyld_chained_import, name_offset);

    SIZE(dyld_chained_import_addend);
    BITS(dyld_chained_import_addend, lib_ordinal);
    BITS(dyld_chained_import_addend, weak_import);
    BITS(dyld_chained_import_addend, name_offset);
    FIELD(dyld_chained_import_addend, addend);
    SIGN(dyld_chained_import_addend, addend);

    SIZE(dyld_chained_import_addend64);
    BITS(dyld_chained_import_addend64, lib_ordinal);
    BITS(dyld_chained_import_addend64, weak_import);
    BITS(dyld_chained_import_addend64, reserved);
    BITS(dyld_chained_import_addend64, name_offset);
    FIELD(dyld_chained_import_addend64, addend);
    SIGN(dyld_chained_import_addend64, addend);
}
