//! Stands in for `macho.rs` of the crate object 0.40.0, which is not at hand. The values of
//! mach-o/loader.h come from object 0.30.0's `macho.rs` (the module `loader`, unchanged) under the
//! types that 0.40.0 gives them; the structures, constants and bit fields of mach-o/fixup-chains.h,
//! which 0.30.0 has not, are written here from that header.

use crate::endian::{Endian, U16, U32, U64};
use crate::loader;
use crate::pod::Pod;

pub use crate::loader::{DyldInfoCommand, LinkeditDataCommand};
pub use crate::loader::{
    BIND_IMMEDIATE_MASK, BIND_OPCODE_MASK, REBASE_IMMEDIATE_MASK, REBASE_OPCODE_MASK,
};

macro_rules! wrapped {
    ($($name:ident($inner:ident)),* $(,)?) => {
        $(
            newtype! { struct $name($inner); }
            newtype_constant_names! { $name($inner) = {} }
        )*
    };
}

wrapped! {
    RebaseOpcode(u8), RebaseType(u8), BindOpcode(u8), BindType(u8), BindSymbolFlags(u8),
    BindDylib(i32), DyldChainedImportFormat(u32), DyldChainedPtrFormat(u16),
    DyldChainedImport32(u32), DyldChainedImport64(u64),
}

newtype! { struct ExportSymbolFlags(u64); }
newtype_flag_names! { ExportSymbolFlags(u64) = {} }

macro_rules! from_loader {
    ($type:ident: $($name:ident),* $(,)?) => {
        $(pub const $name: $type = $type(loader::$name as _);)*
    };
}

from_loader! { RebaseOpcode:
    REBASE_OPCODE_DONE, REBASE_OPCODE_SET_TYPE_IMM, REBASE_OPCODE_SET_SEGMENT_AND_OFFSET_ULEB,
    REBASE_OPCODE_ADD_ADDR_ULEB, REBASE_OPCODE_ADD_ADDR_IMM_SCALED,
    REBASE_OPCODE_DO_REBASE_IMM_TIMES, REBASE_OPCODE_DO_REBASE_ULEB_TIMES,
    REBASE_OPCODE_DO_REBASE_ADD_ADDR_ULEB,
    REBASE_OPCODE_DO_REBASE_ULEB_TIMES_SKIPPING_ULEB,
}
from_loader! { BindOpcode:
    BIND_OPCODE_DONE, BIND_OPCODE_SET_DYLIB_ORDINAL_IMM, BIND_OPCODE_SET_DYLIB_ORDINAL_ULEB,
    BIND_OPCODE_SET_DYLIB_SPECIAL_IMM, BIND_OPCODE_SET_SYMBOL_TRAILING_FLAGS_IMM,
    BIND_OPCODE_SET_TYPE_IMM, BIND_OPCODE_SET_ADDEND_SLEB, BIND_OPCODE_SET_SEGMENT_AND_OFFSET_ULEB, BIND_OPCODE_ADD_ADDR_ULEB,
    BIND_OPCODE_DO_BIND, BIND_OPCODE_DO_BIND_ADD_ADDR_ULEB, BIND_OPCODE_DO_BIND_ADD_ADDR_IMM_SCALED,
    BIND_OPCODE_DO_BIND_ULEB_TIMES_SKIPPING_ULEB,
}
from_loader! { BindType: BIND_TYPE_POINTER }
from_loader! { BindDylib: BIND_SPECIAL_DYLIB_WEAK_LOOKUP }
from_loader! { ExportSymbolFlags:
    EXPORT_SYMBOL_FLAGS_REEXPORT, EXPORT_SYMBOL_FLAGS_STUB_AND_RESOLVER,
}

/// The header's newest flag, a resolver that is run before main; 0.30.0 is too old for it.
const EXPORT_SYMBOL_FLAGS_STATIC_RESOLVER: u64 = 0x20;

impl ExportSymbolFlags {
    pub fn has_unknown_bits(self) -> bool {
        let known = u64::from(
            loader::EXPORT_SYMBOL_FLAGS_KIND_MASK
                | loader::EXPORT_SYMBOL_FLAGS_WEAK_DEFINITION
                | loader::EXPORT_SYMBOL_FLAGS_REEXPORT
                | loader::EXPORT_SYMBOL_FLAGS_STUB_AND_RESOLVER,
        ) | EXPORT_SYMBOL_FLAGS_STATIC_RESOLVER;
        self.0 & !known != 0
    }
}

/// `dyld_chained_fixups_header`
#[derive(Debug, Clone, Copy)]
#[repr(C)]
pub struct DyldChainedFixupsHeader<E: Endian> {
    pub fixups_version: U32<E>,
    pub starts_offset: U32<E>,
    pub imports_offset: U32<E>,
    pub symbols_offset: U32<E>,
    pub imports_count: U32<E>,
    pub imports_format: U32<E, DyldChainedImportFormat>,
    pub symbols_format: U32<E>,
}

/// `dyld_chained_starts_in_image`, without the offsets behind it
#[derive(Debug, Clone, Copy)]
#[repr(C)]
pub struct DyldChainedStartsInImage<E: Endian> {
    pub seg_count: U32<E>,
}

/// `dyld_chained_starts_in_segment`, without the starts behind it
#[derive(Debug, Clone, Copy)]
#[repr(C)]
pub struct DyldChainedStartsInSegment<E: Endian> {
    pub size: U32<E>,
    pub page_size: U16<E>,
    pub pointer_format: U16<E, DyldChainedPtrFormat>,
    pub segment_offset: U64<E>,
    pub max_valid_pointer: U32<E>,
    pub page_count: U16<E>,
}

unsafe_impl_endian_pod!(
    DyldChainedFixupsHeader,
    DyldChainedStartsInImage,
    DyldChainedStartsInSegment
);

pub const DYLD_CHAINED_PTR_START_NONE: u16 = 0xffff;
pub const DYLD_CHAINED_PTR_START_MULTI: u16 = 0x8000;
pub const DYLD_CHAINED_PTR_START_LAST: u16 = 0x8000;

newtype_consts! { DyldChainedImportFormat = {
    DYLD_CHAINED_IMPORT = 1,
    DYLD_CHAINED_IMPORT_ADDEND = 2,
    DYLD_CHAINED_IMPORT_ADDEND64 = 3,
} }

newtype_consts! { DyldChainedPtrFormat = {
    DYLD_CHAINED_PTR_ARM64E = 1,
    DYLD_CHAINED_PTR_64 = 2,
    DYLD_CHAINED_PTR_32 = 3,
    DYLD_CHAINED_PTR_32_CACHE = 4,
    DYLD_CHAINED_PTR_32_FIRMWARE = 5,
    DYLD_CHAINED_PTR_64_OFFSET = 6,
    DYLD_CHAINED_PTR_ARM64E_KERNEL = 7,
    DYLD_CHAINED_PTR_64_KERNEL_CACHE = 8,
    DYLD_CHAINED_PTR_ARM64E_USERLAND = 9,
    DYLD_CHAINED_PTR_ARM64E_FIRMWARE = 10,
    DYLD_CHAINED_PTR_X86_64_KERNEL_CACHE = 11,
    DYLD_CHAINED_PTR_ARM64E_USERLAND24 = 12,
    DYLD_CHAINED_PTR_ARM64E_SHARED_CACHE = 13,
    DYLD_CHAINED_PTR_ARM64E_SEGMENTED = 14,
} }

/// The bits of a value from `low` on, `width` of them.
fn bits(value: u64, low: u32, width: u32) -> u64 {
    value >> low & ((1 << width) - 1)
}

/// A library above the largest ordinal of its field is a special one, below zero.
fn library(value: u64, largest: u64, beyond: u64) -> BindDylib {
    let special = if value > largest { beyond } else { 0 };
    BindDylib(value as i32 - special as i32)
}

/// `dyld_chained_import`: lib_ordinal 8, weak_import 1, name_offset 23
impl DyldChainedImport32 {
    pub fn dylib(self) -> BindDylib {
        library(bits(self.0.into(), 0, 8), 0xf0, 0x100)
    }
    pub fn weak_import(self) -> bool {
        bits(self.0.into(), 8, 1) == 1
    }
    pub fn name_offset(self) -> u32 {
        bits(self.0.into(), 9, 23) as u32
    }
}

/// `dyld_chained_import_addend64`: lib_ordinal 16, weak_import 1, reserved 15, name_offset 32
impl DyldChainedImport64 {
    pub fn dylib(self) -> BindDylib {
        library(bits(self.0, 0, 16), 0xfff0, 0x10000)
    }
    pub fn weak_import(self) -> bool {
        bits(self.0, 16, 1) == 1
    }
    pub fn name_offset(self) -> u32 {
        bits(self.0, 32, 32) as u32
    }
}

macro_rules! fields {
    ($($name:ident($word:ident) {
        $($field:ident: $type:ty = $low:literal, $width:literal;)*
    })*) => {
        $(
            #[derive(Debug, Clone, Copy)]
            pub struct $name(pub $word);
            impl $name {
                $(pub fn $field(self) -> $type { bits(self.0.into(), $low, $width) as $type })*
            }
        )*
    };
}

fields! {
    Ptr64Rebase(u64) { target: u64 = 0, 36; high8: u64 = 36, 8; }
    Ptr64Bind(u64) { ordinal: u32 = 0, 24; addend: i32 = 24, 8; }
    DyldChainedPtr64(u64) { next: u64 = 51, 12; }
    Ptr32Rebase(u32) { target: u32 = 0, 26; }
    Ptr32Bind(u32) { ordinal: u32 = 0, 20; addend: i32 = 20, 6; }
    DyldChainedPtr32(u32) { next: u32 = 26, 5; }
}

/// `dyld_chained_ptr_64_rebase` and `dyld_chained_ptr_64_bind`
impl DyldChainedPtr64 {
    pub fn is_bind(self) -> bool {
        bits(self.0, 63, 1) == 1
    }
    pub fn rebase(self) -> Ptr64Rebase {
        Ptr64Rebase(self.0)
    }
    pub fn bind(self) -> Ptr64Bind {
        Ptr64Bind(self.0)
    }
}

/// `dyld_chained_ptr_32_rebase` and `dyld_chained_ptr_32_bind`
impl DyldChainedPtr32 {
    pub fn is_bind(self) -> bool {
        bits(self.0.into(), 31, 1) == 1
    }
    pub fn rebase(self) -> Ptr32Rebase {
        Ptr32Rebase(self.0)
    }
    pub fn bind(self) -> Ptr32Bind {
        Ptr32Bind(self.0)
    }
}

macro_rules! never_read {
    ($($name:ident($word:ident) { $($field:ident: $type:ty;)* })*) => {
        $(
            #[derive(Debug, Clone, Copy)]
            pub struct $name(#[allow(dead_code)] pub $word);
            impl $name {
                $(pub fn $field(self) -> $type { unreachable!("not of formats 2, 3 and 6") })*
            }
        )*
    };
}

// The other pointer formats: the crate names their fields, and is never asked for them here.
never_read! {
    DyldChainedPtrArm64e(u64) {
        is_bind: bool; is_auth: bool; next: u64;
        bind: Arm64eBind; bind24: Arm64eBind; rebase: Arm64eRebase;
        auth_bind: Arm64eBind; auth_bind24: Arm64eBind; auth_rebase: Arm64eRebase;
    }
    Arm64eBind(u64) { ordinal: u32; addend: i32; key: u8; diversity: u16; addr_div: bool; }
    Arm64eRebase(u64) {
        target: u64; high8: u64; runtime_offset: u64;
        key: u8; key_is_data: bool; diversity: u16; addr_div: bool;
    }
    DyldChainedPtr64KernelCacheRebase(u64) {
        is_auth: bool; key: u8; diversity: u16; addr_div: bool;
        target: u64; cache_level: u8; next: u64;
    }
    DyldChainedPtr32CacheRebase(u32) { target: u32; next: u32; }
    DyldChainedPtr32FirmwareRebase(u32) { target: u32; next: u32; }
    DyldChainedPtrArm64eSegmentedRebase(u64) {
        is_auth: bool; key: u8; diversity: u16; addr_div: bool;
        target_seg_index: u8; target_seg_offset: u64; next: u64;
    }
    DyldChainedPtrArm64eSharedCache(u64) {
        is_auth: bool; auth_rebase: Arm64eRebase; rebase: Arm64eRebase; next: u64;
    }
}

/// `ptrauth_key`
#[derive(Debug, Clone, Copy, PartialEq, Eq)]
pub enum PtrauthKey {
    IA,
    IB,
    DA,
    DB,
}
