//! The functions of the static library and the places of their words, as include/carryfs.h has them, where each is described.
//! A Rattle slice parameter is a pointer and a length.
#![allow(dead_code)]

/// The header's numbers by their names there, and the list of them.
macro_rules! numbers {
    ($($name:ident $value:literal)*) => {
        $(pub const $name: usize = $value;)*
        pub const NUMBERS: &[(&str, usize)] = &[$((stringify!($name), $value)),*];
    };
}

numbers! {
    CARRYFS_DONE 0
    CARRYFS_NO_ROOM 1
    CARRYFS_NOT_ASKED 2
    CARRYFS_SLOT_CLASS 0
    CARRYFS_SLOT_REASON 1
    CARRYFS_SLOT_PRESENT 2
    CARRYFS_SLOT_WORD 3
    CARRYFS_SLOT_WORDS 4
    CARRYFS_GROUP_CLASS 0
    CARRYFS_GROUP_REASON 1
    CARRYFS_GROUP_WORDS 2
    CARRYFS_UNIT_CLASS 0
    CARRYFS_UNIT_REASON 1
    CARRYFS_UNIT_WORD 2
    CARRYFS_UNIT_WORDS 3
    CARRYFS_ROOT_CLASS 0
    CARRYFS_ROOT_REASON 1
    CARRYFS_ROOT_HAS_LABEL 2
    CARRYFS_ROOT_LABEL_LENGTH 3
    CARRYFS_ROOT_GENERATION 4
    CARRYFS_ROOT_BLOCKS 5
    CARRYFS_ROOT_CATALOG 6
    CARRYFS_ROOT_ALLOCATION 8
    CARRYFS_ROOT_CLEANUP 10
    CARRYFS_ROOT_NEXT_OBJECT 12
    CARRYFS_ROOT_FREE_BLOCKS 13
    CARRYFS_ROOT_NEXT_JOB 14
    CARRYFS_ROOT_WORKSPACE 15
    CARRYFS_ROOT_WORKSPACE_CURSOR 17
    CARRYFS_ROOT_WORDS 18
    CARRYFS_TEXT_UUID 0
    CARRYFS_TEXT_LABEL 16
    CARRYFS_TEXT_BYTES 271
    CARRYFS_SELECT_CLASS 0
    CARRYFS_SELECT_REASON 1
    CARRYFS_SELECT_WHICH 2
    CARRYFS_SELECT_GENERATION 3
    CARRYFS_SELECT_WORDS 4
    CARRYFS_CATALOG 1
    CARRYFS_ALLOCATION 2
    CARRYFS_CLEANUP 3
    CARRYFS_WORKSPACE 4
    CARRYFS_ANY_LEVEL 255
    CARRYFS_PAGE_CLASS 0
    CARRYFS_PAGE_REASON 1
    CARRYFS_PAGE_LEVEL 2
    CARRYFS_PAGE_TOTAL 3
    CARRYFS_PAGE_COUNT 4
    CARRYFS_PAGE_PAYLOAD 5
    CARRYFS_PAGE_PAYLOAD_LENGTH 6
    CARRYFS_PAGE_WORDS 7
    CARRYFS_FLOOR_FOUND 0
    CARRYFS_FLOOR_INDEX 1
    CARRYFS_FLOOR_REMAINING 2
    CARRYFS_FLOOR_OFFSET 3
    CARRYFS_FLOOR_WORDS 4
    CARRYFS_NEXT_FOUND 0
    CARRYFS_NEXT_KEY 1
    CARRYFS_NEXT_KEY_END 2
    CARRYFS_NEXT_VALUE_END 3
    CARRYFS_NEXT_REMAINING 4
    CARRYFS_NEXT_WORDS 5
    CARRYFS_SEARCH_CLASS 0
    CARRYFS_SEARCH_REASON 1
    CARRYFS_SEARCH_FOUND 2
    CARRYFS_SEARCH_KEY 3
    CARRYFS_SEARCH_KEY_LENGTH 4
    CARRYFS_SEARCH_VALUE 5
    CARRYFS_SEARCH_VALUE_LENGTH 6
    CARRYFS_SEARCH_COUNT 7
    CARRYFS_SEARCH_WORDS 8
}

unsafe extern "C" {
    pub fn carryfs_crc32c(bytes: *const u8, length: usize) -> u32;
    pub fn carryfs_extend(register: u32, bytes: *const u8, length: usize) -> u32;
    pub fn carryfs_slot(group: *const u8, length: usize, slot: usize, out: *mut u64, room: usize) -> u32;
    pub fn carryfs_group(
        key: *const u8,
        key_length: usize,
        value: *const u8,
        value_length: usize,
        out: *mut u64,
        room: usize,
    ) -> u32;
    pub fn carryfs_data_unit(
        uuid: *const u8,
        uuid_length: usize,
        object: u64,
        unit: u64,
        valid: *const u8,
        valid_length: usize,
        out: *mut u64,
        room: usize,
    ) -> u32;
    pub fn carryfs_root(
        bytes: *const u8,
        length: usize,
        slot: u64,
        blocks: u64,
        out: *mut u64,
        room: usize,
        text: *mut u8,
        text_room: usize,
    ) -> u32;
    pub fn carryfs_select(
        first: *const u8,
        first_length: usize,
        first_slot: u64,
        first_blocks: u64,
        second: *const u8,
        second_length: usize,
        second_slot: u64,
        second_blocks: u64,
        out: *mut u64,
        room: usize,
    ) -> u32;
    pub fn carryfs_page(
        bytes: *const u8,
        length: usize,
        block: u64,
        generation: u64,
        uuid: *const u8,
        uuid_length: usize,
        kind: u32,
        parent: u64,
        level: u32,
        blocks: u64,
        out: *mut u64,
        room: usize,
    ) -> u32;
    pub fn carryfs_lookup(
        payload: *const u8,
        length: usize,
        count: usize,
        key: *const u8,
        key_length: usize,
        scratch: *mut u16,
        entries: usize,
        out: *mut u64,
        room: usize,
    ) -> u32;
    pub fn carryfs_next(part: *const u8, length: usize, remaining: usize, out: *mut u64, room: usize) -> u32;
    pub fn carryfs_search(
        image: *const u8,
        image_length: usize,
        root: *const u64,
        root_length: usize,
        text: *const u8,
        text_length: usize,
        kind: u32,
        key: *const u8,
        key_length: usize,
        count: u64,
        out: *mut u64,
        room: usize,
    ) -> u32;
}
