//! The functions and structs of `include/mewilovang.h`, member for member, for a caller that wants the numbers as they are.
//!
//! A function that takes a store is safe to call if `store` is not null, is aligned to 4 bytes, and `words` words from it
//! on can be read, and written where it is `*mut`, with no other use of them during the call. The same holds of `keys` with
//! `key_room` words and of `payloads` with `payload_room` words, which are written; no word may be in two of the three. And
//! of `tickets` with `room` tickets, which are written; no word of them may be in the store.

#[repr(C)]
#[derive(Clone, Copy, Debug, Default, PartialEq, Eq)]
pub struct Formatted {
    pub reason: u32,
    pub limit: u32,
}

#[repr(C)]
#[derive(Clone, Copy, Debug, Default, PartialEq, Eq)]
pub struct Looked {
    pub reason: u32,
    pub found: u32,
    pub payload: u32,
}

#[repr(C)]
#[derive(Clone, Copy, Debug, Default, PartialEq, Eq)]
pub struct Nexted {
    pub reason: u32,
    pub found: u32,
    pub key: u32,
    pub payload: u32,
}

#[repr(C)]
#[derive(Clone, Copy, Debug, Default, PartialEq, Eq)]
pub struct Stretched {
    pub reason: u32,
    pub written: u32,
    pub more: u32,
}

#[repr(C)]
#[derive(Clone, Copy, Debug, Default, PartialEq, Eq)]
pub struct Part {
    pub start: usize,
    pub length: usize,
}

/// live of limit keys are in the store, top records in level 0, so many blocks in each level on flash.
#[repr(C)]
#[derive(Clone, Copy, Debug, Default, PartialEq, Eq)]
pub struct AboutStore {
    pub reason: u32,
    pub b: u32,
    pub w: u32,
    pub d: u32,
    pub g: u32,
    pub h: u32,
    pub p: u32,
    pub live: u32,
    pub limit: u32,
    pub top: u32,
    pub blocks1: u32,
    pub blocks2: u32,
    pub blocks3: u32,
}

/// The reason that a put or delete of a key would be turned down for, or 0, and the merges into level 1 that it would make,
/// 0 or 1.
#[repr(C)]
#[derive(Clone, Copy, Debug, Default, PartialEq, Eq)]
pub struct Forecast {
    pub reason: u32,
    pub merges: u32,
}

/// Merges into a level, blocks written by them, blocks written compacting the level.
#[repr(C)]
#[derive(Clone, Copy, Debug, Default, PartialEq, Eq)]
pub struct Counts {
    pub merges: u32,
    pub written: u32,
    pub compacted: u32,
}

#[repr(C)]
#[derive(Clone, Copy, Debug, Default, PartialEq, Eq)]
pub struct Changed {
    pub reason: u32,
    pub live: u32,
    pub level1: Counts,
    pub level2: Counts,
    pub level3: Counts,
}

/// A merge of a put or delete: the level that its run left, the number of the run's first block there (in level 0, page)
/// from 0 at the merge's start, the blocks of the level below that the run overlapped, and the blocks that the merge wrote.
#[repr(C)]
#[derive(Clone, Copy, Debug, Default, PartialEq, Eq)]
pub struct Ticket {
    pub level: u32,
    pub first: u32,
    pub overlap: u32,
    pub written: u32,
}

extern "C" {
    pub fn mewilovang_words(b: u32, w: u32, d: u32, g: u32, h: u32, p: u32) -> usize;
    pub fn mewilovang_format(
        store: *mut u32,
        words: usize,
        b: u32,
        w: u32,
        d: u32,
        g: u32,
        h: u32,
        p: u32,
    ) -> Formatted;
    pub fn mewilovang_check(store: *const u32, words: usize) -> u32;
    pub fn mewilovang_look_up(store: *const u32, words: usize, key: u32) -> Looked;
    pub fn mewilovang_next(store: *const u32, words: usize, key: u32) -> Nexted;
    pub fn mewilovang_stretch(
        store: *const u32,
        words: usize,
        first: u32,
        last: u32,
        keys: *mut u32,
        key_room: usize,
        payloads: *mut u32,
        payload_room: usize,
    ) -> Stretched;
    pub fn mewilovang_show(store: *const u32, words: usize, level: u32, key: u32) -> Part;
    pub fn mewilovang_about(store: *const u32, words: usize) -> AboutStore;
    pub fn mewilovang_will_put_merge(store: *const u32, words: usize, key: u32) -> Forecast;
    pub fn mewilovang_will_delete_merge(store: *const u32, words: usize, key: u32) -> Forecast;
    pub fn mewilovang_put(store: *mut u32, words: usize, key: u32, payload: u32) -> Changed;
    pub fn mewilovang_delete(store: *mut u32, words: usize, key: u32) -> Changed;
    pub fn mewilovang_put_tickets(
        store: *mut u32,
        words: usize,
        key: u32,
        payload: u32,
        tickets: *mut Ticket,
        room: usize,
    ) -> Changed;
    pub fn mewilovang_delete_tickets(
        store: *mut u32,
        words: usize,
        key: u32,
        tickets: *mut Ticket,
        room: usize,
    ) -> Changed;
}
