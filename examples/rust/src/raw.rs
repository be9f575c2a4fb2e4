//! The exports of `libstabby_c.a`, as `examples/c/stabby.h` declares them.

use std::ptr::NonNull;

/// What a client's address points to. Nobody but the archive reads it.
#[repr(C)]
pub struct Opaque {
    _unread: [u8; 0],
}

/// The address of a client, which whoever has it owns.
#[repr(C)]
#[derive(Clone, Copy)]
pub struct Raw {
    pub at: NonNull<Opaque>,
}

pub const DONE: u32 = 0;
pub const MEMORY: u32 = 1;
pub const BUSY: u32 = 2;
pub const MOVED: u32 = 3;
pub const FULL: u32 = 4;
pub const ABSENT: u32 = 5;
pub const LIGHT: u32 = 7;

extern "C" {
    pub fn stabby_client_new(number: u64, out: *mut *mut Opaque) -> u32;
    pub fn stabby_client_split(client: *mut Raw, weight: u64, out: *mut *mut Opaque) -> u32;
    pub fn stabby_client_weight(client: *mut Raw) -> u64;
    pub fn stabby_client_join(client: *mut Raw, other: Raw) -> u32;
    pub fn stabby_client_free(client: Raw);
    pub fn stabby_client_try_insert(
        client: *mut Raw,
        words: *const u64,
        len: usize,
        number: *mut u64,
    ) -> u32;
    pub fn stabby_client_try_insert_all(
        client: *mut Raw,
        words: *const u64,
        len: usize,
        lengths: *const usize,
        tables: usize,
        numbers: *mut u64,
        room: usize,
        done: *mut usize,
    ) -> u32;
    pub fn stabby_client_count(client: *mut Raw) -> u64;
    pub fn stabby_client_try_entry(
        client: *mut Raw,
        number: u64,
        words: *mut u64,
        room: usize,
        length: *mut usize,
    ) -> u32;
}
