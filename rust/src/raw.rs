//! What `nio.h` declares. `c/compare.py` compares the two.
#![allow(non_camel_case_types)]
#![allow(dead_code)] // (some statuses don't come here)

/// A caller, or none. The library alone reads and writes its fields.
#[repr(C)]
pub struct nio_caller {
    pub at: *mut std::ffi::c_void,
    pub full: bool,
}

#[repr(C)]
pub struct nio_limits {
    pub callers: u32,
    pub selectors: u32,
    pub channels: u32,
    pub keys: u32,
}

#[repr(C)]
#[derive(Clone, Copy)]
pub struct nio_channel {
    pub number: u32,
    pub serial: u32,
}

#[repr(C)]
#[derive(Clone, Copy)]
pub struct nio_key {
    pub selector: u32,
    pub index: u32,
    pub serial: u32,
}

pub type nio_ops = u8;

#[repr(C)]
#[derive(Clone, Copy)]
pub struct nio_looked {
    pub index: u32,
    pub serial: u32,
    pub channel: u32,
    pub interest: nio_ops,
}

#[repr(C)]
#[derive(Clone, Copy)]
pub struct nio_pair {
    pub index: u32,
    pub ready: nio_ops,
}

#[repr(C)]
#[derive(Clone, Copy)]
pub struct nio_changed {
    pub index: u32,
    pub serial: u32,
    pub channel: u32,
    pub ready: nio_ops,
    pub removed: bool,
}

#[repr(C)]
pub struct nio_selected {
    pub count: u32,
    pub why: u32,
}

pub type nio_status = u32;
pub const NIO_DONE: nio_status = 0;
pub const NIO_AGAIN: nio_status = 1;
pub const NIO_EMPTY_HANDLE: nio_status = 2;
pub const NIO_FULL_HANDLE: nio_status = 3;
pub const NIO_NO_MEMORY: nio_status = 4;
pub const NIO_NO_ROOM: nio_status = 5;
pub const NIO_ILLEGAL_ARGUMENT: nio_status = 6;
pub const NIO_NOT_HELD: nio_status = 7;
pub const NIO_NO_SUCH_SELECTOR: nio_status = 8;
pub const NIO_NO_SUCH_CHANNEL: nio_status = 9;
pub const NIO_NO_SUCH_KEY: nio_status = 10;
pub const NIO_NO_SUCH_CALLER: nio_status = 11;
pub const NIO_BUSY: nio_status = 12;
pub const NIO_SPENT: nio_status = 13;
pub const NIO_ILLEGAL_OPS: nio_status = 14;
pub const NIO_CLOSED_CHANNEL: nio_status = 15;
pub const NIO_ILLEGAL_BLOCKING_MODE: nio_status = 16;
pub const NIO_CANCELLED_KEY: nio_status = 17;
pub const NIO_CLOSED_SELECTOR: nio_status = 18;
pub const NIO_SELECTOR_FULL: nio_status = 19;
pub const NIO_NOT_SELECTING: nio_status = 20;
pub const NIO_NOT_CLOSING: nio_status = 21;
pub const NIO_LOST: nio_status = 22;
pub const NIO_OPEN: nio_status = 23;
pub const NIO_SERIALS_SPENT: nio_status = 24;
pub const NIO_REGISTERED: nio_status = 25;

extern "C" {
    pub fn nio_make(limits: *const nio_limits, first: *mut nio_caller) -> nio_status;
    pub fn nio_split(caller: *mut nio_caller, number: u32, given: *mut nio_caller) -> nio_status;
    pub fn nio_give_back(caller: *mut nio_caller) -> nio_status;
    pub fn nio_take_back(caller: *mut nio_caller, given: *mut nio_caller) -> nio_status;
    pub fn nio_free(caller: *mut nio_caller) -> nio_status;
    pub fn nio_number(caller: *mut nio_caller, number: *mut u32) -> nio_status;

    pub fn nio_open_selector(caller: *mut nio_caller, selector: *mut u32) -> nio_status;
    pub fn nio_find_selector(caller: *mut nio_caller, selector: u32) -> nio_status;
    pub fn nio_keys(
        caller: *mut nio_caller,
        selector: u32,
        keys: *mut nio_key,
        room: usize,
        count: *mut usize,
    ) -> nio_status;
    pub fn nio_selected_keys(
        caller: *mut nio_caller,
        selector: u32,
        keys: *mut nio_key,
        room: usize,
        count: *mut usize,
    ) -> nio_status;
    pub fn nio_take_all_selected(
        caller: *mut nio_caller,
        selector: u32,
        keys: *mut nio_key,
        room: usize,
        count: *mut usize,
    ) -> nio_status;
    pub fn nio_wakeup(caller: *mut nio_caller, selector: u32, pending: *mut bool) -> nio_status;
    pub fn nio_interrupt(caller: *mut nio_caller, number: u32) -> nio_status;
    pub fn nio_interrupted(caller: *mut nio_caller, interrupted: *mut bool) -> nio_status;
    pub fn nio_take_list(caller: *mut nio_caller, selector: u32, taken: *mut bool) -> nio_status;
    pub fn nio_shut(caller: *mut nio_caller, selector: u32, began: *mut bool) -> nio_status;
    pub fn nio_try_finish(caller: *mut nio_caller, selector: u32) -> nio_status;

    pub fn nio_begin(caller: *mut nio_caller, selector: u32, ms: i64) -> nio_status;
    pub fn nio_begin_now(caller: *mut nio_caller, selector: u32) -> nio_status;
    pub fn nio_asked(
        caller: *mut nio_caller,
        selector: u32,
        keys: *mut nio_looked,
        room: usize,
        count: *mut usize,
    ) -> nio_status;
    pub fn nio_told(
        caller: *mut nio_caller,
        selector: u32,
        pairs: *const nio_pair,
        count: usize,
        elapsed: bool,
        enough: bool,
        selected: *mut nio_selected,
    ) -> nio_status;
    pub fn nio_told_listing(
        caller: *mut nio_caller,
        selector: u32,
        pairs: *const nio_pair,
        count: usize,
        elapsed: bool,
        enough: bool,
        selected: *mut nio_selected,
        changes: *mut nio_changed,
        room: usize,
        changed: *mut usize,
    ) -> nio_status;
    pub fn nio_leave(caller: *mut nio_caller, selector: u32) -> nio_status;

    pub fn nio_open_channel(caller: *mut nio_caller, kind: u32, channel: *mut nio_channel) -> nio_status;
    pub fn nio_reopen_channel(caller: *mut nio_caller, channel: nio_channel, next: *mut nio_channel) -> nio_status;
    pub fn nio_find_channel(caller: *mut nio_caller, channel: nio_channel) -> nio_status;
    pub fn nio_is_open(caller: *mut nio_caller, channel: nio_channel, open: *mut bool) -> nio_status;
    pub fn nio_is_blocking(caller: *mut nio_caller, channel: nio_channel, blocking: *mut bool) -> nio_status;
    pub fn nio_set_blocking(caller: *mut nio_caller, channel: nio_channel, on: bool) -> nio_status;
    pub fn nio_register(
        caller: *mut nio_caller,
        selector: u32,
        channel: nio_channel,
        ops: nio_ops,
        attachment: u64,
        key: *mut nio_key,
    ) -> nio_status;
    pub fn nio_key_for(caller: *mut nio_caller, channel: nio_channel, selector: u32, key: *mut nio_key) -> nio_status;
    pub fn nio_is_registered(caller: *mut nio_caller, channel: nio_channel, registered: *mut bool) -> nio_status;
    pub fn nio_close_channel(caller: *mut nio_caller, channel: nio_channel, closed: *mut bool) -> nio_status;

    pub fn nio_find_key(caller: *mut nio_caller, key: nio_key) -> nio_status;
    pub fn nio_is_valid(caller: *mut nio_caller, key: nio_key, valid: *mut bool) -> nio_status;
    pub fn nio_cancel(caller: *mut nio_caller, key: nio_key) -> nio_status;
    pub fn nio_interest(caller: *mut nio_caller, key: nio_key, ops: *mut nio_ops) -> nio_status;
    pub fn nio_set_interest(caller: *mut nio_caller, key: nio_key, ops: nio_ops) -> nio_status;
    pub fn nio_interest_or(caller: *mut nio_caller, key: nio_key, ops: nio_ops, before: *mut nio_ops) -> nio_status;
    pub fn nio_interest_and(caller: *mut nio_caller, key: nio_key, ops: nio_ops, before: *mut nio_ops) -> nio_status;
    pub fn nio_ready(caller: *mut nio_caller, key: nio_key, ready: *mut nio_ops) -> nio_status;
    pub fn nio_unselect(caller: *mut nio_caller, key: nio_key, taken: *mut bool) -> nio_status;
    pub fn nio_take_selected(
        caller: *mut nio_caller,
        channel: nio_channel,
        selector: u32,
        key: *mut nio_key,
    ) -> nio_status;
    pub fn nio_attach(caller: *mut nio_caller, key: nio_key, attachment: u64, before: *mut u64) -> nio_status;
    pub fn nio_attachment(caller: *mut nio_caller, key: nio_key, attachment: *mut u64) -> nio_status;
}
