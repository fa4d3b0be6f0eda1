// SPDX-License-Identifier: BSD-3-Clause
//! The functions of the static library, as include/warpthistle.h has them, behind calls that are safe. All code that is unsafe stands here.
//!
//! What makes each call safe is the same. A slice is handed over as a pointer to its elements and their number, so it is never null, not
//! even where it is empty, and has the elements that it is said to have. A record, a token, an event and a number are handed over as
//! references to types of the same layout (`repr(transparent)` over an array, or a plain number). What is written is borrowed by `&mut`, so
//! no two parameters overlap where one of them is written. The functions keep no pointer, and have no state. Whatever the numbers of a
//! record or a room are, a function answers: where they are not what the last call left, by refusal 24.

mod c {
    use super::{Events, RawEvent, RawToken, Window};

    #[rustfmt::skip]
    extern "C" {
        pub fn warpthistle_version() -> u32;
        pub fn warpthistle_some_tokens(src: *const u8, src_len: usize, place: *mut u32, mode: *mut u32, out: *mut u32, out_len: usize, count: *mut u32) -> u32;

        pub fn warpthistle_window_open(window: *mut Window, src: *const u8, src_len: usize, room: *const u32, room_len: usize) -> u32;
        pub fn warpthistle_window_next_token(window: *mut Window, src: *const u8, src_len: usize, room: *mut u32, room_len: usize, token: *mut RawToken) -> u32;
        pub fn warpthistle_window_peek_token(window: *mut Window, src: *const u8, src_len: usize, room: *mut u32, room_len: usize, n: usize, token: *mut RawToken) -> u32;
        pub fn warpthistle_window_has_more(window: *mut Window, src: *const u8, src_len: usize, room: *mut u32, room_len: usize) -> u32;
        pub fn warpthistle_window_bookmark(window: *mut Window, src: *const u8, src_len: usize, room: *const u32, room_len: usize, index: *mut u32) -> u32;
        pub fn warpthistle_window_restore_bookmark(window: *mut Window, src: *const u8, src_len: usize, room: *const u32, room_len: usize, index: u32) -> u32;
        pub fn warpthistle_window_remove_bookmark(window: *mut Window, src: *const u8, src_len: usize, room: *const u32, room_len: usize, index: u32) -> u32;
        pub fn warpthistle_window_current_token_index(window: *const Window, src: *const u8, src_len: usize, room: *const u32, room_len: usize, index: *mut u32) -> u32;
        pub fn warpthistle_window_enter_hex_pattern_mode(window: *mut Window, src: *const u8, src_len: usize, room: *const u32, room_len: usize) -> u32;
        pub fn warpthistle_window_enter_hex_jump_mode(window: *mut Window, src: *const u8, src_len: usize, room: *const u32, room_len: usize) -> u32;

        pub fn warpthistle_events_open(events: *mut Events, room: *const u32, room_len: usize, opens: *const usize, opens_len: usize) -> u32;
        pub fn warpthistle_events_push_token(events: *mut Events, room: *mut u32, room_len: usize, opens: *const usize, opens_len: usize, kind: u16, start: u32, end: u32) -> u32;
        pub fn warpthistle_events_push_error(events: *mut Events, room: *mut u32, room_len: usize, opens: *const usize, opens_len: usize, message: u16, start: u32, end: u32) -> u32;
        pub fn warpthistle_events_begin(events: *mut Events, room: *mut u32, room_len: usize, opens: *mut usize, opens_len: usize, kind: u16) -> u32;
        pub fn warpthistle_events_end(events: *mut Events, room: *mut u32, room_len: usize, opens: *const usize, opens_len: usize) -> u32;
        pub fn warpthistle_events_end_with_error(events: *mut Events, room: *mut u32, room_len: usize, opens: *const usize, opens_len: usize) -> u32;
        pub fn warpthistle_events_bookmark(events: *mut Events, room: *const u32, room_len: usize, opens: *const usize, opens_len: usize, position: *mut usize) -> u32;
        pub fn warpthistle_events_truncate(events: *mut Events, room: *const u32, room_len: usize, opens: *const usize, opens_len: usize, position: usize) -> u32;
        pub fn warpthistle_events_remove_bookmark(events: *mut Events, room: *const u32, room_len: usize, opens: *const usize, opens_len: usize, position: usize) -> u32;
        pub fn warpthistle_events_pop(events: *mut Events, room: *const u32, room_len: usize, opens: *const usize, opens_len: usize, event: *mut RawEvent) -> u32;
    }
}

/// The status of a call that is done, or has found what was asked for.
pub(crate) const DONE: u32 = 0;
/// The status of a call that finds none.
pub(crate) const NONE: u32 = 100;

/// A token as the library writes it: kind, start, end.
#[repr(transparent)]
#[derive(Clone, Copy)]
pub(crate) struct RawToken(pub [u32; 3]);

/// An event as the library writes it: tag, kind or message, start, end.
#[repr(transparent)]
#[derive(Clone, Copy)]
pub(crate) struct RawEvent(pub [u32; 4]);

/// A window's record, which the library alone reads and writes.
#[repr(transparent)]
#[derive(Clone)]
pub(crate) struct Window([u32; 72]);

/// An event stream's record, which the library alone reads and writes.
#[repr(transparent)]
#[derive(Clone)]
pub(crate) struct Events([u32; 16]);

/// The version of the library that is linked.
pub(crate) fn version() -> u32 {
    // SAFETY: it takes nothing.
    unsafe { c::warpthistle_version() }
}

/// Tokens from a place on, in a mode, as many as fit; answers the status.
pub(crate) fn some_tokens(src: &[u8], place: &mut u32, mode: &mut u32, out: &mut [u32], count: &mut u32) -> u32 {
    // SAFETY: as the module says.
    unsafe { c::warpthistle_some_tokens(src.as_ptr(), src.len(), place, mode, out.as_mut_ptr(), out.len(), count) }
}

/// The calls of a window. Each answers its status.
impl Window {
    /// A record that is not opened.
    pub(crate) fn new() -> Self {
        Window([0; 72])
    }

    pub(crate) fn open(&mut self, src: &[u8], room: &[u32]) -> u32 {
        // SAFETY: as the module says.
        unsafe { c::warpthistle_window_open(self, src.as_ptr(), src.len(), room.as_ptr(), room.len()) }
    }

    #[inline]
    pub(crate) fn next_token(&mut self, src: &[u8], room: &mut [u32], token: &mut RawToken) -> u32 {
        // SAFETY: as the module says.
        unsafe { c::warpthistle_window_next_token(self, src.as_ptr(), src.len(), room.as_mut_ptr(), room.len(), token) }
    }

    #[inline]
    pub(crate) fn peek_token(&mut self, src: &[u8], room: &mut [u32], n: usize, token: &mut RawToken) -> u32 {
        // SAFETY: as the module says.
        unsafe { c::warpthistle_window_peek_token(self, src.as_ptr(), src.len(), room.as_mut_ptr(), room.len(), n, token) }
    }

    #[inline]
    pub(crate) fn has_more(&mut self, src: &[u8], room: &mut [u32]) -> u32 {
        // SAFETY: as the module says.
        unsafe { c::warpthistle_window_has_more(self, src.as_ptr(), src.len(), room.as_mut_ptr(), room.len()) }
    }

    #[inline]
    pub(crate) fn bookmark(&mut self, src: &[u8], room: &[u32], index: &mut u32) -> u32 {
        // SAFETY: as the module says.
        unsafe { c::warpthistle_window_bookmark(self, src.as_ptr(), src.len(), room.as_ptr(), room.len(), index) }
    }

    #[inline]
    pub(crate) fn restore_bookmark(&mut self, src: &[u8], room: &[u32], index: u32) -> u32 {
        // SAFETY: as the module says.
        unsafe { c::warpthistle_window_restore_bookmark(self, src.as_ptr(), src.len(), room.as_ptr(), room.len(), index) }
    }

    #[inline]
    pub(crate) fn remove_bookmark(&mut self, src: &[u8], room: &[u32], index: u32) -> u32 {
        // SAFETY: as the module says.
        unsafe { c::warpthistle_window_remove_bookmark(self, src.as_ptr(), src.len(), room.as_ptr(), room.len(), index) }
    }

    #[inline]
    pub(crate) fn current_token_index(&self, src: &[u8], room: &[u32], index: &mut u32) -> u32 {
        // SAFETY: as the module says.
        unsafe { c::warpthistle_window_current_token_index(self, src.as_ptr(), src.len(), room.as_ptr(), room.len(), index) }
    }

    pub(crate) fn enter_hex_pattern_mode(&mut self, src: &[u8], room: &[u32]) -> u32 {
        // SAFETY: as the module says.
        unsafe { c::warpthistle_window_enter_hex_pattern_mode(self, src.as_ptr(), src.len(), room.as_ptr(), room.len()) }
    }

    pub(crate) fn enter_hex_jump_mode(&mut self, src: &[u8], room: &[u32]) -> u32 {
        // SAFETY: as the module says.
        unsafe { c::warpthistle_window_enter_hex_jump_mode(self, src.as_ptr(), src.len(), room.as_ptr(), room.len()) }
    }
}

/// The calls of an event stream. Each answers its status.
impl Events {
    /// A record that is not opened.
    pub(crate) fn new() -> Self {
        Events([0; 16])
    }

    pub(crate) fn open(&mut self, room: &[u32], opens: &[usize]) -> u32 {
        // SAFETY: as the module says.
        unsafe { c::warpthistle_events_open(self, room.as_ptr(), room.len(), opens.as_ptr(), opens.len()) }
    }

    #[inline]
    pub(crate) fn push_token(&mut self, room: &mut [u32], opens: &[usize], kind: u16, start: u32, end: u32) -> u32 {
        // SAFETY: as the module says.
        unsafe { c::warpthistle_events_push_token(self, room.as_mut_ptr(), room.len(), opens.as_ptr(), opens.len(), kind, start, end) }
    }

    #[inline]
    pub(crate) fn push_error(&mut self, room: &mut [u32], opens: &[usize], message: u16, start: u32, end: u32) -> u32 {
        // SAFETY: as the module says.
        unsafe { c::warpthistle_events_push_error(self, room.as_mut_ptr(), room.len(), opens.as_ptr(), opens.len(), message, start, end) }
    }

    #[inline]
    pub(crate) fn begin(&mut self, room: &mut [u32], opens: &mut [usize], kind: u16) -> u32 {
        // SAFETY: as the module says.
        unsafe { c::warpthistle_events_begin(self, room.as_mut_ptr(), room.len(), opens.as_mut_ptr(), opens.len(), kind) }
    }

    #[inline]
    pub(crate) fn end(&mut self, room: &mut [u32], opens: &[usize]) -> u32 {
        // SAFETY: as the module says.
        unsafe { c::warpthistle_events_end(self, room.as_mut_ptr(), room.len(), opens.as_ptr(), opens.len()) }
    }

    #[inline]
    pub(crate) fn end_with_error(&mut self, room: &mut [u32], opens: &[usize]) -> u32 {
        // SAFETY: as the module says.
        unsafe { c::warpthistle_events_end_with_error(self, room.as_mut_ptr(), room.len(), opens.as_ptr(), opens.len()) }
    }

    #[inline]
    pub(crate) fn bookmark(&mut self, room: &[u32], opens: &[usize], position: &mut usize) -> u32 {
        // SAFETY: as the module says.
        unsafe { c::warpthistle_events_bookmark(self, room.as_ptr(), room.len(), opens.as_ptr(), opens.len(), position) }
    }

    #[inline]
    pub(crate) fn truncate(&mut self, room: &[u32], opens: &[usize], position: usize) -> u32 {
        // SAFETY: as the module says.
        unsafe { c::warpthistle_events_truncate(self, room.as_ptr(), room.len(), opens.as_ptr(), opens.len(), position) }
    }

    #[inline]
    pub(crate) fn remove_bookmark(&mut self, room: &[u32], opens: &[usize], position: usize) -> u32 {
        // SAFETY: as the module says.
        unsafe { c::warpthistle_events_remove_bookmark(self, room.as_ptr(), room.len(), opens.as_ptr(), opens.len(), position) }
    }

    #[inline]
    pub(crate) fn pop(&mut self, room: &[u32], opens: &[usize], event: &mut RawEvent) -> u32 {
        // SAFETY: as the module says.
        unsafe { c::warpthistle_events_pop(self, room.as_ptr(), room.len(), opens.as_ptr(), opens.len(), event) }
    }
}
