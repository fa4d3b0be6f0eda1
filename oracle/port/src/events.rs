//! The event stream, call by call. Each call is made on numbers that stand with the caller, and answers its status.

/// The functions as the library has them.
mod c {
    #[rustfmt::skip]
    unsafe extern "C" {
        pub fn warpthistle_events_open(events: *mut [u32; 16], room: *const u32, room_len: usize, opens: *const usize, opens_len: usize) -> u32;
        pub fn warpthistle_events_push_token(events: *mut [u32; 16], room: *mut u32, room_len: usize, opens: *const usize, opens_len: usize, kind: u16, start: u32, end: u32) -> u32;
        pub fn warpthistle_events_push_error(events: *mut [u32; 16], room: *mut u32, room_len: usize, opens: *const usize, opens_len: usize, message: u16, start: u32, end: u32) -> u32;
        pub fn warpthistle_events_begin(events: *mut [u32; 16], room: *mut u32, room_len: usize, opens: *mut usize, opens_len: usize, kind: u16) -> u32;
        pub fn warpthistle_events_end(events: *mut [u32; 16], room: *mut u32, room_len: usize, opens: *const usize, opens_len: usize) -> u32;
        pub fn warpthistle_events_end_with_error(events: *mut [u32; 16], room: *mut u32, room_len: usize, opens: *const usize, opens_len: usize) -> u32;
        pub fn warpthistle_events_bookmark(events: *mut [u32; 16], room: *const u32, room_len: usize, opens: *const usize, opens_len: usize, position: *mut usize) -> u32;
        pub fn warpthistle_events_truncate(events: *mut [u32; 16], room: *const u32, room_len: usize, opens: *const usize, opens_len: usize, position: usize) -> u32;
        pub fn warpthistle_events_remove_bookmark(events: *mut [u32; 16], room: *const u32, room_len: usize, opens: *const usize, opens_len: usize, position: usize) -> u32;
        pub fn warpthistle_events_pop(events: *mut [u32; 16], room: *const u32, room_len: usize, opens: *const usize, opens_len: usize, event: *mut [u32; 4]) -> u32;
    }
}

/// The numbers of an event stream. Each call is handed the two rooms again.
#[derive(Clone, PartialEq, Eq, Debug)]
pub struct Events(pub [u32; 16]);

// SAFETY of each call below: each pointer comes with the length of what it points to, or is that of a value of the type; the function keeps
// none. An event is four u32: tag, kind, start, end.
impl Events {
    /// Opens an empty stream over the two rooms.
    pub fn open(&mut self, room: &[u32], opens: &[usize]) -> u32 {
        unsafe { c::warpthistle_events_open(&mut self.0, room.as_ptr(), room.len(), opens.as_ptr(), opens.len()) }
    }

    /// Pushes a token.
    pub fn push_token(&mut self, room: &mut [u32], opens: &[usize], kind: u16, start: u32, end: u32) -> u32 {
        let (r, o) = (room.len(), opens.len());
        unsafe { c::warpthistle_events_push_token(&mut self.0, room.as_mut_ptr(), r, opens.as_ptr(), o, kind, start, end) }
    }

    /// Pushes an error with its message.
    pub fn push_error(&mut self, room: &mut [u32], opens: &[usize], message: u16, start: u32, end: u32) -> u32 {
        let (r, o) = (room.len(), opens.len());
        unsafe { c::warpthistle_events_push_error(&mut self.0, room.as_mut_ptr(), r, opens.as_ptr(), o, message, start, end) }
    }

    /// Begins a node.
    pub fn begin(&mut self, room: &mut [u32], opens: &mut [usize], kind: u16) -> u32 {
        unsafe { c::warpthistle_events_begin(&mut self.0, room.as_mut_ptr(), room.len(), opens.as_mut_ptr(), opens.len(), kind) }
    }

    /// Ends the node begun last.
    pub fn end(&mut self, room: &mut [u32], opens: &[usize]) -> u32 {
        unsafe { c::warpthistle_events_end(&mut self.0, room.as_mut_ptr(), room.len(), opens.as_ptr(), opens.len()) }
    }

    /// Ends the node begun last, with an error.
    pub fn end_with_error(&mut self, room: &mut [u32], opens: &[usize]) -> u32 {
        unsafe { c::warpthistle_events_end_with_error(&mut self.0, room.as_mut_ptr(), room.len(), opens.as_ptr(), opens.len()) }
    }

    /// Sets a bookmark at the end of the stream.
    pub fn bookmark(&mut self, room: &[u32], opens: &[usize], position: &mut usize) -> u32 {
        unsafe { c::warpthistle_events_bookmark(&mut self.0, room.as_ptr(), room.len(), opens.as_ptr(), opens.len(), position) }
    }

    /// Takes back what was pushed since a position.
    pub fn truncate(&mut self, room: &[u32], opens: &[usize], position: usize) -> u32 {
        unsafe { c::warpthistle_events_truncate(&mut self.0, room.as_ptr(), room.len(), opens.as_ptr(), opens.len(), position) }
    }

    /// Drops a bookmark.
    pub fn remove_bookmark(&mut self, room: &[u32], opens: &[usize], position: usize) -> u32 {
        unsafe { c::warpthistle_events_remove_bookmark(&mut self.0, room.as_ptr(), room.len(), opens.as_ptr(), opens.len(), position) }
    }

    /// The first event, which leaves the stream.
    pub fn pop(&mut self, room: &[u32], opens: &[usize], event: &mut [u32; 4]) -> u32 {
        unsafe { c::warpthistle_events_pop(&mut self.0, room.as_ptr(), room.len(), opens.as_ptr(), opens.len(), event) }
    }
}
