//! The window, call by call. Each call is made on numbers that stand with the caller, and answers its status.
use crate::Tok;

/// The functions as the library has them.
mod c {
    use crate::Tok;

    #[rustfmt::skip]
    unsafe extern "C" {
        pub fn warpthistle_window_open(window: *mut [u32; 72], src: *const u8, src_len: usize, room: *const u32, room_len: usize) -> u32;
        pub fn warpthistle_window_next_token(window: *mut [u32; 72], src: *const u8, src_len: usize, room: *mut u32, room_len: usize, token: *mut Tok) -> u32;
        pub fn warpthistle_window_peek_token(window: *mut [u32; 72], src: *const u8, src_len: usize, room: *mut u32, room_len: usize, n: usize, token: *mut Tok) -> u32;
        pub fn warpthistle_window_has_more(window: *mut [u32; 72], src: *const u8, src_len: usize, room: *mut u32, room_len: usize) -> u32;
        pub fn warpthistle_window_bookmark(window: *mut [u32; 72], src: *const u8, src_len: usize, room: *const u32, room_len: usize, index: *mut u32) -> u32;
        pub fn warpthistle_window_restore_bookmark(window: *mut [u32; 72], src: *const u8, src_len: usize, room: *const u32, room_len: usize, index: u32) -> u32;
        pub fn warpthistle_window_remove_bookmark(window: *mut [u32; 72], src: *const u8, src_len: usize, room: *const u32, room_len: usize, index: u32) -> u32;
        pub fn warpthistle_window_current_token_index(window: *const [u32; 72], src: *const u8, src_len: usize, room: *const u32, room_len: usize, index: *mut u32) -> u32;
        pub fn warpthistle_window_enter_hex_pattern_mode(window: *mut [u32; 72], src: *const u8, src_len: usize, room: *const u32, room_len: usize) -> u32;
        pub fn warpthistle_window_enter_hex_jump_mode(window: *mut [u32; 72], src: *const u8, src_len: usize, room: *const u32, room_len: usize) -> u32;
    }
}

/// The numbers of a window. Each call is handed the source and the room again.
#[derive(Clone, PartialEq, Eq, Debug)]
pub struct Window(pub [u32; 72]);

// SAFETY of each call below: each pointer comes with the length of what it points to, or is that of a value of the type; the function keeps
// none. A token is three u32 (repr(C)).
impl Window {
    /// Opens a window at the start of a source, in normal mode.
    pub fn open(&mut self, src: &[u8], room: &[u32]) -> u32 {
        unsafe { c::warpthistle_window_open(&mut self.0, src.as_ptr(), src.len(), room.as_ptr(), room.len()) }
    }

    /// The current token, and on to the next one.
    pub fn next_token(&mut self, src: &[u8], room: &mut [u32], token: &mut Tok) -> u32 {
        unsafe { c::warpthistle_window_next_token(&mut self.0, src.as_ptr(), src.len(), room.as_mut_ptr(), room.len(), token) }
    }

    /// The token n after the current one.
    pub fn peek_token(&mut self, src: &[u8], room: &mut [u32], n: usize, token: &mut Tok) -> u32 {
        unsafe { c::warpthistle_window_peek_token(&mut self.0, src.as_ptr(), src.len(), room.as_mut_ptr(), room.len(), n, token) }
    }

    /// Whether there is a current token.
    pub fn has_more(&mut self, src: &[u8], room: &mut [u32]) -> u32 {
        unsafe { c::warpthistle_window_has_more(&mut self.0, src.as_ptr(), src.len(), room.as_mut_ptr(), room.len()) }
    }

    /// Sets a bookmark at the current token.
    pub fn bookmark(&mut self, src: &[u8], room: &[u32], index: &mut u32) -> u32 {
        unsafe { c::warpthistle_window_bookmark(&mut self.0, src.as_ptr(), src.len(), room.as_ptr(), room.len(), index) }
    }

    /// Goes back, or on, to a live bookmark.
    pub fn restore_bookmark(&mut self, src: &[u8], room: &[u32], index: u32) -> u32 {
        unsafe { c::warpthistle_window_restore_bookmark(&mut self.0, src.as_ptr(), src.len(), room.as_ptr(), room.len(), index) }
    }

    /// Drops a live bookmark.
    pub fn remove_bookmark(&mut self, src: &[u8], room: &[u32], index: u32) -> u32 {
        unsafe { c::warpthistle_window_remove_bookmark(&mut self.0, src.as_ptr(), src.len(), room.as_ptr(), room.len(), index) }
    }

    /// The index of the current token.
    pub fn current_token_index(&self, src: &[u8], room: &[u32], index: &mut u32) -> u32 {
        unsafe { c::warpthistle_window_current_token_index(&self.0, src.as_ptr(), src.len(), room.as_ptr(), room.len(), index) }
    }

    /// Switches to pattern mode behind the last token fetched.
    pub fn enter_hex_pattern_mode(&mut self, src: &[u8], room: &[u32]) -> u32 {
        unsafe { c::warpthistle_window_enter_hex_pattern_mode(&mut self.0, src.as_ptr(), src.len(), room.as_ptr(), room.len()) }
    }

    /// Switches to jump mode behind the last token fetched.
    pub fn enter_hex_jump_mode(&mut self, src: &[u8], room: &[u32]) -> u32 {
        unsafe { c::warpthistle_window_enter_hex_jump_mode(&mut self.0, src.as_ptr(), src.len(), room.as_ptr(), room.len()) }
    }
}
