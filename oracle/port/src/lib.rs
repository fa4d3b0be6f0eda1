//! The port's C functions behind safe calls. A refused call answers the refusal's number.
pub use reading::plain::{Mode, Tok};

/// The functions as the library has them. Each answers 0 or the number of a refusal.
mod c {
    #[rustfmt::skip]
    unsafe extern "C" {
        pub fn rattle_tokens(src: *const u8, src_len: usize, place: u32, mode: u32, out: *mut u32, out_len: usize, count: *mut u32) -> u32;
        pub fn rattle_listing(src: *const u8, src_len: usize, out: *mut u8, out_len: usize, len: *mut usize) -> u32;
        pub fn rattle_window(src: *const u8, src_len: usize, script: *const u32, script_len: usize, room: *mut u32, room_len: usize, answers: *mut u32, answers_len: usize) -> u32;
        pub fn rattle_events(script: *const u32, script_len: usize, room: *mut u32, room_len: usize, opens: *mut usize, opens_len: usize, answers: *mut usize, answers_len: usize) -> u32;
    }
}

/// What a call with this number gave back.
fn answered(refusal: u32) -> Result<(), u32> {
    if refusal == 0 { Ok(()) } else { Err(refusal) }
}

/// The tokens of a source from a place on, in the mode of a number: three numbers each into `out`, how many into `count`.
pub fn lent_tokens(src: &[u8], place: u32, mode: u32, out: &mut [u32], count: &mut u32) -> Result<(), u32> {
    // SAFETY: each pointer comes with the length of what it points to; the function keeps none.
    answered(unsafe { c::rattle_tokens(src.as_ptr(), src.len(), place, mode, out.as_mut_ptr(), out.len(), count) })
}

/// The tokens of a source from a place on. `room` grows to what the longest list can take, and is used again.
pub fn tokens<'a>(src: &[u8], place: usize, mode: Mode, room: &'a mut Vec<u32>) -> Result<&'a [Tok], u32> {
    if room.len() < 3 * src.len() {
        room.resize(3 * src.len(), 0);
    }
    let mut count = 0;
    lent_tokens(src, place as u32, mode as u32, room, &mut count)?;
    let numbers = &room[..3 * count as usize];
    // SAFETY: a Tok is three u32 in this order (repr(C)), and the slice has three for each.
    Ok(unsafe { std::slice::from_raw_parts(numbers.as_ptr().cast(), count as usize) })
}

/// Document 01's listing of a source as text, how many bytes it has into `len`.
pub fn listing(src: &[u8], out: &mut [u8], len: &mut usize) -> Result<(), u32> {
    // SAFETY: as in `lent_tokens`.
    answered(unsafe { c::rattle_listing(src.as_ptr(), src.len(), out.as_mut_ptr(), out.len(), len) })
}

/// Opens a window on a source and runs a script: two numbers a call, four an answer, three a slot of the room.
pub fn window(src: &[u8], script: &[u32], room: &mut [u32], answers: &mut [u32]) -> Result<(), u32> {
    let (s, c, r, a) = (src.len(), script.len(), room.len(), answers.len());
    // SAFETY: as in `lent_tokens`.
    answered(unsafe { c::rattle_window(src.as_ptr(), s, script.as_ptr(), c, room.as_mut_ptr(), r, answers.as_mut_ptr(), a) })
}

/// Opens an event stream and runs a script: four numbers a call, five an answer, four a slot of the room.
pub fn events(script: &[u32], room: &mut [u32], opens: &mut [usize], answers: &mut [usize]) -> Result<(), u32> {
    let (c, r, o, a) = (script.len(), room.len(), opens.len(), answers.len());
    // SAFETY: as in `lent_tokens`.
    answered(unsafe { c::rattle_events(script.as_ptr(), c, room.as_mut_ptr(), r, opens.as_mut_ptr(), o, answers.as_mut_ptr(), a) })
}
