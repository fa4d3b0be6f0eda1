//! Lists the tokens of a source through the static library: kind, start and end of each.
#[rustfmt::skip]
unsafe extern "C" {
    fn rattle_tokens(src: *const u8, src_len: usize, place: u32, mode: u32, out: *mut u32, out_len: usize, count: *mut u32) -> u32;
}

/// The tokens of a source in normal mode, or the number of the refusal.
fn tokens(src: &[u8]) -> Result<Vec<[u32; 3]>, u32> {
    let mut out = vec![[0; 3]; src.len()]; // no source has more tokens than bytes
    let mut count = 0;
    // SAFETY: each pointer comes with the length of what it points to; the function keeps none.
    let refusal = unsafe { rattle_tokens(src.as_ptr(), src.len(), 0, 0, out.as_mut_ptr().cast(), 3 * out.len(), &mut count) };
    out.truncate(count as usize);
    if refusal == 0 { Ok(out) } else { Err(refusal) }
}

fn main() {
    match tokens(b"x=1KB\n") {
        Ok(found) => found.iter().for_each(|[kind, start, end]| println!("{kind} {start} {end}")),
        Err(refusal) => println!("refused {refusal}"),
    }
}
