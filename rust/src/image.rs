//! The proved library itself, over slices: a record as two arrays, of any length and with any content.
//!
//! `actions` has 128 bytes: the parents of numbers 0 to 63 (0: none, else the parent's number + 1), then their states (0 free, 1 running, 2 committed, 3 + h
//! draining under the aborted action h, without a parent).
//! `owners` has 256 words: the read sets of instruments 0 to 127, then their write sets (bit k: number k). A record of other lengths gets 7.
//!
//! Every answer is its number; [`Answer::try_from`](crate::Answer) gives it a name. Whatever the answer but 0, nothing changes, except that a refused
//! [`load`] leaves an empty bench. Nothing here looks at the library's version first, as [`check_library`](crate::check_library) does. Most programs want
//! [`Bench`](crate::Bench) instead.
//!
//! ```
//! use dikothelm::image;
//!
//! let (mut actions, mut owners) = ([0; 128], [0; 256]);
//! assert_eq!(image::open_top(&mut actions, &mut owners, 7), 0);
//! assert_eq!(image::open_top(&mut actions, &mut owners, 7), 3);
//! assert_eq!(image::open_top(&mut actions[..127], &mut owners, 8), 7);
//! ```
//!
//! This module has all of the crate's unsafe code. What the C side needs, each call gets from Rust's types: a slice's pointer is valid and aligned for the
//! slice's length, the C side stays within that length, what is passed as `&mut` overlaps nothing else that is passed, and nothing is kept after the call.

use crate::Request;

extern "C" {
    fn dikothelm_version() -> u32;
    fn dikothelm_image_empty(actions: *mut u8, actions_length: usize, owners: *mut u64, owners_length: usize) -> u8;
    fn dikothelm_image_sound(actions: *const u8, actions_length: usize, owners: *const u64, owners_length: usize) -> u8;
    fn dikothelm_image_open_top(actions: *mut u8, actions_length: usize, owners: *mut u64, owners_length: usize, n: u32) -> u8;
    fn dikothelm_image_open_sub(actions: *mut u8, actions_length: usize, owners: *mut u64, owners_length: usize, n: u32, p: u32) -> u8;
    fn dikothelm_image_read(actions: *mut u8, actions_length: usize, owners: *mut u64, owners_length: usize, a: u32, i: u32) -> u8;
    fn dikothelm_image_write(actions: *mut u8, actions_length: usize, owners: *mut u64, owners_length: usize, a: u32, i: u32) -> u8;
    fn dikothelm_image_commit(actions: *mut u8, actions_length: usize, owners: *mut u64, owners_length: usize, a: u32) -> u8;
    fn dikothelm_image_abort(actions: *mut u8, actions_length: usize, owners: *mut u64, owners_length: usize, a: u32) -> u8;
    fn dikothelm_image_quiet(actions: *mut u8, actions_length: usize, owners: *mut u64, owners_length: usize, a: u32, i: u32) -> u8;
    fn dikothelm_image_list(
        actions: *mut u8,
        actions_length: usize,
        owners: *mut u64,
        owners_length: usize,
        words: *mut u32,
        words_length: usize,
    ) -> u8;
    fn dikothelm_image_text_size(actions: *const u8, actions_length: usize, owners: *const u64, owners_length: usize, count: *mut usize) -> u8;
    fn dikothelm_image_save(
        actions: *const u8,
        actions_length: usize,
        owners: *const u64,
        owners_length: usize,
        out: *mut u8,
        out_length: usize,
        count: *mut usize,
    ) -> u8;
    fn dikothelm_image_load(
        actions: *mut u8,
        actions_length: usize,
        owners: *mut u64,
        owners_length: usize,
        text: *const u8,
        text_length: usize,
    ) -> u8;
    fn dikothelm_image_play(
        actions: *mut u8,
        actions_length: usize,
        owners: *mut u64,
        owners_length: usize,
        progress: *mut u64,
        progress_length: usize,
        input: *const u8,
        input_length: usize,
        out: *mut u8,
        out_length: usize,
    ) -> u8;
    fn dikothelm_image_finish(
        actions: *mut u8,
        actions_length: usize,
        owners: *mut u64,
        owners_length: usize,
        progress: *mut u64,
        progress_length: usize,
        out: *mut u8,
        out_length: usize,
    ) -> u8;
}

/// The version of the linked library: major × 65536 + minor × 256 + patch.
///
/// ```
/// assert_eq!(dikothelm::image::version() / 256, 4); // 0.4
/// ```
#[must_use]
pub fn version() -> u32 {
    // SAFETY: it takes nothing.
    unsafe { dikothelm_version() }
}

/// Makes the record an empty bench: 0, or 7 for another length.
///
/// ```
/// let (mut actions, mut owners) = ([9; 128], [9; 256]);
/// assert_eq!(dikothelm::image::empty(&mut actions, &mut owners), 0);
/// assert_eq!((actions, owners), ([0; 128], [0; 256]));
/// ```
#[must_use]
pub fn empty(actions: &mut [u8], owners: &mut [u64]) -> u8 {
    // SAFETY: pointers and lengths of two slices that are lent to write and so don't overlap.
    unsafe { dikothelm_image_empty(actions.as_mut_ptr(), actions.len(), owners.as_mut_ptr(), owners.len()) }
}

/// Whether the record is a sound bench: 0 if so, else 7.
///
/// ```
/// use dikothelm::image;
/// assert_eq!(image::sound(&[0; 128], &[0; 256]), 0);
/// assert_eq!(image::sound(&[0; 128], &[1; 256]), 7); // number 0 is free and stands in sets
/// assert_eq!(image::sound(&[0; 64], &[0; 256]), 7);
/// ```
#[must_use]
pub fn sound(actions: &[u8], owners: &[u64]) -> u8 {
    // SAFETY: pointers and lengths of two slices, only read.
    unsafe { dikothelm_image_sound(actions.as_ptr(), actions.len(), owners.as_ptr(), owners.len()) }
}

/// Makes n a running top action: 0, 1, 3 or 7.
///
/// ```
/// let (mut actions, mut owners) = ([0; 128], [0; 256]);
/// assert_eq!(dikothelm::image::open_top(&mut actions, &mut owners, 63), 0);
/// assert_eq!(dikothelm::image::open_top(&mut actions, &mut owners, 64), 1);
/// ```
#[must_use]
pub fn open_top(actions: &mut [u8], owners: &mut [u64], n: u32) -> u8 {
    // SAFETY: as for `empty`.
    unsafe { dikothelm_image_open_top(actions.as_mut_ptr(), actions.len(), owners.as_mut_ptr(), owners.len(), n) }
}

/// Makes n a running action under p: 0, 1, 3, 4 or 7.
///
/// ```
/// let (mut actions, mut owners) = ([0; 128], [0; 256]);
/// assert_eq!(dikothelm::image::open_sub(&mut actions, &mut owners, 2, 1), 4); // 1 isn't running
/// ```
#[must_use]
pub fn open_sub(actions: &mut [u8], owners: &mut [u64], n: u32, p: u32) -> u8 {
    // SAFETY: as for `empty`.
    unsafe { dikothelm_image_open_sub(actions.as_mut_ptr(), actions.len(), owners.as_mut_ptr(), owners.len(), n, p) }
}

/// Lets a read instrument i: 0, 1, 2, 4, 5, 6 or 7.
///
/// ```
/// let (mut actions, mut owners) = ([0; 128], [0; 256]);
/// assert_eq!(dikothelm::image::read(&mut actions, &mut owners, 0, 128), 2);
/// ```
#[must_use]
pub fn read(actions: &mut [u8], owners: &mut [u64], a: u32, i: u32) -> u8 {
    // SAFETY: as for `empty`.
    unsafe { dikothelm_image_read(actions.as_mut_ptr(), actions.len(), owners.as_mut_ptr(), owners.len(), a, i) }
}

/// Lets a write instrument i: 0, 1, 2, 4, 5, 6 or 7.
///
/// ```
/// use dikothelm::image;
/// let (mut actions, mut owners) = ([0; 128], [0; 256]);
/// assert_eq!(image::open_top(&mut actions, &mut owners, 3), 0);
/// assert_eq!(image::write(&mut actions, &mut owners, 3, 5), 0);
/// assert_eq!(owners[128 + 5], 1 << 3);
/// ```
#[must_use]
pub fn write(actions: &mut [u8], owners: &mut [u64], a: u32, i: u32) -> u8 {
    // SAFETY: as for `empty`.
    unsafe { dikothelm_image_write(actions.as_mut_ptr(), actions.len(), owners.as_mut_ptr(), owners.len(), a, i) }
}

/// Commits a: 0, 1, 4, 5 or 7.
///
/// ```
/// let (mut actions, mut owners) = ([0; 128], [0; 256]);
/// assert_eq!(dikothelm::image::commit(&mut actions, &mut owners, 0), 4);
/// ```
#[must_use]
pub fn commit(actions: &mut [u8], owners: &mut [u64], a: u32) -> u8 {
    // SAFETY: as for `empty`.
    unsafe { dikothelm_image_commit(actions.as_mut_ptr(), actions.len(), owners.as_mut_ptr(), owners.len(), a) }
}

/// Aborts a: 0, 1, 4 or 7.
///
/// ```
/// let (mut actions, mut owners) = ([0; 128], [0; 256]);
/// assert_eq!(dikothelm::image::abort(&mut actions, &mut owners, 0), 4);
/// ```
#[must_use]
pub fn abort(actions: &mut [u8], owners: &mut [u64], a: u32) -> u8 {
    // SAFETY: as for `empty`.
    unsafe { dikothelm_image_abort(actions.as_mut_ptr(), actions.len(), owners.as_mut_ptr(), owners.len(), a) }
}

/// Instrument i is quiet for the aborted action a: 0, 1, 2, 7 or 10.
///
/// ```
/// use dikothelm::image;
/// let (mut actions, mut owners) = ([0; 128], [0; 256]);
/// assert_eq!(image::open_top(&mut actions, &mut owners, 3), 0);
/// assert_eq!(image::write(&mut actions, &mut owners, 3, 5), 0);
/// assert_eq!(image::quiet(&mut actions, &mut owners, 3, 5), 10);
/// assert_eq!(image::abort(&mut actions, &mut owners, 3), 0);
/// assert_eq!(actions[64 + 3], 3 + 3); // it drains under itself
/// assert_eq!(image::quiet(&mut actions, &mut owners, 3, 5), 0);
/// assert_eq!((actions, owners), ([0; 128], [0; 256]));
/// ```
#[must_use]
pub fn quiet(actions: &mut [u8], owners: &mut [u64], a: u32, i: u32) -> u8 {
    // SAFETY: as for `empty`.
    unsafe { dikothelm_image_quiet(actions.as_mut_ptr(), actions.len(), owners.as_mut_ptr(), owners.len(), a, i) }
}

/// Plays a list of requests in their order, four words each: kind, two numbers, and the place for the answer. 0; 11 for more than 32 requests; else 7 for a
/// record of another length. Up to three words behind the last whole request stay.
///
/// ```
/// let (mut actions, mut owners) = ([0; 128], [0; 256]);
/// let mut words = [1, 7, 0, 99, 3, 7, 128, 99, 8, 0, 0, 99, 1, 9];
/// assert_eq!(dikothelm::image::list(&mut actions, &mut owners, &mut words), 0);
/// assert_eq!(words, [1, 7, 0, 0, 3, 7, 128, 2, 8, 0, 0, 8, 1, 9]);
/// assert_eq!(dikothelm::image::list(&mut actions[1..], &mut owners, &mut words), 7);
/// assert_eq!(dikothelm::image::list(&mut actions[1..], &mut owners, &mut [0; 4 * 33]), 11);
/// ```
#[must_use]
pub fn list(actions: &mut [u8], owners: &mut [u64], words: &mut [u32]) -> u8 {
    // SAFETY: pointers and lengths of three slices that are lent to write and so don't overlap.
    unsafe { dikothelm_image_list(actions.as_mut_ptr(), actions.len(), owners.as_mut_ptr(), owners.len(), words.as_mut_ptr(), words.len()) }
}

/// The words of a list's requests.
pub(crate) fn words_of(list: &mut [Request]) -> &mut [u32] {
    // SAFETY: a request is `repr(C)` and has four words and nothing else, so that a slice of them is one of four times as many words; a word may hold
    // anything.
    unsafe { std::slice::from_raw_parts_mut(list.as_mut_ptr().cast(), 4 * list.len()) }
}

/// How many bytes the record's text has: the answer, 0 or 7, and the count, 0 where refused.
///
/// ```
/// use dikothelm::image;
/// let (mut actions, mut owners) = ([0; 128], [0; 256]);
/// assert_eq!(image::open_top(&mut actions, &mut owners, 3), 0);
/// assert_eq!(image::text_size(&actions, &owners), (0, 9));
/// assert_eq!(image::text_size(&actions, &owners[1..]), (7, 0));
/// ```
#[must_use]
pub fn text_size(actions: &[u8], owners: &[u64]) -> (u8, usize) {
    let mut count = 0;
    // SAFETY: pointers and lengths of two slices, only read; `count` is lent to write and overlaps nothing.
    let answer = unsafe { dikothelm_image_text_size(actions.as_ptr(), actions.len(), owners.as_ptr(), owners.len(), &mut count) };
    (answer, count)
}

/// Writes the record as text to the start of `out`: the answer, 0, 7 or 9, and how many bytes were written, 0 where refused. Bytes behind them stay.
///
/// ```
/// let mut out = *b"before";
/// assert_eq!(dikothelm::image::save(&[0; 128], &[0; 256], &mut out), (0, 0));
/// assert_eq!(&out, b"before");
/// ```
#[must_use]
pub fn save(actions: &[u8], owners: &[u64], out: &mut [u8]) -> (u8, usize) {
    let mut count = 0;
    // SAFETY: pointers and lengths of three slices; `out` and `count` are lent to write and overlap nothing.
    let answer =
        unsafe { dikothelm_image_save(actions.as_ptr(), actions.len(), owners.as_ptr(), owners.len(), out.as_mut_ptr(), out.len(), &mut count) };
    (answer, count)
}

/// Makes the record the bench that a text saved: 0, 7 or 8. Refused, it leaves an empty bench; a record of another length gets 7 and stays as it is.
///
/// ```
/// let (mut actions, mut owners) = ([9; 128], [9; 256]);
/// assert_eq!(dikothelm::image::load(&mut actions, &mut owners, b"110101ff\n"), 0);
/// assert_eq!(dikothelm::image::load(&mut actions, &mut owners, b"110102ff\n"), 7); // a top action runs
/// assert_eq!((actions, owners), ([0; 128], [0; 256]));
/// ```
#[must_use]
pub fn load(actions: &mut [u8], owners: &mut [u64], text: &[u8]) -> u8 {
    // SAFETY: pointers and lengths of three slices; the two lent to write overlap nothing.
    unsafe { dikothelm_image_load(actions.as_mut_ptr(), actions.len(), owners.as_mut_ptr(), owners.len(), text.as_ptr(), text.len()) }
}

/// Plays the first bytes of `input`, one for each three of `out`, or all: 0, or 7 where the record or `progress` has another length. An `out` below three
/// bytes takes nothing.
///
/// `progress` has four words, all 0 before the first call: digits and value of a line that has begun, then how many bytes of the input this call took and
/// how many bytes of answers it wrote. [`Player`](crate::Player) does all this by itself.
///
/// ```
/// let (mut actions, mut owners, mut progress, mut out) = ([0; 128], [0; 256], [0; 4], [0; 64]);
/// assert_eq!(dikothelm::image::play(&mut actions, &mut owners, &mut progress, b"0107\n0107\n", &mut out), 0);
/// assert_eq!(progress, [0, 0, 10, 6]);
/// assert_eq!(&out[..6], b"00\n03\n");
/// ```
#[must_use]
pub fn play(actions: &mut [u8], owners: &mut [u64], progress: &mut [u64], input: &[u8], out: &mut [u8]) -> u8 {
    // SAFETY: pointers and lengths of five slices; the four lent to write overlap nothing.
    unsafe {
        dikothelm_image_play(
            actions.as_mut_ptr(),
            actions.len(),
            owners.as_mut_ptr(),
            owners.len(),
            progress.as_mut_ptr(),
            progress.len(),
            input.as_ptr(),
            input.len(),
            out.as_mut_ptr(),
            out.len(),
        )
    }
}

/// Ends the input that was played: a last line without its newline is answered if it has a character, and nothing else is done. 0, or 7 where the record or
/// `progress` has another length.
///
/// `progress` says then that 0 bytes were taken and 0 or 3 written. Where `out` has fewer than three bytes a begun line stays begun.
///
/// ```
/// use dikothelm::image;
/// let (mut actions, mut owners, mut progress, mut out) = ([0; 128], [0; 256], [0; 4], [0; 64]);
/// assert_eq!(image::play(&mut actions, &mut owners, &mut progress, b"0107", &mut out), 0);
/// assert_eq!(progress[3], 0);
/// assert_eq!(image::finish(&mut actions, &mut owners, &mut progress, &mut out), 0);
/// assert_eq!(progress, [0, 0, 0, 3]);
/// assert_eq!(&out[..3], b"00\n");
/// ```
#[must_use]
pub fn finish(actions: &mut [u8], owners: &mut [u64], progress: &mut [u64], out: &mut [u8]) -> u8 {
    // SAFETY: pointers and lengths of four slices that are lent to write and so don't overlap.
    unsafe {
        dikothelm_image_finish(
            actions.as_mut_ptr(),
            actions.len(),
            owners.as_mut_ptr(),
            owners.len(),
            progress.as_mut_ptr(),
            progress.len(),
            out.as_mut_ptr(),
            out.len(),
        )
    }
}
