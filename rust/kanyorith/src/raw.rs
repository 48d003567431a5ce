//! The calls of the C interface as they are: number, figure and outputs, without pointers. All `unsafe` of the calls is here.
//!
//! `include/kanyorith.h` has the same declarations in C; nothing checks these lines against it but the tests. The package
//! `kanyorith-check` compiles this file as a module of its own, so that it sees every output byte of the very calls that are used here.
//!
//! Why each call is safe: a slice lends as many bytes as its length says, and its pointer is never null; every other pointer comes from
//! a reference to exactly what the header asks for; what is written to is borrowed mutably, so it overlaps with nothing else; and the
//! library accepts any bytes, keeps no pointer and has no state.

unsafe extern "C" {
    fn kanyorith_check_tray(tray: *const u8, tray_length: usize, figure: *mut u64) -> u32;

    fn kanyorith_check_index(
        tray: *const u8,
        tray_length: usize,
        index: *const u8,
        index_length: usize,
        figure: *mut u64,
    ) -> u32;

    fn kanyorith_build(
        tray: *const u8,
        tray_length: usize,
        d: u64,
        out: *mut u8,
        out_length: usize,
        figure: *mut u64,
    ) -> u32;

    fn kanyorith_get(
        tray: *const u8,
        tray_length: usize,
        index: *const u8,
        index_length: usize,
        key: *const u8,
        value: *mut u8,
        figure: *mut u64,
    ) -> u32;

    fn kanyorith_seek(
        tray: *const u8,
        tray_length: usize,
        index: *const u8,
        index_length: usize,
        key: *const u8,
        run: *mut u8,
        place: *mut u16,
        cursor: *mut u16,
        figure: *mut u64,
    ) -> u32;

    fn kanyorith_next(
        tray: *const u8,
        tray_length: usize,
        index: *const u8,
        index_length: usize,
        run: *mut u8,
        place: *mut u16,
        cursor: *mut u16,
        figure: *mut u64,
    ) -> u32;

    fn kanyorith_page(
        tray: *const u8,
        tray_length: usize,
        index: *const u8,
        index_length: usize,
        cursor: *mut u16,
        out: *mut u8,
        out_length: usize,
        count: *mut u64,
        figure: *mut u64,
    ) -> u32;

    fn kanyorith_sheet(
        tray: *const u8,
        tray_length: usize,
        index: *const u8,
        index_length: usize,
        prefix: *const u8,
        prefix_length: usize,
        out: *mut u8,
        out_length: usize,
        figure: *mut u64,
    ) -> u32;

    fn kanyorith_fold(
        tray: *const u8,
        tray_length: usize,
        a: u64,
        b: u64,
        out: *mut u8,
        out_length: usize,
        figure: *mut u64,
    ) -> u32;
}

/// What every call answers.
#[derive(Clone, Copy, Debug, PartialEq, Eq)]
pub struct Answer {
    /// 0 where nothing is refused, else a number of the refusal table.
    pub number: u32,
    /// The call's answer where nothing is refused, else the refusal's figure.
    pub figure: u64,
}

/// The numbers of a cursor: the segment's high and low 16 bits, the selector, and 63 places.
pub type Numbers = [u16; 66];

/// The figure that a call starts from; each call overwrites it.
const UNSET: u64 = u64::MAX;

/// `kanyorith_check_tray`.
pub fn check_tray(tray: &[u8]) -> Answer {
    let mut figure = UNSET;
    // SAFETY: `tray` lends its bytes, and `figure` is ours.
    let number = unsafe { kanyorith_check_tray(tray.as_ptr(), tray.len(), &mut figure) };
    Answer { number, figure }
}

/// `kanyorith_check_index`.
pub fn check_index(tray: &[u8], index: &[u8]) -> Answer {
    let mut figure = UNSET;
    // SAFETY: both slices lend their bytes, and `figure` is ours.
    let number = unsafe { kanyorith_check_index(tray.as_ptr(), tray.len(), index.as_ptr(), index.len(), &mut figure) };
    Answer { number, figure }
}

/// `kanyorith_build`.
pub fn build(tray: &[u8], d: u64, out: &mut [u8]) -> Answer {
    let mut figure = UNSET;
    // SAFETY: `tray` lends its bytes, `out` is borrowed mutably for all of its length, and `figure` is ours.
    let number = unsafe { kanyorith_build(tray.as_ptr(), tray.len(), d, out.as_mut_ptr(), out.len(), &mut figure) };
    Answer { number, figure }
}

/// `kanyorith_get`.
pub fn get(tray: &[u8], index: &[u8], key: &[u8; 8], value: &mut [u8; 16]) -> Answer {
    let mut figure = UNSET;
    // SAFETY: both slices lend their bytes, `key` has 8, `value` has 16 and is borrowed mutably, and `figure` is ours.
    let number = unsafe {
        kanyorith_get(
            tray.as_ptr(),
            tray.len(),
            index.as_ptr(),
            index.len(),
            key.as_ptr(),
            value.as_mut_ptr(),
            &mut figure,
        )
    };
    Answer { number, figure }
}

/// `kanyorith_seek`.
pub fn seek(tray: &[u8], index: &[u8], key: &[u8; 8], run: &mut u8, place: &mut u16, cursor: &mut Numbers) -> Answer {
    let mut figure = UNSET;
    // SAFETY: both slices lend their bytes, `key` has 8, `cursor` has 66 numbers; it, `run` and `place` are borrowed mutably, and
    // `figure` is ours.
    let number = unsafe {
        kanyorith_seek(
            tray.as_ptr(),
            tray.len(),
            index.as_ptr(),
            index.len(),
            key.as_ptr(),
            run,
            place,
            cursor.as_mut_ptr(),
            &mut figure,
        )
    };
    Answer { number, figure }
}

/// `kanyorith_next`.
pub fn next(tray: &[u8], index: &[u8], run: &mut u8, place: &mut u16, cursor: &mut Numbers) -> Answer {
    let mut figure = UNSET;
    // SAFETY: both slices lend their bytes, `cursor` has 66 numbers; it, `run` and `place` are borrowed mutably, and `figure` is ours.
    let number = unsafe {
        kanyorith_next(
            tray.as_ptr(),
            tray.len(),
            index.as_ptr(),
            index.len(),
            run,
            place,
            cursor.as_mut_ptr(),
            &mut figure,
        )
    };
    Answer { number, figure }
}

/// `kanyorith_page`.
pub fn page(tray: &[u8], index: &[u8], cursor: &mut Numbers, out: &mut [u8], count: &mut u64) -> Answer {
    let mut figure = UNSET;
    // SAFETY: both slices lend their bytes, `cursor` has 66 numbers; it, all of `out` and `count` are borrowed mutably, and `figure` is
    // ours.
    let number = unsafe {
        kanyorith_page(
            tray.as_ptr(),
            tray.len(),
            index.as_ptr(),
            index.len(),
            cursor.as_mut_ptr(),
            out.as_mut_ptr(),
            out.len(),
            count,
            &mut figure,
        )
    };
    Answer { number, figure }
}

/// `kanyorith_sheet`.
pub fn sheet(tray: &[u8], index: &[u8], prefix: &[u8], out: &mut [u8]) -> Answer {
    let mut figure = UNSET;
    // SAFETY: the three slices lend their bytes, `out` is borrowed mutably for all of its length, and `figure` is ours.
    let number = unsafe {
        kanyorith_sheet(
            tray.as_ptr(),
            tray.len(),
            index.as_ptr(),
            index.len(),
            prefix.as_ptr(),
            prefix.len(),
            out.as_mut_ptr(),
            out.len(),
            &mut figure,
        )
    };
    Answer { number, figure }
}

/// `kanyorith_fold`.
pub fn fold(tray: &[u8], a: u64, b: u64, out: &mut [u8]) -> Answer {
    let mut figure = UNSET;
    // SAFETY: `tray` lends its bytes, `out` is borrowed mutably for all of its length, and `figure` is ours.
    let number = unsafe { kanyorith_fold(tray.as_ptr(), tray.len(), a, b, out.as_mut_ptr(), out.len(), &mut figure) };
    Answer { number, figure }
}
