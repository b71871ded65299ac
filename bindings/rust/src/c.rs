//! The library's functions, as include/mordashun.h declares them. Slices keep every duty that it lists, and no
//! function requires anything of bytes or lengths, so nothing is left to test before a call.

extern "C" {
    fn mordashun_run(
        image: *const u8,
        image_length: usize,
        book: *const u8,
        book_length: usize,
        log: *const u8,
        log_length: usize,
        output: *mut u8,
        output_length: usize,
        room: *mut u8,
        room_length: usize,
    ) -> u64;
    fn mordashun_check(
        book: *const u8,
        book_length: usize,
        output: *mut u8,
        output_length: usize,
    ) -> u64;
    fn mordashun_rule(book: *const u8, book_length: usize, k: usize) -> u64;
}

/// The word that a run answers.
pub fn run(image: &[u8], book: &[u8], log: &[u8], out: &mut [u8], room: &mut [u8]) -> u64 {
    // SAFETY: each pointer is that of a slice, with its length, so it is not null and its bytes can be read; out
    // and room are exclusive, so they can be written and overlap nothing. The library keeps no pointer.
    unsafe {
        mordashun_run(
            image.as_ptr(),
            image.len(),
            book.as_ptr(),
            book.len(),
            log.as_ptr(),
            log.len(),
            out.as_mut_ptr(),
            out.len(),
            room.as_mut_ptr(),
            room.len(),
        )
    }
}

/// The word that a book check answers.
pub fn check(book: &[u8], out: &mut [u8]) -> u64 {
    // SAFETY: as for a run: two slices with their lengths, and out is exclusive.
    unsafe { mordashun_check(book.as_ptr(), book.len(), out.as_mut_ptr(), out.len()) }
}

/// The word of where the bytes of rule k stand in the book.
pub fn rule(book: &[u8], k: usize) -> u64 {
    // SAFETY: a slice with its length, which is only read.
    unsafe { mordashun_rule(book.as_ptr(), book.len(), k) }
}
