//! The proved engine, called through its static library.

use crate::{Input, Place, Word};

extern "C" {
    fn mordashun_run(
        image: *const u8,
        image_size: usize,
        book: *const u8,
        book_size: usize,
        log: *const u8,
        log_size: usize,
        out: *mut u8,
        out_size: usize,
        room: *mut u8,
        room_size: usize,
    ) -> u64;
    fn mordashun_check(book: *const u8, book_size: usize, out: *mut u8, out_size: usize) -> u64;
    fn mordashun_rule(book: *const u8, book_size: usize, k: usize) -> u64;
}

pub fn run(input: &Input, out: &mut [u8], room: &mut [u8]) -> Word {
    let Input { image, book, log } = input;
    // Each pointer and size come from one slice, and only `out` and `room`
    // are written.
    Word(unsafe {
        mordashun_run(
            image.as_ptr(),
            image.len(),
            book.as_ptr(),
            book.len(),
            log.as_ptr(),
            log.len(),
            out.as_mut_ptr(),
            out.len(),
            room.as_mut_ptr(),
            room.len(),
        )
    })
}

pub fn check(book: &[u8], out: &mut [u8]) -> Word {
    Word(unsafe { mordashun_check(book.as_ptr(), book.len(), out.as_mut_ptr(), out.len()) })
}

pub fn rule(book: &[u8], k: usize) -> Place {
    let word = unsafe { mordashun_rule(book.as_ptr(), book.len(), k) };
    let start = (word >> 32) as usize;
    let size = word as u32 as usize;
    start..start + size
}

/// A run whose stack is `stack`, so that its bytes can be looked at after it.
/// The part that it takes starts at the end of `stack` and includes the four
/// arguments that are passed there and the place to return to.
pub fn run_on(stack: &mut [u8], input: &Input, out: &mut [u8], room: &mut [u8]) -> Word {
    let top = stack.as_mut_ptr_range().end as usize & !15;
    let word;
    // Arguments as the C convention of x86-64 Linux has them. Register r12 is
    // one that a called function gives back as it was.
    unsafe {
        std::arch::asm!(
            "mov r12, rsp",
            "mov rsp, rax",
            "push r13",
            "push r11",
            "push r15",
            "push r14",
            "call {run}",
            "mov rsp, r12",
            run = sym mordashun_run,
            inout("rax") top => word,
            in("rdi") input.image.as_ptr(),
            in("rsi") input.image.len(),
            in("rdx") input.book.as_ptr(),
            in("rcx") input.book.len(),
            in("r8") input.log.as_ptr(),
            in("r9") input.log.len(),
            in("r14") out.as_mut_ptr(),
            in("r15") out.len(),
            in("r11") room.as_mut_ptr(),
            in("r13") room.len(),
            out("r12") _,
            clobber_abi("C"),
        )
    }
    Word(word)
}
