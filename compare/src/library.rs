//! The library's eleven functions, called on the bytes of a call.

use oracle::calls::{Answer, Call, Function};

/// The crate that links the archive.
use lomqashe as _;

mod raw {
    unsafe extern "C" {
        pub fn lomqashe_measure(a: *const u8, al: usize, b: *mut u8, bl: usize) -> u32;
        pub fn lomqashe_strikes(a: *const u8, al: usize, b: *mut u8, bl: usize) -> u32;
        pub fn lomqashe_line(a: *const u8, al: usize, b: *mut u8, bl: usize) -> u32;
        pub fn lomqashe_read(
            a: *const u8,
            al: usize,
            rate: u32,
            b: *mut u8,
            bl: usize,
            c: *mut u8,
            cl: usize,
            d: *mut u8,
            dl: usize,
            e: *mut u8,
            el: usize,
        ) -> u32;
        pub fn lomqashe_open(
            a: *const u8,
            al: usize,
            b: *const u8,
            bl: usize,
            c: *const u8,
            cl: usize,
            d: *const u8,
            dl: usize,
            e: *mut u8,
            el: usize,
        ) -> u32;
        pub fn lomqashe_head_step(a: *mut u8, al: usize, command: u32, b: *const u8, bl: usize) -> u32;
        pub fn lomqashe_store(a: *const u8, al: usize, m: u32, b: *mut u8, bl: usize) -> u32;
        pub fn lomqashe_restore(a: *const u8, al: usize, m: u32, b: *mut u8, bl: usize) -> u32;
        pub fn lomqashe_is_closed(a: *const u8, al: usize, b: *const u8, bl: usize, c: *const u8, cl: usize) -> u32;
        pub fn lomqashe_open_closed(
            a: *const u8,
            al: usize,
            b: *const u8,
            bl: usize,
            c: *const u8,
            cl: usize,
            d: *const u8,
            dl: usize,
            e: *mut u8,
            el: usize,
        ) -> u32;
        pub fn lomqashe_section(
            a: *const u8,
            al: usize,
            b: *const u8,
            bl: usize,
            c: *const u8,
            cl: usize,
            d: *mut u8,
            dl: usize,
            n: u32,
            e: *mut u8,
            el: usize,
        ) -> u32;
    }
}

pub fn answer(call: &Call) -> Answer {
    let mut slots = call.slots.clone();
    let lengths = call.slots.each_ref().map(Vec::len);
    let [al, bl, cl, dl, el] = lengths;
    let [a, b, c, d, e] = slots.each_mut().map(|slot| slot.as_mut_ptr());
    // SAFETY: the slots are alive, have these lengths, and are apart from each other.
    let number = unsafe {
        match call.function {
            Function::Measure => raw::lomqashe_measure(a, al, b, bl),
            Function::Read => raw::lomqashe_read(a, al, call.number, b, bl, c, cl, d, dl, e, el),
            Function::Open => raw::lomqashe_open(a, al, b, bl, c, cl, d, dl, e, el),
            Function::Section => raw::lomqashe_section(a, al, b, bl, c, cl, d, dl, call.number, e, el),
            Function::Strikes => raw::lomqashe_strikes(a, al, b, bl),
            Function::Line => raw::lomqashe_line(a, al, b, bl),
            Function::IsClosed => raw::lomqashe_is_closed(a, al, b, bl, c, cl),
            Function::OpenClosed => raw::lomqashe_open_closed(a, al, b, bl, c, cl, d, dl, e, el),
            Function::HeadStep => raw::lomqashe_head_step(a, al, call.number, b, bl),
            Function::Store => raw::lomqashe_store(a, al, call.number, b, bl),
            Function::Restore => raw::lomqashe_restore(a, al, call.number, b, bl),
        }
    };
    Answer { number, slots }
}
