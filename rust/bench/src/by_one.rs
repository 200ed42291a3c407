//! The two ways to count what is marked, of `marks::by_one`, which is the benchmark's own.
#![allow(unsafe_code)]

mod raw {
    extern "C" {
        pub fn marks_one_by_one(marks: *const u8, length: usize, n: usize) -> u64;
        pub fn marks_by_eight_bytes(marks: *const u8, length: usize, n: usize) -> u64;
    }
}

/// How many of the first n marks are set: one after another.
pub fn one_by_one(marks: &[u8], n: usize) -> u64 {
    // SAFETY: the slice is lent for the call, with its length.
    unsafe { raw::marks_one_by_one(marks.as_ptr(), marks.len(), n) }
}

/// The same, as the library counts for handing out.
pub fn by_eight_bytes(marks: &[u8], n: usize) -> u64 {
    // SAFETY: the slice is lent for the call, with its length.
    unsafe { raw::marks_by_eight_bytes(marks.as_ptr(), marks.len(), n) }
}
