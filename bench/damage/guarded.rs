//! Memory that ends at a page which nobody may touch: a read or write one byte too far ends the program.

use std::ffi::c_void;

const PAGE: usize = 4096;
const NONE: i32 = 0;
const READ_AND_WRITE: i32 = 3;
const PRIVATE_ANONYMOUS: i32 = 0x22;

unsafe extern "C" {
    fn mmap(at: *mut c_void, length: usize, may: i32, how: i32, file: i32, from: i64) -> *mut c_void;
    fn mprotect(at: *mut c_void, length: usize, may: i32) -> i32;
}

pub struct Guarded {
    inner: &'static mut [u8],
}

impl Guarded {
    /// Room for so many bytes, with a page before it and one behind it that nobody may touch.
    pub fn new(room: usize) -> Guarded {
        let room = room.next_multiple_of(PAGE);
        // The three calls are those of the C library; the room lies between the first and the last page of what is given.
        let inner = unsafe {
            let all = mmap(std::ptr::null_mut(), room + 2 * PAGE, NONE, PRIVATE_ANONYMOUS, -1, 0);
            assert_ne!(all as isize, -1, "no memory");
            let inner = all.cast::<u8>().add(PAGE);
            assert_eq!(mprotect(inner.cast(), room, READ_AND_WRITE), 0, "no memory");
            std::slice::from_raw_parts_mut(inner, room)
        };
        Guarded { inner }
    }

    /// The bytes, right before the last page, or right behind the first.
    pub fn put(&mut self, bytes: &[u8], at_end: bool) -> &[u8] {
        let from = if at_end { self.inner.len() - bytes.len() } else { 0 };
        let part = &mut self.inner[from..from + bytes.len()];
        part.copy_from_slice(bytes);
        part
    }
}
