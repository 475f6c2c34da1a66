//! Memory to lend. A lent slice ends right before a guard page, so that a
//! read or a write past its end stops the program; marks stand before it.

use std::ffi::c_void;
use std::slice;

extern "C" {
    fn mmap(at: *mut c_void, size: usize, access: i32, flags: i32, file: i32, offset: i64) -> *mut c_void;
    fn mprotect(at: *mut c_void, size: usize, access: i32) -> i32;
}

const PAGE: usize = 4096;
const MARK: u8 = 0xA7;
const MARKS: usize = 64;

// x86-64 Linux.
const NO_ACCESS: i32 = 0;
const READ_AND_WRITE: i32 = 3;
const PRIVATE_AND_ANONYMOUS: i32 = 0x22;

pub struct Fence {
    start: *mut u8,
    size: usize,
    lent: usize,
}

impl Fence {
    /// Room for slices of at most so many bytes.
    pub fn new(most: usize) -> Fence {
        let size = (most + MARKS).next_multiple_of(PAGE);
        unsafe {
            let start = mmap(std::ptr::null_mut(), size + PAGE, READ_AND_WRITE, PRIVATE_AND_ANONYMOUS, -1, 0).cast::<u8>();
            assert!(start as isize != -1, "no memory");
            assert_eq!(mprotect(start.add(size).cast(), PAGE, NO_ACCESS), 0);
            Fence { start, size, lent: 0 }
        }
    }

    /// A copy of these bytes.
    pub fn lend(&mut self, bytes: &[u8]) -> &mut [u8] {
        assert!(bytes.len() + MARKS <= self.size, "too long to lend");
        self.lent = bytes.len();
        self.part(self.size - bytes.len() - MARKS, MARKS).fill(MARK);
        self.slice().copy_from_slice(bytes);
        self.slice()
    }

    /// What was lent last, as it is now.
    pub fn slice(&mut self) -> &mut [u8] {
        self.part(self.size - self.lent, self.lent)
    }

    /// Whether the marks before the slice still stand.
    pub fn whole(&mut self) -> bool {
        let at = self.size - self.lent - MARKS;
        self.part(at, MARKS).iter().all(|&byte| byte == MARK)
    }

    fn part(&mut self, at: usize, size: usize) -> &mut [u8] {
        assert!(at + size <= self.size);
        unsafe { slice::from_raw_parts_mut(self.start.add(at), size) }
    }
}
