//! Memory that is lent to a call. Every buffer lies in pages of its own between two that can't be touched: it ends at the one behind, or begins at
//! the one before. What is left of its pages holds a pattern, so that a write to it shows too.

use std::ffi::c_void;
use std::os::raw::c_int;

extern "C" {
    fn mmap(at: *mut c_void, length: usize, may: c_int, how: c_int, file: c_int, from: i64) -> *mut c_void;
    fn mprotect(at: *mut c_void, length: usize, may: c_int) -> c_int;
    fn munmap(at: *mut c_void, length: usize) -> c_int;
    fn getpagesize() -> c_int;
}

// The same on x86-64 and on Arm Linux.
const NOTHING: c_int = 0;
const READ: c_int = 1;
const WRITE: c_int = 2;
const PRIVATE_ANONYMOUS: c_int = 0x22;

/// How many bytes beside a buffer are looked at after each call; all others of its pages are at the end of a case.
const NEAR: usize = 256;

/// Where the page lies that can't be touched.
#[derive(Debug, Clone, Copy, PartialEq, Eq)]
pub enum Side {
    /// Right behind the buffer.
    End,
    /// Right before it.
    Begin,
}

/// Numbers of which every pattern of bits is one.
///
/// # Safety
/// The type has no padding, and any bytes are a value of it.
pub unsafe trait Plain: Copy {}
unsafe impl Plain for u8 {}
unsafe impl Plain for i64 {}
unsafe impl Plain for u64 {}

fn bytes_of<T: Plain>(numbers: &[T]) -> &[u8] {
    // Safety: T is plain, and the bytes are those of the slice.
    unsafe { std::slice::from_raw_parts(numbers.as_ptr().cast(), std::mem::size_of_val(numbers)) }
}

/// Pages that one buffer at a time is lent from.
struct Region {
    /// The first byte that may be touched.
    memory: *mut u8,
    capacity: usize,
    pattern: Vec<u8>,
    from: usize,
    length: usize,
    side: Side,
    is_frozen: bool,
    /// Lent since the whole of it was last looked at.
    is_used: bool,
}

fn page() -> usize {
    // Safety: it has no conditions.
    unsafe { getpagesize() as usize }
}

impl Region {
    /// So many bytes, a multiple of the page's.
    fn new(capacity: usize) -> Region {
        let page = page();
        // Safety: new pages, of which those inside are opened.
        let memory = unsafe {
            let outer = mmap(std::ptr::null_mut(), capacity + 2 * page, NOTHING, PRIVATE_ANONYMOUS, -1, 0);
            assert!(outer as isize != -1, "no memory for {capacity} bytes");
            outer.cast::<u8>().add(page)
        };
        let pattern: Vec<u8> = (0..capacity).map(|place| (place * 31 + place / 251 + 0x5A) as u8).collect();
        let region =
            Region { memory, capacity, pattern, from: 0, length: 0, side: Side::End, is_frozen: false, is_used: false };
        region.allow(READ | WRITE);
        // Safety: all of these bytes may be written now, and nothing else is lent there.
        unsafe { std::ptr::copy_nonoverlapping(region.pattern.as_ptr(), memory, capacity) };
        region
    }

    fn allow(&self, may: c_int) {
        // Safety: these pages are the region's own.
        let told = unsafe { mprotect(self.memory.cast(), self.capacity, may) };
        assert!(told == 0, "the pages can't be protected");
    }

    fn freeze(&mut self) {
        if !self.is_frozen {
            self.allow(READ);
            self.is_frozen = true;
        }
    }

    fn thaw(&mut self) {
        if self.is_frozen {
            self.allow(READ | WRITE);
            self.is_frozen = false;
        }
    }

    /// Puts these bytes to the edge, and the pattern to where the last ones were.
    fn put(&mut self, bytes: &[u8], side: Side) {
        self.thaw();
        let (old, last) = (self.from, self.length);
        self.length = bytes.len();
        self.from = match side {
            Side::End => self.capacity - bytes.len(),
            Side::Begin => 0,
        };
        self.side = side;
        self.is_used = true;
        // Safety: both ranges lie in the region, which can be written; what is copied lies elsewhere.
        unsafe {
            std::ptr::copy_nonoverlapping(self.pattern[old..old + last].as_ptr(), self.memory.add(old), last);
            std::ptr::copy_nonoverlapping(bytes.as_ptr(), self.memory.add(self.from), bytes.len());
        }
    }

    /// The buffer's first byte; of an empty one a place that can't be touched.
    fn at(&self) -> *mut u8 {
        match (self.length, self.side) {
            (0, Side::Begin) => self.memory.wrapping_sub(8),
            _ => self.memory.wrapping_add(self.from),
        }
    }

    /// These bytes of the region as they are now.
    fn part(&self, from: usize, to: usize) -> &[u8] {
        assert!(from <= to && to <= self.capacity);
        // Safety: they lie in the region, and nobody writes while it is looked at.
        unsafe { std::slice::from_raw_parts(self.memory.add(from), to - from) }
    }

    /// Whether so many bytes beside the buffer still have the pattern.
    fn is_clean(&self, near: usize) -> bool {
        let end = self.from + self.length;
        let (before, behind) = (self.from.saturating_sub(near), self.capacity.min(end.saturating_add(near)));
        self.part(before, self.from) == &self.pattern[before..self.from]
            && self.part(end, behind) == &self.pattern[end..behind]
    }
}

impl Drop for Region {
    fn drop(&mut self) {
        let page = page();
        // Safety: the pages that were taken, and nobody knows them any more.
        unsafe { munmap(self.memory.sub(page).cast(), self.capacity + 2 * page) };
    }
}

/// A buffer as a call takes it.
#[derive(Debug, Clone, Copy)]
pub struct Lent<T> {
    pub at: *mut T,
    pub length: usize,
}

/// Where buffers of one use come from: regions of a page, two, four and so on, of which the smallest that holds a buffer is taken.
pub struct Shelf {
    regions: Vec<Region>,
    current: usize,
}

impl Shelf {
    /// For buffers of up to so many bytes.
    pub fn new(greatest: usize) -> Shelf {
        let mut regions = vec![Region::new(page())];
        while regions[regions.len() - 1].capacity < greatest {
            let capacity = 2 * regions[regions.len() - 1].capacity;
            regions.push(Region::new(capacity));
        }
        Shelf { regions, current: 0 }
    }

    fn region(&self) -> &Region {
        &self.regions[self.current]
    }

    /// Lends a buffer that holds this; the last one is given back.
    pub fn lend<T: Plain>(&mut self, numbers: &[T], side: Side) -> Lent<T> {
        let bytes = bytes_of(numbers);
        let fitting = self.regions.iter().position(|region| bytes.len() <= region.capacity);
        self.current = fitting.expect("a shelf for buffers of this size");
        self.regions[self.current].put(bytes, side);
        Lent { at: self.region().at().cast(), length: numbers.len() }
    }

    /// Makes the current buffer one that can only be read.
    pub fn freeze(&mut self) {
        self.regions[self.current].freeze();
    }

    pub fn thaw(&mut self) {
        self.regions[self.current].thaw();
    }

    /// The current buffer as it is now.
    pub fn content<T: Plain>(&self) -> &[T] {
        let region = self.region();
        let bytes = region.part(region.from, region.from + region.length);
        assert!(bytes.as_ptr().cast::<T>().is_aligned());
        // Safety: T is plain, and the bytes are aligned for it.
        unsafe { std::slice::from_raw_parts(bytes.as_ptr().cast(), bytes.len() / std::mem::size_of::<T>()) }
    }

    /// Whether the current buffer holds this.
    pub fn holds<T: Plain>(&self, numbers: &[T]) -> bool {
        let region = self.region();
        region.part(region.from, region.from + region.length) == bytes_of(numbers)
    }

    /// Whether nothing right beside the current buffer was written.
    pub fn is_clean(&self) -> bool {
        self.region().is_clean(NEAR)
    }

    /// Whether nothing beside any buffer was written since this was last asked.
    pub fn is_all_clean(&mut self) -> bool {
        self.regions.iter_mut().all(|region| !std::mem::take(&mut region.is_used) || region.is_clean(usize::MAX))
    }
}
