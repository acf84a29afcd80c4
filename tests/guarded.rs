//! Lists in the buffers of `guarded.h`, for what is linked into a program that has
//! them; and where all other lists come from.

use std::alloc::{GlobalAlloc, Layout};
use std::ffi::c_int;

extern "C" {
    fn lend(buffer: c_int, bytes: usize, at_end: bool) -> *mut u8;
    pub fn take_back(buffer: c_int) -> bool;
    pub fn about_to(call: u64);
}

/// A copy of a list in a lent buffer, three times in four at its end. An empty one
/// may have a null pointer.
pub fn lent<T: Copy>(buffer: c_int, list: &[T], how: u64) -> *mut T {
    if list.is_empty() && how & 1 == 0 {
        return std::ptr::null_mut();
    }
    // Safety: the buffer has room for that many bytes, and nobody else writes it.
    unsafe {
        let to = lend(buffer, std::mem::size_of_val(list), how & 6 != 6).cast::<T>();
        std::ptr::copy_nonoverlapping(list.as_ptr(), to, list.len());
        to
    }
}

pub fn returned<T: Copy>(from: *const T, list: &mut [T]) {
    if !list.is_empty() {
        // Safety: `lent` has put as many there.
        unsafe { std::ptr::copy_nonoverlapping(from, list.as_mut_ptr(), list.len()) }
    }
}

/// The oracle makes many small lists. They come from the C library itself: from the
/// address sanitizer they would take half of a driver's time, and it has nothing to
/// see there, since safe code alone uses them and none is lent to the library.
struct Lists;

extern "C" {
    fn __libc_memalign(alignment: usize, size: usize) -> *mut u8;
    fn __libc_malloc(size: usize) -> *mut u8;
    fn __libc_realloc(list: *mut u8, size: usize) -> *mut u8;
    fn __libc_free(list: *mut u8);
}

/// What every list of the C library is aligned to.
const ALIGNED: usize = 16;

// Safety: the C library's functions do what is asked of these.
unsafe impl GlobalAlloc for Lists {
    unsafe fn alloc(&self, layout: Layout) -> *mut u8 {
        if layout.align() <= ALIGNED {
            __libc_malloc(layout.size())
        } else {
            __libc_memalign(layout.align(), layout.size())
        }
    }

    unsafe fn dealloc(&self, list: *mut u8, _: Layout) {
        __libc_free(list)
    }

    unsafe fn realloc(&self, list: *mut u8, layout: Layout, size: usize) -> *mut u8 {
        if layout.align() <= ALIGNED {
            return __libc_realloc(list, size);
        }
        let larger = __libc_memalign(layout.align(), size);
        if !larger.is_null() {
            std::ptr::copy_nonoverlapping(list, larger, layout.size().min(size));
            __libc_free(list);
        }
        larger
    }
}

#[global_allocator]
static LISTS: Lists = Lists;
