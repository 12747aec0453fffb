//! The library's memory, over malloc, realloc and free: what ../heap.c is for programs in C.

use core::ffi::c_void;
use core::ptr::NonNull;

unsafe extern "C" {
    fn malloc(size: usize) -> *mut c_void;
    fn realloc(block: *mut c_void, size: usize) -> *mut c_void;
    fn free(block: *mut c_void);
}

#[repr(C)]
pub struct Tried {
    ok: bool,
    at: *mut c_void,
}

fn told(at: *mut c_void) -> Tried {
    // Where there is no memory, the pointer is to some byte that nobody reads.
    let byte = NonNull::<c_void>::dangling().as_ptr();
    Tried { ok: !at.is_null(), at: if at.is_null() { byte } else { at } }
}

// SAFETY: the names are those that the library asks for, and nothing else here has them.
#[unsafe(no_mangle)]
unsafe extern "C" fn rattle_alloc(size: usize, align: usize) -> Tried {
    // SAFETY: any size may be asked for.
    told(unsafe { malloc(if size == 0 { align } else { size }) })
}

// SAFETY: as above.
#[unsafe(no_mangle)]
unsafe extern "C" fn rattle_realloc(block: *mut c_void, _kept: usize, size: usize, align: usize) -> Tried {
    // SAFETY: the library hands back a block of these functions'.
    told(unsafe { realloc(block, if size == 0 { align } else { size }) })
}

// SAFETY: as above.
#[unsafe(no_mangle)]
unsafe extern "C" fn rattle_dealloc(block: *mut c_void) {
    // SAFETY: the library hands back a block of these functions'.
    unsafe { free(block) }
}
