//! For tests: the functions by which the archive allocates, of which some requests are refused. They are those of
//! `ilpstream_memory.h`, over malloc and free. (Without the feature `refusing` the archive has its own, which also overwrite a
//! block before they give it back.)

use std::ffi::c_void;
use std::ptr::null_mut;

unsafe extern "C" {
    fn malloc(size: usize) -> *mut c_void;
    fn realloc(at: *mut c_void, size: usize) -> *mut c_void;
    fn free(at: *mut c_void);
    fn malloc_usable_size(at: *mut c_void) -> usize;
}

/// The length of a block, 0 if there is none.
fn length(at: *mut c_void) -> usize {
    // SAFETY: it is a block in use, or null.
    unsafe { malloc_usable_size(at) }
}

/// A block, or that there is none.
#[repr(C)]
struct Tried {
    is_taken: bool,
    at: *mut c_void,
}

/// What the archive is given if there is no block: never read.
static NOTHING: [u64; 2] = [0; 2];

fn tried(at: *mut c_void) -> Tried {
    if at.is_null() {
        Tried {
            is_taken: false,
            at: NOTHING.as_ptr().cast_mut().cast(),
        }
    } else {
        Tried { is_taken: true, at }
    }
}

/// A block of no bytes has the length of its alignment.
#[unsafe(no_mangle)]
extern "C" fn rattle_alloc(size: usize, align: usize) -> Tried {
    if !crate::refusing::admits() {
        return tried(null_mut());
    }
    // SAFETY: any size may be asked for.
    let at = unsafe { malloc(if size == 0 { align } else { size }) };
    crate::refusing::given(length(at));
    tried(at)
}

#[unsafe(no_mangle)]
extern "C" fn rattle_realloc(at: *mut c_void, _kept: usize, size: usize, align: usize) -> Tried {
    if !crate::refusing::admits() {
        return tried(null_mut());
    }
    let before = length(at);
    // SAFETY: the archive passes a block that it took and did not give back.
    let new = unsafe { realloc(at, if size == 0 { align } else { size }) };
    if !new.is_null() {
        crate::refusing::returned(before);
        crate::refusing::given(length(new));
    }
    tried(new)
}

#[unsafe(no_mangle)]
extern "C" fn rattle_dealloc(at: *mut c_void) {
    crate::refusing::returned(length(at));
    // SAFETY: the archive passes a block that it took and did not give back.
    unsafe { free(at) }
}
