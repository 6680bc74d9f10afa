//! Memory that ends: what follows it can't be accessed. Beside the archive's own calls the only
//! unsafe code.

use std::ffi::{c_int, c_void};
use std::io;

/// The bytes of each memory, and the page behind them, on x86-64.
const SIZE: usize = 17 * PAGE;
const PAGE: usize = 4096;

const PROT_NONE: c_int = 0;
const PROT_READ_WRITE: c_int = 3;
const MAP_PRIVATE_ANONYMOUS: c_int = 0x22;

extern "C" {
    fn mmap(
        at: *mut c_void,
        size: usize,
        access: c_int,
        flags: c_int,
        file: c_int,
        offset: i64,
    ) -> *mut c_void;
    fn mprotect(at: *mut c_void, size: usize, access: c_int) -> c_int;
}

/// Bytes that nobody else holds, kept as long as the program runs. A read or write behind the last
/// of them is a fault.
pub fn fenced() -> io::Result<&'static mut [u8]> {
    let whole = SIZE + PAGE;
    let (access, flags) = (PROT_READ_WRITE, MAP_PRIVATE_ANONYMOUS);
    // Sound: the system chooses where, and gives memory that no one else has.
    let at = unsafe { mmap(std::ptr::null_mut(), whole, access, flags, -1, 0) };
    if at as isize == -1 {
        return Err(io::Error::last_os_error());
    }
    let at = at.cast::<u8>();
    // Sound: the last page lies within what was given, and no slice has it.
    if unsafe { mprotect(at.add(SIZE).cast(), PAGE, PROT_NONE) } != 0 {
        return Err(io::Error::last_os_error());
    }
    // Sound: SIZE bytes, readable, writable and zero, that are never given back.
    Ok(unsafe { std::slice::from_raw_parts_mut(at, SIZE) })
}
