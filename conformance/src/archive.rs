//! The shipped static library through its C interface. With the guarded slices of `corpus`, the only
//! unsafe code of the package.

/// Whether the library was there when the package was built.
pub const IS_LINKED: bool = cfg!(not(no_archive));

pub const MISSING: &str = "libnode_c.a is missing: run `bin/node-c` first, or name its \
    folder in NODE_C_DIR";

#[cfg(not(no_archive))]
mod c {
    extern "C" {
        pub fn node_start(
            checkpoint: *const u8,
            checkpoint_length: usize,
            start: *const u8,
            start_length: usize,
            image_out: *mut u8,
            image_out_length: usize,
        ) -> u32;
        pub fn node_deliver(
            image: *const u8,
            image_length: usize,
            announcement: *const u8,
            announcement_length: usize,
            sheet: *const u8,
            sheet_length: usize,
            image_out: *mut u8,
            image_out_length: usize,
        ) -> u32;
        pub fn node_query(
            image: *const u8,
            image_length: usize,
            query: *const u8,
            query_length: usize,
            image_out: *mut u8,
            image_out_length: usize,
        ) -> u32;
        pub fn node_checkpoint(
            image: *const u8,
            image_length: usize,
            checkpoint_out: *mut u8,
            checkpoint_out_length: usize,
        ) -> u32;
        pub fn node_page(
            image: *const u8,
            image_length: usize,
            day: u32,
            page_out: *mut u8,
            page_out_length: usize,
        ) -> u32;
        pub fn node_roster_import(
            roster: *const u8,
            roster_length: usize,
            cycle: u32,
            day: u32,
            announcements_out: *mut u8,
            announcements_out_length: usize,
        ) -> u32;
        pub fn node_roster_export(
            announcement: *const u8,
            announcement_length: usize,
            line_out: *mut u8,
            line_out_length: usize,
        ) -> u32;
        pub fn node_shares_split(
            key: *const u8,
            key_length: usize,
            k: u32,
            n: u32,
            coefficients: *const u8,
            coefficients_length: usize,
            shares_out: *mut u8,
            shares_out_length: usize,
        ) -> u32;
        pub fn node_shares_merge(
            k: u32,
            n: u32,
            numbers: *const u8,
            numbers_length: usize,
            shares: *const u8,
            shares_length: usize,
            key_out: *mut u8,
            key_out_length: usize,
        ) -> u32;
        pub fn node_shares_add(
            shares: *const u8,
            shares_length: usize,
            more_shares: *const u8,
            more_shares_length: usize,
            shares_out: *mut u8,
            shares_out_length: usize,
        ) -> u32;
    }
}

/// What stands in for the library where it is missing. Programs ask `IS_LINKED` before a call; a test
/// that does not ends with the message.
#[cfg(no_archive)]
mod c {
    macro_rules! missing {
        ($($name:ident: $($type:ty),*;)*) => {
            $(pub unsafe fn $name($(_: $type),*) -> u32 {
                panic!("{}", super::MISSING)
            })*
        };
    }

    missing! {
        node_start: *const u8, usize, *const u8, usize, *mut u8, usize;
        node_deliver: *const u8, usize, *const u8, usize, *const u8, usize, *mut u8, usize;
        node_query: *const u8, usize, *const u8, usize, *mut u8, usize;
        node_checkpoint: *const u8, usize, *mut u8, usize;
        node_page: *const u8, usize, u32, *mut u8, usize;
        node_roster_import: *const u8, usize, u32, u32, *mut u8, usize;
        node_roster_export: *const u8, usize, *mut u8, usize;
        node_shares_split: *const u8, usize, u32, u32, *const u8, usize, *mut u8, usize;
        node_shares_merge: u32, u32, *const u8, usize, *const u8, usize, *mut u8, usize;
        node_shares_add: *const u8, usize, *const u8, usize, *mut u8, usize;
    }
}

// Why the ten calls are sound: the header (access_node.h) asks for non-null pointers of the given
// lengths, also where a length is 0, and for slices that do not overlap. A pointer taken from a
// Rust slice is never null and is good for the slice's length. `out` is borrowed exclusively, so it
// shares no byte with an input. The calls keep no pointer, so nothing outlives the borrows.

pub fn node_start(checkpoint: &[u8], start: &[u8], out: &mut [u8]) -> u32 {
    unsafe {
        c::node_start(
            checkpoint.as_ptr(),
            checkpoint.len(),
            start.as_ptr(),
            start.len(),
            out.as_mut_ptr(),
            out.len(),
        )
    }
}

pub fn node_deliver(image: &[u8], announcement: &[u8], sheet: &[u8], out: &mut [u8]) -> u32 {
    unsafe {
        c::node_deliver(
            image.as_ptr(),
            image.len(),
            announcement.as_ptr(),
            announcement.len(),
            sheet.as_ptr(),
            sheet.len(),
            out.as_mut_ptr(),
            out.len(),
        )
    }
}

pub fn node_query(image: &[u8], query: &[u8], out: &mut [u8]) -> u32 {
    unsafe {
        c::node_query(
            image.as_ptr(),
            image.len(),
            query.as_ptr(),
            query.len(),
            out.as_mut_ptr(),
            out.len(),
        )
    }
}

pub fn node_checkpoint(image: &[u8], out: &mut [u8]) -> u32 {
    unsafe { c::node_checkpoint(image.as_ptr(), image.len(), out.as_mut_ptr(), out.len()) }
}

pub fn node_page(image: &[u8], day: u32, out: &mut [u8]) -> u32 {
    unsafe {
        c::node_page(
            image.as_ptr(),
            image.len(),
            day,
            out.as_mut_ptr(),
            out.len(),
        )
    }
}

pub fn node_roster_import(roster: &[u8], cycle: u32, day: u32, out: &mut [u8]) -> u32 {
    unsafe {
        c::node_roster_import(
            roster.as_ptr(),
            roster.len(),
            cycle,
            day,
            out.as_mut_ptr(),
            out.len(),
        )
    }
}

pub fn node_roster_export(announcement: &[u8], out: &mut [u8]) -> u32 {
    unsafe {
        c::node_roster_export(
            announcement.as_ptr(),
            announcement.len(),
            out.as_mut_ptr(),
            out.len(),
        )
    }
}

pub fn node_shares_split(key: &[u8], k: u32, n: u32, coefficients: &[u8], out: &mut [u8]) -> u32 {
    unsafe {
        c::node_shares_split(
            key.as_ptr(),
            key.len(),
            k,
            n,
            coefficients.as_ptr(),
            coefficients.len(),
            out.as_mut_ptr(),
            out.len(),
        )
    }
}

pub fn node_shares_merge(k: u32, n: u32, numbers: &[u8], shares: &[u8], out: &mut [u8]) -> u32 {
    unsafe {
        c::node_shares_merge(
            k,
            n,
            numbers.as_ptr(),
            numbers.len(),
            shares.as_ptr(),
            shares.len(),
            out.as_mut_ptr(),
            out.len(),
        )
    }
}

pub fn node_shares_add(shares: &[u8], more_shares: &[u8], out: &mut [u8]) -> u32 {
    unsafe {
        c::node_shares_add(
            shares.as_ptr(),
            shares.len(),
            more_shares.as_ptr(),
            more_shares.len(),
            out.as_mut_ptr(),
            out.len(),
        )
    }
}
