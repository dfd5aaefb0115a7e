//! Physical memory. Addresses up to 2^40 stand at a fixed distance from their
//! place in a reserved stretch of this process, as the kernel's own map of
//! physical memory does. Only the regions of the boot map can be touched, and
//! every byte of theirs starts as [FILLER].

use std::{
    ffi::{c_char, c_int, c_void},
    fs::File,
    io::Write,
    ops::Range,
    os::fd::{AsRawFd, FromRawFd},
    ptr::null_mut,
    sync::OnceLock,
};

/// Managed bytes start with this value.
pub const FILLER: u8 = 165;

/// Addresses end here.
pub const LIMIT: u64 = 1 << 40;

/// Regions are mapped in pieces of at most this size.
const PIECE: u64 = 1 << 21;

static BASE: OnceLock<usize> = OnceLock::new();

extern "C" {
    fn mmap(
        at: *mut c_void,
        length: usize,
        rights: c_int,
        how: c_int,
        file: c_int,
        from: i64,
    ) -> *mut c_void;
    fn memfd_create(name: *const c_char, flags: u32) -> c_int;
}

// Linux's numbers, the same on the machines that the kernel knows.
const PROT_NONE: c_int = 0;
const PROT_READ_WRITE: c_int = 1 | 2;
const MAP_PRIVATE: c_int = 2;
const MAP_FIXED: c_int = 0x10;
const MAP_ANONYMOUS: c_int = 0x20;
const MAP_NORESERVE: c_int = 0x4000;

/// Sets up the memory of the regions. The same file of fillers lies behind all
/// their pieces, copied only where it is written, so that a region of gigabytes
/// costs neither time nor memory.
pub fn set_up(regions: &[Range<u64>]) {
    let reserved = map(null_mut(), LIMIT, PROT_NONE, MAP_ANONYMOUS, -1);
    BASE.set(reserved as usize).expect("one boot for each process");
    let longest = regions.iter().map(|region| region.end - region.start).max().unwrap_or(0);
    let fillers = file_of_fillers(longest.min(PIECE));
    for region in regions {
        for start in region.clone().step_by(PIECE as usize) {
            let length = (region.end - start).min(PIECE);
            map(pointer(start).cast(), length, PROT_READ_WRITE, MAP_FIXED, fillers.as_raw_fd());
        }
    }
}

/// Where a physical address stands in this process.
pub fn pointer(address: u64) -> *mut u8 {
    (BASE.get().expect("memory is set up") + address as usize) as *mut u8
}

/// The bytes of a range, which must lie in one region.
pub fn bytes(address: u64, length: u64) -> &'static mut [u8] {
    // Safety: one thread runs at a time, and callers keep no slice for long.
    unsafe { std::slice::from_raw_parts_mut(pointer(address), length as usize) }
}

fn map(at: *mut c_void, length: u64, rights: c_int, how: c_int, file: c_int) -> *mut c_void {
    let how = how | MAP_PRIVATE | MAP_NORESERVE;
    // Safety: a fixed place lies inside the reserved stretch.
    let mapped = unsafe { mmap(at, length as usize, rights, how, file, 0) };
    assert!(mapped as isize != -1, "mmap: {}", std::io::Error::last_os_error());
    mapped
}

fn file_of_fillers(length: u64) -> File {
    // Safety: the name ends with a zero byte, and the descriptor is ours alone.
    let mut file = unsafe {
        let descriptor = memfd_create(c"fillers".as_ptr(), 0);
        assert!(descriptor >= 0, "memfd_create: {}", std::io::Error::last_os_error());
        File::from_raw_fd(descriptor)
    };
    file.write_all(&vec![FILLER; length as usize]).expect("room for the fillers");
    file
}
