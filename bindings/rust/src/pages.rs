//! Asks the system for huge pages behind a large table, which a fill walks through again and again: fewer entries of the
//! processor's page table then cover it. Where the system has none, nothing changes.

/// Tables of fewer bytes are left as they are.
const LARGE: usize = 8 << 20;

/// A multiple of every page size that Linux has without asking.
const PAGE: usize = 1 << 16;

/// Linux's number for the advice.
const HUGE_PAGES: i32 = 14;

/// Asks for huge pages behind a fresh table, if it is large.
#[cfg(target_os = "linux")]
pub fn ask_for_huge_pages(table: &mut [u64]) {
    use std::ffi::c_void;
    extern "C" {
        fn madvise(start: *mut c_void, bytes: usize, advice: i32) -> i32;
    }
    let bytes = size_of_val(table);
    let start = table.as_mut_ptr().cast::<u8>();
    let before = start.align_offset(PAGE);
    if bytes < LARGE || before >= bytes {
        return;
    }
    let whole = (bytes - before) / PAGE * PAGE;
    // SAFETY: the range starts at a page and lies within the table, which is borrowed. The advice changes no byte of it,
    // and where it is refused nothing is lost.
    unsafe { madvise(start.add(before).cast(), whole, HUGE_PAGES) };
}

/// Other systems are not asked.
#[cfg(not(target_os = "linux"))]
pub fn ask_for_huge_pages(_: &mut [u64]) {}
