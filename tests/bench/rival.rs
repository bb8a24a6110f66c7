//! The independent decoder for a C program: what the library is timed beside.

use independent::{read, Page};
use std::{ptr, slice};

/// Reads a stream; gives a null pointer where it is refused.
///
/// # Safety
/// `stream` is valid for `bytes` bytes.
#[no_mangle]
pub unsafe extern "C" fn rival_read(stream: *const u8, bytes: usize) -> *mut Page {
    let stream = slice::from_raw_parts(stream, bytes);
    read(stream, usize::MAX).map_or(ptr::null_mut(), |page| Box::into_raw(Box::new(page)))
}

/// Whether a page has these samples, component by component.
///
/// # Safety
/// `page` is from `rival_read`, and `samples` is valid for `cells` cells.
#[no_mangle]
pub unsafe extern "C" fn rival_agrees(page: *const Page, samples: *const u16, cells: usize) -> bool {
    let samples = slice::from_raw_parts(samples, cells);
    (*page).components.iter().flat_map(|component| &component.samples).eq(samples)
}

/// Gives a page's memory back.
///
/// # Safety
/// `page` is from `rival_read`, and not used afterwards.
#[no_mangle]
pub unsafe extern "C" fn rival_free(page: *mut Page) {
    drop(Box::from_raw(page));
}
