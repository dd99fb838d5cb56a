//! This repository's operations, by their numbers.

unsafe extern "C" {
    fn hesc_cow(operation: u32, text: *const u8, length: usize) -> usize;
    fn hesc_string(operation: u32, text: *const u8, length: usize) -> usize;
    fn hesc_value(operation: u32, text: *const u8, length: usize) -> usize;
    fn hesc_append(operation: u32, times: usize, text: *const u8, length: usize) -> usize;
    fn hesc_copy(
        operation: u32,
        text: *const u8,
        length: usize,
        buffer: *mut u8,
        room: usize,
    ) -> usize;
    fn hesc_template(
        is_kept: bool,
        times: usize,
        lines: *const u8,
        length: usize,
        buffer: *mut u8,
        room: usize,
    ) -> usize;
    fn hesc_by_hand(
        is_kept: bool,
        times: usize,
        lines: *const u8,
        length: usize,
        buffer: *mut u8,
        room: usize,
    ) -> usize;
}

/// The greatest growth of a byte.
const GROWTH: usize = 6;

/// More than the markup of a page.
const MARKUP: usize = 1000;

pub fn cow(operation: u32, text: &str) -> usize {
    checked(unsafe { hesc_cow(operation, text.as_ptr(), text.len()) })
}

pub fn string(operation: u32, text: &str) -> usize {
    checked(unsafe { hesc_string(operation, text.as_ptr(), text.len()) })
}

/// By the operation as a value.
pub fn value(operation: u32, text: &str) -> usize {
    checked(unsafe { hesc_value(operation, text.as_ptr(), text.len()) })
}

pub fn append(operation: u32, times: usize, text: &str) -> usize {
    checked(unsafe { hesc_append(operation, times, text.as_ptr(), text.len()) })
}

pub fn copy(operation: u32, text: &str) -> Vec<u8> {
    let mut buffer = vec![0; GROWTH * text.len()];
    let length = checked(unsafe {
        hesc_copy(operation, text.as_ptr(), text.len(), buffer.as_mut_ptr(), buffer.len())
    });
    buffer.truncate(length);
    buffer
}

/// The last of so many pages of twenty slots, by a template.
pub fn template(is_kept: bool, times: usize, lines: &str) -> Vec<u8> {
    page(lines, |buffer, room| unsafe {
        hesc_template(is_kept, times, lines.as_ptr(), lines.len(), buffer, room)
    })
}

/// The same by hand.
pub fn by_hand(is_kept: bool, times: usize, lines: &str) -> Vec<u8> {
    page(lines, |buffer, room| unsafe {
        hesc_by_hand(is_kept, times, lines.as_ptr(), lines.len(), buffer, room)
    })
}

fn page(lines: &str, make: impl Fn(*mut u8, usize) -> usize) -> Vec<u8> {
    let mut buffer = vec![0; GROWTH * lines.len() + MARKUP];
    let length = checked(make(buffer.as_mut_ptr(), buffer.len()));
    buffer.truncate(length);
    buffer
}

fn checked(length: usize) -> usize {
    assert_ne!(length, usize::MAX, "refused");
    length
}
