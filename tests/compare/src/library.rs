//! The proved planner, by its C interface. Nothing checks these declarations against the
//! library's source: the comparison does.

use crate::calls::*;

extern "C" {
    fn pantheryl_read(file: *const u8, file_len: usize, numbers: *mut u64, answer: *mut u64);
    fn pantheryl_write(
        numbers: *const u64,
        count: u64,
        buffer: *mut u8,
        buffer_len: usize,
        answer: *mut u64,
    );
    fn pantheryl_advance_nights(
        file: *const u8,
        file_len: usize,
        record: *mut u32,
        k: u32,
        past_zero: u32,
        buffer: *mut u32,
        buffer_len: usize,
        answer: *mut u64,
    );
    fn pantheryl_advance_days(
        file: *const u8,
        file_len: usize,
        nights: *const u32,
        record: *mut u32,
        k: u32,
        past_zero: u32,
        buffer: *mut u32,
        buffer_len: usize,
        roster: *mut u8,
        answer: *mut u64,
    );
    fn pantheryl_check(
        file: *const u8,
        file_len: usize,
        roster: *const u8,
        roster_len: usize,
        answer: *mut u64,
    );
    fn pantheryl_keep(
        record: *const u32,
        number: u32,
        storage: *mut u32,
        storage_len: usize,
        answer: *mut u64,
    );
    fn pantheryl_return(
        record: *mut u32,
        number: u32,
        storage: *const u32,
        storage_len: usize,
        answer: *mut u64,
    );
}

pub struct Library;

// Each pointer is good for the length that the C header names: the Rust types have it.
impl Calls for Library {
    fn read(&self, file: &[u8], numbers: &mut Numbers, answer: &mut Answer) {
        unsafe {
            pantheryl_read(file.as_ptr(), file.len(), numbers.as_mut_ptr(), answer.as_mut_ptr())
        }
    }

    fn write(&self, numbers: &Numbers, count: u64, buffer: &mut [u8], answer: &mut Answer) {
        unsafe {
            pantheryl_write(
                numbers.as_ptr(),
                count,
                buffer.as_mut_ptr(),
                buffer.len(),
                answer.as_mut_ptr(),
            )
        }
    }

    fn advance_nights(&self, file: &[u8], ask: Ask, handed: Handed) {
        let Handed { record, buffer, answer, .. } = handed;
        unsafe {
            pantheryl_advance_nights(
                file.as_ptr(),
                file.len(),
                record.as_mut_ptr(),
                ask.k,
                ask.past_zero,
                buffer.as_mut_ptr(),
                buffer.len(),
                answer.as_mut_ptr(),
            )
        }
    }

    fn advance_days(&self, file: &[u8], nights: &Nights, ask: Ask, handed: Handed) {
        let Handed { record, buffer, roster, answer } = handed;
        let roster = roster.expect("a day advance is lent a roster");
        unsafe {
            pantheryl_advance_days(
                file.as_ptr(),
                file.len(),
                nights.as_ptr(),
                record.as_mut_ptr(),
                ask.k,
                ask.past_zero,
                buffer.as_mut_ptr(),
                buffer.len(),
                roster.as_mut_ptr(),
                answer.as_mut_ptr(),
            )
        }
    }

    fn check(&self, file: &[u8], roster: &[u8], answer: &mut Answer) {
        unsafe {
            pantheryl_check(
                file.as_ptr(),
                file.len(),
                roster.as_ptr(),
                roster.len(),
                answer.as_mut_ptr(),
            )
        }
    }

    // What a call may only read is lent by a pointer that could be written, so that a library that
    // does so is seen.
    fn keep(&self, number: u32, stored: Stored) {
        let Stored { record, storage, answer } = stored;
        unsafe {
            pantheryl_keep(
                record.as_mut_ptr(),
                number,
                storage.as_mut_ptr(),
                storage.len(),
                answer.as_mut_ptr(),
            )
        }
    }

    fn bring_back(&self, number: u32, stored: Stored) {
        let Stored { record, storage, answer } = stored;
        unsafe {
            pantheryl_return(
                record.as_mut_ptr(),
                number,
                storage.as_mut_ptr(),
                storage.len(),
                answer.as_mut_ptr(),
            )
        }
    }
}
