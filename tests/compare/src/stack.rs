//! Calls on a thread with a small stack: one that needs more ends the process.

use crate::calls::*;
use std::thread;

/// What the C header says is enough.
pub const STACK: usize = 192 * 1024;

pub struct SmallStack<'a> {
    pub planner: &'a dyn Calls,
}

fn with_small_stack(call: impl FnOnce() + Send) {
    thread::scope(|scope| {
        let thread = thread::Builder::new().stack_size(STACK).spawn_scoped(scope, call);
        thread.expect("a thread").join().expect("a call");
    });
}

impl Calls for SmallStack<'_> {
    fn read(&self, file: &[u8], numbers: &mut Numbers, answer: &mut Answer) {
        with_small_stack(|| self.planner.read(file, numbers, answer));
    }

    fn write(&self, numbers: &Numbers, count: u64, buffer: &mut [u8], answer: &mut Answer) {
        with_small_stack(|| self.planner.write(numbers, count, buffer, answer));
    }

    fn advance_nights(&self, file: &[u8], ask: Ask, handed: Handed) {
        with_small_stack(|| self.planner.advance_nights(file, ask, handed));
    }

    fn advance_days(&self, file: &[u8], nights: &Nights, ask: Ask, handed: Handed) {
        with_small_stack(|| self.planner.advance_days(file, nights, ask, handed));
    }

    fn check(&self, file: &[u8], roster: &[u8], answer: &mut Answer) {
        with_small_stack(|| self.planner.check(file, roster, answer));
    }

    fn keep(&self, number: u32, stored: Stored) {
        with_small_stack(|| self.planner.keep(number, stored));
    }

    fn bring_back(&self, number: u32, stored: Stored) {
        with_small_stack(|| self.planner.bring_back(number, stored));
    }
}
