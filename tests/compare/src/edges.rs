//! Calls on memory that begins right after, or ends right before, a page that may not be touched:
//! a read or write outside what was lent ends the process, and so does a write to what was lent to
//! be read only.

use crate::calls::*;

extern "C" {
    fn mmap(at: *mut u8, size: usize, access: i32, flags: i32, file: i32, offset: i64) -> *mut u8;
    fn mprotect(at: *mut u8, size: usize, access: i32) -> i32;
    fn munmap(at: *mut u8, size: usize) -> i32;
}

const NO_ACCESS: i32 = 0;
const READ_ONLY: i32 = 1;
const READ_WRITE: i32 = 3;
const PRIVATE_ANONYMOUS: i32 = 0x22;
const PAGE: usize = 4096;

/// Which edge of its pages the memory is at.
#[derive(Clone, Copy)]
pub enum Edge {
    Begin,
    End,
}

/// Memory between two pages that may not be touched.
struct Fenced<T> {
    pages: *mut u8,
    size: usize,
    part: *mut T,
    length: usize,
}

impl<T: Copy> Fenced<T> {
    fn holding(content: &[T], edge: Edge) -> Self {
        let bytes = std::mem::size_of_val(content);
        let inner = bytes.div_ceil(PAGE) * PAGE;
        let size = inner + 2 * PAGE;
        // The fence is made first; only the pages between are opened.
        let pages =
            unsafe { mmap(std::ptr::null_mut(), size, NO_ACCESS, PRIVATE_ANONYMOUS, -1, 0) };
        assert!(!pages.is_null() && pages as isize != -1, "no memory");
        let first = pages.wrapping_add(PAGE);
        if inner > 0 {
            assert_eq!(unsafe { mprotect(first, inner, READ_WRITE) }, 0);
        }
        let part = match edge {
            Edge::Begin => first,
            Edge::End => first.wrapping_add(inner - bytes),
        };
        let mut fenced = Fenced { pages, size, part: part.cast(), length: content.len() };
        fenced.part().copy_from_slice(content);
        fenced
    }

    /// From now on it may only be read.
    fn read_only(self) -> Self {
        let inner = self.size - 2 * PAGE;
        if inner > 0 {
            let first = self.pages.wrapping_add(PAGE);
            assert_eq!(unsafe { mprotect(first, inner, READ_ONLY) }, 0);
        }
        self
    }

    fn part(&mut self) -> &mut [T] {
        unsafe { std::slice::from_raw_parts_mut(self.part, self.length) }
    }

    fn array<const N: usize>(&mut self) -> &mut [T; N] {
        self.part().try_into().expect("lent with this length")
    }
}

impl<T> Drop for Fenced<T> {
    fn drop(&mut self) {
        unsafe { munmap(self.pages, self.size) };
    }
}

/// The calls of another planner, on copies at an edge.
pub struct AtEdge<'a> {
    pub planner: &'a dyn Calls,
    pub edge: Edge,
}

impl AtEdge<'_> {
    fn lend<T: Copy>(&self, content: &[T]) -> Fenced<T> {
        Fenced::holding(content, self.edge)
    }

    fn lend_read_only<T: Copy>(&self, content: &[T]) -> Fenced<T> {
        self.lend(content).read_only()
    }

    /// An advance on copies of what it is lent, by day a roster too.
    fn advanced(&self, handed: Handed, advance: impl FnOnce(Handed)) {
        let Handed { record, buffer, roster, answer } = handed;
        let (mut r, mut b, mut a) = (self.lend(record), self.lend(buffer), self.lend(answer));
        let mut l = roster.as_deref().map(|letters| self.lend(letters));
        let copied = l.as_mut().map(|letters| letters.array());
        advance(Handed { record: r.array(), buffer: b.part(), roster: copied, answer: a.array() });
        record.copy_from_slice(r.part());
        buffer.copy_from_slice(b.part());
        if let (Some(roster), Some(l)) = (roster, &mut l) {
            roster.copy_from_slice(l.part());
        }
        answer.copy_from_slice(a.part());
    }
}

impl Calls for AtEdge<'_> {
    fn read(&self, file: &[u8], numbers: &mut Numbers, answer: &mut Answer) {
        let (mut f, mut n, mut a) =
            (self.lend_read_only(file), self.lend(numbers), self.lend(answer));
        self.planner.read(f.part(), n.array(), a.array());
        numbers.copy_from_slice(n.part());
        answer.copy_from_slice(a.part());
    }

    fn write(&self, numbers: &Numbers, count: u64, buffer: &mut [u8], answer: &mut Answer) {
        let (mut n, mut b, mut a) =
            (self.lend_read_only(numbers), self.lend(buffer), self.lend(answer));
        self.planner.write(n.array(), count, b.part(), a.array());
        buffer.copy_from_slice(b.part());
        answer.copy_from_slice(a.part());
    }

    fn advance_nights(&self, file: &[u8], ask: Ask, handed: Handed) {
        let mut f = self.lend_read_only(file);
        self.advanced(handed, |lent| self.planner.advance_nights(f.part(), ask, lent));
    }

    fn advance_days(&self, file: &[u8], nights: &Nights, ask: Ask, handed: Handed) {
        let (mut f, mut n) = (self.lend_read_only(file), self.lend_read_only(nights));
        self.advanced(handed, |lent| self.planner.advance_days(f.part(), n.array(), ask, lent));
    }

    fn check(&self, file: &[u8], roster: &[u8], answer: &mut Answer) {
        let (mut f, mut l, mut a) =
            (self.lend_read_only(file), self.lend_read_only(roster), self.lend(answer));
        self.planner.check(f.part(), l.part(), a.array());
        answer.copy_from_slice(a.part());
    }

    fn keep(&self, number: u32, stored: Stored) {
        let Stored { record, storage, answer } = stored;
        let (mut r, mut s, mut a) =
            (self.lend_read_only(record), self.lend(storage), self.lend(answer));
        let lent = Stored { record: r.array(), storage: s.part(), answer: a.array() };
        self.planner.keep(number, lent);
        storage.copy_from_slice(s.part());
        answer.copy_from_slice(a.part());
    }

    fn bring_back(&self, number: u32, stored: Stored) {
        let Stored { record, storage, answer } = stored;
        let (mut r, mut s, mut a) =
            (self.lend(record), self.lend_read_only(storage), self.lend(answer));
        let lent = Stored { record: r.array(), storage: s.part(), answer: a.array() };
        self.planner.bring_back(number, lent);
        record.copy_from_slice(r.part());
        answer.copy_from_slice(a.part());
    }
}
