//! A buffer with guard bytes before and after it.

use crate::case::Lent;

/// Guard bytes on each side.
pub const GUARD_LEN: usize = 64;
const GUARD: u8 = 0xa5;

/// A buffer to lend to the library, inside a larger one.
pub struct Guarded {
    bytes: Vec<u8>,
    start: usize,
    len: usize,
    null: bool,
}

impl Guarded {
    /// An empty buffer.
    pub fn new() -> Guarded {
        Guarded {
            bytes: Vec::new(),
            start: 0,
            len: 0,
            null: false,
        }
    }

    /// Takes over what is lent, this far from an aligned address, with fresh guards.
    pub fn fill(&mut self, lent: &Lent, shift: usize) {
        let room = lent.bytes.len() + 2 * GUARD_LEN + 32;
        if self.bytes.len() < room {
            self.bytes.resize(room, 0);
        }
        self.start = GUARD_LEN + self.bytes.as_ptr().align_offset(16) + shift % 16;
        self.len = lent.bytes.len();
        self.null = lent.null;
        let end = self.start + self.len;
        self.bytes[self.start - GUARD_LEN..self.start].fill(GUARD);
        self.bytes[self.start..end].copy_from_slice(&lent.bytes);
        self.bytes[end..end + GUARD_LEN].fill(GUARD);
    }

    /// The buffer without its guards.
    pub fn bytes(&self) -> &[u8] {
        &self.bytes[self.start..self.start + self.len]
    }

    /// Whether both guards are as they were.
    pub fn intact(&self) -> bool {
        let end = self.start + self.len;
        let before = &self.bytes[self.start - GUARD_LEN..self.start];
        let after = &self.bytes[end..end + GUARD_LEN];
        before.iter().chain(after).all(|&byte| byte == GUARD)
    }

    /// The pointer and length to give to the library.
    pub fn lend(&mut self) -> (*mut u8, usize) {
        if self.null {
            (std::ptr::null_mut(), 0)
        } else {
            (self.bytes.as_mut_ptr().wrapping_add(self.start), self.len)
        }
    }
}
