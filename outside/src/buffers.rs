//! Memory that is lent to the library, watched on all sides.

use crate::random::Random;

/// Bytes in a heap buffer that ends with them, so that a memory checker sees a read past them. If not exact they start at an odd
/// address at times.
pub struct Lent {
    heap: Box<[u8]>,
    shift: usize,
}

impl Lent {
    pub fn new(random: &mut Random, bytes: &[u8], exact: bool) -> Lent {
        let shift = if exact { 0 } else { random.below(2) };
        let mut heap = Vec::with_capacity(shift + bytes.len());
        heap.resize(shift, 0);
        heap.extend(bytes);
        Lent { heap: heap.into_boxed_slice(), shift }
    }

    pub fn bytes(&self) -> &[u8] {
        &self.heap[self.shift..]
    }
}

/// The bytes watched on each side of an output.
const GUARD: usize = 64;

/// An output full of random bytes, between guards or, in the exact mode, alone in its heap buffer.
pub struct Output {
    heap: Box<[u8]>,
    before: Vec<u8>,
    from: usize,
    len: usize,
}

impl Output {
    pub fn new(random: &mut Random, len: usize, exact: bool) -> Output {
        let from = if exact { 0 } else { GUARD + random.below(16) };
        let behind = if exact { 0 } else { GUARD };
        let before = random.bytes(from + len + behind);
        Output { heap: before.clone().into_boxed_slice(), before, from, len }
    }

    pub fn room(&mut self) -> &mut [u8] {
        &mut self.heap[self.from..self.from + self.len]
    }

    /// "a success writes only the bytes it counts": these from the first on, and no other. Answers the number of bytes compared.
    pub fn holds(mut self, written: &[u8]) -> Result<u64, String> {
        self.before[self.from..self.from + written.len()].copy_from_slice(written);
        if *self.heap == *self.before {
            return Ok(self.heap.len() as u64);
        }
        let differs = |index: &usize| self.heap[*index] != self.before[*index];
        let index = (0..self.heap.len()).find(differs).unwrap_or(0);
        let place = index as i64 - self.from as i64;
        let (found, due) = (self.heap[index], self.before[index]);
        Err(format!(
            "byte {place} of the output is {found:02X}, not {due:02X} (its length {}, to be written {})",
            self.len,
            written.len()
        ))
    }
}
