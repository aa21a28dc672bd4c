//! The four exported functions of the static library, over lent bytes with a
//! fence on both sides that nobody may touch.

use second::layout::{LENGTH, ROW_LENGTH};

extern "C" {
    fn cottonsedge_call(tables: *mut u8, length: u64, call: u8, a: i32, b: i32) -> u64;
    fn cottonsedge_boot(tables: *mut u8, length: u64) -> u8;
    fn cottonsedge_check(tables: *const u8, length: u64) -> u8;
    fn cottonsedge_rows(tables: *const u8, length: u64, rows: *mut u8, lent: u64) -> u64;
}

const FENCE: usize = 24;
const PAINT: u8 = 0xa5;

pub struct Lent {
    room: Vec<u8>,
    start: usize,
    length: usize,
}

impl Lent {
    /// Bytes to lend, at an alignment of `shift`.
    pub fn new(bytes: &[u8], shift: usize) -> Lent {
        let start = FENCE + shift;
        let mut room = vec![PAINT; start + bytes.len() + FENCE];
        room[start..start + bytes.len()].copy_from_slice(bytes);
        Lent { room, start, length: bytes.len() }
    }

    pub fn blank(shift: usize) -> Lent {
        Lent::new(&[PAINT; LENGTH], shift)
    }

    pub fn bytes(&self) -> &[u8] {
        &self.room[self.start..self.start + self.length]
    }

    pub fn bytes_mut(&mut self) -> &mut [u8] {
        &mut self.room[self.start..self.start + self.length]
    }

    pub fn fence_untouched(&self) -> bool {
        let behind = &self.room[self.start + self.length..];
        self.room[..self.start].iter().chain(behind).all(|&byte| byte == PAINT)
    }

    pub fn boot(&mut self) -> u8 {
        let lent = self.bytes_mut();
        // SAFETY: the pointer and the length are those of one live slice.
        unsafe { cottonsedge_boot(lent.as_mut_ptr(), lent.len() as u64) }
    }

    pub fn call(&mut self, call: u8, a: i32, b: i32) -> u64 {
        let lent = self.bytes_mut();
        // SAFETY: the pointer and the length are those of one live slice.
        unsafe { cottonsedge_call(lent.as_mut_ptr(), lent.len() as u64, call, a, b) }
    }

    pub fn check(&self) -> u8 {
        let lent = self.bytes();
        // SAFETY: the pointer and the length are those of one live slice.
        unsafe { cottonsedge_check(lent.as_ptr(), lent.len() as u64) }
    }

    /// The status page of these tables in rows that are lent too. The tables may be
    /// written here, so that a library that does so can be found.
    pub fn page(&mut self, rows: &mut Lent) -> u64 {
        let (lent, rows) = (self.bytes_mut(), rows.bytes_mut());
        let number = (rows.len() / ROW_LENGTH) as u64;
        // SAFETY: the pointers and the lengths are those of two live slices; a row has any alignment.
        unsafe { cottonsedge_rows(lent.as_mut_ptr(), lent.len() as u64, rows.as_mut_ptr(), number) }
    }
}
