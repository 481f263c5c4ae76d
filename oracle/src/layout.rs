//! Bytes that are read or written in their order, so that each layout stands once.

use std::mem;

pub struct Layout<'a> {
    left: &'a mut [u8],
    writing: bool,
}

/// Reads these bytes as a layout says.
pub fn read(bytes: &[u8], lay: impl FnOnce(&mut Layout)) {
    let left = &mut bytes.to_vec()[..];
    lay(&mut Layout { left, writing: false });
}

/// The bytes that a layout writes, 0 where it leaves some out. Nothing of the value changes.
pub fn written(bytes: usize, lay: impl FnOnce(&mut Layout)) -> Vec<u8> {
    let mut out = vec![0; bytes];
    let left = &mut out[..];
    lay(&mut Layout { left, writing: true });
    out
}

impl Layout<'_> {
    /// The next bytes: those given where it writes, those there where it reads.
    pub fn next<const N: usize>(&mut self, given: [u8; N]) -> [u8; N] {
        let (next, left) = mem::take(&mut self.left)
            .split_first_chunk_mut()
            .expect("all bytes are there");
        self.left = left;
        if self.writing {
            *next = given;
        }
        *next
    }

    pub fn bytes<'b>(&mut self, fields: impl IntoIterator<Item = &'b mut u8>) {
        for field in fields {
            [*field] = self.next([*field]);
        }
    }

    pub fn signed(&mut self, field: &mut i8) {
        *field = i8::from_le_bytes(self.next(field.to_le_bytes()));
    }

    pub fn flags<const N: usize>(&mut self, fields: [&mut bool; N]) {
        for field in fields {
            *field = self.next([u8::from(*field)]) != [0];
        }
    }

    /// A mark and the byte, or two zeros.
    pub fn options<const N: usize>(&mut self, fields: [&mut Option<u8>; N]) {
        for field in fields {
            let [mark, byte] = self.next([field.is_some().into(), field.unwrap_or(0)]);
            *field = (mark != 0).then_some(byte);
        }
    }

    pub fn short(&mut self, field: &mut u16) {
        *field = u16::from_le_bytes(self.next(field.to_le_bytes()));
    }

    pub fn number(&mut self, field: &mut u32) {
        *field = u32::from_le_bytes(self.next(field.to_le_bytes()));
    }

    pub fn long(&mut self, field: &mut u64) {
        *field = u64::from_le_bytes(self.next(field.to_le_bytes()));
    }

    pub fn float(&mut self, field: &mut f32) {
        *field = f32::from_le_bytes(self.next(field.to_le_bytes()));
    }
}
