// A slice between guard bytes, which no call may touch.

const GUARD: usize = 64;
const BYTE: u8 = 0xA5;

#[derive(Clone)]
pub struct Guarded {
    bytes: Vec<u8>,
}

impl Guarded {
    pub fn new(cells: &[u8]) -> Guarded {
        let guard = [BYTE; GUARD];
        Guarded { bytes: [&guard, cells, &guard].concat() }
    }

    pub fn len(&self) -> usize {
        self.bytes.len() - 2 * GUARD
    }

    pub fn cells(&self) -> &[u8] {
        &self.bytes[GUARD..GUARD + self.len()]
    }

    pub fn pointer(&mut self) -> *mut u8 {
        self.bytes[GUARD..].as_mut_ptr()
    }

    pub fn guards_stand(&self) -> bool {
        let (before, rest) = self.bytes.split_at(GUARD);
        let after = &rest[self.len()..];
        before.iter().chain(after).all(|b| *b == BYTE)
    }
}
