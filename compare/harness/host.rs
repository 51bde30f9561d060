// The functions of the host library, as a C program sees them.
use crate::guarded::Guarded;
use crate::original::{Axis, Call};

#[rustfmt::skip]
extern "C" {
    fn mh_insert_row(cells: *mut u8, cells_len: usize, rows: usize, cols: usize, order: u8, at: usize, line: *const u8, line_len: usize) -> u32;
    fn mh_insert_col(cells: *mut u8, cells_len: usize, rows: usize, cols: usize, order: u8, at: usize, line: *const u8, line_len: usize) -> u32;
    fn mh_remove_row(cells: *mut u8, cells_len: usize, rows: usize, cols: usize, order: u8, at: usize, memory: *mut u8, memory_len: usize) -> u32;
    fn mh_remove_col(cells: *mut u8, cells_len: usize, rows: usize, cols: usize, order: u8, at: usize, memory: *mut u8, memory_len: usize) -> u32;
    fn mh_flip_rows(cells: *mut u8, cells_len: usize, rows: usize, cols: usize, order: u8) -> u32;
    fn mh_flip_cols(cells: *mut u8, cells_len: usize, rows: usize, cols: usize, order: u8) -> u32;
}

// How a host hands a grid over: its size and order as numbers.
#[derive(Clone, Copy)]
pub struct Shape {
    pub rows: usize,
    pub cols: usize,
    pub order: u8,
}

// The name of the call's function; none for a call that the host library does not have.
pub fn name(call: &Call<u8>) -> Option<&'static str> {
    match call {
        Call::Insert(Axis::Row, ..) => Some("mh_insert_row"),
        Call::Insert(Axis::Col, ..) => Some("mh_insert_col"),
        Call::Remove(Axis::Row, _) => Some("mh_remove_row"),
        Call::Remove(Axis::Col, _) => Some("mh_remove_col"),
        Call::Flip(Axis::Row) => Some("mh_flip_rows"),
        Call::Flip(Axis::Col) => Some("mh_flip_cols"),
        Call::Transpose | Call::Put(..) => None,
    }
}

// Makes the call. `line` is the line that comes in, or the memory for one that goes; a flip has none.
pub fn made(cells: &mut Guarded, shape: Shape, call: &Call<u8>, line: &mut Guarded) -> u32 {
    let (n, len) = (cells.len(), line.len());
    let (cells, line) = (cells.pointer(), line.pointer());
    let Shape { rows, cols, order } = shape;
    // each pointer is that of a slice of the length beside it, and no two slices overlap
    unsafe {
        match *call {
            Call::Insert(Axis::Row, at, _) => mh_insert_row(cells, n, rows, cols, order, at, line, len),
            Call::Insert(Axis::Col, at, _) => mh_insert_col(cells, n, rows, cols, order, at, line, len),
            Call::Remove(Axis::Row, at) => mh_remove_row(cells, n, rows, cols, order, at, line, len),
            Call::Remove(Axis::Col, at) => mh_remove_col(cells, n, rows, cols, order, at, line, len),
            Call::Flip(Axis::Row) => mh_flip_rows(cells, n, rows, cols, order),
            Call::Flip(Axis::Col) => mh_flip_cols(cells, n, rows, cols, order),
            Call::Transpose | Call::Put(..) => unreachable!("no call of the host library"),
        }
    }
}
