//! Mimosahoist from Rust: a program's own bytes as a grid, by safe calls on slices. Link with libhost.a, which `rt lib` in
//! crates/host makes.
//!
//! Each call takes the cells and what they mean: rows, columns and an order. There may be more cells than rows × columns: a
//! line that comes needs room. With no rows or no columns the grid is 0 × 0. A refused call changes nothing. The caller keeps
//! the size, and gives the new one with the next call. After an accepted call the cells beyond those of the new size are free:
//! they may have changed.
#![allow(dead_code)]

use std::error::Error;
use std::fmt;

/// In row-major order the cell at row r and column c is `cells[r * cols + c]`, in column-major order `cells[c * rows + r]`.
#[derive(Clone, Copy, Debug, PartialEq, Eq)]
pub enum Order {
    RowMajor = 0,
    ColumnMajor = 1,
}

/// Why a call did nothing. Every call asks `Memory`, `Side` and `Full` of the grid first, and with no rows or no columns only
/// `Memory`; then come its own refusals, in the order of their numbers.
#[derive(Clone, Copy, Debug, PartialEq, Eq)]
pub enum Refusal {
    /// There are more than 65,536 cells.
    Memory = 1,
    /// The line has no cell.
    Empty = 4,
    /// The grid has lines, and this one is not as long.
    Length = 5,
    /// To insert, `at` is above the count of lines; to remove, it is not below.
    Place = 6,
    /// A side is above 256, or would be.
    Side = 7,
    /// Rows × columns is more than there are cells, or would be.
    Full = 8,
    /// The memory is shorter than the line that goes.
    Short = 9,
}

impl fmt::Display for Refusal {
    fn fmt(&self, f: &mut fmt::Formatter<'_>) -> fmt::Result {
        f.write_str(match self {
            Refusal::Memory => "MEMORY",
            Refusal::Empty => "EMPTY",
            Refusal::Length => "LENGTH",
            Refusal::Place => "PLACE",
            Refusal::Side => "SIDE",
            Refusal::Full => "FULL",
            Refusal::Short => "SHORT",
        })
    }
}

impl Error for Refusal {}

fn answer(number: u32) -> Result<(), Refusal> {
    Err(match number {
        0 => return Ok(()),
        1 => Refusal::Memory,
        4 => Refusal::Empty,
        5 => Refusal::Length,
        6 => Refusal::Place,
        7 => Refusal::Side,
        8 => Refusal::Full,
        9 => Refusal::Short,
        // the contracts name no other number
        _ => unreachable!("libhost.a answered {}", number),
    })
}

// A slice crosses as its pointer and its length. These are the declarations of mimosahoist.h.
#[link(name = "host", kind = "static")]
unsafe extern "C" {
    fn mh_insert_row(
        cells: *mut u8,
        cells_len: usize,
        rows: usize,
        cols: usize,
        order: u8,
        at: usize,
        line: *const u8,
        line_len: usize,
    ) -> u32;
    fn mh_insert_col(
        cells: *mut u8,
        cells_len: usize,
        rows: usize,
        cols: usize,
        order: u8,
        at: usize,
        line: *const u8,
        line_len: usize,
    ) -> u32;
    fn mh_remove_row(
        cells: *mut u8,
        cells_len: usize,
        rows: usize,
        cols: usize,
        order: u8,
        at: usize,
        memory: *mut u8,
        memory_len: usize,
    ) -> u32;
    fn mh_remove_col(
        cells: *mut u8,
        cells_len: usize,
        rows: usize,
        cols: usize,
        order: u8,
        at: usize,
        memory: *mut u8,
        memory_len: usize,
    ) -> u32;
    fn mh_flip_rows(cells: *mut u8, cells_len: usize, rows: usize, cols: usize, order: u8) -> u32;
    fn mh_flip_cols(cells: *mut u8, cells_len: usize, rows: usize, cols: usize, order: u8) -> u32;
}

// SAFETY of all six: a slice's pointer is never null and has its length's bytes, two slices of which one is `&mut` share none,
// and a call asks nothing of its numbers.

/// The line becomes row `at`; later rows move by one. Afterwards there are rows + 1 rows, of `line.len()` cells.
pub fn insert_row(
    cells: &mut [u8],
    rows: usize,
    cols: usize,
    order: Order,
    at: usize,
    line: &[u8],
) -> Result<(), Refusal> {
    answer(unsafe {
        mh_insert_row(
            cells.as_mut_ptr(),
            cells.len(),
            rows,
            cols,
            order as u8,
            at,
            line.as_ptr(),
            line.len(),
        )
    })
}

/// The line becomes column `at`; later columns move by one. Afterwards there are cols + 1 columns, of `line.len()` cells.
pub fn insert_col(
    cells: &mut [u8],
    rows: usize,
    cols: usize,
    order: Order,
    at: usize,
    line: &[u8],
) -> Result<(), Refusal> {
    answer(unsafe {
        mh_insert_col(
            cells.as_mut_ptr(),
            cells.len(),
            rows,
            cols,
            order as u8,
            at,
            line.as_ptr(),
            line.len(),
        )
    })
}

/// Row `at` goes, into the first cells of the memory, the rest of which stays. When the last row goes the grid is 0 × 0.
pub fn remove_row(
    cells: &mut [u8],
    rows: usize,
    cols: usize,
    order: Order,
    at: usize,
    memory: &mut [u8],
) -> Result<(), Refusal> {
    answer(unsafe {
        mh_remove_row(
            cells.as_mut_ptr(),
            cells.len(),
            rows,
            cols,
            order as u8,
            at,
            memory.as_mut_ptr(),
            memory.len(),
        )
    })
}

/// Column `at` goes, into the first cells of the memory, the rest of which stays. When the last column goes the grid is 0 × 0.
pub fn remove_col(
    cells: &mut [u8],
    rows: usize,
    cols: usize,
    order: Order,
    at: usize,
    memory: &mut [u8],
) -> Result<(), Refusal> {
    answer(unsafe {
        mh_remove_col(
            cells.as_mut_ptr(),
            cells.len(),
            rows,
            cols,
            order as u8,
            at,
            memory.as_mut_ptr(),
            memory.len(),
        )
    })
}

/// The last row comes first.
pub fn flip_rows(cells: &mut [u8], rows: usize, cols: usize, order: Order) -> Result<(), Refusal> {
    answer(unsafe { mh_flip_rows(cells.as_mut_ptr(), cells.len(), rows, cols, order as u8) })
}

/// The last column comes first.
pub fn flip_cols(cells: &mut [u8], rows: usize, cols: usize, order: Order) -> Result<(), Refusal> {
    answer(unsafe { mh_flip_cols(cells.as_mut_ptr(), cells.len(), rows, cols, order as u8) })
}
