// The original's calls, and what it says to them.
use crate::rules::Lines;
use grid::{Grid, Order};
use std::panic::{catch_unwind, AssertUnwindSafe};

#[derive(Clone, Copy, Debug, PartialEq)]
pub enum Axis {
    Row,
    Col,
}

pub const AXES: [Axis; 2] = [Axis::Row, Axis::Col];
pub const ORDERS: [Order; 2] = [Order::RowMajor, Order::ColumnMajor];

// A call that both sides have.
#[derive(Clone)]
pub enum Call<T> {
    Insert(Axis, usize, Vec<T>),
    Remove(Axis, usize),
    Flip(Axis),
    Transpose,
    Put(usize, usize, T),
}

pub fn lines<T>(grid: &Grid<T>, axis: Axis) -> Lines {
    match axis {
        Axis::Row => Lines { count: grid.rows(), len: grid.cols() },
        Axis::Col => Lines { count: grid.cols(), len: grid.rows() },
    }
}

// The grid after a call, and the line that went, if one did.
pub struct After<T> {
    pub grid: Grid<T>,
    pub line: Option<Vec<T>>,
}

// Makes the call on a copy. None is a refusal: a panic, or the original's own None.
pub fn made<T: Clone>(grid: &Grid<T>, call: &Call<T>) -> Option<After<T>> {
    let copy = grid.clone();
    catch_unwind(AssertUnwindSafe(|| apply(copy, call.clone()))).ok()?
}

fn apply<T>(mut grid: Grid<T>, call: Call<T>) -> Option<After<T>> {
    let mut line = None;
    match call {
        Call::Insert(Axis::Row, at, cells) => grid.insert_row(at, cells),
        Call::Insert(Axis::Col, at, cells) => grid.insert_col(at, cells),
        Call::Remove(Axis::Row, at) => line = Some(grid.remove_row(at)?),
        Call::Remove(Axis::Col, at) => line = Some(grid.remove_col(at)?),
        Call::Flip(Axis::Row) => grid.flip_rows(),
        Call::Flip(Axis::Col) => grid.flip_cols(),
        Call::Transpose => grid.transpose(),
        Call::Put(r, c, x) => grid[(r, c)] = x,
    }
    Some(After { grid, line })
}
