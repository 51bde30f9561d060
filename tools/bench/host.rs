// Times each call of the host library against the same call of the original's Grid<u8>, in one run.
use grid::{Grid, Order};
use std::hint::black_box;
use std::process::exit;
use std::time::Instant;

extern "C" {
    fn mh_insert_row(cells: *mut u8, n: usize, rows: usize, cols: usize, order: u8, at: usize, line: *const u8, line_n: usize) -> u32;
    fn mh_insert_col(cells: *mut u8, n: usize, rows: usize, cols: usize, order: u8, at: usize, line: *const u8, line_n: usize) -> u32;
    fn mh_remove_row(cells: *mut u8, n: usize, rows: usize, cols: usize, order: u8, at: usize, memory: *mut u8, memory_n: usize) -> u32;
    fn mh_remove_col(cells: *mut u8, n: usize, rows: usize, cols: usize, order: u8, at: usize, memory: *mut u8, memory_n: usize) -> u32;
    fn mh_flip_rows(cells: *mut u8, n: usize, rows: usize, cols: usize, order: u8) -> u32;
    fn mh_flip_cols(cells: *mut u8, n: usize, rows: usize, cols: usize, order: u8) -> u32;
}

const CALLS: [Call; 6] = [Call::InsertRow, Call::InsertCol, Call::RemoveRow, Call::RemoveCol, Call::FlipRows, Call::FlipCols];
const SIDES: [usize; 3] = [16, 64, 256];
// Each place is timed this often, and its best time counts.
const PASSES: usize = 15;
// No call may be slower than the original's; from this ratio on it counts as equal, since two runs differ by so much.
const LEAST: f64 = 0.95;
// A scattered call at the largest side must be this much faster.
const LEAST_SCATTERED: f64 = 5.0;
const LARGEST: usize = 256;

#[derive(Clone, Copy, PartialEq)]
enum Call {
    InsertRow,
    InsertCol,
    RemoveRow,
    RemoveCol,
    FlipRows,
    FlipCols,
}
use Call::*;

impl Call {
    fn name(self) -> &'static str {
        match self {
            InsertRow => "insert_row",
            InsertCol => "insert_col",
            RemoveRow => "remove_row",
            RemoveCol => "remove_col",
            FlipRows => "flip_rows",
            FlipCols => "flip_cols",
        }
    }
}

// One line of the table: a call, an order and the side of the square that it is made on.
struct Case {
    call: Call,
    order: Order,
    side: usize,
}

// What is made before the clock runs: the cells of the square, and the line that goes in.
struct Stock {
    cells: Vec<u8>,
    line: Vec<u8>,
}

impl Case {
    fn row_major(&self) -> bool {
        self.order == Order::RowMajor
    }

    // The cells of a line lie one in each line of the other kind.
    fn scattered(&self) -> bool {
        match self.call {
            InsertRow | RemoveRow => !self.row_major(),
            InsertCol | RemoveCol => self.row_major(),
            FlipRows | FlipCols => false,
        }
    }

    // The size before the call: a line that goes in makes the square whole.
    fn size(&self) -> (usize, usize) {
        match self.call {
            InsertRow => (self.side - 1, self.side),
            InsertCol => (self.side, self.side - 1),
            _ => (self.side, self.side),
        }
    }

    fn least(&self) -> f64 {
        if self.scattered() && self.side == LARGEST { LEAST_SCATTERED } else { LEAST }
    }

    // How many grids stand ready while the clock runs.
    fn together(&self) -> usize {
        (65536 / (self.side * self.side)).clamp(4, 64)
    }

    fn stock(&self) -> Stock {
        let (rows, cols) = self.size();
        let mut x: u32 = 12345;
        let mut next = || {
            x = x.wrapping_mul(1103515245).wrapping_add(12345);
            (x >> 16) as u8
        };
        Stock {
            cells: (0..rows * cols).map(|_| next()).collect(),
            line: (0..self.side).map(|_| next()).collect(),
        }
    }

    // A grid of the original, with room for the line, so that its memory need not grow.
    fn original(&self, stock: &Stock) -> Grid<u8> {
        let mut cells = Vec::with_capacity(self.side * self.side);
        cells.extend_from_slice(&stock.cells);
        Grid::from_vec_with_order(cells, self.size().1, self.order)
    }

    // The memory of one of ours.
    fn ours(&self, stock: &Stock) -> Vec<u8> {
        let mut cells = vec![0; self.side * self.side];
        cells[..stock.cells.len()].copy_from_slice(&stock.cells);
        cells
    }

    // The original's call: it takes a line as a Vec, and gives one.
    #[inline(always)]
    fn call_original(&self, grid: &mut Grid<u8>, at: usize, line: &[u8]) -> Option<Vec<u8>> {
        match self.call {
            InsertRow => grid.insert_row(at, line.to_vec()),
            InsertCol => grid.insert_col(at, line.to_vec()),
            RemoveRow => return grid.remove_row(at),
            RemoveCol => return grid.remove_col(at),
            FlipRows => grid.flip_rows(),
            FlipCols => grid.flip_cols(),
        }
        None
    }

    // Our call: it reads a line where it lies, and writes one into memory.
    #[inline(always)]
    fn call_ours(&self, cells: &mut [u8], at: usize, line: &[u8], memory: &mut [u8]) -> u32 {
        let (rows, cols) = self.size();
        let order = if self.row_major() { 0 } else { 1 };
        let (s, n) = (cells.as_mut_ptr(), cells.len());
        unsafe {
            match self.call {
                InsertRow => mh_insert_row(s, n, rows, cols, order, at, line.as_ptr(), line.len()),
                InsertCol => mh_insert_col(s, n, rows, cols, order, at, line.as_ptr(), line.len()),
                RemoveRow => mh_remove_row(s, n, rows, cols, order, at, memory.as_mut_ptr(), memory.len()),
                RemoveCol => mh_remove_col(s, n, rows, cols, order, at, memory.as_mut_ptr(), memory.len()),
                FlipRows => mh_flip_rows(s, n, rows, cols, order),
                FlipCols => mh_flip_cols(s, n, rows, cols, order),
            }
        }
    }

    // Both calls leave the same cells, and give the same line, at every place.
    fn compare(&self, stock: &Stock) {
        for at in 0..self.side {
            let mut grid = self.original(stock);
            let mut cells = self.ours(stock);
            let mut memory = vec![0; self.side];
            let gone = self.call_original(&mut grid, at, &stock.line);
            let answer = self.call_ours(&mut cells, at, &stock.line, &mut memory);
            let flat = grid.into_vec();
            if answer != 0 || cells[..flat.len()] != flat[..] || gone.is_some_and(|line| line != memory) {
                eprintln!("bench: {} at {at} of side {} differs from the original", self.call.name(), self.side);
                exit(2);
            }
        }
    }

    // Nanoseconds of the original's calls at these places, and of ours.
    fn time(&self, stock: &Stock, places: &[usize]) -> (f64, f64) {
        let mut grids: Vec<_> = places.iter().map(|_| self.original(stock)).collect();
        let start = Instant::now();
        for (grid, &at) in grids.iter_mut().zip(places) {
            black_box(self.call_original(black_box(grid), at, &stock.line));
        }
        let original = start.elapsed();
        let mut memories: Vec<_> = places.iter().map(|_| self.ours(stock)).collect();
        let mut memory = vec![0; self.side];
        let start = Instant::now();
        for (cells, &at) in memories.iter_mut().zip(places) {
            black_box(self.call_ours(black_box(cells), at, &stock.line, &mut memory));
        }
        (original.as_nanos() as f64, start.elapsed().as_nanos() as f64)
    }

    // Nanoseconds of one call of the original and of ours: the mean over all places, each by its best time.
    fn mean(&self) -> (f64, f64) {
        let stock = self.stock();
        self.compare(&stock);
        let together = self.together();
        let places: Vec<usize> = (0..together.max(self.side)).map(|k| k % self.side).collect();
        let mut sum = (0.0, 0.0);
        for some in places.chunks(together) {
            let mut best = (f64::MAX, f64::MAX);
            for _ in 0..PASSES {
                let (original, ours) = self.time(&stock, some);
                best = (best.0.min(original), best.1.min(ours));
            }
            sum = (sum.0 + best.0, sum.1 + best.1);
        }
        (sum.0 / places.len() as f64, sum.1 / places.len() as f64)
    }
}

fn main() {
    println!("| call | order | side | original, ns | ours, ns | ratio |");
    println!("|---|---|---|---|---|---|");
    let mut slow = 0;
    let mut scattered = (0.0, 0.0);
    for call in CALLS {
        for order in [Order::RowMajor, Order::ColumnMajor] {
            for side in SIDES {
                let case = Case { call, order, side };
                let (original, ours) = case.mean();
                let ratio = original / ours;
                let mark = if ratio < case.least() { " too slow" } else { "" };
                let name = if case.row_major() { "row-major" } else { "column-major" };
                println!("| {} | {name} | {side} | {original:.0} | {ours:.0} | {ratio:.2}{mark} |", call.name());
                slow += (ratio < case.least()) as usize;
                if case.scattered() && side == LARGEST {
                    scattered = (scattered.0 + original, scattered.1 + ours);
                }
            }
        }
    }
    println!("\nscattered insertions and removals at side {LARGEST}, all four together: {:.1} times as fast", scattered.0 / scattered.1);
    if slow > 0 {
        eprintln!("bench: {slow} calls are slower than they may be");
        exit(1);
    }
}
