// Calls the original grid crate, which it is linked against, and prints each call with the original's answer. With no argument
// these are the calls of the fixed list; with the word every, every call on every small shape; with a number, as many lists of
// calls drawn by lot.
mod call;
mod every;

use call::Call::{self, *};
use call::{apply, order_name, words, Back, End, Front};
use grid::{Grid, Order};
use std::panic::{catch_unwind, set_hook, AssertUnwindSafe};

const HEAD: &str = "\
# Calls of the original grid crate with its answers, made by compare/record/record. One line is one call:
#   CALL ARGS : CELLS => ANSWER ; ORDER ROWS COLS ; FLAT
# ARGS are an order, indices, sizes and a cell, as the call has them; ': CELLS' stands at the calls that take cells.
# 'same' asks whether the grid is equal to the one that its order, its columns and its cells make.
# 'map-ref' maps the grid by what a cell lacks of the largest number, and asks for the cells of what came.
# 'iter-rows' and 'iter-cols' ask for a line at each letter of a word, f at the front and b at the back.
# ANSWER is ok, panic, none, absent, true, false, 'line CELLS', 'cell X', 'size ROWS COLS', 'lines', then '| CELLS' for each line
# that came and '-' where none did, or 'places', then ROW COL X for each cell in turn.
# ORDER ROWS COLS and FLAT are the grid after the call: its order, its size and what into_vec gives.
# A call that panics is made on a clone, so that the grid is as before it.
# new, init and from-vec begin a fresh grid. Where one panics, the empty grid in its order stands for it.";

const MAX: usize = usize::MAX;
const ORDERS: [Order; 2] = [Order::RowMajor, Order::ColumnMajor];

struct Recorder {
    grid: Grid<u32>,
    seed: u64,
    next: u32,
}

impl Recorder {
    // Makes the call on a clone, keeps the clone unless it panicked, and prints the line.
    fn call(&mut self, call: Call) {
        let mut g = self.grid.clone();
        let answer = catch_unwind(AssertUnwindSafe(|| {
            let answer = apply(&mut g, call.clone());
            (answer, g)
        }));
        let answer = match answer {
            Ok((answer, g)) => {
                self.grid = g;
                answer
            }
            Err(_) => {
                if let New(o, ..) | Init(o, ..) | FromVec(o, ..) = call {
                    self.grid = Grid::new_with_order(0, 0, o);
                }
                "panic".into()
            }
        };
        let g = &self.grid;
        let flat = words(&g.clone().into_vec());
        println!("{call} => {answer} ; {} {} {} ;{flat}", order_name(g.order()), g.rows(), g.cols());
    }

    fn calls(&mut self, calls: &[Call]) {
        for c in calls {
            self.call(c.clone());
        }
    }

    // A number below n.
    fn below(&mut self, n: usize) -> usize {
        self.seed = self.seed.wrapping_mul(6364136223846793005).wrapping_add(1442695040888963407);
        ((self.seed >> 33) % n as u64) as usize
    }

    // Cells that stand nowhere else in the block, the first of a block being 1.
    fn cells(&mut self, n: usize) -> Vec<u32> {
        (0..n).map(|_| { self.next += 1; self.next }).collect()
    }

    fn begin(&mut self, o: Order, rows: usize, cols: usize) {
        self.next = 0;
        let v = self.cells(rows * cols);
        self.call(FromVec(o, cols, v));
    }

    // Each call on an empty grid, and then a line that makes it stand.
    fn empty(&mut self, o: Order) {
        for make in [New(o, 0, 0), New(o, 0, 5), New(o, 5, 0), New(o, 0, MAX), Init(o, 0, 3, 8), Init(o, MAX, 0, 8), FromVec(o, 0, vec![]), FromVec(o, MAX, vec![])] {
            self.calls(&[make, IsEmpty]);
        }
        self.calls(&[FromVec(o, 7, vec![]), Size, IsEmpty, Get(0, 0), Get(MAX, MAX), Put(0, 0, 1), Put(MAX, 0, 1)]);
        for i in [0, 1, MAX] {
            self.calls(&[RemoveRow(i), RemoveCol(i), DeleteRow(i), DeleteCol(i)]);
        }
        self.calls(&[PopRow, PopCol, FlipRows, FlipCols, RotateHalf, Transpose, RotateLeft, RotateRight, Transpose]);
        self.calls(&[InsertRow(1, vec![1, 2]), InsertRow(MAX, vec![1]), InsertRow(0, vec![]), InsertCol(1, vec![1, 2])]);
        self.calls(&[InsertCol(MAX, vec![1]), InsertCol(0, vec![]), PushRow(vec![]), PushCol(vec![])]);
        for call in [InsertRow(0, vec![1, 2, 3]), InsertCol(0, vec![1, 2, 3]), PushRow(vec![1, 2, 3]), PushCol(vec![1, 2, 3])] {
            self.calls(&[New(o, 0, 0), call, Get(0, 2), Get(2, 0), InsertRow(1, vec![4, 5, 6]), InsertCol(1, vec![4, 5, 6])]);
        }
    }

    fn makings(&mut self, o: Order) {
        for (cols, n) in [(3, 5), (0, 4), (7, 3), (MAX, 3), (2, 1), (4, 6)] {
            self.next = 0;
            let v = self.cells(n);
            self.call(FromVec(o, cols, v));
        }
        self.calls(&[New(o, MAX, 2), New(o, 2, MAX), Init(o, MAX, MAX, 7), New(o, 2, 3), Put(1, 0, 9), Get(0, 0)]);
        self.calls(&[Init(o, 3, 2, 7), Put(1, 0, 9), Put(2, 1, 4294967295), Init(o, 1, 1, 5), New(o, 1, 4), New(o, 256, 1), DeleteRow(255), Init(o, 1, 256, 6), PopCol]);
    }

    // Calls that leave the grid as it is, or say no.
    fn edges(&mut self, o: Order, rows: usize, cols: usize) {
        self.begin(o, rows, cols);
        self.calls(&[Size, IsEmpty, Get(0, 0), Get(rows - 1, cols - 1), Get(rows, 0), Get(0, cols), Get(MAX, 0), Get(0, MAX)]);
        self.calls(&[Put(rows - 1, cols - 1, 70), Put(rows, 0, 71), Put(0, cols, 72), Put(0, MAX, 73)]);
        for i in [rows, rows + 1, MAX] {
            self.calls(&[RemoveRow(i), DeleteRow(i)]);
        }
        for i in [cols, cols + 1, MAX] {
            self.calls(&[RemoveCol(i), DeleteCol(i)]);
        }
        for (i, n) in [(rows + 1, cols), (MAX, cols), (0, cols - 1), (rows, cols + 1), (0, 0), (rows + 1, cols + 1)] {
            let v = self.cells(n);
            self.call(InsertRow(i, v));
        }
        for (i, n) in [(cols + 1, rows), (MAX, rows), (0, rows - 1), (cols, rows + 1), (0, 0), (cols + 1, rows + 1)] {
            let v = self.cells(n);
            self.call(InsertCol(i, v));
        }
        for (r, c) in [(rows - 1, cols - 1), (rows + 1, cols + 1), (0, 0)] {
            let (row, col) = (self.cells(c), self.cells(r));
            self.calls(&[PushRow(row), PushCol(col)]);
        }
    }

    // A line in at each place, each on a fresh grid, and out again at each place.
    fn places(&mut self, o: Order, rows: usize, cols: usize) {
        for i in 0..=rows {
            self.begin(o, rows, cols);
            let v = self.cells(cols);
            self.calls(&[InsertRow(i, v), RemoveRow(rows - i)]);
        }
        for i in 0..=cols {
            self.begin(o, rows, cols);
            let v = self.cells(rows);
            self.calls(&[InsertCol(i, v), RemoveCol(cols - i)]);
        }
        for i in 0..rows.max(cols) {
            self.begin(o, rows, cols);
            self.calls(&[DeleteRow(i), DeleteCol(i)]);
        }
    }

    // Lines go until none is left, and one comes again.
    fn emptied(&mut self, o: Order, rows: usize, cols: usize) {
        self.begin(o, rows, cols);
        for i in 0..=rows {
            self.call(if i % 2 == 0 { PopRow } else { RemoveRow(0) });
        }
        self.calls(&[IsEmpty, PushCol(vec![1, 2]), PushRow(vec![3])]);
        self.begin(o, rows, cols);
        for i in 0..=cols {
            self.call(if i % 2 == 0 { RemoveCol(0) } else { PopCol });
        }
        self.calls(&[IsEmpty, InsertRow(0, vec![1, 2]), DeleteCol(1), DeleteRow(0), IsEmpty, PushRow(vec![4])]);
    }

    fn turns(&mut self, o: Order, rows: usize, cols: usize) {
        self.begin(o, rows, cols);
        self.calls(&[Transpose, FlipRows, FlipCols, RotateLeft, RotateRight, RotateHalf, RotateRight, FlipRows, RotateLeft, FlipCols, RotateHalf, Transpose]);
    }

    // Whether the grid is equal to one of the same cells in that order, or to one with another cell last.
    fn same(&mut self, o: Order, other: bool) -> Call {
        let g = &self.grid;
        let (rows, cols) = g.size();
        let mut v: Vec<u32> = match o {
            Order::RowMajor => (0..rows * cols).map(|i| g[(i / cols, i % cols)]).collect(),
            Order::ColumnMajor => (0..rows * cols).map(|i| g[(i % rows, i / rows)]).collect(),
        };
        if let (true, Some(last)) = (other, v.last_mut()) {
            *last += 1;
        }
        Same(o, cols, v)
    }

    fn equals(&mut self, o: Order, rows: usize, cols: usize) {
        self.begin(o, rows, cols);
        let v = self.grid.flatten().clone();
        for p in ORDERS {
            let turned = [Same(p, rows, v.clone()), Same(p, 1, v.clone()), Same(p, 0, vec![])];
            let calls = [self.same(p, false), self.same(p, true)];
            self.calls(&calls);
            self.calls(&turned);
        }
        self.call(Clear);
        let calls = [self.same(Order::RowMajor, false), self.same(Order::ColumnMajor, false), Same(o, 1, vec![1])];
        self.calls(&calls);
    }

    // Blank lines before and after, each on a fresh grid, and as many as there cannot be.
    fn blanks(&mut self, o: Order, rows: usize, cols: usize) {
        for n in [0, 1, 3] {
            self.begin(o, rows, cols);
            self.calls(&[ExpandRows(n), ExpandCols(n)]);
            self.begin(o, rows, cols);
            self.calls(&[PrependRows(n), PrependCols(n)]);
        }
        self.calls(&[ExpandRows(MAX), ExpandCols(MAX), PrependRows(MAX), PrependCols(MAX), Clear, IsEmpty]);
        self.calls(&[ExpandRows(2), ExpandCols(2), PrependRows(2), PrependCols(2), PrependRows(MAX), ExpandCols(MAX)]);
        self.call(PushRow(vec![1, 2]));
    }

    // Cells that change places, and one value for all.
    fn values(&mut self, o: Order, rows: usize, cols: usize) {
        self.begin(o, rows, cols);
        let last = (rows - 1, cols - 1);
        self.calls(&[Swap((0, 0), last), Swap(last, last), Swap((0, cols - 1), (rows - 1, 0))]);
        self.calls(&[Swap((rows, 0), last), Swap((0, cols), last), Swap(last, (rows, 0)), Swap(last, (0, MAX)), Swap((MAX, MAX), (MAX, MAX))]);
        self.calls(&[Fill(7), PushRow(vec![8; cols]), Fill(4294967295), MapRef]);
        self.calls(&[Clear, Clear, Swap((0, 0), (0, 0)), Fill(9), Size, InsertCol(0, vec![1, 2]), Fill(3)]);
    }

    // Along each line and past the last, over the lines from either end and on when none is left, and over the cells.
    fn walks(&mut self, o: Order, rows: usize, cols: usize) {
        self.begin(o, rows, cols);
        self.calls(&(0..=rows).chain([MAX]).map(IterRow).collect::<Vec<Call>>());
        self.calls(&(0..=cols).chain([MAX]).map(IterCol).collect::<Vec<Call>>());
        for first in [Front, Back] {
            for then in [Front, Back] {
                let ends: Vec<End> = (0..rows.max(cols) + 2).map(|k| if k % 2 == 0 { first } else { then }).collect();
                self.calls(&[IterRows(ends.clone()), IterCols(ends)]);
            }
        }
        self.calls(&[IndexedIter, MapRef]);
    }

    // A call drawn by lot. Most are in range; some indices and lengths are off by one.
    fn drawn(&mut self) -> Call {
        let (rows, cols) = (self.grid.rows(), self.grid.cols());
        let off = usize::from(self.below(8) == 0);
        let (row_len, col_len) = (if rows == 0 { 3 } else { cols }, if cols == 0 { 3 } else { rows });
        let (row, col) = (self.cells(row_len + off), self.cells(col_len + off));
        let (i, j) = (self.below(rows + 1), self.below(cols + 1));
        match self.below(33) {
            0 => InsertRow(i, row),
            1 => InsertCol(j, col),
            2 => PushRow(row),
            3 => PushCol(col),
            4 => RemoveRow(i),
            5 => RemoveCol(j),
            6 => PopRow,
            7 => PopCol,
            8 => DeleteRow(i),
            9 => DeleteCol(j),
            10 => Transpose,
            11 => FlipRows,
            12 => FlipCols,
            13 => RotateLeft,
            14 => RotateRight,
            15 => RotateHalf,
            16 => Get(i, j),
            17 => Put(i, j, 9000 + off as u32),
            18 => ExpandRows(self.below(3)),
            19 => ExpandCols(self.below(3)),
            20 => PrependRows(self.below(3)),
            21 => PrependCols(self.below(3)),
            22 => self.same(ORDERS[off], false),
            23 => self.same(ORDERS[1 - off], j == 0),
            24 if off == 1 => Fill(8000),
            25 if off == 1 => Clear,
            26 => IterRow(i),
            27 => IterCol(j),
            28 => IterRows(self.ends(rows + off)),
            29 => IterCols(self.ends(cols + off)),
            30 => IndexedIter,
            31 => MapRef,
            _ => Swap((i, j), (self.below(rows.max(1)), self.below(cols.max(1)))),
        }
    }

    fn ends(&mut self, n: usize) -> Vec<End> {
        (0..n).map(|_| if self.below(2) == 0 { Front } else { Back }).collect()
    }

    fn random(&mut self, o: Order, rows: usize, cols: usize, n: usize) {
        self.begin(o, rows, cols);
        for _ in 0..n {
            let call = self.drawn();
            self.call(call);
        }
    }
}

// The list that stands in crates/recorded.
fn fixed(r: &mut Recorder) {
    for o in ORDERS {
        r.empty(o);
        r.makings(o);
        for (rows, cols) in [(1, 1), (1, 4), (3, 1), (2, 3)] {
            r.edges(o, rows, cols);
        }
        r.places(o, 2, 3);
        r.emptied(o, 3, 2);
        r.turns(o, 2, 3);
        r.turns(o, 5, 4);
        for (rows, cols) in [(1, 1), (2, 3), (3, 2)] {
            r.equals(o, rows, cols);
            r.blanks(o, rows, cols);
            r.values(o, rows, cols);
        }
        for (rows, cols) in [(0, 0), (2, 3)] {
            r.walks(o, rows, cols);
        }
        for (rows, cols) in [(1, 1), (2, 3), (4, 3), (6, 6)] {
            r.random(o, rows, cols, 13);
        }
        r.random(o, 19, 18, 10);
    }
}

fn drawn(r: &mut Recorder, lists: usize) {
    for _ in 0..lists {
        let (o, rows, cols) = (ORDERS[r.below(2)], r.below(9), r.below(9));
        if rows == 0 || cols == 0 {
            r.call(New(o, rows, cols));
        } else {
            r.begin(o, rows, cols);
        }
        for _ in 0..40 {
            let call = r.drawn();
            r.call(call);
        }
    }
}

fn main() {
    set_hook(Box::new(|_| ()));
    println!("{HEAD}");
    let grid = Grid::new_with_order(0, 0, Order::RowMajor);
    let mut r = Recorder { grid, seed: 1, next: 0 };
    match std::env::args().nth(1) {
        None => fixed(&mut r),
        Some(word) if word == "every" => every::every(&mut r),
        Some(lists) => drawn(&mut r, lists.parse().expect("a number of lists")),
    }
}
