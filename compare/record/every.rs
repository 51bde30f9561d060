// Every call on every shape up to 4 x 4 in both orders, with every index and with lines of every length that matters.
use crate::call::{Back, Call, Call::*, End, Front};
use crate::{Recorder, MAX, ORDERS};
use grid::{Grid, Order};

const SIDE: usize = 4;

pub fn every(r: &mut Recorder) {
    for o in ORDERS {
        makings(r, o);
        on_shape(r, o, 0, 0);
        for rows in 1..=SIDE {
            for cols in 1..=SIDE {
                on_shape(r, o, rows, cols);
            }
        }
    }
}

// Every size of the makings, and all counts of cells with all columns; each makes a grid of its own.
fn makings(r: &mut Recorder, o: Order) {
    for rows in indices(SIDE) {
        for cols in indices(SIDE) {
            r.calls(&[New(o, rows, cols), Init(o, rows, cols, 7)]);
        }
    }
    for n in 0..=SIDE * SIDE + 1 {
        for cols in indices(n.max(SIDE)) {
            r.call(FromVec(o, cols, line(n)));
        }
    }
}

// Every call on that shape, each on a fresh grid.
fn on_shape(r: &mut Recorder, o: Order, rows: usize, cols: usize) {
    let mut shape = Shape { r, o, rows, cols };
    shape.lines();
    shape.turns();
    shape.cells();
    shape.swaps();
    shape.equals();
    shape.walks();
}

// A shape, its order and the recorder.
struct Shape<'a> {
    r: &'a mut Recorder,
    o: Order,
    rows: usize,
    cols: usize,
}

impl Shape<'_> {
    // A fresh grid of this shape, unless one stands there as it was made.
    fn fresh(&mut self) {
        let flat: Vec<u32> = (1..=(self.rows * self.cols) as u32).collect();
        let g = &self.r.grid;
        if g.order() != self.o || g.size() != (self.rows, self.cols) || *g.flatten() != flat {
            self.r.begin(self.o, self.rows, self.cols);
        }
    }

    fn each(&mut self, calls: impl IntoIterator<Item = Call>) {
        for call in calls {
            self.fresh();
            self.r.call(call);
        }
    }

    // Lines that come and go.
    fn lines(&mut self) {
        let (rows, cols) = (self.rows, self.cols);
        for i in indices(rows) {
            self.each(lengths(cols).map(|n| InsertRow(i, line(n))));
            self.each([RemoveRow(i), DeleteRow(i)]);
        }
        for i in indices(cols) {
            self.each(lengths(rows).map(|n| InsertCol(i, line(n))));
            self.each([RemoveCol(i), DeleteCol(i)]);
        }
        self.each(lengths(cols).map(|n| PushRow(line(n))));
        self.each(lengths(rows).map(|n| PushCol(line(n))));
        self.each([PopRow, PopCol]);
        for n in [0, 1, 2, MAX] {
            self.each([ExpandRows(n), ExpandCols(n), PrependRows(n), PrependCols(n)]);
        }
    }

    fn turns(&mut self) {
        self.each([Transpose, FlipRows, FlipCols, RotateLeft, RotateRight, RotateHalf, Fill(9), Clear, IsEmpty, Size]);
    }

    fn cells(&mut self) {
        for r in indices(self.rows) {
            for c in indices(self.cols) {
                self.each([Get(r, c), Put(r, c, 99)]);
            }
        }
    }

    // Each place with each, up to one beyond the last, and with the largest number at each side of one place.
    fn swaps(&mut self) {
        let (rows, cols) = (self.rows, self.cols);
        let places = move || (0..=rows).flat_map(move |r| (0..=cols).map(move |c| (r, c)));
        for a in places() {
            self.each(places().map(|b| Swap(a, b)));
            for far in [(MAX, a.1), (a.0, MAX)] {
                self.each([Swap(a, far), Swap(far, a)]);
            }
        }
        self.each([Swap((MAX, MAX), (MAX, MAX))]);
    }

    // Whether the grid is equal to itself in either order, with any one cell changed, and to all shapes of its flat cells, also
    // of one line fewer or more.
    fn equals(&mut self) {
        let (rows, cols) = (self.rows, self.cols);
        self.fresh();
        for p in ORDERS {
            let same = in_order(&self.r.grid, p);
            self.each([Same(p, cols, same.clone())]);
            for k in 0..same.len() {
                let mut other = same.clone();
                other[k] += 100;
                self.each([Same(p, cols, other)]);
            }
            for n in [0, same.len().saturating_sub(cols), same.len().saturating_sub(rows), same.len(), same.len() + rows, same.len() + cols] {
                let flat: Vec<u32> = (1..=n as u32).collect();
                self.each((1..=n.max(1)).filter(|c| n % c == 0).map(|c| Same(p, c, flat.clone())));
            }
        }
    }

    // Along every line, over the lines from the ends in every order until none has come twice, over the cells, and the grid mapped.
    fn walks(&mut self) {
        let (rows, cols) = (self.rows, self.cols);
        self.each(indices(rows).map(IterRow));
        self.each(indices(cols).map(IterCol));
        self.each(words(rows + 2).map(IterRows));
        self.each(words(cols + 2).map(IterCols));
        self.each([IterRows(vec![]), IterCols(vec![]), IndexedIter, MapRef]);
    }
}

// Every index up to one above the count, and the largest number.
fn indices(count: usize) -> impl Iterator<Item = usize> {
    (0..=count + 1).chain([MAX])
}

// No cells, one less than the count, as many, and one more; of an empty grid, where any count is right, a few.
fn lengths(count: usize) -> impl Iterator<Item = usize> {
    let all = if count == 0 { vec![0, 1, 2, 5] } else { vec![count - 1, count, count + 1] };
    let none = if count > 1 { vec![0] } else { vec![] };
    none.into_iter().chain(all)
}

// Cells that stand in no grid of these shapes.
fn line(n: usize) -> Vec<u32> {
    (0..n as u32).map(|k| 101 + k).collect()
}

// The grid's cells as they lie in that order.
fn in_order(g: &Grid<u32>, p: Order) -> Vec<u32> {
    match p {
        Order::RowMajor => g.iter_rows().flatten().copied().collect(),
        Order::ColumnMajor => g.iter_cols().flatten().copied().collect(),
    }
}

// Every choice of so many ends.
fn words(n: usize) -> impl Iterator<Item = Vec<End>> {
    (0..1usize << n).map(move |k| (0..n).map(|i| if k >> i & 1 == 0 { Front } else { Back }).collect())
}
