// The calls, their text in the list, and what the original answers to them.
use grid::{Grid, Order};
use std::fmt;

// The end of a walk over lines at which it is asked for one.
#[derive(Clone, Copy)]
pub enum End {
    Front,
    Back,
}
pub use End::*;

#[derive(Clone)]
pub enum Call {
    New(Order, usize, usize),
    Init(Order, usize, usize, u32),
    FromVec(Order, usize, Vec<u32>),
    InsertRow(usize, Vec<u32>),
    InsertCol(usize, Vec<u32>),
    PushRow(Vec<u32>),
    PushCol(Vec<u32>),
    RemoveRow(usize),
    RemoveCol(usize),
    PopRow,
    PopCol,
    DeleteRow(usize),
    DeleteCol(usize),
    ExpandRows(usize),
    ExpandCols(usize),
    PrependRows(usize),
    PrependCols(usize),
    Transpose,
    FlipRows,
    FlipCols,
    RotateLeft,
    RotateRight,
    RotateHalf,
    Get(usize, usize),
    Put(usize, usize, u32),
    Swap((usize, usize), (usize, usize)),
    Fill(u32),
    Clear,
    Same(Order, usize, Vec<u32>),
    IsEmpty,
    Size,
    IterRow(usize),
    IterCol(usize),
    IterRows(Vec<End>),
    IterCols(Vec<End>),
    IndexedIter,
    MapRef,
}
use Call::*;

pub fn order_name(o: Order) -> &'static str {
    match o {
        Order::RowMajor => "row-major",
        Order::ColumnMajor => "column-major",
    }
}

pub fn words(cells: &[u32]) -> String {
    cells.iter().map(|x| format!(" {x}")).collect()
}

// A letter for each end, after a space.
fn word(ends: &[End]) -> String {
    let letters: String = ends.iter().map(|end| if matches!(end, Front) { 'f' } else { 'b' }).collect();
    if letters.is_empty() { letters } else { format!(" {letters}") }
}

impl fmt::Display for Call {
    fn fmt(&self, f: &mut fmt::Formatter) -> fmt::Result {
        match self {
            New(o, r, c) => write!(f, "new {} {r} {c}", order_name(*o)),
            Init(o, r, c, x) => write!(f, "init {} {r} {c} {x}", order_name(*o)),
            FromVec(o, c, v) => write!(f, "from-vec {} {c} :{}", order_name(*o), words(v)),
            InsertRow(i, v) => write!(f, "insert-row {i} :{}", words(v)),
            InsertCol(i, v) => write!(f, "insert-col {i} :{}", words(v)),
            PushRow(v) => write!(f, "push-row :{}", words(v)),
            PushCol(v) => write!(f, "push-col :{}", words(v)),
            RemoveRow(i) => write!(f, "remove-row {i}"),
            RemoveCol(i) => write!(f, "remove-col {i}"),
            PopRow => write!(f, "pop-row"),
            PopCol => write!(f, "pop-col"),
            DeleteRow(i) => write!(f, "delete-row {i}"),
            DeleteCol(i) => write!(f, "delete-col {i}"),
            ExpandRows(n) => write!(f, "expand-rows {n}"),
            ExpandCols(n) => write!(f, "expand-cols {n}"),
            PrependRows(n) => write!(f, "prepend-rows {n}"),
            PrependCols(n) => write!(f, "prepend-cols {n}"),
            Transpose => write!(f, "transpose"),
            FlipRows => write!(f, "flip-rows"),
            FlipCols => write!(f, "flip-cols"),
            RotateLeft => write!(f, "rotate-left"),
            RotateRight => write!(f, "rotate-right"),
            RotateHalf => write!(f, "rotate-half"),
            Get(r, c) => write!(f, "get {r} {c}"),
            Put(r, c, x) => write!(f, "put {r} {c} {x}"),
            Swap((r, c), (s, d)) => write!(f, "swap {r} {c} {s} {d}"),
            Fill(x) => write!(f, "fill {x}"),
            Clear => write!(f, "clear"),
            Same(o, c, v) => write!(f, "same {} {c} :{}", order_name(*o), words(v)),
            IsEmpty => write!(f, "is-empty"),
            Size => write!(f, "size"),
            IterRow(i) => write!(f, "iter-row {i}"),
            IterCol(i) => write!(f, "iter-col {i}"),
            IterRows(ends) => write!(f, "iter-rows{}", word(ends)),
            IterCols(ends) => write!(f, "iter-cols{}", word(ends)),
            IndexedIter => write!(f, "indexed-iter"),
            MapRef => write!(f, "map-ref"),
        }
    }
}

fn taken(line: Option<Vec<u32>>) -> String {
    match line {
        Some(v) => format!("line{}", words(&v)),
        None => "none".into(),
    }
}

fn made(g: &mut Grid<u32>, new: Grid<u32>) -> String {
    *g = new;
    "ok".into()
}

fn done(_: ()) -> String {
    "ok".into()
}

fn walked<'a>(line: impl Iterator<Item = &'a u32>) -> String {
    words(&line.copied().collect::<Vec<u32>>())
}

// The lines that come from each of the ends.
fn lines<'a, L: Iterator<Item = &'a u32>>(mut walk: impl DoubleEndedIterator<Item = L>, ends: Vec<End>) -> String {
    let mut text = String::from("lines");
    for end in ends {
        let line = match end {
            Front => walk.next(),
            Back => walk.next_back(),
        };
        text += &line.map_or(" -".into(), |line| format!(" |{}", walked(line)));
    }
    text
}

fn places(g: &Grid<u32>) -> String {
    format!("places{}", g.indexed_iter().map(|((r, c), x)| format!(" {r} {c} {x}")).collect::<String>())
}

// Makes the call, and gives the answer as the list has it.
pub fn apply(g: &mut Grid<u32>, call: Call) -> String {
    match call {
        New(o, r, c) => made(g, Grid::new_with_order(r, c, o)),
        Init(o, r, c, x) => made(g, Grid::init_with_order(r, c, o, x)),
        FromVec(o, c, v) => made(g, Grid::from_vec_with_order(v, c, o)),
        InsertRow(i, v) => done(g.insert_row(i, v)),
        InsertCol(i, v) => done(g.insert_col(i, v)),
        PushRow(v) => done(g.push_row(v)),
        PushCol(v) => done(g.push_col(v)),
        RemoveRow(i) => taken(g.remove_row(i)),
        RemoveCol(i) => taken(g.remove_col(i)),
        PopRow => taken(g.pop_row()),
        PopCol => taken(g.pop_col()),
        DeleteRow(i) => g.delete_row(i).to_string(),
        DeleteCol(i) => g.delete_col(i).to_string(),
        ExpandRows(n) => done(g.expand_rows(n)),
        ExpandCols(n) => done(g.expand_cols(n)),
        PrependRows(n) => done(g.prepend_rows(n)),
        PrependCols(n) => done(g.prepend_cols(n)),
        Transpose => done(g.transpose()),
        FlipRows => done(g.flip_rows()),
        FlipCols => done(g.flip_cols()),
        RotateLeft => done(g.rotate_left()),
        RotateRight => done(g.rotate_right()),
        RotateHalf => done(g.rotate_half()),
        Get(r, c) => match g.get(r, c) {
            Some(x) => format!("cell {x}"),
            None => "absent".into(),
        },
        Put(r, c, x) => done(g[(r, c)] = x),
        Swap(a, b) => done(g.swap(a, b)),
        Fill(x) => done(g.fill(x)),
        Clear => done(g.clear()),
        Same(o, c, v) => (*g == Grid::from_vec_with_order(v, c, o)).to_string(),
        IsEmpty => g.is_empty().to_string(),
        Size => format!("size {} {}", g.rows(), g.cols()),
        IterRow(i) => format!("line{}", walked(g.iter_row(i))),
        IterCol(i) => format!("line{}", walked(g.iter_col(i))),
        IterRows(ends) => lines(g.iter_rows(), ends),
        IterCols(ends) => lines(g.iter_cols(), ends),
        IndexedIter => places(g),
        MapRef => places(&g.map_ref(|x| u32::MAX - x)),
    }
}
