// A scorer's list that is written call by call, and beside each call the answer that the original gives to it.
use crate::cells::{words, Kind};
use crate::original::{lines, made, After, Axis, Call};
use crate::rules::{self, ACCEPTED};
use grid::{Grid, Order};
use std::fmt::Write;

// So many edits may be owed; they are settled before the sheet says no.
const MOST_OWED: usize = 250;

// A call of the list, as a difference names it.
pub struct Made {
    pub shape: String,
    pub call: String,
    pub index: String,
}

pub struct List<T> {
    // what the program reads
    pub text: String,
    pub calls: Vec<Made>,
    // each line that it has to print, and the number of the call that it answers
    pub answers: Vec<(String, usize)>,
    grid: Grid<T>,
    memory: usize,
    owed: usize,
}

fn axis_name(axis: Axis) -> &'static str {
    match axis {
        Axis::Row => "row",
        Axis::Col => "col",
    }
}

pub fn order_name(order: Order) -> &'static str {
    match order {
        Order::RowMajor => "row-major",
        Order::ColumnMajor => "column-major",
    }
}

fn refused(number: u32) -> String {
    format!("refused {number} {}", rules::name(number))
}

impl<T: Kind> List<T> {
    pub fn new() -> List<T> {
        List { text: String::new(), calls: vec![], answers: vec![], grid: Grid::new(0, 0), memory: 0, owed: 0 }
    }

    pub fn grid(&self) -> &Grid<T> {
        &self.grid
    }

    // One more line of the list and the first line of its answer. The first number in it, or the first two, are its index.
    fn line(&mut self, name: &str, index: &str, rest: &str, answer: String) {
        let (rows, cols) = self.grid.size();
        let order = order_name(self.grid.order());
        writeln!(self.text, "{name}{index}{rest}").expect("a string takes it");
        self.answers.push((answer, self.calls.len()));
        self.calls.push(Made {
            shape: format!("{rows} x {cols} {order} over {} cells", self.memory),
            call: format!("{name}{rest}"),
            index: index.trim().into(),
        });
    }

    // A fresh sheet on an empty grid. It must not have more memory than a grid may.
    pub fn begin(&mut self, order: Order, memory: usize, keep: usize) {
        (self.grid, self.memory, self.owed) = (Grid::new_with_order(0, 0, order), memory, 0);
        let made = rules::making(memory, 0, 0);
        let answer = if made == ACCEPTED { "ok".into() } else { refused(made) };
        self.line(&format!("new {} grid {} {memory} stack {keep}", T::NAME, order_name(order)), "", "", answer);
    }

    // The row goes under the rest, before the sheet's first call.
    pub fn start(&mut self, row: Vec<T>) {
        let rest = words(&row);
        let answer = self.answer(&Call::Insert(Axis::Row, self.grid.rows(), row), 0);
        self.line("start", "", &rest, answer);
    }

    // Makes the call; a removal has room for so many cells, or for 256 where none is said.
    pub fn call(&mut self, call: Call<T>, room: Option<usize>) {
        let (name, index, rest) = match &call {
            Call::Insert(axis, at, line) => (format!("insert-{}", axis_name(*axis)), format!(" {at}"), words(line)),
            Call::Remove(axis, at) => {
                let rest = room.map_or(String::new(), |n| format!(" {n}"));
                (format!("remove-{}", axis_name(*axis)), format!(" {at}"), rest)
            }
            Call::Flip(axis) => (format!("flip-{}s", axis_name(*axis)), String::new(), String::new()),
            Call::Transpose => ("transpose".into(), String::new(), String::new()),
            Call::Put(r, c, x) => ("put".into(), format!(" {r} {c}"), format!(" {x}")),
        };
        let before = self.grid.clone();
        let answer = self.answer(&call, room.unwrap_or(256));
        let after = std::mem::replace(&mut self.grid, before);
        self.owed += usize::from(answer.starts_with("ok"));
        self.line(&name, &index, &rest, answer);
        self.grid = after;
        if self.owed == MOST_OWED {
            self.settle();
        }
    }

    // What the original says, in the list's words, or our number where a limit of ours comes first. The original's grid goes on.
    fn answer(&mut self, call: &Call<T>, room: usize) -> String {
        let (rows, cols) = self.grid.size();
        let number = match call {
            Call::Insert(axis, at, line) => rules::insertion(self.memory, lines(&self.grid, *axis), *at, line.len()),
            Call::Remove(axis, at) => rules::removal(lines(&self.grid, *axis), *at, room),
            Call::Put(r, c, _) => rules::putting(rows, cols, *r, *c),
            Call::Flip(_) | Call::Transpose => ACCEPTED,
        };
        let after = made(&self.grid, call);
        if after.is_none() != rules::of_the_original(number) {
            return format!("the rules and the original apart: number {number}, accepted by the original {}", after.is_some());
        }
        match after {
            Some(After { grid, line }) if number == ACCEPTED => {
                self.grid = grid;
                line.map_or("ok".into(), |line| format!("ok line{}", words(&line)))
            }
            _ => refused(number),
        }
    }

    fn settle(&mut self) {
        self.line("publish", "", "", format!("ok settled {}", self.owed));
        self.line("reopen", "", "", "ok".into());
        self.owed = 0;
    }

    pub fn get(&mut self, r: usize, c: usize) {
        let answer = self.grid.get(r, c).map_or("absent".into(), |x| format!("cell {x}"));
        self.line("get", &format!(" {r} {c}"), "", answer);
    }

    pub fn size(&mut self) {
        let (rows, cols) = self.grid.size();
        self.line("size", "", "", format!("size {rows} {cols}"));
    }

    // The size and every cell.
    pub fn show(&mut self) {
        let (rows, cols) = self.grid.size();
        self.line("show", "", "", format!("size {rows} {cols}"));
        for r in 0..rows {
            let row: String = (0..cols).map(|c| format!(" {}", self.grid[(r, c)])).collect();
            self.answers.push((format!("row{row}"), self.calls.len() - 1));
        }
    }
}
