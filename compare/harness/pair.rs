// One grid twice: the original's, and the bytes that a host hands to our library. Each call is made on both and compared.
use crate::difference::Difference;
use crate::guarded::Guarded;
use crate::host::{self, Shape};
use crate::original::{lines, made, After, Axis, Call};
use crate::rules::{self, Lines, ACCEPTED};
use grid::{Grid, Order};

pub struct Pair {
    original: Grid<u8>,
    cells: Guarded,
    shape: Shape,
}

// What a call has to do: the number, and the grid and the line after it where it is accepted.
struct Wanted {
    number: u32,
    after: Option<After<u8>>,
}

fn order(byte: u8) -> Order {
    match byte {
        0 => Order::RowMajor,
        _ => Order::ColumnMajor,
    }
}

// A grid in these bytes; the empty one where the rules make none.
fn laid(cells: &[u8], shape: Shape) -> Grid<u8> {
    let size = match rules::making(cells.len(), shape.rows, shape.cols) {
        ACCEPTED => shape.rows * shape.cols,
        _ => 0,
    };
    Grid::from_vec_with_order(cells[..size].to_vec(), if size == 0 { 0 } else { shape.cols }, order(shape.order))
}

impl Pair {
    pub fn new(cells: &[u8], shape: Shape) -> Pair {
        Pair { original: laid(cells, shape), cells: Guarded::new(cells), shape }
    }

    pub fn lines(&self, axis: Axis) -> Lines {
        lines(&self.original, axis)
    }

    pub fn memory(&self) -> usize {
        self.cells.len()
    }

    // Makes the call on both. `memory` are the bytes that a removal gets for its line. An accepted call stands afterwards.
    // Gives the number that both agree on.
    pub fn compare(&mut self, call: &Call<u8>, memory: &[u8]) -> Result<u32, Difference> {
        let wanted = self.wanted(call, memory.len())?;
        let handed = if let Call::Insert(_, _, line) = call { line } else { memory };
        let mut cells = self.cells.clone();
        let mut line = Guarded::new(handed);
        let number = host::made(&mut cells, self.shape, call, &mut line);
        if number != wanted.number {
            return Err(self.difference(call, memory.len(), wanted.number, number));
        }
        if !cells.guards_stand() || !line.guards_stand() {
            return Err(self.difference(call, memory.len(), "guard bytes that stand", "guard bytes that were written"));
        }
        let flat = wanted.after.as_ref().map_or(self.cells.cells(), |after| after.grid.flatten());
        self.same("cell", call, memory.len(), flat, &cells.cells()[..flat.len()])?;
        let taken = wanted.after.as_ref().and_then(|after| after.line.as_deref()).unwrap_or(&[]);
        let memory_after = [taken, &handed[taken.len()..]].concat();
        self.same("byte of the line", call, memory.len(), &memory_after, line.cells())?;
        if let Some(After { grid, .. }) = wanted.after {
            self.shape = Shape { rows: grid.rows(), cols: grid.cols(), ..self.shape };
            self.original = grid;
            self.cells = cells;
        }
        Ok(number)
    }

    fn wanted(&self, call: &Call<u8>, memory: usize) -> Result<Wanted, Difference> {
        let making = rules::making(self.cells.len(), self.shape.rows, self.shape.cols);
        if making != ACCEPTED {
            return Ok(Wanted { number: making, after: None });
        }
        let number = match call {
            Call::Insert(axis, at, line) => rules::insertion(self.cells.len(), self.lines(*axis), *at, line.len()),
            Call::Remove(axis, at) => rules::removal(self.lines(*axis), *at, memory),
            _ => ACCEPTED,
        };
        let after = made(&self.original, call);
        if after.is_none() != rules::of_the_original(number) {
            let said = if after.is_none() { "refuses" } else { "accepts" };
            return Err(self.difference(call, memory, format!("{number} by the rules"), format!("the original {said}")));
        }
        Ok(Wanted { number, after: after.filter(|_| number == ACCEPTED) })
    }

    // Both slices byte by byte.
    fn same(&self, what: &str, call: &Call<u8>, memory: usize, wanted: &[u8], got: &[u8]) -> Result<(), Difference> {
        match wanted.iter().zip(got).position(|(w, g)| w != g) {
            None => Ok(()),
            Some(i) => Err(self.difference(
                call,
                memory,
                format!("{what} {i} to be {}", wanted[i]),
                format!("{what} {i} is {}", got[i]),
            )),
        }
    }

    fn difference(&self, call: &Call<u8>, memory: usize, wanted: impl ToString, got: impl ToString) -> Difference {
        let Shape { rows, cols, order } = self.shape;
        let function = host::name(call).unwrap_or("none");
        Difference {
            shape: format!("{rows} x {cols} in order {order} over {} cells", self.cells.len()),
            call: match call {
                Call::Insert(_, _, line) => format!("{function} with a line of {} cells", line.len()),
                Call::Remove(..) => format!("{function} with memory of {memory} cells"),
                _ => function.into(),
            },
            index: match call {
                Call::Insert(_, at, _) | Call::Remove(_, at) => at.to_string(),
                _ => "none".into(),
            },
            expected: wanted.to_string(),
            got: got.to_string(),
        }
    }
}
