// By which number a call of ours has to refuse. This is docs/RULES.md said once more, in the plainest way, for the calls that
// are compared: it looks neither at our code nor at the original.

pub const MEMORY: u32 = 1;
pub const EMPTY: u32 = 4;
pub const LENGTH: u32 = 5;
pub const PLACE: u32 = 6;
pub const SIDE: u32 = 7;
pub const FULL: u32 = 8;
pub const SHORT: u32 = 9;

pub const ACCEPTED: u32 = 0;

pub const MOST_LINES: usize = 256;
pub const MOST_CELLS: usize = 65_536;

// The lines of a matrix along an axis: how many there are, and how many cells each has.
#[derive(Clone, Copy)]
pub struct Lines {
    pub count: usize,
    pub len: usize,
}

// The first refusal of a call that holds.
fn first(refusals: &[(u32, bool)]) -> u32 {
    refusals.iter().find(|(_, holds)| *holds).map_or(ACCEPTED, |(number, _)| *number)
}

// A grid of that size over that many cells of memory.
pub fn making(memory: usize, rows: usize, cols: usize) -> u32 {
    let some = rows > 0 && cols > 0;
    first(&[
        (MEMORY, memory > MOST_CELLS),
        (SIDE, some && (rows > MOST_LINES || cols > MOST_LINES)),
        (FULL, some && rows.saturating_mul(cols) > memory),
    ])
}

// A line of that length comes in at that place.
pub fn insertion(memory: usize, lines: Lines, at: usize, len: usize) -> u32 {
    first(&[
        (EMPTY, len == 0),
        (LENGTH, lines.count > 0 && len != lines.len),
        (PLACE, at > lines.count),
        (SIDE, lines.count + 1 > MOST_LINES || len > MOST_LINES),
        (FULL, (lines.count + 1) * len > memory),
    ])
}

// The line at that place goes, into memory of that many cells.
pub fn removal(lines: Lines, at: usize, memory: usize) -> u32 {
    first(&[(PLACE, at >= lines.count), (SHORT, memory < lines.len)])
}

// A cell is put.
pub fn putting(rows: usize, cols: usize, r: usize, c: usize) -> u32 {
    first(&[(PLACE, r >= rows || c >= cols)])
}

// Whether the original says no there too, by a panic or by None. At the other numbers it goes on, since it has no such limit.
pub fn of_the_original(number: u32) -> bool {
    matches!(number, EMPTY | LENGTH | PLACE)
}

pub fn name(number: u32) -> &'static str {
    match number {
        MEMORY => "MEMORY",
        EMPTY => "EMPTY",
        LENGTH => "LENGTH",
        PLACE => "PLACE",
        SIDE => "SIDE",
        FULL => "FULL",
        SHORT => "SHORT",
        _ => "of no compared call",
    }
}
