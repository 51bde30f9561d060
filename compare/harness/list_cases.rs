// Which lists the program is run on: all calls on small grids, the limits, and long lists drawn by lot.
use crate::cells::Kind;
use crate::list::List;
use crate::original::{lines, Axis, Call, AXES, ORDERS};
use crate::random::Random;
use grid::Order;

const MAX: usize = usize::MAX;

// A fresh sheet with that grid on it.
fn begun<T: Kind>(list: &mut List<T>, random: &mut Random, order: Order, (rows, cols): (usize, usize), memory: usize, keep: usize) {
    list.begin(order, memory, keep);
    for _ in 0..rows {
        list.start(T::line(random, cols));
    }
}

// 0 to the count and two more, and the largest.
fn indices(count: usize) -> Vec<usize> {
    (0..=count + 2).chain([MAX]).collect()
}

// No cell, one less than there should be, as many, and one more. An empty grid takes any number.
fn lengths(len: usize) -> Vec<usize> {
    match len {
        0 => (0..=4).collect(),
        1 => vec![0, 1, 2],
        _ => vec![0, len - 1, len, len + 1],
    }
}

// Every call with every index on that grid. Lines come in of each length, and go into memory of as many cells.
fn calls<T: Kind>(random: &mut Random, rows: usize, cols: usize) -> Vec<(Call<T>, Option<usize>)> {
    let mut all = vec![(Call::Transpose, None)];
    for r in indices(rows) {
        for c in indices(cols) {
            all.push((Call::Put(r, c, T::drawn(random)), None));
        }
    }
    for (axis, count, len) in [(Axis::Row, rows, cols), (Axis::Col, cols, rows)] {
        all.push((Call::Flip(axis), None));
        for at in indices(count) {
            for n in lengths(len) {
                all.push((Call::Insert(axis, at, T::line(random, n)), None));
                all.push((Call::Remove(axis, at), Some(n)));
            }
            all.push((Call::Remove(axis, at), None));
            all.push((Call::Remove(axis, at), Some(MAX)));
        }
    }
    all
}

// All calls on one shape, each on a fresh sheet, over memory that is exactly full, one short for a row, for a column, and larger.
fn shape<T: Kind>(random: &mut Random, order: Order, rows: usize, cols: usize) -> List<T> {
    let mut list = List::new();
    let full = rows * cols;
    let (row_more, col_more) = (full + cols, full + rows);
    let short = [row_more, col_more].map(|n| n.saturating_sub(1));
    let mut memories = [&[full, full + 1, row_more, col_more, full + 30], &short[..]].concat();
    memories.sort_unstable();
    memories.dedup();
    for memory in memories {
        for (call, room) in calls(random, rows, cols) {
            begun(&mut list, random, order, (rows, cols), memory, rows.max(cols));
            list.call(call, room);
            list.show();
        }
    }
    begun(&mut list, random, order, (rows, cols), full, 0);
    list.size();
    for r in indices(rows) {
        for c in indices(cols) {
            list.get(r, c);
        }
    }
    list
}

// Every shape up to most x most in both orders, a list for each.
pub fn small<T: Kind>(random: &mut Random, most: usize) -> Vec<List<T>> {
    let mut all = vec![];
    for order in ORDERS {
        all.push(shape(random, order, 0, 0));
        for rows in 1..=most {
            for cols in 1..=most {
                all.push(shape(random, order, rows, cols));
            }
        }
    }
    all
}

// Grids at the limits of sides and cells: 0, 1, 255, 256 and 257 lines, and memory that is full, one short, and too much.
pub fn limits<T: Kind>(random: &mut Random) -> Vec<List<T>> {
    let mut all = vec![];
    for order in ORDERS {
        let long = [(255, 1), (1, 255), (256, 1), (1, 256)];
        let large = [(255, 255), (255, 256), (256, 255), (256, 256)];
        for (rows, cols) in [(0, 0), (1, 1)].into_iter().chain(long).chain(large) {
            let full: usize = rows * cols;
            for memory in [full, (full + cols).saturating_sub(1), full + cols, full + rows, 65_536] {
                let mut list = List::new();
                for refused in [65_537, MAX] {
                    list.begin(order, refused, 1);
                }
                begun(&mut list, random, order, (rows, cols), memory.min(65_536), 65_536);
                edges(&mut list, random);
                all.push(list);
            }
        }
    }
    all
}

// Lines in and out at both ends of both axes, of as many cells as there are, and of 255, 256 and 257.
fn edges<T: Kind>(list: &mut List<T>, random: &mut Random) {
    for axis in AXES {
        let now = lines(list.grid(), axis);
        for n in [now.len, 255, 256, 257] {
            for at in [0, now.count, now.count + 1] {
                list.call(Call::Insert(axis, at, T::line(random, n)), None);
                list.size();
            }
        }
        for at in [now.count.wrapping_sub(1), now.count, 256, MAX] {
            list.call(Call::Remove(axis, at), Some(now.len.saturating_sub(1)));
            list.call(Call::Remove(axis, at), Some(now.len));
            list.size();
        }
        list.call(Call::Flip(axis), None);
    }
    list.call(Call::Transpose, None);
    list.show();
}

// One long list of sheets drawn by lot, with sides up to `most`. The cells are asked for after each edit of a small grid, and
// after some of a large one.
pub fn drawn<T: Kind>(random: &mut Random, sheets: usize, edits: usize, most: usize) -> List<T> {
    let mut list = List::new();
    for _ in 0..sheets {
        let (rows, cols) = (random.below(most) + 1, random.below(most) + 1);
        let memory = (rows * cols + random.pick(&[0, 1, most, 4 * most])).min(65_536);
        let order = random.pick(&ORDERS);
        list.begin(order, memory, 65_536);
        for _ in 0..random.below(rows + 1) {
            list.start(T::line(random, cols));
        }
        for _ in 0..edits {
            let (call, room) = edit(&list, random);
            list.call(call, room);
            ask(&mut list, random);
            if most < 20 || random.one_in(16) {
                list.show();
            }
        }
        list.show();
    }
    list
}

// A question, mostly of a cell that is there.
fn ask<T: Kind>(list: &mut List<T>, random: &mut Random) {
    let (rows, cols) = list.grid().size();
    match random.below(6) {
        0 => list.size(),
        _ => list.get(random.below(rows + 1), random.below(cols + 1)),
    }
}

// An edit, mostly one that is accepted, and the room that a removal gets.
fn edit<T: Kind>(list: &List<T>, random: &mut Random) -> (Call<T>, Option<usize>) {
    let axis = random.pick(&AXES);
    let now = lines(list.grid(), axis);
    let past = if random.one_in(12) { random.pick(&[1, 2, 300, MAX / 2]) } else { 0 };
    let off = if random.one_in(12) { random.below(3) } else { 1 };
    let len = if now.count == 0 { 1 + random.below(5) } else { now.len };
    match random.below(8) {
        0 | 1 => {
            let line = T::line(random, (len + off).saturating_sub(1));
            (Call::Insert(axis, random.below(now.count + 1) + past, line), None)
        }
        2 | 3 => {
            let room = random.pick(&[None, Some((len + off).saturating_sub(1))]);
            (Call::Remove(axis, random.below(now.count.max(1)) + past), room)
        }
        4 => (Call::Flip(axis), None),
        5 => (Call::Transpose, None),
        _ => {
            let (rows, cols) = list.grid().size();
            let (r, c) = (random.below(rows.max(1)) + past, random.below(cols.max(1)));
            let (r, c) = random.pick(&[(r, c), (r.min(rows), c + past)]);
            (Call::Put(r, c, T::drawn(random)), None)
        }
    }
}
