// Which host calls are compared: all on small grids, the limits, and long lists drawn by lot.
use crate::difference::Difference;
use crate::host::Shape;
use crate::original::{Axis, Call, AXES};
use crate::pair::Pair;
use crate::random::Random;
use crate::tally::Tally;

type Compared = Result<Tally, Difference>;

// Numbers beside n, and far from it. Those below 0 wrap round to the largest.
fn beside(n: usize) -> [usize; 3] {
    [n.wrapping_sub(1), n, n.wrapping_add(1)]
}

fn sorted(mut numbers: Vec<usize>) -> Vec<usize> {
    numbers.sort_unstable();
    numbers.dedup();
    numbers
}

// Every call, each on a fresh grid of that shape.
struct Grids<'a> {
    random: &'a mut Random,
    shape: Shape,
    memory: usize,
    compared: &'a mut Tally,
}

impl Grids<'_> {
    fn call(&mut self, call: Call<u8>, memory: usize) -> Result<(), Difference> {
        let cells = self.random.bytes(self.memory);
        let memory = self.random.bytes(memory);
        let number = Pair::new(&cells, self.shape).compare(&call, &memory)?;
        self.compared.count(number);
        Ok(())
    }

    // All calls with those indices. Lines in have the right length, one more, one less and none; memory is full, short and roomy.
    fn calls(&mut self, axis: Axis, indices: &[usize]) -> Result<(), Difference> {
        let across = if axis == Axis::Row { self.shape.cols } else { self.shape.rows };
        let lens: Vec<usize> = sorted([0, 1].into_iter().chain(beside(across)).filter(|n| *n <= 258).collect());
        for &at in indices {
            for &len in &lens {
                let line = self.random.bytes(len);
                self.call(Call::Insert(axis, at, line), 0)?;
                self.call(Call::Remove(axis, at), len)?;
            }
            self.call(Call::Remove(axis, at), 300)?;
        }
        self.call(Call::Flip(axis), 0)
    }
}

// Every shape up to most x most, over memory that is exactly full before and after an insertion, one short, and larger.
pub fn small(random: &mut Random, most: usize) -> Compared {
    let mut compared = Tally::default();
    for rows in 0..=most {
        for cols in 0..=most {
            let (full, row_more, col_more) = (rows * cols, (rows + 1) * cols, rows * (cols + 1));
            let memories = [full, row_more, col_more].into_iter().flat_map(beside).chain([0, 1, 2, full + 40]);
            for memory in sorted(memories.filter(|n| *n < 1000).collect()) {
                for order in [0, 1] {
                    let shape = Shape { rows, cols, order };
                    let mut grids = Grids { random, shape, memory, compared: &mut compared };
                    for (axis, count) in [(Axis::Row, rows), (Axis::Col, cols)] {
                        let indices: Vec<usize> = (0..=count + 2).chain([usize::MAX]).collect();
                        grids.calls(axis, &indices)?;
                    }
                }
            }
        }
    }
    Ok(compared)
}

// Sides at 0, 1 and about 256, and further; memory exactly full, one short, one more, and about 65,536.
pub fn limits(random: &mut Random) -> Compared {
    let mut compared = Tally::default();
    let sides = [0, 1, 2, 255, 256, 257, usize::MAX];
    for rows in sides {
        for cols in sides {
            let full = rows.saturating_mul(cols);
            let filled = [full, full.saturating_add(rows), full.saturating_add(cols)];
            let memories = filled.into_iter().flat_map(beside).chain(beside(65_536)).filter(|n| *n <= 65_793);
            for memory in sorted(memories.collect()) {
                for order in [0, 1] {
                    let shape = Shape { rows, cols, order };
                    let mut grids = Grids { random, shape, memory, compared: &mut compared };
                    for (axis, count) in [(Axis::Row, rows), (Axis::Col, cols)] {
                        let indices = [0, count / 2].into_iter().chain(beside(count)).chain([usize::MAX]);
                        grids.calls(axis, &sorted(indices.collect()))?;
                    }
                }
            }
        }
    }
    Ok(compared)
}

// Long lists of calls, one grid each, drawn by lot. Sides come up to `most`; memory is mostly a little more than full.
pub fn lists(random: &mut Random, lists: usize, calls: usize, most: usize) -> Compared {
    let mut compared = Tally::default();
    for _ in 0..lists {
        let (rows, cols) = (random.below(most + 1), random.below(most + 1));
        let spare = random.pick(&[0, 1, most, 4 * most]);
        let order = random.pick(&[0, 0, 0, 1, 1, 255]);
        let cells = random.bytes((rows * cols + spare).min(65_536));
        let mut pair = Pair::new(&cells, Shape { rows, cols, order });
        for _ in 0..calls {
            let (call, memory) = drawn(random, &pair);
            let memory = random.bytes(memory);
            compared.count(pair.compare(&call, &memory)?);
        }
    }
    Ok(compared)
}

// A call, mostly one that is accepted, and the memory that a removal gets.
fn drawn(random: &mut Random, pair: &Pair) -> (Call<u8>, usize) {
    let axis = random.pick(&AXES);
    let lines = pair.lines(axis);
    let past = if random.one_in(12) { random.pick(&[1, 2, 300, usize::MAX / 2]) } else { 0 };
    let len = match lines.count {
        0 => 1 + random.below(pair.memory().clamp(1, 257)),
        _ => lines.len,
    };
    let off = if random.one_in(12) { random.below(3) } else { 1 };
    match random.below(5) {
        0 | 1 => {
            let line = random.bytes((len + off).saturating_sub(1));
            (Call::Insert(axis, random.below(lines.count + 1) + past, line), 0)
        }
        2 | 3 => {
            let memory = (len + off).saturating_sub(1) + random.pick(&[0, 0, 5]);
            (Call::Remove(axis, random.below(lines.count.max(1)) + past), memory)
        }
        _ => (Call::Flip(axis), 0),
    }
}
