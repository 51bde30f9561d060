// The program bench_cells over the original: a call, many times, on a grid of 8-byte cells; it prints a checksum.
use grid::Grid;

const SIDE: usize = 64;

fn sum(grid: &Grid<u64>) -> u64 {
    grid.iter().fold(0, |sum: u64, x| sum.wrapping_mul(31).wrapping_add(*x))
}

fn one_round(grid: &mut Grid<u64>, call: &str, round: usize) -> u64 {
    let at = round % SIDE;
    let mut sum: u64 = 0;
    match call {
        "get" => {
            for r in 0..SIDE {
                for c in 0..SIDE {
                    sum = sum.wrapping_add(grid.get(r, c).copied().unwrap_or(0));
                }
            }
        }
        "put" => {
            for r in 0..SIDE {
                for c in 0..SIDE {
                    if let Some(x) = grid.get_mut(r, c) {
                        *x = (r + c + round) as u64;
                    }
                }
            }
        }
        // A line that comes in at one place goes out at another, so that the size stays.
        "rows" => {
            let line = grid.remove_row(at).unwrap();
            grid.insert_row(SIDE - 1 - at, line);
        }
        "cols" => {
            let line = grid.remove_col(at).unwrap();
            grid.insert_col(SIDE - 1 - at, line);
        }
        "flip_rows" => grid.flip_rows(),
        "flip_cols" => grid.flip_cols(),
        _ => {}
    }
    sum
}

fn main() {
    let args: Vec<String> = std::env::args().collect();
    let rounds: usize = args[2].parse().unwrap();
    let mut grid = Grid::from_vec((0..(SIDE * SIDE) as u64).collect(), SIDE);
    let mut all: u64 = 0;
    for round in 0..rounds {
        all = all.wrapping_add(one_round(&mut grid, &args[1], round));
    }
    println!("{}", all.wrapping_add(sum(&grid)));
}
