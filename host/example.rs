//! A program in Rust that calls mimosahoist: it prints what host/example.out has.
mod mimosahoist;

use mimosahoist::{
    Order, Refusal, flip_cols, flip_rows, insert_col, insert_row, remove_col, remove_row,
};

/// What was called, what it answered, and the bytes as they are now.
fn show(call: &str, answer: Result<(), Refusal>, bytes: &[u8]) {
    match answer {
        Ok(()) => print!("{call}: ok:"),
        Err(refusal) => print!("{call}: {refusal}:"),
    }
    for byte in bytes {
        print!(" {byte}");
    }
    println!();
}

fn main() {
    // two rows of three, row by row, with room for one row more
    let mut cells = [1, 2, 3, 4, 5, 6, 0, 0, 0];
    let line = [7, 8, 9];
    let mut memory = [0; 4];
    let answer = insert_row(&mut cells, 2, 3, Order::RowMajor, 1, &line);
    show("insert row 1", answer, &cells);
    let answer = insert_row(&mut cells, 3, 3, Order::RowMajor, 3, &line);
    show("insert row 3", answer, &cells);
    let answer = flip_cols(&mut cells, 3, 3, Order::RowMajor);
    show("flip columns", answer, &cells);
    let answer = remove_col(&mut cells, 3, 3, Order::RowMajor, 0, &mut memory[..2]);
    show("remove column 0", answer, &cells);
    let answer = remove_col(&mut cells, 3, 3, Order::RowMajor, 0, &mut memory);
    show("remove column 0", answer, &cells[..6]);
    show("memory", Ok(()), &memory);

    // the same six cells, column by column
    let mut columns = [1, 4, 2, 5, 3, 6, 0, 0, 0];
    let answer = insert_row(&mut columns, 2, 3, Order::ColumnMajor, 1, &line);
    show("insert row 1", answer, &columns);
    let answer = flip_rows(&mut columns, 3, 3, Order::ColumnMajor);
    show("flip rows", answer, &columns);
    let answer = remove_row(&mut columns, 3, 3, Order::ColumnMajor, 3, &mut memory);
    show("remove row 3", answer, &columns);
    let answer = remove_row(&mut columns, 3, 3, Order::ColumnMajor, 0, &mut memory);
    show("remove row 0", answer, &columns[..6]);
    show("memory", Ok(()), &memory);
    let answer = insert_col(&mut columns, 0, 0, Order::ColumnMajor, 0, &line);
    show("insert column 0", answer, &columns[..3]);
    let answer = flip_rows(&mut columns, 300, 1, Order::ColumnMajor);
    show("flip rows", answer, &columns[..3]);
}
