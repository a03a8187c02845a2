//! Folds along an axis, reshapes, and rows that come in one after the other, beside plain loops.

use crate::{row, row_of, COLUMNS, ROWS};
use std::hint::black_box;

unsafe extern "C" {
    fn nd_speed_fold_axis(items: *const i64, count: usize, lengths: *const usize, ndim: usize, axis: usize, calls: usize) -> u64;
    fn nd_speed_to_shape(items: *const u64, count: usize, lengths: *const usize, ndim: usize, calls: usize) -> u64;
    fn nd_speed_flatten(items: *const i64, count: usize, lengths: *const usize, ndim: usize, calls: usize) -> u64;
    fn nd_speed_append_rows(items: *const i64, count: usize, lengths: *const usize, ndim: usize, calls: usize) -> u64;
    fn nd_speed_append_numbers(items: *const i64, count: usize, number: *const i64, one: usize, lengths: *const usize, ndim: usize, calls: usize) -> u64;
    fn nd_speed_relay(items: *const i64, count: usize, lengths: *const usize, ndim: usize, case: usize, calls: usize) -> u64;
}

/// The sums of the columns, by one pass over the rows.
fn plain_column_sums(items: &[i64], columns: usize) -> Vec<i64> {
    let mut sums = vec![0i64; columns];
    for row in items.chunks_exact(columns) {
        for (sum, x) in sums.iter_mut().zip(row) {
            *sum = sum.wrapping_add(*x);
        }
    }
    sums
}

/// The sums of the rows.
fn plain_row_sums(items: &[i64], columns: usize) -> Vec<i64> {
    items.chunks_exact(columns).map(|row| row.iter().fold(0i64, |sum, x| sum.wrapping_add(*x))).collect()
}

fn folds(items: &[i64]) {
    let lengths = black_box([ROWS, COLUMNS]);
    for (axis, name) in [(0, "`fold_axis` of `i64`, down the columns"), (1, "`fold_axis` of `i64`, along the rows")] {
        let (columns, axis) = black_box((COLUMNS, axis));
        row(
            name,
            &mut |calls| {
                for _ in 0..calls {
                    let items = black_box(items);
                    black_box(if axis == 0 { plain_column_sums(items, columns) } else { plain_row_sums(items, columns) });
                }
                1
            },
            &mut |calls| unsafe { nd_speed_fold_axis(items.as_ptr(), items.len(), lengths.as_ptr(), 2, axis, calls) },
        );
    }
}

/// The elements by columns.
fn plain_turned(items: &[i64], rows: usize, columns: usize) -> Vec<i64> {
    let mut listed = Vec::with_capacity(rows * columns);
    for column in 0..columns {
        for row in 0..rows {
            listed.push(items[row * columns + column]);
        }
    }
    listed
}

fn reshapes(items: &[i64]) {
    let lengths = black_box([ROWS, COLUMNS]);
    row(
        "`flatten` of `i64`, turned",
        &mut |calls| {
            for _ in 0..calls {
                let (items, rows, columns) = black_box((items, ROWS, COLUMNS));
                black_box(plain_turned(items, rows, columns));
            }
            1
        },
        &mut |calls| unsafe { nd_speed_flatten(items.as_ptr(), items.len(), lengths.as_ptr(), 2, calls) },
    );
    let words = vec![1u64; ROWS * COLUMNS];
    row_of(
        "1,000 calls of `to_shape` as a view",
        30,
        5000,
        &mut |_calls| 1,
        &mut |calls| unsafe { nd_speed_to_shape(words.as_ptr(), words.len(), lengths.as_ptr(), 2, 1000 * calls) },
    );
}

fn growth(items: &[i64]) {
    let lengths = black_box([ROWS, COLUMNS]);
    row(
        "`append` of 1,000 rows of `i64` after one `reserve_rows`",
        &mut |calls| {
            for _ in 0..calls {
                let (items, rows, columns) = black_box((items, ROWS, COLUMNS));
                let mut table = Vec::with_capacity(rows * columns);
                for row in 0..rows {
                    table.extend(items[row * columns..(row + 1) * columns].iter().cloned());
                }
                black_box(table);
            }
            1
        },
        &mut |calls| unsafe { nd_speed_append_rows(items.as_ptr(), items.len(), lengths.as_ptr(), 2, calls) },
    );
    for (rows, columns, name) in [
        (ROWS, COLUMNS, "`append` of rows of one broadcast `i64` after one `reserve_rows`, 1,000 rows"),
        (1, ROWS * COLUMNS, "`append` of rows of one broadcast `i64` after one `reserve_rows`, one row"),
    ] {
        let (lengths, number) = black_box(([rows, columns], [7i64]));
        row(
            name,
            &mut |calls| {
                for _ in 0..calls {
                    let (number, rows, columns) = black_box((number[0], rows, columns));
                    let mut table = Vec::with_capacity(rows * columns);
                    for _ in 0..rows {
                        table.resize(table.len() + columns, number);
                    }
                    black_box(table);
                }
                1
            },
            &mut |calls| unsafe { nd_speed_append_numbers(items.as_ptr(), items.len(), number.as_ptr(), number.len(), lengths.as_ptr(), 2, calls) },
        );
    }
    for (case, name) in [
        (0, "a copy of `i64` in row-major order, and a row appended"),
        (1, "a copy of `i64` in column-major order, and a row appended"),
    ] {
        let case = black_box(case);
        row(
            name,
            &mut |calls| {
                for _ in 0..calls {
                    let (items, rows, columns) = black_box((items, ROWS, COLUMNS));
                    let copied = items.to_vec();
                    let mut table = if case == 0 { black_box(copied) } else { plain_turned(black_box(&copied), rows, columns) };
                    table.extend_from_slice(&items[..columns]);
                    black_box(table);
                }
                1
            },
            &mut |calls| unsafe { nd_speed_relay(items.as_ptr(), items.len(), lengths.as_ptr(), 2, case, calls) },
        );
    }
}

pub fn rows() {
    let items = vec![1i64; ROWS * COLUMNS];
    folds(&items);
    reshapes(&items);
    growth(&items);
}
