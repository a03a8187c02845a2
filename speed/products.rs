//! Products of matrices and vectors, and loops over the elements of an array, beside the same loops in plain Rust.

use crate::row_of;
use std::hint::black_box;

unsafe extern "C" {
    fn nd_speed_iter(items: *const i64, count: usize, lengths: *const usize, ndim: usize, case: usize, calls: usize) -> u64;
    fn nd_speed_iter_back(items: *const i64, count: usize, lengths: *const usize, ndim: usize, case: usize, calls: usize) -> u64;
    fn nd_speed_rows(items: *const i64, count: usize, lengths: *const usize, ndim: usize, case: usize, calls: usize) -> u64;
    fn nd_speed_matrix_dot(
        left: *const i64,
        left_count: usize,
        right: *const i64,
        right_count: usize,
        lengths: *const usize,
        number: usize,
        turned: bool,
        calls: usize,
    ) -> u64;
    fn nd_speed_matrix_dot_vector(matrix: *const i64, count: usize, vector: *const i64, columns: usize, calls: usize) -> u64;
    fn nd_speed_dot(left: *const i64, count: usize, right: *const i64, other: usize, calls: usize) -> u64;
}

type OfPart = unsafe extern "C" fn(*const i64, usize, *const usize, usize, usize, usize) -> u64;

const ROWS: usize = 1000;
const COLUMNS: usize = 1000;

/// The parts of a table of 1000 x 1000 that are gone through: all, the transpose, every second row and column from the last
/// ones back, and all rows without their first column.
const PARTS: [&str; 4] = ["all", "turned", "every second row and column backwards", "rows without their first column"];

/// The indexes of a part in its row-major order, as rows of places: where the first one begins, how far the next row's lies
/// from it, how many rows, the same of the elements in one.
fn walk_of(case: usize) -> [isize; 5] {
    let (rows, columns) = (ROWS as isize, COLUMNS as isize);
    match case {
        0 => [0, columns, rows, 1, columns],
        1 => [0, 1, columns, columns, rows],
        2 => [(rows - 1) * columns + columns - 1, -2 * columns, rows / 2, -2, columns / 2],
        _ => [1, columns, rows, 1, columns - 1],
    }
}

/// The sum in the part's own order.
fn plain_sum(items: &[i64], [first, apart, rows, step, columns]: [isize; 5]) -> i64 {
    let mut sum = 0i64;
    for row in 0..rows {
        let start = first + row * apart;
        if step == 1 {
            for x in &items[start as usize..(start + columns) as usize] {
                sum = sum.wrapping_add(*x);
            }
        } else {
            for column in 0..columns {
                sum = sum.wrapping_add(items[(start + column * step) as usize]);
            }
        }
    }
    sum
}

fn iterators(items: &[i64]) {
    let lengths = black_box([ROWS, COLUMNS]);
    let calls: [(&str, OfPart); 3] = [("iter", nd_speed_iter), ("iter` from the last element back, `rev", nd_speed_iter_back), ("iter` of each of `rows", nd_speed_rows)];
    for (call, ours) in calls {
        for (case, part) in PARTS.iter().enumerate() {
            row_of(
                &format!("`{call}` of `i64`: {part}"),
                40,
                5,
                &mut |calls| {
                    for _ in 0..calls {
                        let items = black_box(items);
                        black_box(if case == 0 { items.iter().fold(0i64, |sum, x| sum.wrapping_add(*x)) } else { plain_sum(items, black_box(walk_of(case))) });
                    }
                    1
                },
                &mut |calls| unsafe { ours(items.as_ptr(), items.len(), lengths.as_ptr(), 2, case, calls) },
            );
        }
    }
}

/// Row by row of the left, over the rows of the right.
fn plain_product(left: &[i64], right: &[i64], [rows, inner, columns]: [usize; 3]) -> Vec<i64> {
    let mut product = vec![0i64; rows * columns];
    for (sums, row) in product.chunks_exact_mut(columns).zip(left.chunks_exact(inner)) {
        for (x, other) in row.iter().zip(right.chunks_exact(columns)) {
            for (sum, y) in sums.iter_mut().zip(other) {
                *sum = sum.wrapping_add(x.wrapping_mul(*y));
            }
        }
    }
    product
}

fn plain_dot(left: &[i64], right: &[i64]) -> i64 {
    left.iter().zip(right).fold(0i64, |sum, (x, y)| sum.wrapping_add(x.wrapping_mul(*y)))
}

fn products(side: usize) {
    let left: Vec<i64> = (0..side * side).map(|nth| nth as i64).collect();
    let right: Vec<i64> = (0..side * side).map(|nth| (nth as i64).wrapping_mul(7)).collect();
    let lengths = black_box([side, side, side]);
    let calls = (2_000_000 / (side * side * side)).clamp(1, 10_000);
    let repeats = if side > 500 { 5 } else { 20 };
    row_of(
        &format!("`matrix_dot` of `i64`: {side}"),
        repeats,
        calls,
        &mut |calls| {
            for _ in 0..calls {
                black_box(plain_product(black_box(&left), black_box(&right), lengths));
            }
            1
        },
        &mut |calls| unsafe { nd_speed_matrix_dot(left.as_ptr(), left.len(), right.as_ptr(), right.len(), lengths.as_ptr(), 3, false, calls) },
    );
    let vector: Vec<i64> = (0..side as i64).collect();
    let calls = (20_000_000 / (side * side)).clamp(5, 100_000);
    row_of(
        &format!("`matrix_dot_vector` of `i64`: {side}"),
        20,
        calls,
        &mut |calls| {
            for _ in 0..calls {
                let vector = black_box(&vector[..]);
                black_box(black_box(&left[..]).chunks_exact(side).map(|row| plain_dot(row, vector)).collect::<Vec<_>>());
            }
            1
        },
        &mut |calls| unsafe { nd_speed_matrix_dot_vector(left.as_ptr(), left.len(), vector.as_ptr(), vector.len(), calls) },
    );
    row_of(
        &format!("`dot` of `i64`: {side} x {side} elements"),
        20,
        calls,
        &mut |calls| {
            for _ in 0..calls {
                black_box(plain_dot(black_box(&left), black_box(&right)));
            }
            1
        },
        &mut |calls| unsafe { nd_speed_dot(left.as_ptr(), left.len(), right.as_ptr(), right.len(), calls) },
    );
}

pub fn rows() {
    iterators(&(0..ROWS * COLUMNS).map(|nth| nth as i64).collect::<Vec<_>>());
    for side in [10, 100, 300, 1000] {
        products(side);
    }
}
