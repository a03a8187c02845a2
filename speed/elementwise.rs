//! Closures over all elements, beside plain loops: totals, new arrays, elements changed where they lie; calls over two
//! arrays; rows chosen from one.

use crate::{row, COLUMNS, ROWS};
use std::hint::black_box;
use std::ops::Range;

unsafe extern "C" {
    fn nd_speed_fold(items: *const i64, count: usize, lengths: *const usize, ndim: usize, case: usize, calls: usize) -> u64;
    fn nd_speed_fold_bytes(items: *const u8, count: usize, lengths: *const usize, ndim: usize, case: usize, calls: usize) -> u64;
    fn nd_speed_map(items: *const i64, count: usize, lengths: *const usize, ndim: usize, case: usize, calls: usize) -> u64;
    fn nd_speed_map_bytes(items: *const u8, count: usize, lengths: *const usize, ndim: usize, case: usize, calls: usize) -> u64;
    fn nd_speed_map_inplace(items: *mut i64, count: usize, lengths: *const usize, ndim: usize, case: usize, calls: usize) -> u64;
    fn nd_speed_map_inplace_bytes(items: *mut u8, count: usize, lengths: *const usize, ndim: usize, case: usize, calls: usize) -> u64;
    fn nd_speed_zip(left: *mut i64, left_count: usize, right: *const i64, right_count: usize, lengths: *const usize, ndim: usize, turned: bool, case: usize, calls: usize) -> u64;
    fn nd_speed_zip_bytes(left: *mut u8, left_count: usize, right: *const u8, right_count: usize, lengths: *const usize, ndim: usize, turned: bool, case: usize, calls: usize) -> u64;
    fn nd_speed_assign(left: *mut i64, left_count: usize, right: *const i64, right_count: usize, lengths: *const usize, ndim: usize, turned: bool, case: usize, calls: usize) -> u64;
    fn nd_speed_assign_bytes(left: *mut u8, left_count: usize, right: *const u8, right_count: usize, lengths: *const usize, ndim: usize, turned: bool, case: usize, calls: usize) -> u64;
    fn nd_speed_select(items: *const i64, count: usize, lengths: *const usize, ndim: usize, rows: *const usize, row_count: usize, calls: usize) -> u64;
}

type OfTwo<A> = unsafe extern "C" fn(*mut A, usize, *const A, usize, *const usize, usize, bool, usize, usize) -> u64;
type OfPart<A> = unsafe extern "C" fn(*const A, usize, *const usize, usize, usize, usize) -> u64;
type OfPartToWrite<A> = unsafe extern "C" fn(*mut A, usize, *const usize, usize, usize, usize) -> u64;

/// The cases by the number that the library is told.
const CASES: [&str; 3] = ["all", "turned", "every second row and column backwards"];

/// The numbers of rows or columns that the third case names.
fn backwards(count: usize) -> std::iter::StepBy<std::iter::Rev<Range<usize>>> {
    (0..count).rev().step_by(2)
}

/// The calls on elements of one type.
struct Kind<A> {
    name: &'static str,
    fold: OfPart<A>,
    map: OfPart<A>,
    map_inplace: OfPartToWrite<A>,
}

fn plain_fold<A: Copy + Default>(items: &[A], rows: usize, columns: usize, case: usize, plus: impl Fn(A, A) -> A) -> A {
    if case < 2 {
        return items.iter().fold(A::default(), |sum, x| plus(sum, *x));
    }
    let mut sum = A::default();
    for row in backwards(rows) {
        let items = &items[row * columns..(row + 1) * columns];
        sum = items.iter().rev().step_by(2).fold(sum, |sum, x| plus(sum, *x));
    }
    sum
}

fn plain_map<A: Copy>(items: &[A], rows: usize, columns: usize, case: usize, plus: impl Fn(A, A) -> A) -> Vec<A> {
    if case < 2 {
        return items.iter().map(|x| plus(*x, *x)).collect();
    }
    let mut doubled = Vec::with_capacity(rows.div_ceil(2) * columns.div_ceil(2));
    for row in backwards(rows) {
        let items = &items[row * columns..(row + 1) * columns];
        doubled.extend(items.iter().rev().step_by(2).map(|x| plus(*x, *x)));
    }
    doubled
}

fn plain_change<A: Copy>(items: &mut [A], rows: usize, columns: usize, case: usize, plus: impl Fn(A, A) -> A) {
    if case < 2 {
        items.iter_mut().for_each(|x| *x = plus(*x, *x));
        return;
    }
    for row in backwards(rows) {
        let items = &mut items[row * columns..(row + 1) * columns];
        items.iter_mut().rev().step_by(2).for_each(|x| *x = plus(*x, *x));
    }
}

fn rows_of<A: Copy + Default>(kind: &Kind<A>, plus: impl Fn(A, A) -> A + Copy, items: &mut [A]) {
    let lengths = black_box([ROWS, COLUMNS]);
    let (place, count) = (items.as_mut_ptr(), items.len());
    for (number, case) in CASES.iter().enumerate() {
        let (rows, columns, number) = black_box((ROWS, COLUMNS, number));
        row(
            &format!("`fold` of `{}`, {case}", kind.name),
            &mut |calls| {
                for _ in 0..calls {
                    black_box(plain_fold(black_box(&*items), rows, columns, number, plus));
                }
                1
            },
            &mut |calls| unsafe { (kind.fold)(place, count, lengths.as_ptr(), 2, number, calls) },
        );
        row(
            &format!("`map` of `{}`, {case}", kind.name),
            &mut |calls| {
                for _ in 0..calls {
                    black_box(plain_map(black_box(&*items), rows, columns, number, plus));
                }
                1
            },
            &mut |calls| unsafe { (kind.map)(place, count, lengths.as_ptr(), 2, number, calls) },
        );
        row(
            &format!("`map_inplace` of `{}`, {case}", kind.name),
            &mut |calls| {
                for _ in 0..calls {
                    plain_change(black_box(&mut *items), rows, columns, number, plus);
                }
                1
            },
            &mut |calls| unsafe { (kind.map_inplace)(place, count, lengths.as_ptr(), 2, number, calls) },
        );
    }
}

/// What the right side of a call over two arrays is, by the number that the library is told.
const RIGHT_SIDES: [&str; 3] = ["both in row-major order", "the right side one row", "the right side in column-major order"];

/// Does something at each pair of elements.
fn plain_pairs<A: Copy>(left: &mut [A], right: &[A], rows: usize, columns: usize, case: usize, act: impl Fn(&mut A, A)) {
    match case {
        0 => left.iter_mut().zip(right).for_each(|(x, y)| act(x, *y)),
        1 => {
            for row in left.chunks_exact_mut(columns).take(rows) {
                row.iter_mut().zip(right).for_each(|(x, y)| act(x, *y));
            }
        }
        _ => {
            for (number, row) in left.chunks_exact_mut(columns).take(rows).enumerate() {
                for (column, x) in row.iter_mut().enumerate() {
                    act(x, right[column * rows + number]);
                }
            }
        }
    }
}

fn rows_of_two<A: Copy>(call: &str, kind: &str, left: &mut [A], right: &[A], act: impl Fn(&mut A, A) + Copy, ours: OfTwo<A>) {
    let lengths = black_box([ROWS, COLUMNS]);
    let (place, count) = (left.as_mut_ptr(), left.len());
    for (number, case) in RIGHT_SIDES.iter().enumerate() {
        let (rows, columns, number) = black_box((ROWS, COLUMNS, number));
        row(
            &format!("`{call}` of `{kind}`, {case}"),
            &mut |calls| {
                for _ in 0..calls {
                    plain_pairs(black_box(&mut *left), black_box(right), rows, columns, number, act);
                }
                1
            },
            &mut |calls| unsafe { ours(place, count, right.as_ptr(), right.len(), lengths.as_ptr(), 2, false, number, calls) },
        );
    }
}

/// `select` of as many rows as there are, from the last one back.
fn select_rows() {
    let items = vec![1i64; ROWS * COLUMNS];
    let lengths = black_box([ROWS, COLUMNS]);
    let chosen: Vec<usize> = (0..ROWS).rev().collect();
    row(
        "`select` of 1,000 rows of `i64`",
        &mut |calls| {
            for _ in 0..calls {
                let (items, columns) = black_box((&items[..], COLUMNS));
                let mut selected = Vec::with_capacity(chosen.len() * columns);
                for row in black_box(&chosen) {
                    selected.extend_from_slice(&items[row * columns..(row + 1) * columns]);
                }
                black_box(selected);
            }
            1
        },
        &mut |calls| unsafe { nd_speed_select(items.as_ptr(), items.len(), lengths.as_ptr(), 2, chosen.as_ptr(), chosen.len(), calls) },
    );
}

fn pairs() {
    let (mut left, right) = (vec![1i64; ROWS * COLUMNS], vec![2i64; ROWS * COLUMNS]);
    rows_of_two("zip_mut_with", "i64", &mut left, &right, |x, y| *x = x.wrapping_add(y), nd_speed_zip);
    rows_of_two("assign", "i64", &mut left, &right, |x, y| *x = y, nd_speed_assign);
    let (mut left, right) = (vec![1u8; ROWS * COLUMNS], vec![2u8; ROWS * COLUMNS]);
    rows_of_two("zip_mut_with", "u8", &mut left, &right, |x, y| *x = x.wrapping_add(y), nd_speed_zip_bytes);
    rows_of_two("assign", "u8", &mut left, &right, |x, y| *x = y, nd_speed_assign_bytes);
    select_rows();
}

pub fn rows() {
    pairs();
    let words = Kind {
        name: "i64",
        fold: nd_speed_fold,
        map: nd_speed_map,
        map_inplace: nd_speed_map_inplace,
    };
    rows_of(&words, |x: i64, y| x.wrapping_add(y), &mut vec![1; ROWS * COLUMNS]);
    let bytes = Kind {
        name: "u8",
        fold: nd_speed_fold_bytes,
        map: nd_speed_map_bytes,
        map_inplace: nd_speed_map_inplace_bytes,
    };
    rows_of(&bytes, |x: u8, y| x.wrapping_add(y), &mut vec![1; ROWS * COLUMNS]);
}
