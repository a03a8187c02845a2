//! Times calls over all elements of 1000 rows of 1000, beside the same loops in plain Rust: prints a line for each call,
//! with who made it and the microseconds of one call. All memory, plain Rust's too, is malloc's. With `axes` it times calls
//! along either axis alone, with `products` products and iterators, with `arithmetic` arithmetic of numbers, with `small`
//! calls over small arrays.
//!
//! A row is added by an export in speed/nd_speed, its declaration and a line here, and the nearest call of numpy in
//! elements.py.

mod along;
mod arithmetic;
mod axes;
mod elementwise;
mod joins;
mod products;
mod runtime;
mod small;

use runtime::microseconds;
use std::hint::black_box;

const ROWS: usize = 1000;
const COLUMNS: usize = 1000;

unsafe extern "C" {
    fn nd_speed_fill(
        items: *mut u64,
        count: usize,
        lengths: *const usize,
        ndim: usize,
        reversed: bool,
        step: isize,
        fixed: bool,
        calls: usize,
    ) -> u64;
    fn nd_speed_fill_bytes(
        items: *mut u8,
        count: usize,
        lengths: *const usize,
        ndim: usize,
        reversed: bool,
        step: isize,
        fixed: bool,
        calls: usize,
    ) -> u64;
    fn nd_speed_fill_owned(rows: usize, columns: usize, calls: usize) -> u64;
    fn nd_speed_from_shape_fn(rows: usize, columns: usize, calls: usize) -> u64;
    fn nd_speed_from_shape_fn_by_columns(rows: usize, columns: usize, calls: usize) -> u64;
    fn nd_speed_to_owned(
        items: *const i64,
        count: usize,
        lengths: *const usize,
        ndim: usize,
        reversed: bool,
        step: isize,
        calls: usize,
    ) -> u64;
    fn nd_speed_to_owned_bytes(
        items: *const u8,
        count: usize,
        lengths: *const usize,
        ndim: usize,
        reversed: bool,
        step: isize,
        calls: usize,
    ) -> u64;
    fn nd_speed_to_vec(
        items: *const i64,
        count: usize,
        lengths: *const usize,
        ndim: usize,
        reversed: bool,
        step: isize,
        calls: usize,
    ) -> u64;
    fn nd_speed_to_vec_bytes(
        items: *const u8,
        count: usize,
        lengths: *const usize,
        ndim: usize,
        reversed: bool,
        step: isize,
        calls: usize,
    ) -> u64;
    fn nd_speed_equal(
        left: *const i64,
        left_count: usize,
        right: *const i64,
        right_count: usize,
        lengths: *const usize,
        ndim: usize,
        reversed: bool,
        calls: usize,
    ) -> u64;
    fn nd_speed_equal_bytes(
        left: *const u8,
        left_count: usize,
        right: *const u8,
        right_count: usize,
        lengths: *const usize,
        ndim: usize,
        reversed: bool,
        calls: usize,
    ) -> u64;
}

/// The microseconds of one call.
fn time_of(calls: usize, call: &mut dyn FnMut(usize) -> u64) -> f64 {
    let start = microseconds();
    assert_ne!(black_box(call(black_box(calls))), 0, "arguments that don't fit");
    (microseconds() - start) / calls as f64
}

/// The least over several repeats of some calls, which take turns: other work on the machine then slows both alike.
fn row_of(name: &str, repeats: usize, calls: usize, plain: &mut dyn FnMut(usize) -> u64, here: &mut dyn FnMut(usize) -> u64) {
    let mut least = (f64::MAX, f64::MAX);
    for _ in 0..repeats {
        least = (least.0.min(time_of(calls, plain)), least.1.min(time_of(calls, here)));
    }
    println!("{name}\tplain\t{:.4}\n{name}\there\t{:.4}", least.0, least.1);
}

fn row(name: &str, plain: &mut dyn FnMut(usize) -> u64, here: &mut dyn FnMut(usize) -> u64) {
    row_of(name, 60, 5, plain, here);
}

/// The same value at each index, by every `step`-th column.
fn plain_fill<A: Copy>(items: &mut [A], rows: usize, columns: usize, step: usize, value: A) {
    if step == 1 {
        for item in items {
            *item = value;
        }
    } else {
        for row in items.chunks_exact_mut(columns).take(rows) {
            for item in row.iter_mut().step_by(step) {
                *item = value;
            }
        }
    }
}

fn fills<A: Copy>(
    kind: &str,
    items: &mut [A],
    value: fn(usize) -> A,
    ours: unsafe extern "C" fn(*mut A, usize, *const usize, usize, bool, isize, bool, usize) -> u64,
) {
    let lengths = black_box([ROWS, COLUMNS]);
    let cases = [("all", false, 1), ("every second column", false, 2), ("turned", true, 1)];
    for (case, turned, step) in cases {
        let name = format!("`fill` of `{kind}`, {case}");
        let (rows, columns, step) = black_box((ROWS, COLUMNS, step));
        let (place, count) = (items.as_mut_ptr(), items.len());
        row(
            &name,
            &mut |calls| {
                for call in 0..calls {
                    plain_fill(black_box(&mut *items), rows, columns, step, value(call));
                }
                1
            },
            &mut |calls| unsafe { ours(place, count, lengths.as_ptr(), 2, turned, step as isize, true, calls) },
        );
    }
}

type OfItems<A> = unsafe extern "C" fn(*const A, usize, *const usize, usize, bool, isize, usize) -> u64;
type OfPairs<A> = unsafe extern "C" fn(*const A, usize, *const A, usize, *const usize, usize, bool, usize) -> u64;

/// The elements in the order of the indexes: rows of the whole, every `step`-th column of them, or the columns.
fn plain_listed<A: Copy>(items: &[A], rows: usize, columns: usize, turned: bool, step: usize) -> Vec<A> {
    let mut listed = Vec::with_capacity(if turned { rows * columns } else { rows * columns.div_ceil(step) });
    if turned {
        for column in 0..columns {
            for row in 0..rows {
                listed.push(items[row * columns + column]);
            }
        }
    } else {
        for row in items.chunks_exact(columns).take(rows) {
            listed.extend(row.iter().step_by(step));
        }
    }
    listed
}

/// A copy by a loop over two places that the compiler doesn't know to be apart, so that it stays a loop and becomes no call
/// of memcpy.
#[inline(never)]
unsafe fn copy_by_steps<A: Copy>(from: *const A, to: *mut A, count: usize) {
    for nth in 0..count {
        unsafe { to.add(nth).write(from.add(nth).read()) };
    }
}

/// The copy of a run beside such a loop.
fn copies_by_steps<A: Copy>(kind: &str, items: &[A], owned: OfItems<A>) {
    let lengths = black_box([ROWS, COLUMNS]);
    row(
        &format!("`to_owned` of `{kind}`, all, beside a loop that is no call of memcpy"),
        &mut |calls| {
            for _ in 0..calls {
                let items = black_box(items);
                let mut copied = Vec::with_capacity(items.len());
                unsafe {
                    copy_by_steps(items.as_ptr(), copied.as_mut_ptr(), items.len());
                    copied.set_len(items.len());
                }
                black_box(copied);
            }
            1
        },
        &mut |calls| unsafe { owned(items.as_ptr(), items.len(), lengths.as_ptr(), 2, false, 1, calls) },
    );
}

/// Copies: of a run as its elements lie, else in the order of the indexes.
fn copies<A: Copy>(kind: &str, items: &[A], owned: OfItems<A>, listed: OfItems<A>) {
    let lengths = black_box([ROWS, COLUMNS]);
    let cases = [("all", false, 1), ("every second column", false, 2), ("turned", true, 1)];
    for (case, turned, step) in cases {
        let (rows, columns, turned, step) = black_box((ROWS, COLUMNS, turned, step));
        let name = format!("`to_owned` of `{kind}`, {case}");
        row(
            &name,
            &mut |calls| {
                for _ in 0..calls {
                    let items = black_box(items);
                    black_box(if step == 1 {
                        items.to_vec()
                    } else {
                        plain_listed(items, rows, columns, turned, step)
                    });
                }
                1
            },
            &mut |calls| unsafe { owned(items.as_ptr(), items.len(), lengths.as_ptr(), 2, turned, step as isize, calls) },
        );
        let name = format!("`to_vec` of `{kind}`, {case}");
        row(
            &name,
            &mut |calls| {
                for _ in 0..calls {
                    let items = black_box(items);
                    black_box(if step == 1 && !turned {
                        items.to_vec()
                    } else {
                        plain_listed(items, rows, columns, turned, step)
                    });
                }
                1
            },
            &mut |calls| unsafe { listed(items.as_ptr(), items.len(), lengths.as_ptr(), 2, turned, step as isize, calls) },
        );
    }
}

/// Whether two arrays of as many rows as columns are equal, the second one in column-major order where `turned`.
fn plain_equal<A: PartialEq>(left: &[A], right: &[A], side: usize, turned: bool) -> bool {
    if turned {
        left.chunks_exact(side)
            .enumerate()
            .all(|(row, items)| items.iter().enumerate().all(|(column, item)| *item == right[column * side + row]))
    } else {
        left == right
    }
}

fn comparisons<A: PartialEq>(kind: &str, items: &[A], equal: &[A], ours: OfPairs<A>) {
    let lengths = black_box([ROWS, COLUMNS]);
    for (case, turned) in [("both in row-major order", false), ("in both orders", true)] {
        let name = format!("`==` of `{kind}`, {case}");
        let (side, turned) = black_box((ROWS, turned));
        row(
            &name,
            &mut |calls| {
                (0..calls)
                    .filter(|_| plain_equal(black_box(items), black_box(equal), side, turned))
                    .count() as u64
            },
            &mut |calls| unsafe {
                ours(
                    items.as_ptr(),
                    items.len(),
                    equal.as_ptr(),
                    equal.len(),
                    lengths.as_ptr(),
                    2,
                    turned,
                    calls,
                )
            },
        );
    }
}

/// Arrays that own their elements.
fn owned() {
    let (rows, columns) = black_box((ROWS, COLUMNS));
    let name = "`fill` of `i64`, an owned array";
    let mut items = vec![0i64; rows * columns];
    // The array is made anew in each repeat, so each has many calls.
    row_of(
        name,
        10,
        60,
        &mut |calls| {
            for call in 0..calls {
                plain_fill(black_box(&mut items[..]), rows, columns, 1, call as i64);
            }
            1
        },
        &mut |calls| unsafe { nd_speed_fill_owned(rows, columns, calls) },
    );
    let name = "`from_shape_fn` of `usize`, the sum of the coordinates";
    row(
        name,
        &mut |calls| {
            for _ in 0..calls {
                let mut items = Vec::with_capacity(rows * columns);
                for row in 0..rows {
                    items.extend((0..columns).map(|column| row.wrapping_add(column)));
                }
                black_box(&items);
            }
            1
        },
        &mut |calls| unsafe { nd_speed_from_shape_fn(rows, columns, calls) },
    );
    let name = "`from_shape_fn` of `usize`, the sum of the coordinates in column-major order";
    row(
        name,
        &mut |calls| {
            for _ in 0..calls {
                let mut items = Vec::with_capacity(rows * columns);
                for column in 0..columns {
                    items.extend((0..rows).map(|row| row.wrapping_add(column)));
                }
                black_box(&items);
            }
            1
        },
        &mut |calls| unsafe { nd_speed_from_shape_fn_by_columns(rows, columns, calls) },
    );
}

/// Elements that are the same at (i, j) and at (j, i), so that an array and its transpose are equal.
fn symmetric<A>(element: fn(usize) -> A) -> Vec<A> {
    (0..ROWS * COLUMNS).map(|rank| element(rank / COLUMNS + rank % COLUMNS)).collect()
}

fn main() {
    if std::env::args().nth(1).as_deref() == Some("axes") {
        return axes::rows();
    }
    if std::env::args().nth(1).as_deref() == Some("products") {
        return products::rows();
    }
    if std::env::args().nth(1).as_deref() == Some("arithmetic") {
        return arithmetic::rows();
    }
    if std::env::args().nth(1).as_deref() == Some("small") {
        return small::rows();
    }
    fills("u64", &mut vec![0; ROWS * COLUMNS], |call| call as u64, nd_speed_fill);
    fills("u8", &mut vec![0; ROWS * COLUMNS], |call| call as u8, nd_speed_fill_bytes);
    owned();
    copies("i64", &symmetric(|sum| sum as i64), nd_speed_to_owned, nd_speed_to_vec);
    copies("u8", &symmetric(|sum| sum as u8), nd_speed_to_owned_bytes, nd_speed_to_vec_bytes);
    copies_by_steps("u8", &symmetric(|sum| sum as u8), nd_speed_to_owned_bytes);
    comparisons("i64", &symmetric(|sum| sum as i64), &symmetric(|sum| sum as i64), nd_speed_equal);
    comparisons("u8", &symmetric(|sum| sum as u8), &symmetric(|sum| sum as u8), nd_speed_equal_bytes);
    elementwise::rows();
    along::rows();
    joins::rows();
}
