//! Arithmetic of numbers, and closures over two and three arrays, on square arrays of two axes in row-major (C) order, in column-major (F)
//! order and in every second row and column of a larger array from the last ones back, beside the best of the loops in arithmetic/plain.rs.

mod plain;

use crate::row_of;
use self::plain::{Number, Part};
use std::hint::black_box;

type New<A> = unsafe extern "C" fn(*const A, usize, *const A, usize, *const usize, usize, usize, usize, A, usize, usize) -> u64;
type Changed<A> = unsafe extern "C" fn(*mut A, usize, *const A, usize, *const usize, usize, usize, usize, A, usize, usize) -> u64;
type OfAll<A> = unsafe extern "C" fn(*const A, usize, *const usize, usize, usize, usize, usize) -> u64;
type OfTwo<A> = unsafe extern "C" fn(*const A, usize, *const A, usize, *const usize, usize, usize, usize, usize, usize) -> u64;
type OfLanes<A> = unsafe extern "C" fn(*const A, usize, *const usize, usize, usize, usize, usize, usize) -> u64;

#[rustfmt::skip]
unsafe extern "C" {
    fn nd_speed_new(left: *const i64, count: usize, right: *const i64, others: usize, lengths: *const usize, ndim: usize, left_order: usize, right_order: usize, number: i64, call: usize, calls: usize) -> u64;
    fn nd_speed_new_floats(left: *const f64, count: usize, right: *const f64, others: usize, lengths: *const usize, ndim: usize, left_order: usize, right_order: usize, number: f64, call: usize, calls: usize) -> u64;
    fn nd_speed_new_bytes(left: *const u8, count: usize, right: *const u8, others: usize, lengths: *const usize, ndim: usize, left_order: usize, right_order: usize, number: u8, call: usize, calls: usize) -> u64;
    fn nd_speed_changed(left: *mut i64, count: usize, right: *const i64, others: usize, lengths: *const usize, ndim: usize, left_order: usize, right_order: usize, number: i64, call: usize, calls: usize) -> u64;
    fn nd_speed_changed_floats(left: *mut f64, count: usize, right: *const f64, others: usize, lengths: *const usize, ndim: usize, left_order: usize, right_order: usize, number: f64, call: usize, calls: usize) -> u64;
    fn nd_speed_changed_bytes(left: *mut u8, count: usize, right: *const u8, others: usize, lengths: *const usize, ndim: usize, left_order: usize, right_order: usize, number: u8, call: usize, calls: usize) -> u64;
    fn nd_speed_number(items: *const i64, count: usize, lengths: *const usize, ndim: usize, order: usize, call: usize, calls: usize) -> u64;
    fn nd_speed_number_floats(items: *const f64, count: usize, lengths: *const usize, ndim: usize, order: usize, call: usize, calls: usize) -> u64;
    fn nd_speed_number_bytes(items: *const u8, count: usize, lengths: *const usize, ndim: usize, order: usize, call: usize, calls: usize) -> u64;
    fn nd_speed_zip_new(left: *const i64, count: usize, right: *const i64, others: usize, lengths: *const usize, ndim: usize, left_order: usize, right_order: usize, call: usize, calls: usize) -> u64;
    fn nd_speed_zip_total(left: *const i64, count: usize, right: *const i64, others: usize, lengths: *const usize, ndim: usize, left_order: usize, right_order: usize, call: usize, calls: usize) -> u64;
    fn nd_speed_zip_new_floats(left: *const f64, count: usize, right: *const f64, others: usize, lengths: *const usize, ndim: usize, left_order: usize, right_order: usize, call: usize, calls: usize) -> u64;
    fn nd_speed_zip_total_floats(left: *const f64, count: usize, right: *const f64, others: usize, lengths: *const usize, ndim: usize, left_order: usize, right_order: usize, call: usize, calls: usize) -> u64;
    fn nd_speed_zip_new_bytes(left: *const u8, count: usize, right: *const u8, others: usize, lengths: *const usize, ndim: usize, left_order: usize, right_order: usize, call: usize, calls: usize) -> u64;
    fn nd_speed_zip_total_bytes(left: *const u8, count: usize, right: *const u8, others: usize, lengths: *const usize, ndim: usize, left_order: usize, right_order: usize, call: usize, calls: usize) -> u64;
    fn nd_speed_lanes(items: *const i64, count: usize, lengths: *const usize, ndim: usize, order: usize, axis: usize, call: usize, calls: usize) -> u64;
    fn nd_speed_lanes_floats(items: *const f64, count: usize, lengths: *const usize, ndim: usize, order: usize, axis: usize, call: usize, calls: usize) -> u64;
}

/// The calls on elements of one type.
struct Kind<A> {
    new: New<A>,
    changed: Changed<A>,
    of_all: OfAll<A>,
    zip_new: OfTwo<A>,
    zip_total: OfTwo<A>,
    of_lanes: Option<OfLanes<A>>,
}

const SIDES: [usize; 3] = [1000, 100, 10];

/// The names of the orders by their numbers.
const ORDERS: [&str; 3] = ["C", "F", "every second"];

/// The orders of a left and a right array.
const PAIRS: [(usize, usize); 4] = [(0, 0), (1, 1), (0, 1), (2, 2)];

/// The names of calls by the numbers that the library is told.
const NEW: [&str; 2] = ["add", "mul_scalar"];
const CHANGED: [&str; 3] = ["a += &b", "a *= x", "scaled_add"];
const OF_ALL: [&str; 5] = ["sum", "product", "min", "max", "argmin"];
const ZIP_NEW: [&str; 2] = ["zip_map", "zip_map_with_two"];
const ZIP_TOTAL: [&str; 2] = ["zip_fold", "zip_for_each"];
const OF_LANES: [&str; 2] = ["sum_axis", "mean_axis"];

/// How many times a number of calls is timed.
const REPEATS: usize = 10;

/// How many calls are timed at once.
fn calls_of(side: usize) -> usize {
    (4_000_000 / (side * side)).clamp(2, 10_000)
}

fn name_of_orders(left: usize, right: usize) -> String {
    if left == right { ORDERS[left].to_string() } else { format!("{} and {}", ORDERS[left], ORDERS[right]) }
}

/// What one call makes, again and again.
fn again<T>(mut one: impl FnMut() -> T) -> impl FnMut(usize) -> u64 {
    move |calls| {
        for _ in 0..calls {
            black_box(one());
        }
        1
    }
}

fn elementwise<A: Number>(kind: &Kind<A>, side: usize, left: usize, right: usize) {
    let (mut items, others) = (A::list(side * side), A::list(side * side));
    let (lengths, number, calls) = black_box(([side, side], A::ONE, calls_of(side)));
    let (to, from) = black_box((Part::of(left, side), Part::of(right, side)));
    let (place, other, count) = (items.as_mut_ptr(), others.as_ptr(), items.len());
    let orders = name_of_orders(left, right);
    for (call, name) in NEW.iter().enumerate() {
        if call == 0 || left == right {
            let mut loops = again(|| plain::new(black_box(&items), black_box(&others), to, from, number, call));
            row_of(&format!("`{name}` of `{}`: {orders}, {side}", A::NAME), REPEATS, calls, &mut loops, &mut |calls| unsafe {
                (kind.new)(place, count, other, count, lengths.as_ptr(), 2, left, right, number, call, calls)
            });
        }
    }
    for (call, name) in CHANGED.iter().enumerate() {
        if call != 1 || left == right {
            let mut loops = again(|| plain::change(black_box(&mut items), black_box(&others), to, from, number, call));
            row_of(&format!("`{name}` of `{}`: {orders}, {side}", A::NAME), REPEATS, calls, &mut loops, &mut |calls| unsafe {
                (kind.changed)(place, count, other, count, lengths.as_ptr(), 2, left, right, number, call, calls)
            });
        }
    }
}

fn zips<A: Number>(kind: &Kind<A>, side: usize, left: usize, right: usize) {
    let (items, others) = (A::list(side * side), A::list(side * side));
    let (lengths, calls) = black_box(([side, side], calls_of(side)));
    let (to, from) = black_box((Part::of(left, side), Part::of(right, side)));
    let (place, other, count) = (items.as_ptr(), others.as_ptr(), items.len());
    let named = |name: &str| format!("`{name}` of `{}`: {}, {side}", A::NAME, name_of_orders(left, right));
    for (call, name) in ZIP_NEW.iter().enumerate() {
        let mut loops = again(|| plain::new(black_box(&items), black_box(&others), to, from, A::ONE, call + 2));
        row_of(&named(name), REPEATS, calls, &mut loops, &mut |calls| unsafe {
            (kind.zip_new)(place, count, other, count, lengths.as_ptr(), 2, left, right, call, calls)
        });
    }
    for (call, name) in ZIP_TOTAL.iter().enumerate() {
        let mut loops = again(|| plain::products(black_box(&items), black_box(&others), to, from, call == 0));
        row_of(&named(name), REPEATS, calls, &mut loops, &mut |calls| unsafe {
            (kind.zip_total)(place, count, other, count, lengths.as_ptr(), 2, left, right, call, calls)
        });
    }
}

fn of_all<A: Number>(kind: &Kind<A>, side: usize, order: usize) {
    let items = A::list(side * side);
    let (lengths, part, calls) = black_box(([side, side], Part::of(order, side), calls_of(side)));
    let (place, count) = (items.as_ptr(), items.len());
    for (call, name) in OF_ALL.iter().enumerate() {
        let name = format!("`{name}` of `{}`: {}, {side}", A::NAME, ORDERS[order]);
        let mut here = |calls| unsafe { (kind.of_all)(place, count, lengths.as_ptr(), 2, order, call, calls) };
        if call == 4 {
            let best = plain::best_way(2, |way| plain::argmin(&items, part, way));
            row_of(&name, REPEATS, calls, &mut again(|| plain::argmin(black_box(&items), part, best)), &mut here);
        } else {
            row_of(&name, REPEATS, calls, &mut again(|| plain::number(black_box(&items), part, call)), &mut here);
        }
    }
}

fn of_lanes<A: Number>(ours: OfLanes<A>, side: usize, order: usize) {
    let items = A::list(side * side);
    let (lengths, part, calls) = black_box(([side, side], Part::of(order, side), calls_of(side)));
    let (place, count) = (items.as_ptr(), items.len());
    for (call, name) in OF_LANES.iter().enumerate() {
        for axis in 0..2 {
            let mut loops = again(|| plain::lanes(black_box(&items), part, axis, call));
            row_of(&format!("`{name}` of `{}`, axis {axis}: {}, {side}", A::NAME, ORDERS[order]), REPEATS, calls, &mut loops, &mut |calls| unsafe {
                ours(place, count, lengths.as_ptr(), 2, order, axis, call, calls)
            });
        }
    }
}

fn rows_of<A: Number>(kind: &Kind<A>) {
    for side in SIDES {
        for (left, right) in PAIRS {
            elementwise(kind, side, left, right);
            zips(kind, side, left, right);
        }
        for order in 0..ORDERS.len() {
            of_all(kind, side, order);
            if let Some(ours) = kind.of_lanes {
                of_lanes(ours, side, order);
            }
        }
    }
}

pub fn rows() {
    rows_of(&Kind { new: nd_speed_new, changed: nd_speed_changed, of_all: nd_speed_number, zip_new: nd_speed_zip_new, zip_total: nd_speed_zip_total, of_lanes: Some(nd_speed_lanes) });
    rows_of(&Kind { new: nd_speed_new_floats, changed: nd_speed_changed_floats, of_all: nd_speed_number_floats, zip_new: nd_speed_zip_new_floats, zip_total: nd_speed_zip_total_floats, of_lanes: Some(nd_speed_lanes_floats) });
    rows_of(&Kind { new: nd_speed_new_bytes, changed: nd_speed_changed_bytes, of_all: nd_speed_number_bytes, zip_new: nd_speed_zip_new_bytes, zip_total: nd_speed_zip_total_bytes, of_lanes: None });
}
