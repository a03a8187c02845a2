//! Times calls of this library and of ndarray itself over square arrays of two axes, whose shapes are known only at run time. Prints a line
//! for each call, order and side, with who made the call and the microseconds that one took. Both take their memory by malloc.

#[path = "../runtime.rs"]
mod runtime;

use ndarray::{ArrayView2, ArrayViewD, ArrayViewMut2, Axis, IxDyn, ShapeBuilder, Slice};
use runtime::microseconds;
use std::hint::black_box;

#[rustfmt::skip]
unsafe extern "C" {
    fn nd_speed_over_two(left: *mut i64, left_count: usize, left_lengths: *const usize, left_ndim: usize, left_order: *const usize, left_axes: usize, left_backwards: bool, right: *const i64, right_count: usize, right_lengths: *const usize, right_ndim: usize, right_order: *const usize, right_axes: usize, right_backwards: bool, call: usize, calls: usize) -> u64;
    fn nd_speed_copied(items: *const i64, count: usize, lengths: *const usize, ndim: usize, order: *const usize, axes: usize, backwards: bool, call: usize, calls: usize) -> u64;
    fn nd_speed_fill(items: *mut u64, count: usize, lengths: *const usize, ndim: usize, reversed: bool, step: isize, fixed: bool, calls: usize) -> u64;
    fn nd_speed_fold(items: *const i64, count: usize, lengths: *const usize, ndim: usize, case: usize, calls: usize) -> u64;
    fn nd_speed_map(items: *const i64, count: usize, lengths: *const usize, ndim: usize, case: usize, calls: usize) -> u64;
    fn nd_speed_map_inplace(items: *mut i64, count: usize, lengths: *const usize, ndim: usize, case: usize, calls: usize) -> u64;
    fn nd_speed_new(left: *const i64, count: usize, right: *const i64, others: usize, lengths: *const usize, ndim: usize, left_order: usize, right_order: usize, number: i64, call: usize, calls: usize) -> u64;
    fn nd_speed_changed(left: *mut i64, count: usize, right: *const i64, others: usize, lengths: *const usize, ndim: usize, left_order: usize, right_order: usize, number: i64, call: usize, calls: usize) -> u64;
    fn nd_speed_number(items: *const i64, count: usize, lengths: *const usize, ndim: usize, order: usize, call: usize, calls: usize) -> u64;
    fn nd_speed_number_floats(items: *const f64, count: usize, lengths: *const usize, ndim: usize, order: usize, call: usize, calls: usize) -> u64;
    fn nd_speed_lanes(items: *const i64, count: usize, lengths: *const usize, ndim: usize, order: usize, axis: usize, call: usize, calls: usize) -> u64;
    fn nd_speed_slice_axis(items: *const u64, count: usize, lengths: *const usize, ndim: usize, axis: usize, start: isize, step: isize, fixed: bool, calls: usize) -> u64;
}

const SIDES: [usize; 4] = [3, 10, 100, 1000];
/// The names of orders by their numbers: row-major, column-major, and every second row and column from the last ones back.
const ORDERS: [&str; 3] = ["C", "F", "every second"];
const PAIRS: [(usize, usize); 3] = [(0, 0), (1, 1), (0, 1)];
const REPEATS: usize = 12;

/// The arrays of one side: of numbers, and of floats.
struct Given {
    side: usize,
    left: Vec<i64>,
    right: Vec<i64>,
    floats: Vec<f64>,
    calls: usize,
}

fn time_of(calls: usize, call: &mut dyn FnMut(usize) -> u64) -> f64 {
    let start = microseconds();
    assert_ne!(black_box(call(black_box(calls))), 0, "arguments that don't fit");
    (microseconds() - start) / calls as f64
}

/// The least over several repeats of some calls, which take turns: other work on the machine then slows both alike.
fn row(given: &Given, name: &str, theirs: &mut dyn FnMut(usize) -> u64, here: &mut dyn FnMut(usize) -> u64) {
    let mut least = (f64::MAX, f64::MAX);
    for _ in 0..REPEATS {
        least = (least.0.min(time_of(given.calls, theirs)), least.1.min(time_of(given.calls, here)));
    }
    println!("{name}\t{}\t{:.6}\t{:.6}", given.side, least.0, least.1);
}

/// What one call does, again and again.
fn again<T>(mut one: impl FnMut() -> T) -> impl FnMut(usize) -> u64 {
    move |calls| {
        for _ in 0..calls {
            black_box(one());
        }
        1
    }
}

fn laid<A>(items: &[A], side: usize, order: usize) -> ArrayView2<'_, A> {
    let view = ArrayView2::from_shape((side, side), items).unwrap();
    match order {
        0 => view,
        1 => view.reversed_axes(),
        _ => view.slice_move(ndarray::s![..;-2, ..;-2]),
    }
}

fn laid_to_write<A>(items: &mut [A], side: usize, order: usize) -> ArrayViewMut2<'_, A> {
    let view = ArrayViewMut2::from_shape((side, side), items).unwrap();
    match order {
        0 => view,
        1 => view.reversed_axes(),
        _ => view.slice_move(ndarray::s![..;-2, ..;-2]),
    }
}

fn over_two(given: &mut Given, one: usize, other: usize) {
    let side = given.side;
    let (lengths, orders) = black_box(([side, side], [[0, 1], [1, 0]]));
    let names = if one == other { ORDERS[one].to_string() } else { format!("{} and {}", ORDERS[one], ORDERS[other]) };
    let (place, from, count) = (given.left.as_mut_ptr(), given.right.as_ptr(), given.left.len());
    for (call, name) in ["assign", "zip_mut_with", "=="].iter().enumerate() {
        let (mut left, right) = (given.right.clone(), given.right.clone());
        given.left.copy_from_slice(&right);
        let mut to = laid_to_write(black_box(&mut left), side, one);
        let of = laid(black_box(&right), side, other);
        let mut theirs = again(|| match call {
            0 => to.assign(black_box(&of)),
            1 => to.zip_mut_with(black_box(&of), |x, y| *x = x.wrapping_add(*y)),
            _ => {
                black_box(black_box(&to) == black_box(&of));
            }
        });
        row(given, &format!("`{name}`, {names}"), &mut theirs, &mut |calls| unsafe {
            let (lengths, one, other) = (lengths.as_ptr(), orders[one].as_ptr(), orders[other].as_ptr());
            1 | nd_speed_over_two(place, count, lengths, 2, one, 2, false, from, count, lengths, 2, other, 2, false, call, calls)
        });
    }
    for (call, name) in ["add", "a += &b"].iter().enumerate() {
        let (mut left, right) = (given.right.clone(), given.right.clone());
        let mut to = laid_to_write(black_box(&mut left), side, one);
        let of = laid(black_box(&right), side, other);
        let mut theirs = again(|| match call {
            0 => {
                black_box(&to.view() + black_box(&of));
            }
            _ => to += black_box(&of),
        });
        row(given, &format!("`{name}`, {names}"), &mut theirs, &mut |calls| unsafe {
            match call {
                0 => nd_speed_new(place, count, from, count, lengths.as_ptr(), 2, one, other, 1, 0, calls),
                _ => nd_speed_changed(place, count, from, count, lengths.as_ptr(), 2, one, other, 1, 0, calls),
            }
        });
    }
}

fn changed(given: &mut Given, order: usize) {
    let side = given.side;
    let lengths = black_box([side, side]);
    let (place, count) = (given.left.as_mut_ptr(), given.left.len());
    let mut items = given.right.clone();
    let mut to = laid_to_write(black_box(&mut items), side, order);
    row(given, &format!("`map_inplace`, {}", ORDERS[order]), &mut again(|| to.map_inplace(|x| *x = x.wrapping_add(*x))), &mut |calls| unsafe {
        nd_speed_map_inplace(place, count, lengths.as_ptr(), 2, order, calls)
    });
    if order < 2 {
        row(given, &format!("`fill`, {}", ORDERS[order]), &mut again(|| to.fill(black_box(7))), &mut |calls| unsafe {
            nd_speed_fill(place as *mut u64, count, lengths.as_ptr(), 2, order == 1, 1, true, calls)
        });
    }
}

fn read(given: &Given, order: usize) {
    let side = given.side;
    let lengths = black_box([side, side]);
    let (place, count) = (given.right.as_ptr(), given.right.len());
    let view = laid(black_box(&given.right), side, order);
    let of = ORDERS[order];
    row(given, &format!("`fold`, {of}"), &mut again(|| black_box(&view).fold(0i64, |sum, x| sum.wrapping_add(*x))), &mut |calls| unsafe {
        nd_speed_fold(place, count, lengths.as_ptr(), 2, order, calls)
    });
    row(given, &format!("`map`, {of}"), &mut again(|| black_box(&view).map(|x| x.wrapping_add(*x))), &mut |calls| unsafe {
        nd_speed_map(place, count, lengths.as_ptr(), 2, order, calls)
    });
    row(given, &format!("`sum` of `i64`, {of}"), &mut again(|| black_box(&view).sum()), &mut |calls| unsafe {
        1 | nd_speed_number(place, count, lengths.as_ptr(), 2, order, 0, calls)
    });
    let floats = laid(black_box(&given.floats), side, order);
    row(given, &format!("`sum` of `f64`, {of}"), &mut again(|| black_box(&floats).sum()), &mut |calls| unsafe {
        1 | nd_speed_number_floats(given.floats.as_ptr(), count, lengths.as_ptr(), 2, order, 0, calls)
    });
    for axis in 0..2 {
        row(given, &format!("`sum_axis({axis})`, {of}"), &mut again(|| black_box(&view).sum_axis(Axis(axis))), &mut |calls| unsafe {
            nd_speed_lanes(place, count, lengths.as_ptr(), 2, order, axis, 0, calls)
        });
    }
    if order < 2 {
        let orders = black_box([[0, 1], [1, 0]]);
        row(given, &format!("`to_owned`, {of}"), &mut again(|| black_box(&view).to_owned()), &mut |calls| unsafe {
            nd_speed_copied(place, count, lengths.as_ptr(), 2, orders[order].as_ptr(), 2, false, 0, calls)
        });
    }
}

/// A layout call, which costs the same for every side.
fn layout(given: &Given) {
    let side = given.side;
    let (lengths, slice) = black_box(([side, side], Slice::new(1, None, 2)));
    let (place, count) = (given.right.as_ptr() as *const u64, given.right.len());
    let fixed = laid(black_box(&given.right), side, 0);
    row(given, "`slice_axis` of `Ix2`", &mut again(|| black_box(&fixed).slice_axis(black_box(Axis(1)), slice).len()), &mut |calls| unsafe {
        nd_speed_slice_axis(place, count, lengths.as_ptr(), 2, 1, 1, 2, true, calls)
    });
    let dynamic = ArrayViewD::from_shape(IxDyn(&[side, side]).set_f(false), black_box(&given.right)).unwrap();
    row(given, "`slice_axis` of `IxDyn`", &mut again(|| black_box(&dynamic).slice_axis(black_box(Axis(1)), slice).len()), &mut |calls| unsafe {
        nd_speed_slice_axis(place, count, lengths.as_ptr(), 2, 1, 1, 2, false, calls)
    });
}

fn main() {
    for side in SIDES {
        let list: Vec<i64> = (0..(side * side) as i64).collect();
        let floats = list.iter().map(|x| *x as f64).collect();
        let calls = (4_000_000 / (side * side)).clamp(4, 20_000);
        let mut given = Given { side, left: list.clone(), right: list, floats, calls };
        for (one, other) in PAIRS {
            over_two(&mut given, one, other);
        }
        for order in 0..3 {
            changed(&mut given, order);
            read(&given, order);
        }
        if side == 10 {
            layout(&given);
        }
    }
}
