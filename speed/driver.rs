//! Times what `nd_speed` exports: prints a line for each call and number of axes, with the nanoseconds of one call.
//!
//! A row is added by an export in speed/nd_speed, its declaration here, a line in `rows`, and the nearest call of numpy
//! in table.py.

use std::hint::black_box;

/// The start and the step of a slice up to its axis's end, as `nd_speed` has it.
#[repr(C)]
#[derive(Clone, Copy)]
struct Bounds {
    start: isize,
    step: isize,
}

/// A slice as an export takes it: a pointer and a length.
#[repr(C)]
#[derive(Clone, Copy)]
struct List<T>(*const T, usize);

#[repr(C)]
struct TimeSpec {
    seconds: i64,
    nanoseconds: i64,
}

const PROCESS_CPU_TIME: i32 = 2;

unsafe extern "C" {
    fn clock_gettime(clock: i32, time: *mut TimeSpec) -> i32;

    fn nd_speed_slice_axis(items: *const u64, count: usize, lengths: *const usize, ndim: usize, axis: usize, start: isize, step: isize, fixed: bool, calls: usize) -> u64;
    fn nd_speed_permuted_axes(items: *const u64, count: usize, lengths: *const usize, ndim: usize, order: *const usize, number: usize, fixed: bool, calls: usize) -> u64;
    fn nd_speed_slice(items: *const u64, count: usize, lengths: *const usize, ndim: usize, bounds: *const Bounds, number: usize, fixed: bool, calls: usize) -> u64;
    fn nd_speed_split_at(items: *const u64, count: usize, lengths: *const usize, ndim: usize, axis: usize, index: usize, fixed: bool, calls: usize) -> u64;
    fn nd_speed_broadcast(items: *const u64, count: usize, lengths: *const usize, ndim: usize, to: *const usize, number: usize, fixed: bool, calls: usize) -> u64;
    fn nd_speed_multi_slice_mut(items: *mut u64, count: usize, lengths: *const usize, ndim: usize, first: *const Bounds, a: usize, second: *const Bounds, b: usize, fixed: bool, calls: usize) -> u64;
    fn nd_speed_axes_fit(order: *const usize, number: usize, ndim: usize, calls: usize) -> u64;
    fn nd_speed_fits(lengths: *const usize, ndim: usize, bounds: *const Bounds, number: usize, calls: usize) -> u64;
    fn nd_speed_slices_intersect(lengths: *const usize, ndim: usize, first: *const Bounds, a: usize, second: *const Bounds, b: usize, calls: usize) -> u64;
}

/// The processor time of this process, which other work on the machine doesn't lengthen much.
fn nanoseconds() -> f64 {
    let mut time = TimeSpec { seconds: 0, nanoseconds: 0 };
    unsafe { clock_gettime(PROCESS_CPU_TIME, &mut time) };
    time.seconds as f64 * 1e9 + time.nanoseconds as f64
}

fn time_of(call: &dyn Fn(usize) -> u64, calls: usize) -> f64 {
    let start = nanoseconds();
    assert_ne!(black_box(call(black_box(calls))), 0, "arguments that don't fit");
    nanoseconds() - start
}

/// The median over several repeats of the nanoseconds of one call.
fn median_of(call: &dyn Fn(usize) -> u64) -> f64 {
    let mut calls = 64;
    while time_of(call, calls) < 1e6 {
        calls *= 2;
    }
    let mut times: Vec<f64> = (0..15).map(|_| time_of(call, calls) / calls as f64).collect();
    times.sort_by(f64::total_cmp);
    times[times.len() / 2]
}

/// What the calls are made on.
struct Case {
    items: Vec<u64>,
    lengths: Vec<usize>,
    narrow: Vec<usize>,
    reversed: Vec<usize>,
    bounds: Vec<Bounds>,
    even: Vec<Bounds>,
    odd: Vec<Bounds>,
    whole: Vec<Bounds>,
}

/// Axes of length 6 and 4, then up to ten of length 2, then of length 1; table.py has the same.
fn case_of(ndim: usize) -> Case {
    let length = |axis| match axis {
        0 => 6,
        1 => 4,
        2..12 => 2,
        _ => 1,
    };
    let lengths: Vec<usize> = (0..ndim).map(length).collect();
    let mut narrow = lengths.clone();
    narrow[0] = 1;
    let rows = |start| {
        let bounds = |axis| if axis == 0 { Bounds { start, step: 2 } } else { Bounds { start: 0, step: 1 } };
        (0..ndim).map(bounds).collect::<Vec<_>>()
    };
    let mut bounds = rows(1);
    for axis in (1..ndim).step_by(2) {
        bounds[axis].step = -1;
    }
    Case {
        items: (0..lengths.iter().product::<usize>() as u64).collect(),
        lengths,
        narrow,
        reversed: (0..ndim).rev().collect(),
        bounds,
        even: rows(0),
        odd: rows(1),
        whole: vec![Bounds { start: 0, step: 1 }; ndim],
    }
}

/// Prints the rows of one number of axes. Everything goes through `black_box`, so that nothing is known when it is compiled.
fn rows(case: &mut Case, fixed: bool) {
    let column = format!("{}{}", if fixed { "Ix" } else { "" }, case.lengths.len());
    let row = |name: &str, call: &dyn Fn(usize) -> u64| println!("{name}\t{column}\t{:.2}", median_of(call));
    let (items, count) = (black_box(case.items.as_mut_ptr()), case.items.len());
    let List(lengths, ndim) = List(black_box(case.lengths.as_ptr()), case.lengths.len());
    let narrow = black_box(case.narrow.as_ptr());
    let order = black_box(case.reversed.as_ptr());
    let bounds = black_box(case.bounds.as_ptr());
    let (even, odd, whole) = black_box((case.even.as_ptr(), case.odd.as_ptr(), case.whole.as_ptr()));
    unsafe {
        row("slice_axis", &|calls| nd_speed_slice_axis(items, count, lengths, ndim, black_box(0), black_box(1), black_box(2), fixed, calls));
        row("permuted_axes", &|calls| nd_speed_permuted_axes(items, count, lengths, ndim, order, ndim, fixed, calls));
        row("slice", &|calls| nd_speed_slice(items, count, lengths, ndim, bounds, ndim, fixed, calls));
        row("split_at", &|calls| nd_speed_split_at(items, count, lengths, ndim, black_box(0), black_box(2), fixed, calls));
        row("broadcast", &|calls| nd_speed_broadcast(items, count, narrow, ndim, lengths, ndim, fixed, calls));
        row("multi_slice_mut", &|calls| nd_speed_multi_slice_mut(items, count, lengths, ndim, even, ndim, odd, ndim, fixed, calls));
        if !fixed {
            row("axes_fit", &|calls| nd_speed_axes_fit(order, ndim, ndim, calls));
            row("fits", &|calls| nd_speed_fits(lengths, ndim, bounds, ndim, calls));
            row("slices_intersect", &|calls| nd_speed_slices_intersect(lengths, ndim, bounds, ndim, whole, ndim, calls));
        }
    }
}

fn main() {
    rows(&mut case_of(2), true);
    for ndim in [2, 4, 8, 16, 32] {
        rows(&mut case_of(ndim), false);
    }
}
