//! Calls over small square arrays of numbers of 8 bytes, where the fixed cost of a call shows, beside plain loops. Of a call over two
//! arrays both lie in row-major order, or both in column-major order, or the left in the first and the right in the second. A call over
//! one array goes over all of it in either order, or over a part: every second row and column of another array, counted from the ends.
//!
//! With the words ROW, `here` or `plain`, and CALLS it only makes so many calls of that row, for a count of instructions.

use crate::{nd_speed_fill, row_of};
use std::hint::black_box;

#[rustfmt::skip]
unsafe extern "C" {
    fn nd_speed_over_two(left: *mut i64, left_count: usize, left_lengths: *const usize, left_ndim: usize, left_order: *const usize, left_axes: usize, left_backwards: bool, right: *const i64, right_count: usize, right_lengths: *const usize, right_ndim: usize, right_order: *const usize, right_axes: usize, right_backwards: bool, call: usize, calls: usize) -> u64;
    fn nd_speed_fold(items: *const i64, count: usize, lengths: *const usize, ndim: usize, case: usize, calls: usize) -> u64;
    fn nd_speed_map_inplace(items: *mut i64, count: usize, lengths: *const usize, ndim: usize, case: usize, calls: usize) -> u64;
}

const SIDES: [usize; 3] = [3, 10, 32];
const OVER_TWO: [&str; 3] = ["assign", "zip_mut_with", "=="];
const OVER_ONE: [&str; 3] = ["fill", "map_inplace", "fold"];
/// The orders of the axes of two arrays, the nearest axis last.
const ORDERS: [(&str, [usize; 2], [usize; 2]); 3] =
    [("row-major", [0, 1], [0, 1]), ("column-major", [1, 0], [1, 0]), ("in two orders", [0, 1], [1, 0])];
/// The cases of one array by the number that the library is told.
const CASES: [&str; 3] = ["row-major", "column-major", "every second"];

/// How many times a number of calls is timed, and that number.
const REPEATS: usize = 30;
const CALLS: usize = 20_000;

/// What one call does, again and again.
fn again(mut one: impl FnMut()) -> impl FnMut(usize) -> u64 {
    move |calls| {
        for _ in 0..calls {
            one();
        }
        1
    }
}

/// A plain loop over two slices: 0 for `assign`, 1 for `zip_mut_with`, else `==`.
fn over_two(left: &mut [i64], right: &[i64], call: usize) {
    match call {
        0 => left.iter_mut().zip(right).for_each(|(x, y)| *x = *y),
        1 => left.iter_mut().zip(right).for_each(|(x, y)| *x = x.wrapping_add(*y)),
        _ => {
            black_box(left == right);
        }
    }
}

/// Plain loops over the rows of the left square and the columns of the right one.
fn across(left: &mut [i64], right: &[i64], side: usize, call: usize) {
    let mut same = true;
    for (i, row) in left.chunks_exact_mut(side).enumerate() {
        for (x, y) in row.iter_mut().zip(right[i..].iter().step_by(side)) {
            match call {
                0 => *x = *y,
                1 => *x = x.wrapping_add(*y),
                _ => same &= *x == *y,
            }
        }
    }
    black_box(same);
}

/// A plain loop over the elements of one array, as they lie or of a part.
fn over_one<'a>(items: impl Iterator<Item = &'a mut i64>, call: usize) {
    match call {
        0 => {
            let value = black_box(7);
            items.for_each(|x| *x = value);
        }
        1 => items.for_each(|x| *x = x.wrapping_add(*x)),
        _ => {
            black_box(items.fold(0i64, |sum, x| sum.wrapping_add(*x)));
        }
    }
}

/// The elements of every second row and column, counted from the ends.
fn every_second(items: &mut [i64], side: usize) -> impl Iterator<Item = &mut i64> {
    items.chunks_exact_mut(side).rev().step_by(2).flat_map(|row| row.iter_mut().rev().step_by(2))
}

/// What is done with a row: its name, the plain loops and the calls.
type Visit<'a> = dyn FnMut(&str, &mut dyn FnMut(usize) -> u64, &mut dyn FnMut(usize) -> u64) + 'a;

fn pairs(side: usize, name: &str, orders: &[[usize; 2]; 2], visit: &mut Visit) {
    let (mut left, right) = (vec![1i64; side * side], vec![1i64; side * side]);
    let (lengths, orders) = black_box(([side, side], *orders));
    let (place, other, count) = (left.as_mut_ptr(), right.as_ptr(), right.len());
    for (call, of) in OVER_TWO.iter().enumerate() {
        left.copy_from_slice(&right);
        let mut loops = again(|| match orders[0] == orders[1] {
            true => over_two(black_box(&mut left), black_box(&right), call),
            false => across(black_box(&mut left), black_box(&right), lengths[0], call),
        });
        visit(&format!("`{of}`, {name}: {side}"), &mut loops, &mut |calls| unsafe {
            let (lengths, order, paired) = (lengths.as_ptr(), orders[0].as_ptr(), orders[1].as_ptr());
            1 | nd_speed_over_two(place, count, lengths, 2, order, 2, false, other, count, lengths, 2, paired, 2, false, call, calls)
        });
    }
}

fn singles(side: usize, name: &str, case: usize, visit: &mut Visit) {
    let part = case == 2;
    let whole = if part { 2 * side } else { side };
    let mut items = vec![1i64; whole * whole];
    let (lengths, case) = black_box(([whole, whole], case));
    let (place, count) = (items.as_mut_ptr(), items.len());
    for (call, of) in OVER_ONE.iter().enumerate().skip(part as usize) {
        let mut loops = again(|| match part {
            true => over_one(every_second(black_box(&mut items), lengths[0]), call),
            false => over_one(black_box(&mut items).iter_mut(), call),
        });
        visit(&format!("`{of}`, {name}: {side}"), &mut loops, &mut |calls| unsafe {
            match call {
                0 => nd_speed_fill(place as *mut u64, count, lengths.as_ptr(), 2, case == 1, 1, true, calls),
                1 => nd_speed_map_inplace(place, count, lengths.as_ptr(), 2, case, calls),
                _ => nd_speed_fold(place, count, lengths.as_ptr(), 2, case, calls),
            }
        });
    }
}

fn each(visit: &mut Visit) {
    for side in SIDES {
        for (name, order, paired) in &ORDERS {
            pairs(side, name, &[*order, *paired], visit);
        }
        for (case, name) in CASES.iter().enumerate() {
            singles(side, name, case, visit);
        }
    }
}

pub fn rows() {
    let words: Vec<String> = std::env::args().skip(2).collect();
    each(&mut |name, plain, here| match &words[..] {
        [] => row_of(name, REPEATS, CALLS, plain, here),
        [row, who, calls] if row == name => {
            let calls = calls.parse().expect("a number of calls");
            black_box(if who == "here" { here(calls) } else { plain(calls) });
        }
        _ => {}
    });
}
