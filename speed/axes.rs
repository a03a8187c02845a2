//! Calls along either axis of square arrays in row-major (C) or column-major (F) order, of several sizes, beside plain loops
//! that go along the memory; `map_axis`, which hands out lane after lane, also beside one that does the same.

use crate::row_of;
use std::hint::black_box;

unsafe extern "C" {
    fn nd_speed_sums_along(items: *const i64, count: usize, lengths: *const usize, ndim: usize, axis: usize, case: usize, calls: usize) -> u64;
    fn nd_speed_lane_sums(items: *const i64, count: usize, lengths: *const usize, ndim: usize, axis: usize, case: usize, calls: usize) -> u64;
    fn nd_speed_running_sums(items: *mut i64, count: usize, lengths: *const usize, ndim: usize, axis: usize, case: usize, calls: usize) -> u64;
}

const SIDES: [usize; 4] = [10, 100, 1000, 4096];

/// The names, the axis, and whether the array is in column-major order.
const ORDERS: [(&str, usize, bool); 4] = [("axis 0 of C", 0, false), ("axis 1 of C", 1, false), ("axis 0 of F", 0, true), ("axis 1 of F", 1, true)];

/// The sums along the memory's rows, or of one row on the other.
fn sums(items: &[i64], side: usize, across: bool) -> Vec<i64> {
    if across {
        let mut sums = vec![0i64; side];
        for row in items.chunks_exact(side) {
            for (sum, x) in sums.iter_mut().zip(row) {
                *sum = sum.wrapping_add(*x);
            }
        }
        sums
    } else {
        items.chunks_exact(side).map(|row| row.iter().fold(0i64, |sum, x| sum.wrapping_add(*x))).collect()
    }
}

/// What a closure makes of the lanes across the memory's rows, each handed to it by itself, one after the other.
fn by_lane<F: FnMut(&[i64], usize) -> i64>(items: &[i64], side: usize, mut of_lane: F) -> Vec<i64> {
    (0..side).map(|nth| of_lane(&items[nth..][..(side - 1) * side + 1], side)).collect()
}

/// The sum of every `step`-th element.
fn sum_of_lane(lane: &[i64], step: usize) -> i64 {
    let mut sum = 0i64;
    for place in (0..lane.len()).step_by(step) {
        sum = sum.wrapping_add(lane[place]);
    }
    sum
}

/// Running sums the same way.
fn running_sums(items: &mut [i64], side: usize, across: bool) {
    if across {
        for row in 1..side {
            let (before, rest) = items.split_at_mut(row * side);
            for (x, sum) in rest[..side].iter_mut().zip(&before[(row - 1) * side..]) {
                *x = x.wrapping_add(*sum);
            }
        }
    } else {
        for row in items.chunks_exact_mut(side) {
            let mut sum = row[0];
            for x in &mut row[1..] {
                sum = x.wrapping_add(sum);
                *x = sum;
            }
        }
    }
}

pub fn rows() {
    for side in SIDES {
        let mut items = vec![1i64; side * side];
        let lengths = black_box([side, side]);
        let (place, count) = (items.as_mut_ptr(), items.len());
        let calls = (4_000_000 / count).clamp(2, 20_000);
        for (name, axis, turned) in ORDERS {
            let across = black_box((axis == 0) != turned);
            let case = usize::from(turned);
            let mut plain_sums = |calls| {
                for _ in 0..calls {
                    black_box(sums(black_box(&items), lengths[0], across));
                }
                1
            };
            row_of(&format!("`fold_axis` of `i64`: {name}, {side}"), 30, calls, &mut plain_sums, &mut |calls| unsafe {
                nd_speed_sums_along(place, count, lengths.as_ptr(), 2, axis, case, calls)
            });
            row_of(&format!("`map_axis` of `i64`: {name}, {side}"), 30, calls, &mut plain_sums, &mut |calls| unsafe {
                nd_speed_lane_sums(place, count, lengths.as_ptr(), 2, axis, case, calls)
            });
            if across {
                row_of(
                    &format!("`map_axis` of `i64` beside lane after lane: {name}, {side}"),
                    30,
                    calls,
                    &mut |calls| {
                        for _ in 0..calls {
                            black_box(by_lane(black_box(&items), lengths[0], sum_of_lane));
                        }
                        1
                    },
                    &mut |calls| unsafe { nd_speed_lane_sums(place, count, lengths.as_ptr(), 2, axis, case, calls) },
                );
            }
            row_of(
                &format!("`accumulate_axis_inplace` of `i64`: {name}, {side}"),
                30,
                calls,
                &mut |calls| {
                    for _ in 0..calls {
                        running_sums(black_box(&mut items[..]), lengths[0], across);
                    }
                    1
                },
                &mut |calls| unsafe { nd_speed_running_sums(place, count, lengths.as_ptr(), 2, axis, case, calls) },
            );
        }
    }
}
