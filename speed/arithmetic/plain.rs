//! Plain loops: each does what a call of the library does, and is the fastest that was found for an order of the elements.

use std::hint::black_box;
use std::time::Instant;

/// A number, with the arithmetic of nd_numbers.
pub trait Number: Copy + PartialEq {
    const NAME: &'static str;
    const ZERO: Self;
    const ONE: Self;
    /// Whether a sum, and a least element, is the same in any order.
    const ANY_ORDER: bool;

    fn of(nth: usize) -> Self;
    fn plus(self, x: Self) -> Self;
    fn times(self, x: Self) -> Self;
    fn over(self, count: usize) -> Self;
    fn is_less(self, x: Self) -> bool;

    /// Numbers in no order.
    fn list(count: usize) -> Vec<Self> {
        (0..count).map(|nth| Self::of(nth * 7919 % 1009)).collect()
    }
}

impl Number for i64 {
    const NAME: &'static str = "i64";
    const ZERO: i64 = 0;
    const ONE: i64 = 1;
    const ANY_ORDER: bool = true;

    fn of(nth: usize) -> i64 {
        nth as i64
    }
    fn plus(self, x: i64) -> i64 {
        self.wrapping_add(x)
    }
    fn times(self, x: i64) -> i64 {
        self.wrapping_mul(x)
    }
    fn over(self, count: usize) -> i64 {
        self / count as i64
    }
    fn is_less(self, x: i64) -> bool {
        self < x
    }
}

impl Number for u8 {
    const NAME: &'static str = "u8";
    const ZERO: u8 = 0;
    const ONE: u8 = 1;
    const ANY_ORDER: bool = true;

    fn of(nth: usize) -> u8 {
        nth as u8
    }
    fn plus(self, x: u8) -> u8 {
        self.wrapping_add(x)
    }
    fn times(self, x: u8) -> u8 {
        self.wrapping_mul(x)
    }
    fn over(self, count: usize) -> u8 {
        self / count as u8
    }
    fn is_less(self, x: u8) -> bool {
        self < x
    }
}

impl Number for f64 {
    const NAME: &'static str = "f64";
    const ZERO: f64 = 0.0;
    const ONE: f64 = 1.0;
    const ANY_ORDER: bool = false;

    /// The factors of a product stay near 1, so that it does, too.
    fn of(nth: usize) -> f64 {
        if nth % 2 == 0 { 1.0 + nth as f64 / 1e9 } else { 1.0 - nth as f64 / 1e9 }
    }
    fn plus(self, x: f64) -> f64 {
        self + x
    }
    fn times(self, x: f64) -> f64 {
        self * x
    }
    fn over(self, count: usize) -> f64 {
        self / count as f64
    }
    /// A NaN comes after all numbers.
    fn is_less(self, x: f64) -> bool {
        self < x || (x.is_nan() && !self.is_nan())
    }
}

/// Where the elements of a square part lie.
#[derive(Clone, Copy)]
pub struct Part {
    first: isize,
    side: isize,
    row: isize,
    column: isize,
}

impl Part {
    /// The part of a square of this side that an order's number names.
    pub fn of(order: usize, side: usize) -> Part {
        let len = side as isize;
        match order {
            0 => Part { first: 0, side: len, row: len, column: 1 },
            1 => Part { first: 0, side: len, row: 1, column: len },
            _ => Part { first: (len - 1) * len + len - 1, side: (len + 1) / 2, row: -2 * len, column: -2 },
        }
    }

    fn at(self, row: isize, column: isize) -> usize {
        (self.first + row * self.row + column * self.column) as usize
    }

    fn turned(self) -> Part {
        Part { row: self.column, column: self.row, ..self }
    }

    fn is_whole(self) -> bool {
        self.first == 0
    }

    /// Whether the elements of a row lie nearer to each other than those of a column.
    fn is_by_rows(self) -> bool {
        self.column.abs() < self.row.abs()
    }

    fn size(self) -> usize {
        (self.side * self.side) as usize
    }
}

/// An element with no test of its place, as the loops here want none.
fn at<A: Copy>(items: &[A], place: usize) -> A {
    debug_assert!(place < items.len());
    unsafe { *items.get_unchecked(place) }
}

/// The fastest of several ways to do one thing, by three turns of each.
pub fn best_way<T>(ways: usize, mut one: impl FnMut(usize) -> T) -> usize {
    let time = |way: usize, one: &mut dyn FnMut(usize) -> T| {
        let start = Instant::now();
        black_box(one(way));
        start.elapsed()
    };
    (0..ways).min_by_key(|way| (0..3).map(|_| time(*way, &mut one)).min()).unwrap_or(0)
}

/// How many rows and columns are done together, where two arrays lie in other orders.
const TILE: isize = 16;

/// Each pair of places once: along both memories where they lie in one order, and in small squares where they don't.
fn with_pairs(to: Part, from: Part, mut each: impl FnMut(usize, usize)) {
    let (to, from) = if to.is_by_rows() { (to, from) } else { (to.turned(), from.turned()) };
    let tile = if from.is_by_rows() { to.side } else { TILE };
    for top in (0..to.side).step_by(tile as usize) {
        for left in (0..to.side).step_by(tile as usize) {
            for row in top..(top + tile).min(to.side) {
                for column in left..(left + tile).min(to.side) {
                    each(to.at(row, column), from.at(row, column));
                }
            }
        }
    }
}

/// A new list of what the closure makes of each pair.
fn paired<A: Number>(items: &[A], others: &[A], to: Part, from: Part, make: impl Fn(A, A) -> A) -> Vec<A> {
    if to.is_whole() && from.is_whole() && to.row == from.row {
        return items.iter().zip(others).map(|(x, y)| make(*x, *y)).collect();
    }
    let mut made = Vec::with_capacity(to.size());
    if to.is_by_rows() == from.is_by_rows() {
        for row in 0..to.side {
            made.extend((0..to.side).map(|column| make(at(items, to.at(row, column)), at(others, from.at(row, column)))));
        }
    } else {
        let place: *mut A = made.as_mut_ptr();
        with_pairs(to, from, |one, other| unsafe { place.add(one).write(make(at(items, one), at(others, other))) });
        unsafe { made.set_len(to.size()) };
    }
    made
}

/// A new list of what the closure makes of each element.
fn mapped<A: Number>(items: &[A], part: Part, make: impl Fn(A) -> A) -> Vec<A> {
    if part.is_whole() {
        return items.iter().map(|x| make(*x)).collect();
    }
    let mut made = Vec::with_capacity(part.size());
    for row in 0..part.side {
        made.extend((0..part.side).map(|column| make(at(items, part.at(row, column)))));
    }
    made
}

/// A new list: the sum of both where `call` is 0 or 2, the left one times the number where it is 1, and otherwise the sum of both and the
/// right one again.
pub fn new<A: Number>(items: &[A], others: &[A], to: Part, from: Part, number: A, call: usize) -> Vec<A> {
    match call {
        0 | 2 => paired(items, others, to, from, |x, y| x.plus(y)),
        1 => mapped(items, to, |x| x.times(number)),
        _ => paired(items, others, to, from, |x, y| x.plus(y).plus(y)),
    }
}

/// The sum of the products of all pairs: in row-major order where `in_order` says so and the order matters, and otherwise along memory.
pub fn products<A: Number>(items: &[A], others: &[A], to: Part, from: Part, in_order: bool) -> A {
    let any_order = A::ANY_ORDER || !in_order;
    if to.is_whole() && from.is_whole() && to.row == from.row && (any_order || to.is_by_rows()) {
        return items.iter().zip(others).fold(A::ZERO, |total, (x, y)| total.plus(x.times(*y)));
    }
    let mut total = A::ZERO;
    if any_order && to.is_by_rows() != from.is_by_rows() {
        with_pairs(to, from, |one, other| total = total.plus(at(items, one).times(at(others, other))));
        return total;
    }
    for row in 0..to.side {
        for column in 0..to.side {
            total = total.plus(at(items, to.at(row, column)).times(at(others, from.at(row, column))));
        }
    }
    total
}

fn change_pairs<A: Number>(items: &mut [A], others: &[A], to: Part, from: Part, make: impl Fn(A, A) -> A) {
    if to.is_whole() && from.is_whole() && to.row == from.row {
        for (x, y) in items.iter_mut().zip(others) {
            *x = make(*x, *y);
        }
    } else {
        with_pairs(to, from, |one, other| {
            let made = make(at(items, one), at(others, other));
            unsafe { *items.get_unchecked_mut(one) = made };
        });
    }
}

fn change_each<A: Number>(items: &mut [A], part: Part, make: impl Fn(A) -> A) {
    if part.is_whole() {
        items.iter_mut().for_each(|x| *x = make(*x));
    } else {
        with_pairs(part, part, |one, _| unsafe { *items.get_unchecked_mut(one) = make(at(items, one)) });
    }
}

/// A change in place: 0 for `+=`, 1 for `*=` with a number, else a multiple added.
pub fn change<A: Number>(items: &mut [A], others: &[A], to: Part, from: Part, number: A, call: usize) {
    match call {
        0 => change_pairs(items, others, to, from, |x, y| x.plus(y)),
        1 => change_each(items, to, |x| x.times(number)),
        _ => change_pairs(items, others, to, from, |x, y| x.plus(number.times(y))),
    }
}

/// The fold of all elements: along memory where any order serves, and otherwise in row-major order.
fn folded<A: Number>(items: &[A], part: Part, first: A, next: impl Fn(A, A) -> A) -> A {
    if part.is_whole() && (A::ANY_ORDER || part.is_by_rows()) {
        return items.iter().fold(first, |total, x| next(total, *x));
    }
    let mut total = first;
    for row in 0..part.side {
        for column in 0..part.side {
            total = next(total, at(items, part.at(row, column)));
        }
    }
    total
}

/// One number of all elements: 0 for the sum, 1 for the product, 2 for the least one, else the greatest one.
pub fn number<A: Number>(items: &[A], part: Part, call: usize) -> A {
    let first = at(items, part.at(0, 0));
    match call {
        0 => folded(items, part, A::ZERO, |total, x| total.plus(x)),
        1 => folded(items, part, A::ONE, |total, x| total.times(x)),
        2 => folded(items, part, first, |least, x| if x.is_less(least) { x } else { least }),
        _ => folded(items, part, first, |greatest, x| if greatest.is_less(x) { x } else { greatest }),
    }
}

/// The index of the first of the least elements in row-major order: the first way keeps the least one and its index, the
/// second one looks for the least one first and then for its index.
pub fn argmin<A: Number>(items: &[A], part: Part, way: usize) -> (isize, isize) {
    let mut least = at(items, part.at(0, 0));
    if way == 1 {
        least = number(items, part, 2);
    }
    let mut index = (0, 0);
    for row in 0..part.side {
        for column in 0..part.side {
            let x = at(items, part.at(row, column));
            if way == 1 && !least.is_less(x) {
                return (row, column);
            }
            if x.is_less(least) {
                (least, index) = (x, (row, column));
            }
        }
    }
    index
}

/// The sum of each row, or of each column where these lie along memory.
fn sums<A: Number>(items: &[A], side: usize, part: Part) -> Vec<A> {
    let mut sums = vec![A::ZERO; side];
    if part.column == 1 {
        for (sum, row) in sums.iter_mut().zip(items.chunks_exact(side)) {
            *sum = row.iter().fold(A::ZERO, |sum, x| sum.plus(*x));
        }
    } else if part.is_by_rows() {
        for (row, sum) in sums.iter_mut().enumerate() {
            for column in 0..part.side {
                *sum = sum.plus(at(items, part.at(row as isize, column)));
            }
        }
    } else if part.row == 1 {
        for row in items.chunks_exact(side) {
            for (sum, x) in sums.iter_mut().zip(row) {
                *sum = sum.plus(*x);
            }
        }
    } else {
        for column in 0..part.side {
            for (row, sum) in sums.iter_mut().enumerate() {
                *sum = sum.plus(at(items, part.at(row as isize, column)));
            }
        }
    }
    sums
}

/// The sums along an axis where `call` is 0, and otherwise the means.
pub fn lanes<A: Number>(items: &[A], part: Part, axis: usize, call: usize) -> Vec<A> {
    let part = if axis == 0 { part.turned() } else { part };
    let side = part.side as usize;
    let mut made = sums(items, side, part);
    if call > 0 {
        made.iter_mut().for_each(|x| *x = x.over(side));
    }
    made
}
