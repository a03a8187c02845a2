//! Writes how ndarray itself ends constructors and reshapes: with an array, or with which error.
//!
//!     shapes < CASES
//!
//! A case is a line of numbers. The first says the call, the second the order (0 row-major, 1 column-major, 2 strides of the case's own).
//! For 0 `from_shape_vec`, 1 `ArrayView::from_shape` and 2 `ArrayViewMut::from_shape` there follow how many elements there are, a count of
//! axes, the lengths, and, for order 2, the strides. For 3 `to_shape`, 4 `into_shape_with_order` and 5 `into_shape_clone` there follow how the
//! array lies (0 in row-major, 1 in column-major order, 2 with its axes counted from their ends, 3 with every second element of each axis, 4
//! with its axes in the opposite order, 5 with an axis of stride 0 in front), a count of axes, the lengths, and the lengths that are asked for.
//! The elements have one byte, since ndarray limits sizes in bytes, and this repository in elements.

use ndarray::{Array, ArrayBase, ArrayD, ArrayView, ArrayViewD, ArrayViewMut, Axis, Data, IxDyn, Order, ShapeBuilder, ShapeError, Slice, StrideShape};
use std::io::Read;

/// How many elements are told of an array: a stride of 0 makes arrays of nearly 2^63.
const MOST_TOLD: usize = 1000;

fn told<S: Data<Elem = i8>>(word: &str, array: &ArrayBase<S, IxDyn>) {
    print!("{word}");
    for length in array.shape() {
        print!(" {length}");
    }
    print!(":");
    for element in array.iter().take(MOST_TOLD) {
        print!(" {element}");
    }
    println!();
}

fn ended<S: Data<Elem = i8>>(word: &str, result: Result<ArrayBase<S, IxDyn>, ShapeError>) {
    match result {
        Ok(array) => told(word, &array),
        Err(error) => println!("{error}"),
    }
}

fn lengths_of(numbers: &[isize]) -> Vec<usize> {
    numbers.iter().map(|number| *number as usize).collect()
}

fn constructed(call: isize, order: isize, numbers: &[isize]) {
    let (count, axes) = (numbers[0] as usize, numbers[1] as usize);
    let lengths = IxDyn(&lengths_of(&numbers[2..2 + axes]));
    let shape: StrideShape<IxDyn> = match order {
        2 => lengths.strides(IxDyn(&lengths_of(&numbers[2 + axes..]))),
        _ => lengths.set_f(order == 1).into(),
    };
    let mut items: Vec<i8> = (0..count).map(|rank| (rank % 128) as i8).collect();
    match call {
        0 => ended("array", Array::from_shape_vec(shape, items)),
        1 => ended("array", ArrayView::from_shape(shape, &items)),
        _ => ended("array", ArrayViewMut::from_shape(shape, &mut items)),
    }
}

fn numbered(lengths: &[usize], columns_first: bool) -> ArrayD<i8> {
    let size = lengths.iter().product::<usize>();
    Array::from_shape_vec(IxDyn(lengths).set_f(columns_first), (0..size).map(|rank| (rank % 128) as i8).collect()).unwrap()
}

fn laid<'a>(layout: isize, lengths: &[usize], stored: &'a mut ArrayD<i8>) -> ArrayViewD<'a, i8> {
    let twice: Vec<usize> = lengths.iter().map(|length| length * 2).collect();
    *stored = numbered(if layout == 3 { &twice } else if layout == 5 { &lengths[1..] } else { lengths }, layout == 1);
    if layout == 5 {
        return stored.broadcast(IxDyn(lengths)).unwrap();
    }
    let mut view = stored.view();
    for axis in 0..lengths.len() {
        match layout {
            2 => view.invert_axis(Axis(axis)),
            3 => view.slice_axis_inplace(Axis(axis), Slice::new(0, None, 2)),
            _ => {}
        }
    }
    if layout == 4 {
        view = view.reversed_axes();
    }
    view
}

fn reshaped(call: isize, order: isize, numbers: &[isize]) {
    let (layout, axes) = (numbers[0], numbers[1] as usize);
    let (lengths, asked) = (lengths_of(&numbers[2..2 + axes]), lengths_of(&numbers[2 + axes..]));
    let order = if order == 1 { Order::ColumnMajor } else { Order::RowMajor };
    let mut stored = ArrayD::zeros(IxDyn(&[0]));
    let view = laid(layout, &lengths, &mut stored);
    match call {
        3 => match view.to_shape((IxDyn(&asked), order)) {
            Ok(shown) => told(if shown.is_view() { "view" } else { "copy" }, &shown),
            Err(error) => println!("{error}"),
        },
        4 => ended("array", view.into_shape_with_order((IxDyn(&asked), order))),
        _ => ended("array", view.to_owned().into_shape_clone((IxDyn(&asked), order))),
    }
}

fn main() {
    let mut text = String::new();
    std::io::stdin().read_to_string(&mut text).unwrap();
    for line in text.lines() {
        let numbers: Vec<isize> = line.split_whitespace().map(|word| word.parse().unwrap()).collect();
        match numbers[0] {
            0..=2 => constructed(numbers[0], numbers[1], &numbers[2..]),
            _ => reshaped(numbers[0], numbers[1], &numbers[2..]),
        }
    }
}
