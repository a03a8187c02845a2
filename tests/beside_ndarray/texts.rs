//! Writes arrays in many shapes, layouts and formats by ndarray itself.
//!
//!     texts < CASES
//!
//! A case is a line of numbers: the format, the layout, the dimension (0 for `IxDyn`, else the number of axes), and the lengths. What is
//! written of each case is followed by a line `--`. The program beside this one writes the same cases by this repository's arrays.

use ndarray::{Array, Array1, Array2, Array3, ArrayD, ArrayView, Axis, Dimension, IxDyn, ShapeBuilder, Slice};
use std::io::Read;

fn written<A: std::fmt::Display + std::fmt::Debug, D: Dimension>(format: usize, view: ArrayView<'_, A, D>) {
    match format {
        0 => println!("{view}"),
        1 => println!("{view:#}"),
        2 => println!("{view:6}"),
        3 => println!("{view:<4}"),
        4 => println!("{view:+}"),
        5 => println!("{view:?}"),
        6 => println!("{view:#?}"),
        7 => println!("{view:5?}"),
        8 => println!("{view:^7.2}"),
        _ => println!("{view:07.3?}"),
    }
    println!("--");
}

fn number(rank: usize) -> i64 {
    (rank as i64 * 37) % 1009 - 300
}

/// An array of these lengths, with numbers by rank in row-major order.
fn made<A>(lengths: &[usize], columns_first: bool, of: impl Fn(i64) -> A) -> ArrayD<A> {
    let mut rank = 0;
    let shape = IxDyn(lengths).set_f(false);
    let rows_first = Array::from_shape_simple_fn(shape, || {
        rank += 1;
        of(number(rank - 1))
    });
    if !columns_first {
        return rows_first;
    }
    let mut elements: Vec<Option<A>> = rows_first.into_iter().map(Some).collect();
    Array::from_shape_fn(IxDyn(lengths).f(), |index| {
        let rank = index.as_array_view().iter().zip(lengths).fold(0, |rank, (coordinate, length)| rank * length + coordinate);
        elements[rank].take().unwrap()
    })
}

fn shown<A: std::fmt::Display + std::fmt::Debug + Clone>(format: usize, layout: usize, fixed: usize, lengths: &[usize], of: impl Fn(i64) -> A) {
    let twice: Vec<usize> = lengths.iter().map(|length| length * 2).collect();
    let array = made(if layout == 3 { &twice } else { lengths }, layout == 1, of);
    let mut view = array.view();
    for axis in 0..lengths.len() {
        match layout {
            2 => view.invert_axis(Axis(axis)),
            3 => view.slice_axis_inplace(Axis(axis), Slice::new(0, None, 2)),
            _ => {}
        }
    }
    if layout == 4 {
        view = view.reversed_axes();
    }
    match fixed {
        1 => written(format, view.into_dimensionality::<ndarray::Ix1>().unwrap()),
        2 => written(format, view.into_dimensionality::<ndarray::Ix2>().unwrap()),
        3 => written(format, view.into_dimensionality::<ndarray::Ix3>().unwrap()),
        _ => written(format, view),
    }
}

fn main() {
    let (one, two, three): (Array1<u8>, Array2<u8>, Array3<u8>) = Default::default();
    assert!(one.is_empty() && two.is_empty() && three.is_empty());
    let mut text = String::new();
    std::io::stdin().read_to_string(&mut text).unwrap();
    for line in text.lines() {
        let numbers: Vec<usize> = line.split_whitespace().map(|word| word.parse().unwrap()).collect();
        let (format, layout, fixed, lengths) = (numbers[0], numbers[1], numbers[2], &numbers[3..]);
        if format < 8 {
            shown(format, layout, fixed, lengths, |number| number);
        } else {
            shown(format, layout, fixed, lengths, |number| number as f64 / 8.0);
        }
    }
}
