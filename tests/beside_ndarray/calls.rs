//! Writes what calls of ndarray itself answer on views that random steps lead to.
//!
//!     calls < CASES
//!
//! A case is a line of numbers: the call, its two arguments, a count of axes, the lengths of an array, and then the steps, each with its
//! number and its arguments. The elements are numbers by rank. A call that ndarray refuses writes `refused`. What is written of each case is
//! followed by a line `--`.

use ndarray::{Array, ArrayBase, ArrayD, ArrayViewD, Axis, Data, Dimension, Ix1, Ix2, IxDyn, Order, Slice};
use std::fmt::Write as _;
use std::io::Read;
use std::panic::{catch_unwind, AssertUnwindSafe};

/// The end of a slice that goes on to the end of its axis.
const NO_END: isize = -999;

fn number(rank: usize) -> i64 {
    (rank as i64 * 37) % 101 - 30
}

fn stepped<'a>(view: ArrayViewD<'a, i64>, steps: &[isize]) -> ArrayViewD<'a, i64> {
    let (mut view, mut at) = (view, 0);
    while at < steps.len() {
        let of = |nth: usize| steps[at + nth] as usize;
        let taken;
        (view, taken) = match steps[at] {
            0 => {
                let end = if steps[at + 3] == NO_END { None } else { Some(steps[at + 3]) };
                view.slice_axis_inplace(Axis(of(1)), Slice::new(steps[at + 2], end, steps[at + 4]));
                (view, 5)
            }
            1 => {
                view.swap_axes(of(1), of(2));
                (view, 3)
            }
            2 => {
                view.invert_axis(Axis(of(1)));
                (view, 2)
            }
            3 => (view.insert_axis(Axis(of(1))), 2),
            4 => (view.index_axis_move(Axis(of(1)), of(2)), 3),
            5 => (view.reversed_axes(), 1),
            6 => {
                view.collapse_axis(Axis(of(1)), of(2));
                (view, 3)
            }
            7 => {
                view.merge_axes(Axis(of(1)), Axis(of(2)));
                (view, 3)
            }
            _ => (view.into_diag().into_dyn(), 1),
        };
        at += taken;
    }
    view
}

fn listed<S: Data, D: Dimension>(text: &mut String, array: &ArrayBase<S, D>, show: impl Fn(&S::Elem) -> String) {
    write!(text, "{:?}:", array.shape()).unwrap();
    for element in array {
        write!(text, " {}", show(element)).unwrap();
    }
    text.push(';');
}

fn whole(x: &i64) -> String {
    x.to_string()
}

fn part(x: &f64) -> String {
    format!("{x:.6}")
}

fn mixed(total: i64, x: &i64) -> i64 {
    total.wrapping_mul(31).wrapping_add(*x) % 1_000_003
}

fn along(call: isize, axis: Axis, param: usize, view: &ArrayViewD<'_, i64>, text: &mut String) {
    let length = view.len_of(axis);
    match call {
        1 => listed(text, &view.sum_axis(axis), whole),
        2 => listed(text, &view.fold_axis(axis, 7, |total, x| mixed(*total, x)), whole),
        3 => listed(text, &view.map_axis(axis, |lane| lane.iter().fold(3, mixed)), whole),
        4 => {
            let mut owned = view.to_owned();
            owned.accumulate_axis_inplace(axis, |before, x| *x = mixed(*before, x));
            listed(text, &owned, whole);
        }
        5 => view.axis_iter(axis).for_each(|part| listed(text, &part, whole)),
        6 => view.axis_chunks_iter(axis, param).for_each(|part| listed(text, &part, whole)),
        7 => view.lanes(axis).into_iter().for_each(|lane| listed(text, &lane, whole)),
        8 => listed(text, &view.select(axis, &[param, 0, length - 1, param]), whole),
        9 => {
            let mut owned = view.to_owned();
            owned.remove_index(axis, param);
            listed(text, &owned, whole);
        }
        10 => listed(text, &view.mapv(|x| x as f64).mean_axis(axis).unwrap(), part),
        11 => listed(text, &view.mapv(|x| x as f64).var_axis(axis, param as f64), part),
        _ => listed(text, &view.mapv(|x| x as f64).std_axis(axis, param as f64), part),
    }
}

fn over_all(call: isize, param: usize, view: &ArrayViewD<'_, i64>, text: &mut String) {
    match call {
        20 => write!(text, "{view:?}").unwrap(),
        21 => view.iter().for_each(|x| write!(text, " {x}").unwrap()),
        22 => view.indexed_iter().for_each(|(index, x)| write!(text, " {:?} {x}", index.as_array_view().as_slice().unwrap()).unwrap()),
        23 => write!(text, "{} {}", view.sum(), view.iter().fold(1i64, |product, x| product.wrapping_mul(*x))).unwrap(),
        24 => {
            let floats = view.mapv(|x| x as f64);
            write!(text, "{:.6} {:.6} {:.6}", floats.mean().unwrap(), floats.var(param as f64), floats.std(param as f64)).unwrap();
        }
        25 => {
            let list = view.to_owned().into_dimensionality::<Ix1>().unwrap();
            write!(text, "{}", list.dot(&list)).unwrap();
        }
        26 => {
            let table = view.to_owned().into_dimensionality::<Ix2>().unwrap();
            listed(text, &table.dot(&table.t()), whole);
            listed(text, &table.t().dot(&table.column(0)), whole);
        }
        27 => {
            let first = view.index_axis(Axis(0), 0).to_owned();
            let sum = view.to_owned() + &first;
            let mut more = (sum * 3 - view) / 2;
            more.scaled_add(5, &first);
            listed(text, &-more, whole);
        }
        28 => {
            let table = view.view().into_dimensionality::<Ix2>().unwrap();
            table.windows((param, 2)).into_iter().for_each(|part| listed(text, &part, whole));
            table.exact_chunks((2, param)).into_iter().for_each(|part| listed(text, &part, whole));
        }
        29 => {
            let memory: Option<&[i64]> = view.as_slice_memory_order();
            write!(text, "{} {:?} {:?}", view.is_standard_layout(), view.as_slice(), memory).unwrap();
        }
        30 => write!(text, "{:?}", view.max_stride_axis().index()).unwrap(),
        31 => write!(text, "{:?} {:?}", view.first(), view.iter().last()).unwrap(),
        32 => listed(text, &view.flatten(), whole),
        34 | 35 => {
            let order = if call == 34 { Order::RowMajor } else { Order::ColumnMajor };
            let shown = view.to_shape((IxDyn(&[param, view.len() / param]), order)).unwrap();
            text.push_str(if shown.is_view() { "view " } else { "copy " });
            listed(text, &shown, whole);
        }
        _ => write!(text, "{:?}", view.to_owned()).unwrap(),
    }
}

fn main() {
    let mut input = String::new();
    std::io::stdin().read_to_string(&mut input).unwrap();
    std::panic::set_hook(Box::new(|_| {}));
    for line in input.lines() {
        let numbers: Vec<isize> = line.split_whitespace().map(|word| word.parse().unwrap()).collect();
        let (call, axis, param, axes) = (numbers[0], numbers[1] as usize, numbers[2] as usize, numbers[3] as usize);
        let lengths: Vec<usize> = numbers[4..4 + axes].iter().map(|length| *length as usize).collect();
        let size = lengths.iter().product();
        let array: ArrayD<i64> = Array::from_shape_vec(IxDyn(&lengths), (0..size).map(number).collect()).unwrap();
        let told = catch_unwind(AssertUnwindSafe(|| {
            let view = stepped(array.view(), &numbers[4 + axes..]);
            let mut text = String::new();
            if call < 20 {
                along(call, Axis(axis), param, &view, &mut text);
            } else {
                over_all(call, param, &view, &mut text);
            }
            text
        }));
        println!("{}\n--", told.unwrap_or("refused".to_string()));
    }
}
