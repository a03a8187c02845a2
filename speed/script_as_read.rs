//! The script program in plain Rust, where each line is run as it is read, for the calls that speed/script.py writes: what it
//! prints is the same text.
use std::io::{self, BufWriter, Read, Write};

/// Lengths and strides of what a path leads to.
struct View {
    offset: isize,
    lengths: Vec<usize>,
    strides: Vec<isize>,
}

fn of_shape(lengths: &[usize]) -> View {
    let mut strides = vec![1; lengths.len()];
    for axis in (1..lengths.len()).rev() {
        strides[axis - 1] = strides[axis] * lengths[axis] as isize;
    }
    View { offset: 0, lengths: lengths.to_vec(), strides }
}

fn number<T: std::str::FromStr>(word: Option<&str>) -> T
where
    T::Err: std::fmt::Debug,
{
    word.unwrap().parse().unwrap()
}

fn list<'a>(words: &mut impl Iterator<Item = &'a str>) -> Vec<usize> {
    let count: usize = number(words.next());
    (0..count).map(|_| number(words.next())).collect()
}

fn cut<'a>(view: &mut View, words: &mut impl Iterator<Item = &'a str>) {
    let axis: usize = number(words.next());
    let start: isize = number(words.next());
    let end = match words.next().unwrap() {
        "_" => view.lengths[axis] as isize,
        word => word.parse().unwrap(),
    };
    let step: isize = number(words.next());
    view.offset += start * view.strides[axis];
    view.lengths[axis] = (end - start).unsigned_abs().div_ceil(step.unsigned_abs());
    view.strides[axis] *= step;
}

/// The place of an index, where it lies inside.
fn place(view: &View, index: &[usize]) -> Option<usize> {
    if index.len() != view.lengths.len() {
        return None;
    }
    let mut at = view.offset;
    for ((i, n), s) in index.iter().zip(&view.lengths).zip(&view.strides) {
        if i >= n {
            return None;
        }
        at += *i as isize * s;
    }
    Some(at as usize)
}

fn element(out: &mut impl Write, elements: &[i64], place: Option<usize>) -> io::Result<()> {
    match place {
        Some(place) => writeln!(out, "some {}", elements[place]),
        None => writeln!(out, "none"),
    }
}

fn main() -> io::Result<()> {
    let mut text = String::new();
    io::stdin().read_to_string(&mut text)?;
    let mut lines = text.lines();
    let mut words = lines.next().unwrap().split_ascii_whitespace();
    assert_eq!(words.next(), Some("start"));
    let lengths = list(&mut words);
    let mut elements: Vec<i64> = words.map(|word| word.parse().unwrap()).collect();
    let mut out = BufWriter::new(io::stdout());
    for line in lines {
        let mut words = line.split_ascii_whitespace();
        let writes = words.next() == Some("write");
        let mut view = of_shape(&lengths);
        loop {
            match words.next().unwrap() {
                "cut" => cut(&mut view, &mut words),
                "index" => {
                    let axis: usize = number(words.next());
                    let at: isize = number(words.next());
                    view.offset += at * view.strides[axis];
                    view.lengths.remove(axis);
                    view.strides.remove(axis);
                }
                "reverse" => {
                    view.lengths.reverse();
                    view.strides.reverse();
                }
                "/" => {}
                "set" if writes => {
                    let index = list(&mut words);
                    let place = place(&view, &index).unwrap();
                    elements[place] = number(words.next());
                    writeln!(out, "done")?;
                    break;
                }
                "get" => {
                    let index = list(&mut words);
                    element(&mut out, &elements, place(&view, &index))?;
                    break;
                }
                "first" => {
                    let index = vec![0; view.lengths.len()];
                    element(&mut out, &elements, place(&view, &index))?;
                    break;
                }
                "shape" => {
                    write!(out, "shape {}", view.lengths.len())?;
                    for length in &view.lengths {
                        write!(out, " {length}")?;
                    }
                    writeln!(out)?;
                    break;
                }
                word => panic!("{word}"),
            }
        }
    }
    write!(out, "end {}", lengths.len())?;
    for length in &lengths {
        write!(out, " {length}")?;
    }
    for element in &elements {
        write!(out, " {element}")?;
    }
    writeln!(out)?;
    out.flush()
}
