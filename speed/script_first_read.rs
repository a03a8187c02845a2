//! The script program in plain Rust as its rule has it: all lines are read before the first call runs, so that a bad
//! line is told alone. For the calls that speed/script.py writes; what it prints is the same text.
use std::io::{self, BufWriter, Read, Write};

enum Step {
    Cut { axis: usize, start: isize, end: Option<isize>, step: isize },
    Index { axis: usize, at: usize },
    Reverse,
}

enum Question {
    Shape,
    First,
    Get(Vec<usize>),
}

enum Call {
    Ask(Vec<Step>, Question),
    Set(Vec<Step>, Vec<usize>, i64),
}

/// Lengths and strides of what a path leads to.
struct View {
    offset: isize,
    lengths: Vec<usize>,
    strides: Vec<isize>,
}

fn of_shape(lengths: &[usize]) -> View {
    let mut strides = vec![1; lengths.len()];
    for axis in (1..lengths.len()).rev() {
        strides[axis - 1] = strides[axis] * lengths[axis] as isize;
    }
    View { offset: 0, lengths: lengths.to_vec(), strides }
}

fn number<T: std::str::FromStr>(word: Option<&str>) -> Option<T> {
    word?.parse().ok()
}

fn list<'a>(words: &mut impl Iterator<Item = &'a str>) -> Option<Vec<usize>> {
    let count: usize = number(words.next())?;
    (0..count).map(|_| number(words.next())).collect()
}

fn end(word: Option<&str>) -> Option<Option<isize>> {
    match word? {
        "_" => Some(None),
        word => Some(Some(word.parse().ok()?)),
    }
}

/// The call of a line, or None where the line is bad.
fn call(line: &str) -> Option<Call> {
    let words = &mut line.split_ascii_whitespace();
    let asks = match words.next()? {
        "ask" => true,
        "write" => false,
        _ => return None,
    };
    let mut steps = Vec::new();
    loop {
        match words.next()? {
            "cut" => steps.push(Step::Cut {
                axis: number(words.next())?,
                start: number(words.next())?,
                end: end(words.next())?,
                step: number(words.next())?,
            }),
            "index" => steps.push(Step::Index { axis: number(words.next())?, at: number(words.next())? }),
            "reverse" => steps.push(Step::Reverse),
            "shape" if asks => return Some(Call::Ask(steps, Question::Shape)),
            "first" if asks => return Some(Call::Ask(steps, Question::First)),
            "get" if asks => return Some(Call::Ask(steps, Question::Get(list(words)?))),
            "set" if !asks => return Some(Call::Set(steps, list(words)?, number(words.next())?)),
            _ => return None,
        }
        if words.next()? != "/" {
            return None;
        }
    }
}

fn along(lengths: &[usize], steps: &[Step]) -> View {
    let mut view = of_shape(lengths);
    for step in steps {
        match *step {
            Step::Cut { axis, start, end, step } => {
                let end = end.unwrap_or(view.lengths[axis] as isize);
                view.offset += start * view.strides[axis];
                view.lengths[axis] = (end - start).unsigned_abs().div_ceil(step.unsigned_abs());
                view.strides[axis] *= step;
            }
            Step::Index { axis, at } => {
                view.offset += at as isize * view.strides[axis];
                view.lengths.remove(axis);
                view.strides.remove(axis);
            }
            Step::Reverse => {
                view.lengths.reverse();
                view.strides.reverse();
            }
        }
    }
    view
}

/// The place of an index, where it lies inside.
fn place(view: &View, index: &[usize]) -> Option<usize> {
    if index.len() != view.lengths.len() {
        return None;
    }
    let mut at = view.offset;
    for ((i, n), s) in index.iter().zip(&view.lengths).zip(&view.strides) {
        if i >= n {
            return None;
        }
        at += *i as isize * s;
    }
    Some(at as usize)
}

fn element(out: &mut impl Write, elements: &[i64], place: Option<usize>) -> io::Result<()> {
    match place {
        Some(place) => writeln!(out, "some {}", elements[place]),
        None => writeln!(out, "none"),
    }
}

fn run(out: &mut impl Write, lengths: &[usize], elements: &mut [i64], call: &Call) -> io::Result<()> {
    match call {
        Call::Set(steps, index, value) => {
            elements[place(&along(lengths, steps), index).unwrap()] = *value;
            writeln!(out, "done")
        }
        Call::Ask(steps, Question::Get(index)) => element(out, elements, place(&along(lengths, steps), index)),
        Call::Ask(steps, Question::First) => {
            let view = along(lengths, steps);
            element(out, elements, place(&view, &vec![0; view.lengths.len()]))
        }
        Call::Ask(steps, Question::Shape) => {
            let view = along(lengths, steps);
            write!(out, "shape {}", view.lengths.len())?;
            for length in &view.lengths {
                write!(out, " {length}")?;
            }
            writeln!(out)
        }
    }
}

fn main() -> io::Result<()> {
    let mut text = String::new();
    io::stdin().read_to_string(&mut text)?;
    let mut lines = text.lines();
    let mut words = lines.next().unwrap().split_ascii_whitespace();
    assert_eq!(words.next(), Some("start"));
    let lengths = list(&mut words).unwrap();
    let mut elements: Vec<i64> = words.map(|word| word.parse().unwrap()).collect();
    let mut out = BufWriter::new(io::stdout());
    let mut calls = Vec::new();
    for (at, line) in lines.enumerate() {
        match call(line) {
            Some(call) => calls.push(call),
            None => return writeln!(out, "bad line {}", at + 2),
        }
    }
    for call in &calls {
        run(&mut out, &lengths, &mut elements, call)?;
    }
    write!(out, "end {}", lengths.len())?;
    for length in &lengths {
        write!(out, " {length}")?;
    }
    for element in &elements {
        write!(out, " {element}")?;
    }
    writeln!(out)?;
    out.flush()
}
