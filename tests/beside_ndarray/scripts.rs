//! Makes random scripts of calls and runs each of them by ndarray itself.
//!
//!     scripts FOLDER SEED COUNT
//!
//! Writes to the folder, for each number below COUNT, the script as `N.script` and what is due as `N.due`: the reply to each call, and the
//! array at the end. A call that ndarray refuses, by a panic or by an error, has the reply `refused`. The calls are those of the page on
//! scripts; most of their arguments fit the array that the call meets, and some don't.

use ndarray::{
    concatenate, stack, Array, ArrayBase, ArrayD, ArrayViewD, ArrayViewMutD, Axis, IxDyn, Order,
    RawData, Slice, SliceInfoElem,
};
use std::fmt::Write as _;
use std::panic::{catch_unwind, AssertUnwindSafe};

/// Numbers that look random, by a generator with one word of state (splitmix64).
struct Random(u64);

impl Random {
    fn word(&mut self) -> u64 {
        self.0 = self.0.wrapping_add(0x9e37_79b9_7f4a_7c15);
        let mut mixed = self.0;
        mixed = (mixed ^ (mixed >> 30)).wrapping_mul(0xbf58_476d_1ce4_e5b9);
        mixed = (mixed ^ (mixed >> 27)).wrapping_mul(0x94d0_49bb_1331_11eb);
        mixed ^ (mixed >> 31)
    }

    /// A number below `end`, which isn't 0.
    fn below(&mut self, end: usize) -> usize {
        (self.word() % end as u64) as usize
    }

    fn one_in(&mut self, count: usize) -> bool {
        self.below(count) == 0
    }

    fn between(&mut self, low: isize, high: isize) -> isize {
        low + self.below((high - low + 1) as usize) as isize
    }

    fn value(&mut self) -> i64 {
        self.between(-9, 99) as i64
    }

    fn length(&mut self) -> usize {
        [0, 1, 1, 2, 2, 2, 3, 3, 4, 5][self.below(10)]
    }

    /// The number of an axis, which is one too large at times.
    fn axis(&mut self, axes: usize) -> usize {
        if axes == 0 || self.one_in(12) {
            axes + self.below(2)
        } else {
            self.below(axes)
        }
    }

    /// A coordinate below `length`, or at times not.
    fn coordinate(&mut self, length: usize) -> usize {
        if length == 0 || self.one_in(10) {
            length + self.below(2)
        } else {
            self.below(length)
        }
    }

    fn order(&mut self) -> Order {
        if self.one_in(2) {
            Order::RowMajor
        } else {
            Order::ColumnMajor
        }
    }

    /// An array of these lengths.
    fn array(&mut self, lengths: &[usize]) -> ArrayD<i64> {
        Array::from_shape_simple_fn(IxDyn(lengths), || self.value())
    }

    /// Lengths with the product `size`, or at times with another.
    fn lengths_of(&mut self, size: usize) -> Vec<usize> {
        let mut left = if self.one_in(8) { size + 1 } else { size };
        let mut lengths = Vec::new();
        if left == 0 {
            let axes = self.below(3);
            lengths.extend((0..axes).map(|_| self.length()));
            let at = self.below(axes + 1);
            lengths.insert(at, 0);
            return lengths;
        }
        while left > 1 && lengths.len() < 4 {
            let divisors: Vec<usize> = (1..=left).filter(|d| left % d == 0).collect();
            let chosen = divisors[self.below(divisors.len())];
            lengths.push(chosen);
            left /= chosen;
        }
        if left > 1 || self.one_in(4) {
            lengths.push(left);
        }
        lengths
    }

    /// Lengths to which `lengths` can be broadcast, as a rule.
    fn broadcast_of(&mut self, lengths: &[usize]) -> Vec<usize> {
        let mut wider: Vec<usize> = (0..self.below(2)).map(|_| self.length()).collect();
        for length in lengths {
            wider.push(if *length == 1 || self.one_in(10) { self.length() } else { *length });
        }
        wider
    }

    /// Lengths that can be broadcast to `lengths`, as a rule.
    fn broadcast_to(&mut self, lengths: &[usize]) -> Vec<usize> {
        let from = if self.one_in(3) { self.below(lengths.len() + 1) } else { 0 };
        let mut narrower = Vec::new();
        for length in &lengths[from..] {
            narrower.push(if self.one_in(4) {
                1
            } else if self.one_in(15) {
                self.length()
            } else {
                *length
            });
        }
        narrower
    }

    fn index(&mut self, lengths: &[usize]) -> Vec<usize> {
        let mut index: Vec<usize> = lengths.iter().map(|n| if *n == 0 { 0 } else { self.below(*n) }).collect();
        if self.one_in(10) {
            match index.last_mut() {
                Some(last) => *last += 1 + lengths[lengths.len() - 1],
                None => index.push(0),
            }
        }
        index
    }

    fn slice(&mut self, length: usize) -> (isize, Option<isize>, isize) {
        let most = length as isize;
        let wide = if self.one_in(10) { 2 } else { 0 };
        let start = self.between(-most - wide, most + wide);
        let end = if self.one_in(3) { None } else { Some(self.between(-most - wide, most + wide)) };
        let step = if self.one_in(20) { 0 } else { [1, 1, 2, -1, -2, 3, -3][self.below(7)] };
        (start, end, step)
    }
}

#[derive(Clone, Debug)]
enum Step {
    Cut(usize, isize, Option<isize>, isize),
    Slice(Vec<SliceInfoElem>),
    Collapse(usize, usize),
    Index(usize, usize),
    Permute(Vec<usize>),
    Reverse,
    Squeeze,
    Diag,
    SwapAxes(usize, usize),
    Invert(usize),
    Insert(usize),
    Remove(usize),
}

fn listed(list: &[usize]) -> String {
    let mut text = list.len().to_string();
    for number in list {
        write!(text, " {number}").unwrap();
    }
    text
}

fn array_text<S: ndarray::Data<Elem = i64>>(array: &ArrayBase<S, IxDyn>) -> String {
    let mut text = listed(array.shape());
    for value in array.iter() {
        write!(text, " {value}").unwrap();
    }
    text
}

fn end_text(end: Option<isize>) -> String {
    end.map_or("_".to_string(), |end| end.to_string())
}

impl Step {
    fn random(random: &mut Random, lengths: &[usize]) -> Step {
        let axes = lengths.len();
        let axis = random.axis(axes);
        let length = lengths.get(axis).copied().unwrap_or(1);
        match random.below(12) {
            0 | 1 => {
                let (start, end, step) = random.slice(length);
                Step::Cut(axis, start, end, step)
            }
            2 => Step::random_list(random, lengths),
            3 => Step::Collapse(axis, random.coordinate(length)),
            4 if axes > 1 => Step::Index(axis, random.coordinate(length)),
            5 => {
                let mut list: Vec<usize> = (0..axes).collect();
                for at in (1..axes).rev() {
                    list.swap(at, random.below(at + 1));
                }
                if random.one_in(12) {
                    list.push(0);
                } else if axes > 0 && random.one_in(12) {
                    list[0] = axes;
                } else if axes > 1 && random.one_in(12) {
                    list[0] = list[1];
                }
                Step::Permute(list)
            }
            6 => [Step::Reverse, Step::Squeeze, Step::Diag][random.below(5).min(2)].clone(),
            7 => Step::SwapAxes(axis, random.axis(axes)),
            8 => Step::Invert(axis),
            9 if axes < 5 => Step::Insert(random.below(axes + 2)),
            10 if axes > 1 => Step::Remove(axis),
            _ => Step::Reverse,
        }
    }

    fn random_list(random: &mut Random, lengths: &[usize]) -> Step {
        let mut list = Vec::new();
        for length in lengths {
            if lengths.len() + list.len() < 6 && random.one_in(8) {
                list.push(SliceInfoElem::NewAxis);
            }
            list.push(if random.one_in(4) {
                let most = *length as isize;
                SliceInfoElem::Index(random.between(-most, most - 1 + isize::from(most == 0)))
            } else {
                let (start, end, step) = random.slice(*length);
                SliceInfoElem::Slice { start, end, step }
            });
        }
        if random.one_in(15) {
            list.push(SliceInfoElem::Index(0));
        }
        Step::Slice(list)
    }

    fn text(&self) -> String {
        match self {
            Step::Cut(axis, start, end, step) => format!("cut {axis} {start} {} {step}", end_text(*end)),
            Step::Slice(list) => {
                let mut text = format!("slice {}", list.len());
                for part in list {
                    match part {
                        SliceInfoElem::Slice { start, end, step } => write!(text, " s {start} {} {step}", end_text(*end)).unwrap(),
                        SliceInfoElem::Index(index) => write!(text, " i {index}").unwrap(),
                        SliceInfoElem::NewAxis => text.push_str(" n"),
                    }
                }
                text
            }
            Step::Collapse(axis, at) => format!("collapse {axis} {at}"),
            Step::Index(axis, at) => format!("index {axis} {at}"),
            Step::Permute(list) => format!("permute {}", listed(list)),
            Step::Reverse => "reverse".to_string(),
            Step::Squeeze => "squeeze".to_string(),
            Step::Diag => "diag".to_string(),
            Step::SwapAxes(one, other) => format!("swapaxes {one} {other}"),
            Step::Invert(axis) => format!("invert {axis}"),
            Step::Insert(axis) => format!("insert {axis}"),
            Step::Remove(axis) => format!("remove {axis}"),
        }
    }

    /// What ndarray makes of an array; panics where ndarray does.
    fn taken<S: RawData>(&self, array: ArrayBase<S, IxDyn>) -> ArrayBase<S, IxDyn>
    where
        S: ndarray::Data,
    {
        let mut array = array;
        match self {
            Step::Cut(axis, start, end, step) => array.slice_axis_inplace(Axis(*axis), Slice::new(*start, *end, *step)),
            Step::Slice(list) => return array.slice_move(list.as_slice()),
            Step::Collapse(axis, at) => array.collapse_axis(Axis(*axis), *at),
            Step::Index(axis, at) => return array.index_axis_move(Axis(*axis), *at),
            Step::Permute(list) => return array.permuted_axes(IxDyn(list)),
            Step::Reverse => return array.reversed_axes(),
            Step::Squeeze => return array.squeeze(),
            Step::Diag => return array.into_diag().into_dyn(),
            Step::SwapAxes(one, other) => array.swap_axes(*one, *other),
            Step::Invert(axis) => array.invert_axis(Axis(*axis)),
            Step::Insert(axis) => return array.insert_axis(Axis(*axis)),
            Step::Remove(axis) => return array.index_axis_move(Axis(*axis), 0),
        }
        array
    }
}

/// What a closure gives, or nothing where it panics.
fn unless_refused<X>(call: impl FnOnce() -> X) -> Option<X> {
    catch_unwind(AssertUnwindSafe(call)).ok()
}

#[derive(Clone)]
enum Act {
    Fill(i64),
    Assign(ArrayD<i64>),
    Set(Vec<usize>, i64),
    Swap(Vec<usize>, Vec<usize>),
}

impl Act {
    fn random(random: &mut Random, lengths: &[usize]) -> Act {
        match random.below(4) {
            0 => Act::Fill(random.value()),
            1 => {
                let lengths = random.broadcast_to(lengths);
                Act::Assign(random.array(&lengths))
            }
            2 => Act::Set(random.index(lengths), random.value()),
            _ => Act::Swap(random.index(lengths), random.index(lengths)),
        }
    }

    fn text(&self) -> String {
        match self {
            Act::Fill(value) => format!("fill {value}"),
            Act::Assign(array) => format!("assign {}", array_text(array)),
            Act::Set(index, value) => format!("set {} {value}", listed(index)),
            Act::Swap(one, other) => format!("swap {} {}", listed(one), listed(other)),
        }
    }

    fn fits(&self, view: &ArrayViewMutD<'_, i64>) -> bool {
        match self {
            Act::Fill(_) => true,
            Act::Assign(array) => array.broadcast(view.raw_dim()).is_some(),
            Act::Set(index, _) => view.get(IxDyn(index)).is_some(),
            Act::Swap(one, other) => view.get(IxDyn(one)).is_some() && view.get(IxDyn(other)).is_some(),
        }
    }

    fn write(&self, view: &mut ArrayViewMutD<'_, i64>) {
        match self {
            Act::Fill(value) => view.fill(*value),
            Act::Assign(array) => view.assign(array),
            Act::Set(index, value) => view[IxDyn(index)] = *value,
            Act::Swap(one, other) => view.swap(IxDyn(one), IxDyn(other)),
        }
    }
}

/// A script as it grows: its lines, the replies due, and the array.
struct Run {
    lines: String,
    due: String,
    array: ArrayD<i64>,
}

fn reordered(view: ArrayViewD<'_, i64>, lengths: &[usize], order: Order) -> Option<ArrayD<i64>> {
    let shown = view.to_shape((IxDyn(lengths), order)).ok()?;
    Some(shown.to_owned())
}

fn order_text(order: Order) -> &'static str {
    match order {
        Order::RowMajor => "row",
        _ => "col",
    }
}

impl Run {
    fn line(&mut self, line: String) {
        self.lines.push_str(&line);
        self.lines.push('\n');
    }

    fn reply(&mut self, reply: &str) {
        self.due.push_str(reply);
        self.due.push('\n');
    }

    /// The array becomes the result, if there is one.
    fn becomes(&mut self, result: Option<ArrayD<i64>>) {
        match result {
            Some(array) => {
                self.array = array;
                self.reply("done");
            }
            None => self.reply("refused"),
        }
    }

    fn keep(&mut self, random: &mut Random) {
        let step = Step::random(random, self.array.shape());
        self.line(format!("keep {}", step.text()));
        let array = self.array.clone();
        self.becomes(unless_refused(|| step.taken(array)));
    }

    /// Steps that can be taken one after another, but for the last one at times; their words, and the lengths after them if all can be taken.
    fn path(&self, random: &mut Random) -> (Vec<Step>, String, Option<Vec<usize>>) {
        let (mut steps, mut text) = (Vec::new(), String::new());
        let mut view = self.array.view();
        for _ in 0..random.below(4) {
            let step = Step::random(random, view.shape());
            write!(text, "{} / ", step.text()).unwrap();
            steps.push(step.clone());
            match unless_refused(|| step.taken(view)) {
                Some(next) => view = next,
                None => return (steps, text, None),
            }
        }
        (steps, text, Some(view.shape().to_vec()))
    }

    fn ask(&mut self, random: &mut Random) {
        let (steps, mut text, lengths) = self.path(random);
        let mut lengths = lengths;
        let mut broadcast = None;
        if let Some(found) = &lengths {
            if random.one_in(4) {
                let wider = random.broadcast_of(found);
                write!(text, "broadcast {} / ", listed(&wider)).unwrap();
                broadcast = Some(wider);
            }
        }
        let array = self.array.clone();
        let mut view = array.view();
        if lengths.is_some() {
            for step in &steps {
                view = step.taken(view);
            }
        }
        let shown = match &broadcast {
            Some(wider) => view.broadcast(IxDyn(wider)),
            None => Some(view.view()),
        };
        if shown.is_none() {
            lengths = None;
        }
        let shown = shown.unwrap_or(view.view());
        let (question, reply) = self.question(random, shown);
        self.line(format!("ask {text}{question}"));
        self.reply(&lengths.map_or("refused".to_string(), |_| reply));
    }

    fn question(&self, random: &mut Random, view: ArrayViewD<'_, i64>) -> (String, String) {
        let optional = |value: Option<&i64>| value.map_or("none".to_string(), |value| format!("some {value}"));
        match random.below(8) {
            0 => ("shape".to_string(), format!("shape {}", listed(view.shape()))),
            1 | 2 => ("elements".to_string(), format!("array {}", array_text(&view))),
            3 => {
                let index = random.index(view.shape());
                (format!("get {}", listed(&index)), optional(view.get(IxDyn(&index))))
            }
            4 => {
                let last = view.iter().last();
                if random.one_in(2) {
                    ("first".to_string(), optional(view.first()))
                } else {
                    assert_eq!(view.last(), last);
                    ("last".to_string(), optional(view.last()))
                }
            }
            5 => {
                let mut other = view.to_owned();
                if random.one_in(3) {
                    if let Some(last) = other.last_mut() {
                        *last += 1;
                    }
                } else if random.one_in(4) {
                    other.insert_axis_inplace(Axis(0));
                }
                (format!("equal {}", array_text(&other)), (view == other).to_string())
            }
            6 => {
                let value = view.first().copied().unwrap_or(0);
                let count = view.iter().filter(|element| **element == value).count();
                (format!("count {value}"), format!("number {count}"))
            }
            _ => {
                let (lengths, order) = (random.lengths_of(view.len()), random.order());
                let reply = reordered(view, &lengths, order).map_or("refused".to_string(), |array| format!("array {}", array_text(&array)));
                (format!("reshape {} {}", order_text(order), listed(&lengths)), reply)
            }
        }
    }

    fn write(&mut self, random: &mut Random) {
        let (steps, text, lengths) = self.path(random);
        let act = Act::random(random, lengths.as_deref().unwrap_or(&[]));
        self.line(format!("write {text}{}", act.text()));
        let written = lengths.is_some_and(|_| {
            let mut view = self.array.view_mut();
            for step in &steps {
                view = step.taken(view);
            }
            let fits = act.fits(&view);
            if fits {
                act.write(&mut view);
            }
            fits
        });
        self.reply(if written { "done" } else { "refused" });
    }

    fn split(&mut self, random: &mut Random) {
        let axis = random.axis(self.array.ndim());
        let length = self.array.shape().get(axis).copied().unwrap_or(0);
        let at = random.coordinate(length + 1);
        let (mut below, mut above) = (self.array.shape().to_vec(), self.array.shape().to_vec());
        if axis < below.len() && at <= length {
            below[axis] = at;
            above[axis] = length - at;
        }
        let (one, other) = (Act::random(random, &below), Act::random(random, &above));
        self.line(format!("split {axis} {at} {} / {}", one.text(), other.text()));
        let view = self.array.view_mut();
        let written = unless_refused(|| view.split_at(Axis(axis), at)).is_some_and(|(mut below, mut above)| {
            let fits = one.fits(&below) && other.fits(&above);
            if fits {
                one.write(&mut below);
                other.write(&mut above);
            }
            fits
        });
        self.reply(if written { "done" } else { "refused" });
    }

    fn remove_index(&mut self, random: &mut Random) {
        let axis = random.axis(self.array.ndim());
        let at = random.coordinate(self.array.shape().get(axis).copied().unwrap_or(1));
        self.line(format!("removeindex {axis} {at}"));
        let mut array = self.array.clone();
        self.becomes(unless_refused(|| {
            array.remove_index(Axis(axis), at);
            array
        }));
    }

    fn select(&mut self, random: &mut Random) {
        let axis = random.axis(self.array.ndim());
        let length = self.array.shape().get(axis).copied().unwrap_or(1);
        let list: Vec<usize> = (0..random.below(5))
            .map(|_| if random.one_in(20) { length } else { random.below(length.max(1)) })
            .collect();
        self.line(format!("select {axis} {}", listed(&list)));
        let array = self.array.clone();
        self.becomes(unless_refused(|| array.select(Axis(axis), &list)));
    }

    fn reshape(&mut self, random: &mut Random) {
        let (lengths, order) = (random.lengths_of(self.array.len()), random.order());
        self.line(format!("reshape {} {}", order_text(order), listed(&lengths)));
        let result = reordered(self.array.view(), &lengths, order);
        self.becomes(result);
    }

    /// An array is put after the array along an axis. ndarray broadcasts nothing here, so the array is broadcast before.
    fn append(&mut self, random: &mut Random) {
        let axes = self.array.ndim();
        let axis = random.axis(axes);
        let mut lengths = self.array.shape().to_vec();
        if axis < axes {
            lengths[axis] = random.length();
        }
        let mut wanted = lengths.clone();
        for at in 0..axes {
            if at != axis && random.one_in(8) {
                lengths[at] = if random.one_in(2) { 1 } else { random.length() };
            }
        }
        let more = random.array(&lengths);
        self.line(format!("append {axis} {}", array_text(&more)));
        if axis < axes {
            wanted[axis] = lengths[axis];
        }
        let mut array = self.array.clone();
        self.becomes(unless_refused(|| {
            let more = more.broadcast(IxDyn(&wanted))?;
            array.append(Axis(axis), more).ok()?;
            Some(array)
        }).flatten());
    }

    fn push(&mut self, random: &mut Random) {
        let axes = self.array.ndim();
        let axis = random.axis(axes);
        let mut wanted = self.array.shape().to_vec();
        if axis < axes {
            wanted.remove(axis);
        }
        let mut lengths = wanted.clone();
        if axes > 0 && random.one_in(8) && !lengths.is_empty() {
            lengths[0] = random.length();
        }
        let more = random.array(&lengths);
        self.line(format!("push {axis} {}", array_text(&more)));
        let mut array = self.array.clone();
        self.becomes(unless_refused(|| {
            if axes == 0 || axis >= axes {
                return None;
            }
            let more = more.broadcast(IxDyn(&wanted))?;
            array.push(Axis(axis), more).ok()?;
            Some(array)
        }).flatten());
    }

    fn join(&mut self, random: &mut Random) {
        let stacks = random.one_in(2);
        let axes = self.array.ndim();
        let axis = if stacks && axes > 0 && !random.one_in(8) { random.below(axes + 1) } else { random.axis(axes) };
        let mut others = Vec::new();
        for _ in 0..random.below(3) {
            let mut lengths = self.array.shape().to_vec();
            if !stacks && axis < axes {
                lengths[axis] = random.length();
            }
            if axes > 0 && random.one_in(12) {
                lengths[random.below(axes)] += 1;
            }
            others.push(random.array(&lengths));
        }
        let mut text = format!("{} {axis} {}", if stacks { "stack" } else { "concat" }, others.len());
        for other in &others {
            write!(text, " {}", array_text(other)).unwrap();
        }
        self.line(text);
        let array = self.array.clone();
        self.becomes(unless_refused(|| {
            let mut views = vec![array.view()];
            views.extend(others.iter().map(|other| other.view()));
            if stacks {
                stack(Axis(axis), &views).ok()
            } else {
                concatenate(Axis(axis), &views).ok()
            }
        }).flatten());
    }

    fn call(&mut self, random: &mut Random) {
        match random.below(20) {
            0..=4 => self.keep(random),
            5..=9 => self.ask(random),
            10..=12 => self.write(random),
            13 => self.split(random),
            14 => self.remove_index(random),
            15 => self.select(random),
            16 => self.reshape(random),
            17 => self.append(random),
            18 => self.push(random),
            _ => self.join(random),
        }
    }
}

fn run(random: &mut Random) -> Run {
    let axes = [0, 1, 1, 2, 2, 2, 3, 3, 4][random.below(9)];
    let lengths: Vec<usize> = (0..axes).map(|_| random.length()).collect();
    let array = random.array(&lengths);
    let mut run = Run { lines: String::new(), due: String::new(), array };
    run.line(format!("start {}", array_text(&run.array)));
    for _ in 0..1 + random.below(12) {
        if run.array.len() > 400 {
            break;
        }
        run.call(random);
    }
    let last = format!("end {}", array_text(&run.array));
    run.reply(&last);
    run
}

fn main() {
    let words: Vec<String> = std::env::args().collect();
    let (seed, count): (u64, usize) = (words[2].parse().unwrap(), words[3].parse().unwrap());
    std::panic::set_hook(Box::new(|_| {}));
    for nth in 0..count {
        let mut random = Random(seed.wrapping_mul(1_000_003).wrapping_add(nth as u64));
        let made = run(&mut random);
        std::fs::write(format!("{}/{nth}.script", words[1]), made.lines).unwrap();
        std::fs::write(format!("{}/{nth}.due", words[1]), made.due).unwrap();
    }
}
