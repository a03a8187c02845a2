//! A library that orders.py loads: calls over one or two arrays whose axes lie in memory in any order, each made by
//! `nd_speed` or by a plain loop. Nothing is known when it is compiled but the number of bytes of an element.

mod as_here;
mod runtime;

use runtime::microseconds;
use std::hint::black_box;

/// Three axes, the first of length 1 where there are two.
const AXES: usize = 3;

/// How many elements of a lane are done before the next lane's where lanes go across the other order.
const PART: usize = 128;

/// How an array lies: the lengths of its storage, the order in which those axes are then put, and whether every second
/// coordinate of each is taken, from the last one back.
#[repr(C)]
#[derive(Clone, Copy)]
pub struct Side {
    items: *mut u8,
    count: usize,
    lengths: [usize; AXES],
    order: [usize; AXES],
    backwards: bool,
}

/// What is timed. The calls: 0 `assign`, 1 `zip_mut_with`, 2 `==`, 3 `to_owned`, 4 `to_vec`.
#[repr(C)]
pub struct Case {
    call: usize,
    axes: usize,
    bytes: bool,
    left: Side,
    right: Side,
}

unsafe extern "C" {
    fn nd_speed_over_two(left: *mut i64, left_count: usize, lengths: *const usize, axes: usize, order: *const usize, order_axes: usize, backwards: bool, right: *const i64, right_count: usize, right_lengths: *const usize, right_axes: usize, right_order: *const usize, right_order_axes: usize, right_backwards: bool, call: usize, calls: usize) -> u64;
    fn nd_speed_over_two_bytes(left: *mut u8, left_count: usize, lengths: *const usize, axes: usize, order: *const usize, order_axes: usize, backwards: bool, right: *const u8, right_count: usize, right_lengths: *const usize, right_axes: usize, right_order: *const usize, right_order_axes: usize, right_backwards: bool, call: usize, calls: usize) -> u64;
    fn nd_speed_copied(items: *const i64, count: usize, lengths: *const usize, axes: usize, order: *const usize, order_axes: usize, backwards: bool, call: usize, calls: usize) -> u64;
    fn nd_speed_copied_bytes(items: *const u8, count: usize, lengths: *const usize, axes: usize, order: *const usize, order_axes: usize, backwards: bool, call: usize, calls: usize) -> u64;
}

/// Where an array's elements lie.
#[derive(Clone, Copy)]
struct Layout {
    first: isize,
    lengths: [usize; AXES],
    strides: [isize; AXES],
}

impl Side {
    fn layout(&self, axes: usize) -> Layout {
        let mut steps = [1; AXES];
        for axis in (0..axes.saturating_sub(1)).rev() {
            steps[axis] = steps[axis + 1] * self.lengths[axis + 1] as isize;
        }
        let mut layout = Layout {
            first: 0,
            lengths: [1; AXES],
            strides: [0; AXES],
        };
        for (axis, from) in self.order[..axes].iter().enumerate() {
            let (len, stride) = (self.lengths[*from], steps[*from]);
            let at = AXES - axes + axis;
            if self.backwards {
                layout.first += (len - 1) as isize * stride;
                (layout.lengths[at], layout.strides[at]) = (len.div_ceil(2), -2 * stride);
            } else {
                (layout.lengths[at], layout.strides[at]) = (len, stride);
            }
        }
        layout
    }
}

impl Layout {
    /// The layout of as many elements in row-major order.
    fn in_rows(lengths: [usize; AXES]) -> Layout {
        let strides = [(lengths[1] * lengths[2]) as isize, lengths[2] as isize, 1];
        Layout { first: 0, lengths, strides }
    }

    /// The axes from the one along which elements lie furthest apart to the nearest.
    fn by_stride(&self) -> [usize; AXES] {
        let mut axes = [0, 1, 2];
        axes.sort_by_key(|axis| std::cmp::Reverse((self.lengths[*axis] > 1, self.strides[*axis].unsigned_abs())));
        axes.sort_by_key(|axis| self.lengths[*axis] > 1);
        axes
    }

    fn count(&self) -> usize {
        self.lengths.iter().product()
    }

    /// Whether the elements are consecutive in some order of the axes.
    fn is_run(&self) -> bool {
        let mut expected = 1;
        for axis in self.by_stride().into_iter().rev().filter(|axis| self.lengths[*axis] > 1) {
            if self.strides[axis] != expected {
                return false;
            }
            expected *= self.lengths[axis] as isize;
        }
        true
    }
}

/// What is done with each pair of elements; whether to go on.
trait Act<A>: Copy {
    /// How many pairs of a lane with steps the library takes before it asks whether to go on, 0 where it doesn't ask. It takes the
    /// last ones, fewer than these, one by one.
    const BLOCK: usize = 0;

    /// Whether it writes what lies on the right side.
    const COPIES: bool = false;

    fn at(self, left: &mut A, right: &A) -> bool;

    /// Two lanes that both are slices, as the library takes them.
    #[inline(always)]
    fn beside(self, left: &mut [A], right: &[A]) -> bool {
        self.along(left, right)
    }

    /// Two lanes that both are slices.
    #[inline(always)]
    fn along(self, left: &mut [A], right: &[A]) -> bool {
        let mut on = true;
        for (x, y) in left.iter_mut().zip(right) {
            on &= self.at(x, y);
        }
        on
    }
}

#[derive(Clone, Copy)]
struct Assign;

impl<A: Copy> Act<A> for Assign {
    const COPIES: bool = true;

    #[inline(always)]
    fn at(self, left: &mut A, right: &A) -> bool {
        *left = *right;
        true
    }
}

#[derive(Clone, Copy)]
struct Equal;

impl<A: PartialEq> Act<A> for Equal {
    const BLOCK: usize = 16;

    #[inline(always)]
    fn at(self, left: &mut A, right: &A) -> bool {
        left == right
    }

    #[inline(always)]
    fn along(self, left: &mut [A], right: &[A]) -> bool {
        left == right
    }

    #[inline(always)]
    fn beside(self, left: &mut [A], right: &[A]) -> bool {
        let (mut ours, mut theirs) = (&*left, right);
        while ours.len() >= 64 {
            let (block, rest) = ours.split_at(64);
            let (other, others) = theirs.split_at(64);
            let mut same = true;
            for nth in 0..64 {
                same &= block[nth] == other[nth];
            }
            if !same {
                return false;
            }
            (ours, theirs) = (rest, others);
        }
        ours.iter().zip(theirs).all(|(x, y)| x == y)
    }
}

#[derive(Clone, Copy)]
struct Add<F>(F);

impl<A: Copy, F: Fn(A, A) -> A + Copy> Act<A> for Add<F> {
    #[inline(always)]
    fn at(self, left: &mut A, right: &A) -> bool {
        *left = (self.0)(*left, *right);
        true
    }
}

/// One lane of both. Strides of 1 are told apart, so that each is a loop of its own.
#[inline(always)]
unsafe fn lane<A, T: Act<A>>(act: T, count: usize, left: *mut A, stride: isize, right: *const A, step: isize) -> bool {
    unsafe {
        if stride == 1 && step == 1 {
            return act.along(std::slice::from_raw_parts_mut(left, count), std::slice::from_raw_parts(right, count));
        }
        let mut on = true;
        if stride == 1 {
            for nth in 0..count as isize {
                on &= act.at(&mut *left.offset(nth), &*right.offset(nth * step));
            }
        } else if step == 1 {
            for nth in 0..count as isize {
                on &= act.at(&mut *left.offset(nth * stride), &*right.offset(nth));
            }
        } else {
            for nth in 0..count as isize {
                on &= act.at(&mut *left.offset(nth * stride), &*right.offset(nth * step));
            }
        }
        on
    }
}

/// All pairs, along the axes in this order; where `part` is less than a lane, so many elements of all lanes of the axis before
/// the last, and then the next ones.
unsafe fn by_lanes<A, T: Act<A>>(act: T, left: *mut A, to: &Layout, right: *const A, from: &Layout, axes: [usize; AXES], part: usize) -> bool {
    let [outer, middle, inner] = axes;
    let (left, right) = unsafe { (left.offset(to.first), right.offset(from.first)) };
    for nth in 0..to.lengths[outer] as isize {
        let (left, right) = unsafe { (left.offset(nth * to.strides[outer]), right.offset(nth * from.strides[outer])) };
        let mut done = 0;
        while done < to.lengths[inner] {
            let count = part.min(to.lengths[inner] - done);
            let (left, right) = unsafe { (left.offset(done as isize * to.strides[inner]), right.offset(done as isize * from.strides[inner])) };
            for nth in 0..to.lengths[middle] as isize {
                let (left, right) = unsafe { (left.offset(nth * to.strides[middle]), right.offset(nth * from.strides[middle])) };
                if !unsafe { lane(act, count, left, to.strides[inner], right, from.strides[inner]) } {
                    return false;
                }
            }
            done += count;
        }
    }
    true
}

/// The axes with the nearest one of a layout last, and that of the other before it, unless it is the last too.
fn nearest_last(first: &Layout, second: &Layout) -> [usize; AXES] {
    let last = first.by_stride()[2];
    let others = second.by_stride();
    let before = if others[2] == last { others[1] } else { others[2] };
    [3 - last - before, before, last]
}

/// All pairs by the plain loop of this number: 0 as two slices, 1 along the left side, 2 along the right side, 3 and 4 the same in
/// parts of lanes.
unsafe fn by_form<A, T: Act<A>>(act: T, left: *mut A, to: &Layout, right: *const A, from: &Layout, form: usize) -> bool {
    unsafe {
        match form {
            0 => lane(act, to.count(), left, 1, right, 1),
            1 => by_lanes(act, left, to, right, from, nearest_last(to, from), usize::MAX),
            2 => by_lanes(act, left, to, right, from, nearest_last(from, to), usize::MAX),
            3 => by_lanes(act, left, to, right, from, nearest_last(to, from), PART),
            _ => by_lanes(act, left, to, right, from, nearest_last(from, to), PART),
        }
    }
}

/// The layout in which a copy is made: that of the elements where they are consecutive, else row-major order; `to_vec` lists
/// them in row-major order always.
fn copied_to(from: &Layout, listed: bool) -> Layout {
    if !listed && from.is_run() {
        *from
    } else {
        Layout::in_rows(from.lengths)
    }
}

unsafe fn plain<A: Copy + PartialEq>(case: &Case, form: usize, calls: usize, plus: impl Fn(A, A) -> A + Copy) {
    let (right, from) = (case.right.items as *const A, case.right.layout(case.axes));
    let (left, to) = (case.left.items as *mut A, case.left.layout(case.axes));
    for _ in 0..calls {
        let (left, right) = black_box((left, right));
        unsafe {
            let on = match case.call {
                0 => by_form(Assign, left, &to, right, &from, form),
                1 => by_form(Add(plus), left, &to, right, &from, form),
                2 => by_form(Equal, left, &to, right, &from, form),
                _ => {
                    let to = copied_to(&from, case.call == 4);
                    let mut copied: Vec<A> = Vec::with_capacity(to.count());
                    by_form(Assign, copied.as_mut_ptr(), &to, right, &from, form);
                    copied.set_len(to.count());
                    black_box(copied);
                    true
                }
            };
            assert!(black_box(on));
        }
    }
}

unsafe fn as_here<A: Copy + PartialEq>(case: &Case, way: usize, calls: usize, plus: impl Fn(A, A) -> A + Copy) {
    let (right, from) = (case.right.items as *const A, case.right.layout(case.axes));
    let (left, to) = (case.left.items as *mut A, case.left.layout(case.axes));
    for _ in 0..calls {
        let (left, right) = black_box((left, right));
        unsafe {
            let on = match case.call {
                0 => as_here::by_way(Assign, left, &to, right, &from, case.axes, way),
                1 => as_here::by_way(Add(plus), left, &to, right, &from, case.axes, way),
                2 => as_here::by_way(Equal, left, &to, right, &from, case.axes, way),
                _ => {
                    as_here::copy_by_way(right, &from, case.call == 4, case.axes, way);
                    true
                }
            };
            assert!(black_box(on));
        }
    }
}

unsafe fn here(case: &Case, calls: usize) {
    let (left, right, axes) = (&case.left, &case.right, case.axes);
    let made = unsafe {
        if case.call >= 3 {
            let call = case.call - 3;
            if case.bytes {
                nd_speed_copied_bytes(right.items, right.count, right.lengths.as_ptr(), axes, right.order.as_ptr(), axes, right.backwards, call, calls)
            } else {
                nd_speed_copied(right.items as *const i64, right.count, right.lengths.as_ptr(), axes, right.order.as_ptr(), axes, right.backwards, call, calls)
            }
        } else if case.bytes {
            nd_speed_over_two_bytes(left.items, left.count, left.lengths.as_ptr(), axes, left.order.as_ptr(), axes, left.backwards, right.items, right.count, right.lengths.as_ptr(), axes, right.order.as_ptr(), axes, right.backwards, case.call, calls)
        } else {
            nd_speed_over_two(left.items as *mut i64, left.count, left.lengths.as_ptr(), axes, left.order.as_ptr(), axes, left.backwards, right.items as *const i64, right.count, right.lengths.as_ptr(), axes, right.order.as_ptr(), axes, right.backwards, case.call, calls)
        }
    };
    assert_ne!(made, 0, "arguments that don't fit");
}

/// Whether a plain loop of this number serves the case.
#[unsafe(no_mangle)]
pub unsafe extern "C" fn orders_has_form(case: &Case, form: usize) -> bool {
    let from = case.right.layout(case.axes);
    let to = if case.call >= 3 { copied_to(&from, case.call == 4) } else { case.left.layout(case.axes) };
    let alike = (0..AXES).all(|axis| to.lengths[axis] == 1 || to.strides[axis] == from.strides[axis]);
    let are_runs = to.is_run() && from.is_run() && alike;
    match form {
        0 => are_runs,
        1 => !are_runs,
        2 | 3 | 4 => !are_runs && to.by_stride() != from.by_stride(),
        _ => false,
    }
}

/// The microseconds of one call by the plain loop of this number.
#[unsafe(no_mangle)]
pub unsafe extern "C" fn orders_plain(case: &Case, form: usize, calls: usize) -> f64 {
    let start = microseconds();
    unsafe {
        if case.bytes {
            plain::<u8>(black_box(case), form, calls, |x, y| x.wrapping_add(y));
        } else {
            plain::<i64>(black_box(case), form, calls, |x, y| x.wrapping_add(y));
        }
    }
    (microseconds() - start) / calls as f64
}

/// The microseconds of one call in plain Rust by the way of this number: 0 is the library's own.
#[unsafe(no_mangle)]
pub unsafe extern "C" fn orders_as_here(case: &Case, way: usize, calls: usize) -> f64 {
    let start = microseconds();
    unsafe {
        if case.bytes {
            as_here::<u8>(black_box(case), way, calls, |x, y| x.wrapping_add(y));
        } else {
            as_here::<i64>(black_box(case), way, calls, |x, y| x.wrapping_add(y));
        }
    }
    (microseconds() - start) / calls as f64
}

fn way_of(case: &Case) -> as_here::Way {
    let (to, from) = (case.left.layout(case.axes), case.right.layout(case.axes));
    match (case.call, case.axes) {
        (3.., 2) => as_here::Way::over_one::<2>(&from, case.call == 4),
        (3.., _) => as_here::Way::over_one::<3>(&from, case.call == 4),
        (_, 2) => as_here::Way::over_two::<2>(&to, &from),
        (_, _) => as_here::Way::over_two::<3>(&to, &from),
    }
}

/// In how many lanes the library goes over the elements.
#[unsafe(no_mangle)]
pub unsafe extern "C" fn orders_lanes(case: &Case) -> usize {
    way_of(case).lanes
}

/// Whether both sides of each lane are slices.
#[unsafe(no_mangle)]
pub unsafe extern "C" fn orders_has_slices(case: &Case) -> bool {
    way_of(case).has_slices
}

/// Whether the way of this number differs from the library's own.
#[unsafe(no_mangle)]
pub unsafe extern "C" fn orders_has_way(case: &Case, way: usize) -> bool {
    way_of(case).differs(way, case.call)
}

/// The microseconds of one call by the library.
#[unsafe(no_mangle)]
pub unsafe extern "C" fn orders_here(case: &Case, calls: usize) -> f64 {
    let start = microseconds();
    unsafe { here(black_box(case), calls) };
    (microseconds() - start) / calls as f64
}
