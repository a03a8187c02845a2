//! What the timed library asks of its host, memory by malloc, and the clock.

#[repr(C)]
struct TimeSpec {
    seconds: i64,
    nanoseconds: i64,
}

const PROCESS_CPU_TIME: i32 = 2;

/// What the library's allocator returns: whether there was memory, and where.
#[repr(C)]
struct Tried {
    ok: bool,
    place: *mut u8,
}

unsafe extern "C" {
    fn clock_gettime(clock: i32, time: *mut TimeSpec) -> i32;
    fn malloc(size: usize) -> *mut u8;
    fn realloc(block: *mut u8, size: usize) -> *mut u8;
    fn free(block: *mut u8);
}

#[unsafe(no_mangle)]
unsafe extern "C" fn rattle_alloc(size: usize, _align: usize) -> Tried {
    let place = unsafe { malloc(size) };
    Tried {
        ok: !place.is_null(),
        place,
    }
}

#[unsafe(no_mangle)]
unsafe extern "C" fn rattle_realloc(block: *mut u8, _kept: usize, size: usize, _align: usize) -> Tried {
    let place = unsafe { realloc(block, size) };
    Tried {
        ok: !place.is_null(),
        place,
    }
}

#[unsafe(no_mangle)]
unsafe extern "C" fn rattle_dealloc(block: *mut u8) {
    unsafe { free(block) }
}

/// The processor time of this process, which other work on the machine doesn't lengthen much.
pub fn microseconds() -> f64 {
    let mut time = TimeSpec {
        seconds: 0,
        nanoseconds: 0,
    };
    unsafe { clock_gettime(PROCESS_CPU_TIME, &mut time) };
    time.seconds as f64 * 1e6 + time.nanoseconds as f64 / 1e3
}
