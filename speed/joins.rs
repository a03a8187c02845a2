//! Tables of one size concatenated and stacked, beside plain copies into one vector.

use crate::row;
use std::hint::black_box;

unsafe extern "C" {
    fn nd_speed_concatenate(items: *const i64, count: usize, lengths: *const usize, ndim: usize, axis: usize, calls: usize) -> u64;
    fn nd_speed_stack(items: *const i64, count: usize, lengths: *const usize, ndim: usize, axis: usize, calls: usize) -> u64;
}

type OfTables = unsafe extern "C" fn(*const i64, usize, *const usize, usize, usize, usize) -> u64;

const TABLES: usize = 10;
const ROWS: usize = 1000;
const COLUMNS: usize = 100;

/// So many elements of each table in turn, until all are listed.
fn plain_joined(tables: &[&[i64]], run: usize) -> Vec<i64> {
    let mut joined = Vec::with_capacity(tables.iter().map(|table| table.len()).sum());
    for from in (0..tables[0].len()).step_by(run) {
        for table in tables {
            joined.extend_from_slice(&table[from..from + run]);
        }
    }
    joined
}

/// One element of each table in turn.
fn plain_interleaved(tables: &[&[i64]]) -> Vec<i64> {
    let mut joined = Vec::with_capacity(tables.iter().map(|table| table.len()).sum());
    for nth in 0..tables[0].len() {
        joined.extend(tables.iter().map(|table| table[nth]));
    }
    joined
}

pub fn rows() {
    let items: Vec<i64> = (0..TABLES * ROWS * COLUMNS).map(|nth| nth as i64).collect();
    let tables: Vec<&[i64]> = items.chunks_exact(ROWS * COLUMNS).collect();
    let lengths = black_box([TABLES, ROWS, COLUMNS]);
    let calls: [(&str, OfTables, &[(usize, &str)]); 2] = [
        ("concatenate", nd_speed_concatenate, &[(ROWS * COLUMNS, "along the first axis"), (COLUMNS, "along the second axis")]),
        ("stack", nd_speed_stack, &[(ROWS * COLUMNS, "at the first axis"), (COLUMNS, "at the second axis"), (1, "at the third axis")]),
    ];
    for (call, ours, cases) in calls {
        for (axis, (run, case)) in cases.iter().enumerate() {
            let (axis, run) = black_box((axis, *run));
            row(
                &format!("`{call}` of ten arrays of `i64` of 1000 x 100, {case}"),
                &mut |calls| {
                    for _ in 0..calls {
                        let tables = black_box(&tables[..]);
                        black_box(if run == 1 { plain_interleaved(tables) } else { plain_joined(tables, run) });
                    }
                    1
                },
                &mut |calls| unsafe { ours(items.as_ptr(), items.len(), lengths.as_ptr(), 3, axis, calls) },
            );
        }
    }
}
