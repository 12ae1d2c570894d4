//! How rows lie in lent memory, as `include/hooflift.h` has it: the one place of the measurements that knows it.

/// How many numbers a data row has: `HOOFLIFT_ROW`.
pub const ROW: usize = 6;
/// How many numbers a header row has: `HOOFLIFT_HEADER_ROW`.
pub const HEADER_ROW: usize = 4;

/// The numbers of row k.
#[allow(dead_code)]
pub fn row(rows: &[u32], k: usize) -> &[u32] {
    &rows[k * ROW..(k + 1) * ROW]
}

/// The id of row k.
#[allow(dead_code)]
pub fn id(rows: &[u32], k: usize) -> u32 {
    rows[k * ROW]
}
