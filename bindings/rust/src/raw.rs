//! The boundary: `include/hooflift.h` as Rust has it, and for each function one that takes slices. All `unsafe` is here.
//!
//! SAFETY, of every call below: a slice's pointer goes with its length, references are to initialised memory, no two that are lent for
//! writing overlap, since Rust allows no such borrows, and the functions ask nothing else of their arguments (they are proved for every
//! input) and keep no pointer.
#![allow(unsafe_code, clippy::too_many_arguments)]

/// How many numbers a data row has: `HOOFLIFT_ROW`.
pub const ROW: usize = 6;
/// How many a header row has, and a part of a complex record: `HOOFLIFT_HEADER_ROW`.
pub const HEADER_ROW: usize = 4;
/// How many numbers go with the tables: `HOOFLIFT_TABLES`.
pub const TABLES: usize = 16;
/// How many tell what a file needs: `HOOFLIFT_NEEDS`.
pub const NEEDS: usize = 12;

macro_rules! boundary {
    ($($name:ident ( $($kind:tt $arg:ident : $ty:ty),* ) -> $out:ty;)*) => {
        $( boundary!(@one $name ($($kind $arg : $ty),*) -> $out); )*
    };
    (@one $name:ident ( $($kind:tt $arg:ident : $ty:ty),* ) -> $out:ty) => {
        pub fn $name($($arg: boundary!(@safe $kind $ty)),*) -> $out {
            boundary!(@call $name [] [] $($kind $arg : $ty),* ; $out)
        }
    };
    (@safe slice $ty:ty) => { &[$ty] };
    (@safe room $ty:ty) => { &mut [$ty] };
    (@safe out $ty:ty) => { &mut $ty };
    (@safe by $ty:ty) => { $ty };
    (@call $name:ident [$($t:ty,)*] [$($v:expr,)*] slice $arg:ident : $ty:ty $(, $k:tt $a:ident : $u:ty)* ; $out:ty) => {
        boundary!(@call $name [$($t,)* *const $ty, usize,] [$($v,)* $arg.as_ptr(), $arg.len(),] $($k $a : $u),* ; $out)
    };
    (@call $name:ident [$($t:ty,)*] [$($v:expr,)*] room $arg:ident : $ty:ty $(, $k:tt $a:ident : $u:ty)* ; $out:ty) => {
        boundary!(@call $name [$($t,)* *mut $ty, usize,] [$($v,)* $arg.as_mut_ptr(), $arg.len(),] $($k $a : $u),* ; $out)
    };
    (@call $name:ident [$($t:ty,)*] [$($v:expr,)*] out $arg:ident : $ty:ty $(, $k:tt $a:ident : $u:ty)* ; $out:ty) => {
        boundary!(@call $name [$($t,)* *mut $ty,] [$($v,)* $arg as *mut $ty,] $($k $a : $u),* ; $out)
    };
    (@call $name:ident [$($t:ty,)*] [$($v:expr,)*] by $arg:ident : $ty:ty $(, $k:tt $a:ident : $u:ty)* ; $out:ty) => {
        boundary!(@call $name [$($t,)* $ty,] [$($v,)* $arg,] $($k $a : $u),* ; $out)
    };
    (@call $name:ident [$($t:ty,)*] [$($v:expr,)*] ; $out:ty) => {{
        extern "C" {
            fn $name($(_: $t),*) -> $out;
        }
        // SAFETY: as the module says.
        unsafe { $name($($v),*) }
    }};
}

boundary! {
    hooflift_needs(slice file: u8, room needs: u64, out reason: u8, out fault: usize) -> u8;
    hooflift_open(slice file: u8, room headers: u32, room rows: u32, room slots: u64, room tables: u64, out reason: u8, out fault: usize) -> u8;
    hooflift_get(slice rows: u32, slice slots: u64, slice ids: u64, by id: u32) -> u32;
    hooflift_get_all(slice rows: u32, slice slots: u64, slice beside: u64, slice ids: u32, room found: u32) -> u8;
    hooflift_kind_of(slice file: u8, slice rows: u32, slice slots: u64, slice tables: u64, by id: u32) -> u32;
    hooflift_len(slice tables: u64) -> usize;
    hooflift_entity(slice rows: u32, slice tables: u64, by k: usize, room row: u64) -> u8;
    hooflift_keyword(slice file: u8, slice rows: u32, slice tables: u64, by k: usize, out start: usize, out stop: usize) -> u8;
    hooflift_args_of(slice file: u8, slice rows: u32, slice tables: u64, by k: usize, out start: usize, out stop: usize) -> u8;
    hooflift_kind(slice file: u8, slice rows: u32, slice tables: u64, by k: usize) -> u32;
    hooflift_intern(slice keyword: u8) -> u32;
    hooflift_by_kind(slice file: u8, slice rows: u32, slice tables: u64, by kind: u32, by from: usize, out row: usize) -> u8;
    hooflift_header_args(slice file: u8, slice headers: u32, slice tables: u64, slice name: u8, out start: usize, out stop: usize) -> u8;
    hooflift_file_name(slice file: u8, slice headers: u32, slice tables: u64, room text: u8, out place: u8, out start: usize, out stop: usize, out fault: usize) -> u8;
    hooflift_originating_system(slice file: u8, slice headers: u32, slice tables: u64, room text: u8, out place: u8, out start: usize, out stop: usize, out fault: usize) -> u8;
    hooflift_new(slice file: u8, by place: usize, by end: usize) -> u8;
    hooflift_is_empty(slice file: u8, out place: usize, by end: usize, out empty: u8, out fault: usize) -> u8;
    hooflift_skip(slice file: u8, out place: usize, by end: usize, out fault: usize) -> u8;
    hooflift_skip_n(slice file: u8, out place: usize, by end: usize, by count: usize, out fault: usize) -> u8;
    hooflift_param(slice file: u8, out place: usize, by end: usize, out start: usize, out stop: usize, out fault: usize) -> u8;
    hooflift_ref(slice file: u8, out place: usize, by end: usize, out value: u32, out fault: usize) -> u8;
    hooflift_opt_ref(slice file: u8, out place: usize, by end: usize, out value: u32, out set: u8, out fault: usize) -> u8;
    hooflift_i64(slice file: u8, out place: usize, by end: usize, out value: i64, out fault: usize) -> u8;
    hooflift_any_f64(slice file: u8, out place: usize, by end: usize, out value: f64, out fault: usize) -> u8;
    hooflift_any_opt_f64(slice file: u8, out place: usize, by end: usize, out value: f64, out set: u8, out fault: usize) -> u8;
    hooflift_any_measure(slice file: u8, out place: usize, by end: usize, out value: f64, out fault: usize) -> u8;
    hooflift_f64(slice file: u8, out place: usize, by end: usize, out value: f64, out fault: usize) -> u8;
    hooflift_opt_f64(slice file: u8, out place: usize, by end: usize, out value: f64, out set: u8, out fault: usize) -> u8;
    hooflift_measure(slice file: u8, out place: usize, by end: usize, out value: f64, out fault: usize) -> u8;
    hooflift_bool(slice file: u8, out place: usize, by end: usize, out value: u8, out fault: usize) -> u8;
    hooflift_enum(slice file: u8, out place: usize, by end: usize, out start: usize, out stop: usize, out fault: usize) -> u8;
    hooflift_str(slice file: u8, out place: usize, by end: usize, room text: u8, out side: u8, out start: usize, out stop: usize, out fault: usize) -> u8;
    hooflift_any_real(slice text: u8, out bits: u64) -> u8;
    hooflift_text_length(slice bytes: u8) -> usize;
    hooflift_ref_list(slice file: u8, out place: usize, by end: usize, room list: u32, out count: usize, out fault: usize) -> u8;
    hooflift_i64_list(slice file: u8, out place: usize, by end: usize, room list: i64, out count: usize, out fault: usize) -> u8;
    hooflift_any_f64_list(slice file: u8, out place: usize, by end: usize, room list: f64, out count: usize, out fault: usize) -> u8;
    hooflift_f64_list(slice file: u8, out place: usize, by end: usize, room list: f64, out count: usize, out fault: usize) -> u8;
    hooflift_ref_grid(slice file: u8, out place: usize, by end: usize, room list: u32, room ends: usize, out count: usize, out rows: usize, out fault: usize) -> u8;
    hooflift_any_f64_grid(slice file: u8, out place: usize, by end: usize, room list: f64, room ends: usize, out count: usize, out rows: usize, out fault: usize) -> u8;
    hooflift_f64_grid(slice file: u8, out place: usize, by end: usize, room list: f64, room ends: usize, out count: usize, out rows: usize, out fault: usize) -> u8;
    hooflift_next_part(slice file: u8, by at: usize, by end: usize, room part: u64, out fault: usize) -> u8;
    hooflift_complex_part(slice file: u8, by start: usize, by end: usize, by complex: u32, by kind: u32, room part: u64, out fault: usize) -> u8;
    hooflift_units(slice file: u8, slice rows: u32, slice slots: u64, slice tables: u64, out mm: f64, out rad: f64, out tolerance: f64, out resolved: u8, out fault: usize) -> u8;
    hooflift_units_of_context(slice file: u8, slice rows: u32, slice slots: u64, slice tables: u64, by k: usize, out mm: f64, out rad: f64, out tolerance: f64, out resolved: u8, out fault: usize) -> u8;
    hooflift_keep_rows(by len: usize, slice rows: u32, by count: usize, room bytes: u8, out kept: usize) -> u8;
    hooflift_read_rows(by len: usize, slice bytes: u8, room rows: u32, out count: usize) -> u8;
}

#[cfg(test)]
mod tests {
    use super::*;

    const FILE: &[u8] = b"ISO-10303-21;DATA;#1=A(1);ENDSEC;";

    #[test]
    fn widths_are_those_of_the_header() {
        let header = include_str!("../../../include/hooflift.h");
        for (name, width) in [("ROW", ROW), ("HEADER_ROW", HEADER_ROW), ("TABLES", TABLES), ("NEEDS", NEEDS)] {
            assert!(header.contains(&format!("#define HOOFLIFT_{name} {width}\n")), "{name}");
        }
    }

    #[test]
    fn one_number_fewer_is_refused() {
        let (mut needs, mut reason, mut fault) = ([9; NEEDS], 7, 7);
        assert_eq!(hooflift_needs(FILE, &mut needs[1..], &mut reason, &mut fault), 16);
        assert_eq!((needs, reason, fault), ([9; NEEDS], 7, 7));
        assert_eq!(hooflift_needs(FILE, &mut needs, &mut reason, &mut fault), 0);
        assert_eq!((needs, reason, fault), ([0, 1, 1, 0, 0, 0, 9, 9, 9, 9, 9, 9], 7, 7));
        let (mut rows, mut slots, mut tables) = ([0; ROW], [0; 1], [9; TABLES]);
        assert_eq!(hooflift_open(FILE, &mut [], &mut rows, &mut slots, &mut tables[1..], &mut reason, &mut fault), 16);
        assert_eq!((rows, tables, reason, fault), ([0; ROW], [9; TABLES], 7, 7));
        assert_eq!(hooflift_open(FILE, &mut [], &mut rows, &mut slots, &mut tables, &mut reason, &mut fault), 0);
        assert_eq!((tables[8], tables[9], tables[10]), (0, 1, 1));
    }
}
