//! The pages that `\P?\` names, ISO 8859-1 to 8859-9 (request #109). The tables are not written down here: the C library's iconv has
//! them. Also part of `texts` (texts.rs).

use std::ffi::{CString, c_char, c_int, c_void};
use std::io::Error;
use std::sync::OnceLock;

unsafe extern "C" {
    fn iconv_open(to: *const c_char, from: *const c_char) -> *mut c_void;
    fn iconv(
        descriptor: *mut c_void,
        from: *mut *mut c_char,
        from_left: *mut usize,
        to: *mut *mut c_char,
        to_left: *mut usize,
    ) -> usize;
    fn iconv_close(descriptor: *mut c_void) -> c_int;
}

/// What iconv says of a byte that the page does not define, on Linux.
const EILSEQ: i32 = 84;

type Table = [u32; 96];

/// The page that a directive's byte names: 0 for A to 8 for I, letters in either case. Any other byte names page A.
pub fn named(byte: u8) -> usize {
    match byte.to_ascii_uppercase() {
        letter @ b'A'..=b'I' => usize::from(letter - b'A'),
        _ => 0,
    }
}

/// The code of `\S\c` on a page: the page's own where c + 128 lies in A0 to FF, U+FFFD where the page has none, else c + 128.
pub fn code(page: usize, c: u8) -> u32 {
    static TABLES: OnceLock<[Table; 9]> = OnceLock::new();
    match usize::from(c) + 128 {
        sum @ 0xA0..=0xFF => TABLES.get_or_init(tables)[page][sum - 0xA0],
        sum => sum as u32,
    }
}

fn tables() -> [Table; 9] {
    let tables = std::array::from_fn(|page| table(&format!("ISO-8859-{}", page + 1)));
    if tables[0] != std::array::from_fn(|k| 0xA0 + k as u32) {
        fail("iconv's ISO-8859-1 is not the identity");
    }
    tables
}

/// The codes A0 to FF of a page.
fn table(name: &str) -> Table {
    let from = CString::new(name).expect("a name without NUL");
    // SAFETY: both names end in NUL.
    let descriptor = unsafe { iconv_open(c"UTF-8".as_ptr(), from.as_ptr()) };
    if descriptor as isize == -1 {
        fail(&format!(
            "the C library has no iconv from {name} to UTF-8: {}",
            Error::last_os_error()
        ));
    }
    let table = std::array::from_fn(|k| match converted(descriptor, 0xA0 + k as u8) {
        Ok(Some(character)) => u32::from(character),
        Ok(None) => 0xFFFD,
        Err(how) => fail(&format!("iconv from {name} at {:02X}: {how}", 0xA0 + k)),
    });
    // SAFETY: the descriptor is open, and is used no more.
    unsafe { iconv_close(descriptor) };
    table
}

/// The character of a byte; none where the page has none.
fn converted(descriptor: *mut c_void, byte: u8) -> Result<Option<char>, String> {
    let (mut byte, mut out) = ([byte], [0u8; 16]);
    let (mut from, mut from_left) = (byte.as_mut_ptr().cast(), byte.len());
    let (mut to, mut to_left) = (out.as_mut_ptr().cast(), out.len());
    // SAFETY: the descriptor is open, and each place has as many bytes as is said.
    let answer = unsafe { iconv(descriptor, &mut from, &mut from_left, &mut to, &mut to_left) };
    if answer == usize::MAX {
        let error = Error::last_os_error();
        return match error.raw_os_error() {
            Some(EILSEQ) => Ok(None),
            _ => Err(error.to_string()),
        };
    }
    let text = std::str::from_utf8(&out[..out.len() - to_left]).unwrap_or("");
    let mut characters = text.chars();
    match (answer, characters.next(), characters.next()) {
        (0, Some(one), None) => Ok(Some(one)),
        _ => Err("is not one character".to_string()),
    }
}

fn fail(message: &str) -> ! {
    eprintln!("pages: {message}");
    std::process::exit(2);
}
