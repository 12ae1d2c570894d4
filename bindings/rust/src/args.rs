//! The argument reader.
use std::borrow::Cow;

use crate::error::{room, told, Result};
use crate::raw;

/// A boolean of three values.
#[derive(Debug, Clone, Copy, PartialEq, Eq)]
pub enum Logical {
    False,
    True,
    Unknown,
}

/// A list of lists: all numbers, and how many there are up to the end of each row.
#[derive(Debug, Clone, PartialEq)]
pub struct Grid<T> {
    pub numbers: Vec<T>,
    pub ends: Vec<usize>,
}

impl<T> Grid<T> {
    /// The rows, one slice each.
    pub fn rows(&self) -> impl Iterator<Item = &[T]> {
        let starts = std::iter::once(0).chain(self.ends.iter().copied());
        starts.zip(&self.ends).map(|(start, &end)| self.numbers.get(start..end).unwrap_or(&[]))
    }
}

/// A reader of parameters: it carries the file, its place and its end. After an error it stands where document 01 says: past the parameter
/// and its comma after 12, 13 and 16, at the parameter's start after 11.
///
/// ```
/// let step = hooflift::Step::open(b"ISO-10303-21;DATA;#1=A(#2,1.5,'t',(1.,2.),$);ENDSEC;")?;
/// let mut args = step.require(1)?.args()?;
/// assert_eq!(args.next_ref()?, 2);
/// assert_eq!(args.next_any_f64()?, 1.5);
/// assert_eq!(args.next_str()?, "t");
/// assert_eq!(args.next_any_f64_list()?, [1.0, 2.0]);
/// assert_eq!(args.next_opt_ref()?, None);
/// assert_eq!(args.next_i64().unwrap_err().to_string(), "refused 10/0@43: no parameter left");
/// # Ok::<(), hooflift::Error>(())
/// ```
///
/// Reals are read by [`next_any_f64`](Args::next_any_f64), [`next_any_opt_f64`](Args::next_any_opt_f64),
/// [`next_any_measure`](Args::next_any_measure), [`next_any_f64_list`](Args::next_any_f64_list) and
/// [`next_any_f64_grid`](Args::next_any_f64_grid), whatever their digits and their exponent. There are two of each: these are for hosts that want
/// the number; those without `any`, as [`next_f64`](Args::next_f64), keep document 01's class and its refusal 13, so that an answer is one that the
/// papers name.
#[derive(Debug, Clone, Copy)]
pub struct Args<'f> {
    file: &'f [u8],
    place: usize,
    end: usize,
}

impl<'f> Args<'f> {
    /// A reader of the file from a place up to an end; 9 where they do not lie in it in this order.
    pub fn new(file: &'f [u8], place: usize, end: usize) -> Result<Args<'f>> {
        told(raw::hooflift_new(file, place, end), 0)?;
        Ok(Args { file, place, end })
    }

    /// Where it stands in the file.
    pub fn offset(&self) -> usize {
        self.place
    }

    /// Whether no parameter is left. The reader goes past the trivia.
    pub fn is_empty(&mut self) -> Result<bool> {
        let (mut empty, mut fault) = (0, 0);
        told(raw::hooflift_is_empty(self.file, &mut self.place, self.end, &mut empty, &mut fault), fault)?;
        Ok(empty == 1)
    }

    /// Goes past one parameter.
    pub fn skip(&mut self) -> Result<()> {
        let mut fault = 0;
        told(raw::hooflift_skip(self.file, &mut self.place, self.end, &mut fault), fault)
    }

    /// Goes past so many, up to the first refusal.
    pub fn skip_n(&mut self, count: usize) -> Result<()> {
        let mut fault = 0;
        told(raw::hooflift_skip_n(self.file, &mut self.place, self.end, count, &mut fault), fault)
    }

    /// The next parameter as it stands in the file.
    pub fn next_param(&mut self) -> Result<&'f [u8]> {
        let (mut start, mut stop, mut fault) = (0, 0, 0);
        told(raw::hooflift_param(self.file, &mut self.place, self.end, &mut start, &mut stop, &mut fault), fault)?;
        Ok(self.file.get(start..stop).unwrap_or(&[]))
    }

    /// A reference's id.
    pub fn next_ref(&mut self) -> Result<u32> {
        let (mut value, mut fault) = (0, 0);
        told(raw::hooflift_ref(self.file, &mut self.place, self.end, &mut value, &mut fault), fault)?;
        Ok(value)
    }

    /// A reference's id, or `None` for `$`.
    pub fn next_opt_ref(&mut self) -> Result<Option<u32>> {
        let (mut value, mut set, mut fault) = (0, 0, 0);
        told(raw::hooflift_opt_ref(self.file, &mut self.place, self.end, &mut value, &mut set, &mut fault), fault)?;
        Ok((set == 1).then_some(value))
    }

    /// An integer.
    pub fn next_i64(&mut self) -> Result<i64> {
        let (mut value, mut fault) = (0, 0);
        told(raw::hooflift_i64(self.file, &mut self.place, self.end, &mut value, &mut fault), fault)?;
        Ok(value)
    }

    /// A real, whatever its digits and its exponent: the `f64` nearest to it, as IEEE 754 has it, with ties to even, the sign kept at zero, zeros up
    /// to half the least subnormal, and infinities from halfway between [`f64::MAX`] and 2^1024 on. It is never refused with 13, and whole
    /// numbers alone are used, so that it does not depend on the rounding mode. `str::parse` gives the same, but where an exponent of 65536 or
    /// more is made up for by zeros: there it errs.
    ///
    /// ```
    /// let file = b"-1.025893950136E-17,9007199254740993,9007199254740993.000000000000000000001,-1E400,'t'";
    /// let mut args = hooflift::Args::new(file, 0, file.len())?;
    /// assert_eq!(args.next_any_f64()?, -1.025893950136e-17); // a zero with noise, as real files have it
    /// assert_eq!(args.next_any_f64()?, 9007199254740992.0); // halfway between two: the even one
    /// assert_eq!(args.next_any_f64()?, 9007199254740994.0); // just above halfway
    /// assert_eq!(args.next_any_f64()?, f64::NEG_INFINITY);
    /// assert_eq!(args.next_any_f64().unwrap_err().to_string(), "refused 12/0@83: parameter of another type");
    /// # Ok::<(), hooflift::Error>(())
    /// ```
    pub fn next_any_f64(&mut self) -> Result<f64> {
        let (mut value, mut fault) = (0.0, 0);
        told(raw::hooflift_any_f64(self.file, &mut self.place, self.end, &mut value, &mut fault), fault)?;
        Ok(value)
    }

    /// A real as in [`Args::next_any_f64`], or `None` for `$`.
    ///
    /// ```
    /// let mut args = hooflift::Args::new(b"$,-0E99", 0, 7)?;
    /// assert_eq!(args.next_any_opt_f64()?, None);
    /// assert_eq!(args.next_any_opt_f64()?.map(f64::to_bits), Some((-0.0f64).to_bits()));
    /// # Ok::<(), hooflift::Error>(())
    /// ```
    pub fn next_any_opt_f64(&mut self) -> Result<Option<f64>> {
        let (mut value, mut set, mut fault) = (0.0, 0, 0);
        told(raw::hooflift_any_opt_f64(self.file, &mut self.place, self.end, &mut value, &mut set, &mut fault), fault)?;
        Ok((set == 1).then_some(value))
    }

    /// A measure: a real, or `KEYWORD(real)`; the real as in [`Args::next_any_f64`].
    ///
    /// ```
    /// let mut args = hooflift::Args::new(b"LENGTH_MEASURE(1.E-40),1.E-40", 0, 29)?;
    /// assert_eq!(args.next_any_measure()?, 1e-40);
    /// assert_eq!(args.next_any_measure()?, 1e-40);
    /// # Ok::<(), hooflift::Error>(())
    /// ```
    pub fn next_any_measure(&mut self) -> Result<f64> {
        let (mut value, mut fault) = (0.0, 0);
        told(raw::hooflift_any_measure(self.file, &mut self.place, self.end, &mut value, &mut fault), fault)?;
        Ok(value)
    }

    /// A real of document 01's class, m·10^e, where m is all digits without the point, leading zeros dropped, at most nineteen, and e, from -27 to 27,
    /// is the exponent less the number of digits behind the point: the `f64` nearest to it, ties to even. Other reals are refused with 13;
    /// [`Args::next_any_f64`] reads them.
    ///
    /// ```
    /// let mut args = hooflift::Args::new(b"0.017453292519943295,1E28", 0, 25)?;
    /// assert_eq!(args.next_f64()?, 0.017453292519943295);
    /// assert_eq!(args.next_f64().unwrap_err().refusal().map(|r| (r.number, r.place)), Some((13, 21)));
    /// # Ok::<(), hooflift::Error>(())
    /// ```
    pub fn next_f64(&mut self) -> Result<f64> {
        let (mut value, mut fault) = (0.0, 0);
        told(raw::hooflift_f64(self.file, &mut self.place, self.end, &mut value, &mut fault), fault)?;
        Ok(value)
    }

    /// A real as in [`Args::next_f64`], or `None` for `$`.
    pub fn next_opt_f64(&mut self) -> Result<Option<f64>> {
        let (mut value, mut set, mut fault) = (0.0, 0, 0);
        told(raw::hooflift_opt_f64(self.file, &mut self.place, self.end, &mut value, &mut set, &mut fault), fault)?;
        Ok((set == 1).then_some(value))
    }

    /// A measure: a real, or `KEYWORD(real)`; the real as in [`Args::next_f64`].
    pub fn next_measure(&mut self) -> Result<f64> {
        let (mut value, mut fault) = (0.0, 0);
        told(raw::hooflift_measure(self.file, &mut self.place, self.end, &mut value, &mut fault), fault)?;
        Ok(value)
    }

    /// `.T.`, `.F.` or `.U.`.
    pub fn next_bool(&mut self) -> Result<Logical> {
        let (mut value, mut fault) = (0, 0);
        told(raw::hooflift_bool(self.file, &mut self.place, self.end, &mut value, &mut fault), fault)?;
        Ok(match value {
            0 => Logical::False,
            1 => Logical::True,
            _ => Logical::Unknown,
        })
    }

    /// A name, without its dots.
    pub fn next_enum(&mut self) -> Result<Cow<'f, str>> {
        let (mut start, mut stop, mut fault) = (0, 0, 0);
        told(raw::hooflift_enum(self.file, &mut self.place, self.end, &mut start, &mut stop, &mut fault), fault)?;
        Ok(String::from_utf8_lossy(self.file.get(start..stop).unwrap_or(&[])))
    }

    /// A text; an empty one for `$`. It is borrowed from the file where it stands there as it is. A `\P?\` selects a page of ISO 8859 for every
    /// later `\S\` in that string, by the letters A to I in either case.
    ///
    /// ```
    /// let mut args = hooflift::Args::new(br"'\PG\\S\a','\S\a'", 0, 17)?;
    /// assert_eq!(args.next_str()?, "\u{3b1}"); // a Greek alpha
    /// assert_eq!(args.next_str()?, "\u{e1}"); // the page is not kept
    /// # Ok::<(), hooflift::Error>(())
    /// ```
    pub fn next_str(&mut self) -> Result<Cow<'f, str>> {
        let mut ahead = *self;
        let bytes = ahead.next_param().unwrap_or(&[]);
        let body = bytes.get(1..bytes.len().saturating_sub(1)).unwrap_or(&[]);
        let mut room = room(if is_plain(body) { 0 } else { raw::hooflift_text_length(body) }, 0)?;
        let (mut side, mut start, mut stop, mut fault) = (0, 0, 0, 0);
        let code = raw::hooflift_str(self.file, &mut self.place, self.end, &mut room, &mut side, &mut start, &mut stop, &mut fault);
        told(code, fault)?;
        Ok(shown(self.file, room, side, start, stop))
    }

    /// A list of references.
    pub fn next_ref_list(&mut self) -> Result<Vec<u32>> {
        let (mut list, mut count, mut fault) = (room(self.peek_items(), 0)?, 0, 0);
        told(raw::hooflift_ref_list(self.file, &mut self.place, self.end, &mut list, &mut count, &mut fault), fault)?;
        list.truncate(count);
        Ok(list)
    }

    /// A list of integers.
    pub fn next_i64_list(&mut self) -> Result<Vec<i64>> {
        let (mut list, mut count, mut fault) = (room(self.peek_items(), 0)?, 0, 0);
        told(raw::hooflift_i64_list(self.file, &mut self.place, self.end, &mut list, &mut count, &mut fault), fault)?;
        list.truncate(count);
        Ok(list)
    }

    /// A list of reals, each as in [`Args::next_any_f64`].
    ///
    /// ```
    /// let mut args = hooflift::Args::new(b"(25.4,-1.025893950136E-17,0.)", 0, 29)?;
    /// assert_eq!(args.next_any_f64_list()?, [25.4, -1.025893950136e-17, 0.0]);
    /// # Ok::<(), hooflift::Error>(())
    /// ```
    pub fn next_any_f64_list(&mut self) -> Result<Vec<f64>> {
        let (mut list, mut count, mut fault) = (room(self.peek_items(), 0.0)?, 0, 0);
        told(raw::hooflift_any_f64_list(self.file, &mut self.place, self.end, &mut list, &mut count, &mut fault), fault)?;
        list.truncate(count);
        Ok(list)
    }

    /// A list of reals, each as in [`Args::next_f64`].
    pub fn next_f64_list(&mut self) -> Result<Vec<f64>> {
        let (mut list, mut count, mut fault) = (room(self.peek_items(), 0.0)?, 0, 0);
        told(raw::hooflift_f64_list(self.file, &mut self.place, self.end, &mut list, &mut count, &mut fault), fault)?;
        list.truncate(count);
        Ok(list)
    }

    /// A list of lists of references.
    pub fn next_ref_grid(&mut self) -> Result<Grid<u32>> {
        let items = self.peek_items();
        let (mut numbers, mut ends) = (room(items, 0)?, room(items, 0)?);
        let (mut count, mut rows, mut fault) = (0, 0, 0);
        let code = raw::hooflift_ref_grid(self.file, &mut self.place, self.end, &mut numbers, &mut ends, &mut count, &mut rows, &mut fault);
        told(code, fault)?;
        numbers.truncate(count);
        ends.truncate(rows);
        Ok(Grid { numbers, ends })
    }

    /// A list of lists of reals, each as in [`Args::next_any_f64`].
    ///
    /// ```
    /// let mut args = hooflift::Args::new(b"((1.,1E28),(-1.025893950136E-17))", 0, 33)?;
    /// let grid = args.next_any_f64_grid()?;
    /// assert_eq!(grid.rows().collect::<Vec<_>>(), [&[1.0, 1e28][..], &[-1.025893950136e-17]]);
    /// # Ok::<(), hooflift::Error>(())
    /// ```
    pub fn next_any_f64_grid(&mut self) -> Result<Grid<f64>> {
        let items = self.peek_items();
        let (mut numbers, mut ends) = (room(items, 0.0)?, room(items, 0)?);
        let (mut count, mut rows, mut fault) = (0, 0, 0);
        let code = raw::hooflift_any_f64_grid(self.file, &mut self.place, self.end, &mut numbers, &mut ends, &mut count, &mut rows, &mut fault);
        told(code, fault)?;
        numbers.truncate(count);
        ends.truncate(rows);
        Ok(Grid { numbers, ends })
    }

    /// A list of lists of reals, each as in [`Args::next_f64`].
    pub fn next_f64_grid(&mut self) -> Result<Grid<f64>> {
        let items = self.peek_items();
        let (mut numbers, mut ends) = (room(items, 0.0)?, room(items, 0)?);
        let (mut count, mut rows, mut fault) = (0, 0, 0);
        let code = raw::hooflift_f64_grid(self.file, &mut self.place, self.end, &mut numbers, &mut ends, &mut count, &mut rows, &mut fault);
        told(code, fault)?;
        numbers.truncate(count);
        ends.truncate(rows);
        Ok(Grid { numbers, ends })
    }

    /// How many items the next parameter has at most: they stand between commas.
    fn peek_items(&self) -> usize {
        let mut ahead = *self;
        ahead.next_param().map_or(0, |raw| raw.iter().filter(|&&b| b == b',').count() + 1)
    }
}

/// A real that stands alone, without trivia, as [`Args::next_param`] shows one: read as by [`Args::next_any_f64`], or 12.
///
/// ```
/// assert_eq!(hooflift::any_real(b"-1.025893950136E-17")?, -1.025893950136e-17);
/// assert_eq!(hooflift::any_real(b"1E400")?, f64::INFINITY);
/// assert_eq!(hooflift::any_real(b" 1.").unwrap_err().refusal().map(|r| r.number), Some(12));
/// # Ok::<(), hooflift::Error>(())
/// ```
pub fn any_real(text: &[u8]) -> Result<f64> {
    let mut bits = 0;
    told(raw::hooflift_any_real(text, &mut bits), 0)?;
    Ok(f64::from_bits(bits))
}

/// Whether a string's text stands in the file as it is: document 01 asks for no quote, backslash or high byte.
fn is_plain(body: &[u8]) -> bool {
    body.iter().all(|&b| b != b'\'' && b != b'\\' && b < 128)
}

/// The bytes of a text, in the file or in the room.
pub(crate) fn shown(file: &[u8], mut room: Vec<u8>, side: u8, start: usize, stop: usize) -> Cow<'_, str> {
    if side == 0 {
        return String::from_utf8_lossy(file.get(start..stop).unwrap_or(&[]));
    }
    room.truncate(stop);
    Cow::Owned(String::from_utf8(room).unwrap_or_else(|e| String::from_utf8_lossy(e.as_bytes()).into_owned()))
}
