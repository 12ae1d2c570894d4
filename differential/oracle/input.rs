//! The run of cases on standard input.

use std::io::{BufRead, BufReader, Read};

pub struct Stream<R: Read> {
    input: BufReader<R>,
}

impl<R: Read> Stream<R> {
    pub fn new(input: R) -> Self {
        Stream {
            input: BufReader::with_capacity(1 << 16, input),
        }
    }

    /// The next case, or none at the end of the input.
    pub fn next(&mut self) -> Result<Option<Vec<u8>>, String> {
        let mut line = Vec::new();
        self.input
            .read_until(b'\n', &mut line)
            .map_err(|e| e.to_string())?;
        if line.is_empty() {
            return Ok(None);
        }
        if line.pop() != Some(b'\n') || line.is_empty() || !line.iter().all(u8::is_ascii_digit) {
            return Err("a length in decimal and LF is wanted".to_string());
        }
        let length: u64 = std::str::from_utf8(&line)
            .ok()
            .and_then(|s| s.parse().ok())
            .ok_or("a length is too large")?;
        let mut case = Vec::new();
        (&mut self.input)
            .take(length)
            .read_to_end(&mut case)
            .map_err(|e| e.to_string())?;
        if case.len() as u64 != length {
            return Err("the last case is cut short".to_string());
        }
        Ok(Some(case))
    }
}
