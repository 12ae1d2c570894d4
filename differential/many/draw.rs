//! Numbers that look drawn, and depend on a seed and a case's number alone; bytes that are damaged by them.

pub struct Draw(u64);

impl Draw {
    pub fn new(seed: u64, case: u64) -> Self {
        let mut draw = Draw(seed.wrapping_mul(0x9e37_79b9_7f4a_7c15) ^ case);
        draw.next();
        draw
    }

    /// splitmix64
    pub fn next(&mut self) -> u64 {
        self.0 = self.0.wrapping_add(0x9e37_79b9_7f4a_7c15);
        let mut z = self.0;
        z = (z ^ (z >> 30)).wrapping_mul(0xbf58_476d_1ce4_e5b9);
        z = (z ^ (z >> 27)).wrapping_mul(0x94d0_49bb_1331_11eb);
        z ^ (z >> 31)
    }

    pub fn below(&mut self, n: usize) -> usize {
        ((u128::from(self.next()) * n as u128) >> 64) as usize
    }

    pub fn one_in(&mut self, n: usize) -> bool {
        self.below(n) == 0
    }

    pub fn pick<T: Copy>(&mut self, things: &[T]) -> T {
        things[self.below(things.len())]
    }
}

/// The bytes that have a meaning somewhere.
const MEANING: &[u8] = b"#=();,'\"/*\\$.-E \n0A9\x00\x0b\xc3\x84";

/// Damages the bytes in one place: a run of bytes deleted, put in, replaced, doubled or exchanged, or the end cut off.
pub fn damage(draw: &mut Draw, bytes: &mut Vec<u8>) {
    if bytes.is_empty() {
        return;
    }
    let at = meaningful(draw, bytes);
    match draw.below(12) {
        0..=2 => {
            let end = (at + 1 + draw.below(3)).min(bytes.len());
            bytes.drain(at..end);
        }
        3..=5 => bytes.insert(at, draw.pick(MEANING)),
        6..=8 => bytes[at] = draw.pick(MEANING),
        9 => {
            let end = (at + 1 + draw.below(12)).min(bytes.len());
            let run = bytes[at..end].to_vec();
            bytes.splice(at..at, run);
        }
        10 => {
            let other = meaningful(draw, bytes);
            bytes.swap(at, other);
        }
        _ => bytes.truncate(at),
    }
}

/// A place, half of the time one at a byte that has a meaning.
fn meaningful(draw: &mut Draw, bytes: &[u8]) -> usize {
    let at = draw.below(bytes.len());
    if draw.one_in(2) {
        return at;
    }
    let found = bytes[at..]
        .iter()
        .position(|b| b"#=();,'\"/*\\$.".contains(b));
    found.map_or(at, |k| at + k)
}
