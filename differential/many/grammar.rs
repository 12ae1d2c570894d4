//! Files of a grammar. Each file has its own rate of odd things (none, few, many), and a quarter of the files are then damaged.

use crate::draw::{damage, Draw};

const SPACES: [&[u8]; 6] = [b" ", b"\n", b"\t", b"\r\n", b"\x0c", b"  "];
const COMMENTS: [&[u8]; 9] = [
    b"/**/",
    b"/*c*/",
    b"/***/",
    b"/*/*/",
    b"/*'*/",
    b"/*;*/",
    b"/*(*/",
    b"/*#1=A();*/",
    b"/*\"*/",
];
const STRING: [&[u8]; 35] = [
    b"a",
    b"B c",
    b"''",
    b";",
    b"(",
    b")",
    b"/*",
    b"*/",
    b"\\X2\\00C40042\\X0\\",
    b"\\X2\\D83DDE00\\X0\\",
    b"\\X2\\D83D\\X0\\",
    b"\\X4\\0001F600\\X0\\",
    b"\\X2\\0041ZZZZ\\X0\\",
    b"\\S\\D",
    b"\\X\\C4",
    b"\\\\",
    b"\\N\\",
    b"\\T\\",
    b"\\PA\\",
    b"\\",
    b"\"",
    b"\xc3\x84",
    b"\xe4",
    b"#1=",
    b"\\PB\\",
    b"\\PE\\",
    b"\\PG\\",
    b"\\PI\\",
    b"\\Pg\\",
    b"\\S\\p",
    b"\\S\\ ",
    b"\\S\\.",
    b"\\S\\\x7f",
    b"\\S\\\x1f",
    b"\\PG\\\\S\\D",
];
const SCALARS: [&[u8]; 50] = [
    b"#1",
    b"#2",
    b"#3",
    b"#0",
    b"#4294967295",
    b"#4294967296",
    b"#007",
    b"#",
    b"#1A",
    b"1",
    b"-1",
    b"+7",
    b"0",
    b"0.",
    b"-0.",
    b".5",
    b"2.",
    b"-1.5E-3",
    b"1.E22",
    b"1E23",
    b"1.E-22",
    b"1E-23",
    b"123456789012345",
    b"1234567890123456",
    b"9223372036854775807",
    b"-9223372036854775808",
    b"9223372036854775808",
    b"12345678901234567890",
    b"1234567890123456789",
    b"1.E27",
    b"1E28",
    b"1.E-27",
    b"1E-28",
    b"0E28",
    b"0.017453292519943295",
    b"6.283185307179586",
    b"-1.025893950136E-17",
    b"$",
    b"*",
    b".T.",
    b".F.",
    b".U.",
    b".MILLI.",
    b"..",
    b".",
    b"inf",
    b"LENGTH_MEASURE(2.5)",
    b"K(1E23)",
    b"K(1E28)",
    b"",
];
const WORDS: [&[u8]; 12] = [
    b"A",
    b"B",
    b"CARTESIAN_POINT",
    b"X1",
    b"LENGTH_UNIT",
    b"SI_UNIT",
    b"GEOMETRIC_REPRESENTATION_CONTEXT",
    b"FILE_NAME",
    b"DATA",
    b"CONVERSION_BASED_UNIT",
    b"UNCERTAINTY_MEASURE_WITH_UNIT",
    b"GLOBAL_UNIT_ASSIGNED_CONTEXT",
];
const ODD: [&[u8]; 24] = [
    b"(",
    b")",
    b"'",
    b"\"",
    b"/*",
    b";",
    b",",
    b"=",
    b"#",
    b"))",
    b"''",
    b"*/",
    b"\x0b",
    b"\x00",
    b"\xc2\x85",
    b"\\",
    b"a",
    b"ENDSEC",
    b"DATA",
    b"HEADER;",
    b"$",
    b"(((",
    b"\xef\xbb\xbf",
    b"4294967296",
];

pub struct Made<'a> {
    pub out: &'a mut Vec<u8>,
    pub draw: Draw,
    odd: usize,
}

pub fn case(seed: u64, i: u64, out: &mut Vec<u8>) {
    let mut draw = Draw::new(seed, i);
    let odd = draw.pick(&[0, 0, 0, 200, 40]);
    let mut made = Made { out, draw, odd };
    made.file();
    let mut draw = made.draw;
    if draw.one_in(4) {
        for _ in 0..1 + draw.below(3) {
            damage(&mut draw, out);
        }
    }
}

impl Made<'_> {
    pub fn put(&mut self, bytes: &[u8]) {
        if self.odd != 0 && self.draw.one_in(self.odd) {
            let odd = self.draw.pick(&ODD);
            self.out.extend_from_slice(odd);
            if self.draw.one_in(2) {
                return;
            }
        }
        self.out.extend_from_slice(bytes);
    }

    fn picked(&mut self, things: &[&[u8]]) {
        let thing = self.draw.pick(things);
        self.put(thing);
    }

    pub fn number(&mut self, n: usize) {
        let text = n.to_string();
        self.put(text.as_bytes());
    }

    fn space(&mut self, often: usize) {
        if self.draw.one_in(often) {
            self.picked(&SPACES);
        }
    }

    fn trivia(&mut self, often: usize) {
        if self.draw.one_in(often) {
            self.space(2);
            self.picked(&COMMENTS);
            self.space(2);
        }
    }

    fn string(&mut self) {
        self.put(b"'");
        for _ in 0..self.draw.below(4) {
            self.picked(&STRING);
        }
        self.put(b"'");
    }

    fn list(&mut self, depth: usize) {
        self.put(b"(");
        let kind = self.draw.below(4);
        for k in 0..self.draw.below(4) {
            if k > 0 {
                self.put(b",");
            }
            self.space(8);
            match kind {
                0 => self.parameter(depth + 1),
                1 => {
                    let n = self.draw.below(5);
                    self.put(b"#");
                    self.number(n);
                }
                2 => self.picked(&SCALARS[9..37]),
                _ if depth < 3 => self.list(depth + 1),
                _ => self.picked(&SCALARS),
            }
            self.space(12);
        }
        self.put(b")");
    }

    fn parameter(&mut self, depth: usize) {
        self.trivia(16);
        match self.draw.below(10) {
            0..=4 => self.picked(&SCALARS),
            5..=6 => self.string(),
            7 => self.put(b"\"0A\""),
            _ if depth < 4 => self.list(depth),
            _ => self.put(b"$"),
        }
        self.trivia(20);
    }

    pub fn arguments(&mut self) {
        self.put(b"(");
        for k in 0..self.draw.pick(&[0, 1, 1, 2, 2, 3, 6]) {
            if k > 0 {
                self.put(b",");
            }
            self.parameter(0);
        }
        self.put(b")");
    }

    fn id(&mut self) {
        let id = match self.draw.below(12) {
            0..=8 => self.draw.below(6),
            9 => self.draw.below(100_000),
            10 => 4_294_967_295 - self.draw.below(4),
            _ => 10_000_000 * self.draw.below(400),
        };
        if self.draw.one_in(20) {
            self.put(b"00");
        }
        self.number(id);
    }

    fn record(&mut self) {
        self.trivia(10);
        self.put(b"#");
        self.id();
        self.space(12);
        self.put(b"=");
        self.space(12);
        if self.draw.one_in(4) {
            self.put(b"(");
            for _ in 0..self.draw.below(4) {
                self.picked(&WORDS);
                self.space(12);
                self.arguments();
                self.space(12);
            }
            self.put(b")");
        } else {
            self.picked(&WORDS);
            self.space(12);
            self.arguments();
        }
        self.trivia(20);
        self.put(b";");
        self.space(6);
    }

    fn header(&mut self) {
        self.section(b"HEADER;", b"header;");
        for _ in 0..self.draw.below(3) {
            self.trivia(8);
            self.picked(&[
                b"FILE_NAME",
                b"file_schema",
                b"FILE_DESCRIPTION",
                b"File_Name",
                b"A",
            ]);
            self.space(12);
            self.arguments();
            self.put(b";");
        }
        self.section(b"ENDSEC;", b"EndSec ;");
    }

    fn section(&mut self, word: &'static [u8], other: &'static [u8]) {
        self.trivia(12);
        let word = if self.draw.one_in(8) { other } else { word };
        self.put(word);
    }

    fn file(&mut self) {
        if self.draw.one_in(16) {
            self.put(b"\xef\xbb\xbf");
        }
        self.space(16);
        self.put(b"ISO-10303-21");
        self.trivia(16);
        self.put(b";");
        if self.draw.one_in(3) {
            self.header();
        }
        for _ in 0..self.draw.pick(&[0, 1, 1, 1, 1, 1, 1, 2]) {
            self.section(b"DATA;", b"Data(1) ;");
            if self.draw.one_in(4) {
                self.units();
            } else {
                for _ in 0..self.draw.pick(&[0, 1, 1, 1, 2, 3, 5]) {
                    self.record();
                }
            }
            if !self.draw.one_in(6) {
                self.section(b"ENDSEC;", b"endsec;");
            }
        }
        if self.draw.one_in(2) {
            self.put(b"END-ISO-10303-21;");
        }
    }
}
