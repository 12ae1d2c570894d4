//! All short inputs: every run of up to so many pieces of a list, between a fixed beginning and a fixed end.

pub struct Shape {
    before: &'static [u8],
    pieces: Vec<&'static [u8]>,
    most: u32,
    after: &'static [u8],
}

impl Shape {
    fn of_bytes(
        before: &'static [u8],
        bytes: &'static [u8],
        most: u32,
        after: &'static [u8],
    ) -> Self {
        let pieces = bytes.chunks(1).collect();
        Shape {
            before,
            pieces,
            most,
            after,
        }
    }

    /// How many cases it has.
    pub fn len(&self) -> u64 {
        (0..=self.most)
            .map(|n| (self.pieces.len() as u64).pow(n))
            .sum()
    }

    fn case(&self, mut i: u64, out: &mut Vec<u8>) {
        let base = self.pieces.len() as u64;
        let mut length = 0;
        while i >= base.pow(length) {
            i -= base.pow(length);
            length += 1;
        }
        out.extend_from_slice(self.before);
        for k in (0..length).rev() {
            out.extend_from_slice(self.pieces[(i / base.pow(k) % base) as usize]);
        }
        out.extend_from_slice(self.after);
    }
}

/// Statements of a data section, units among them; the last makes a circle of two conversions.
const STATEMENTS: [&[u8]; 15] = [
    b"#1=A();",
    b"#2=B(#1,$,'x');",
    b"#4294967295=C(1.5,(1,2),.T.);",
    b"#1=(LENGTH_UNIT()NAMED_UNIT(*)SI_UNIT(.MILLI.,.METRE.));",
    b"#1=(PLANE_ANGLE_UNIT()SI_UNIT($,.RADIAN.));",
    b"#2=(CONVERSION_BASED_UNIT('INCH',#3)LENGTH_UNIT());",
    b"#3=LENGTH_MEASURE_WITH_UNIT(LENGTH_MEASURE(25.4),#1);",
    b"#4=(GEOMETRIC_REPRESENTATION_CONTEXT(3)GLOBAL_UNCERTAINTY_ASSIGNED_CONTEXT((#5))GLOBAL_UNIT_ASSIGNED_CONTEXT((#1,#2)));",
    b"#5=UNCERTAINTY_MEASURE_WITH_UNIT(LENGTH_MEASURE(1.E-5),#1,'','');",
    b"ENDSEC;",
    b"DATA;",
    b"HEADER;",
    b"FILE_NAME('n','',(''),(''),'','s\\X\\C4','');",
    b"/*c*/",
    b"#3=LENGTH_MEASURE_WITH_UNIT(2.,#2);",
];

/// Pieces of a string that put its quotes before, at and behind the places where the searches begin to go by sixteen bytes and by blocks.
const QUOTES: [&[u8]; 6] = [b"'", b"a", b";", b"')", &[b'a'; 14], &[b'a'; 62]];

pub fn shapes() -> Vec<Shape> {
    // The shapes of generate.py: every byte that the scan looks for.
    let scan = b"#09=();,'\"/*\\A \n";
    vec![
        Shape::of_bytes(b"ISO-10303-21;", scan, 4, b""),
        Shape::of_bytes(b"ISO-10303-21;HEADER;", scan, 4, b""),
        Shape::of_bytes(b"ISO-10303-21;DATA;", scan, 4, b""),
        Shape::of_bytes(b"ISO-10303-21;DATA;#1=", scan, 4, b""),
        Shape::of_bytes(b"ISO-10303-21;DATA;#1=A(", scan, 3, b");"),
        // Scalars, lists, strings, the header's texts.
        Shape::of_bytes(b"ISO-10303-21;DATA;#1=A(", b"#019+-.E$,T ", 6, b");"),
        Shape::of_bytes(b"ISO-10303-21;DATA;#1=A((", b"#1.,()$ ", 6, b"));"),
        Shape::of_bytes(
            b"ISO-10303-21;DATA;#1=A('",
            b"'\\X2401SNP\xc3\x84A",
            5,
            b"');",
        ),
        Shape::of_bytes(
            b"ISO-10303-21;HEADER;FILE_NAME(",
            b"',()$\\/*",
            5,
            b");ENDSEC;DATA;#1=A();",
        ),
        Shape {
            before: b"ISO-10303-21;DATA;",
            pieces: STATEMENTS.to_vec(),
            most: 5,
            after: b"",
        },
        // Quotes: doubled, before another byte, and at the file's end.
        Shape::of_bytes(b"ISO-10303-21;DATA;#1=A('", b"'a;),", 8, b""),
        Shape::of_bytes(b"ISO-10303-21;DATA;#1=A('", b"'a;", 9, b"');"),
        Shape {
            before: b"ISO-10303-21;DATA;#1=A('",
            pieces: QUOTES.to_vec(),
            most: 6,
            after: b"",
        },
    ]
}

pub fn case(shapes: &[Shape], mut i: u64, out: &mut Vec<u8>) {
    for shape in shapes {
        if i < shape.len() {
            return shape.case(i, out);
        }
        i -= shape.len();
    }
}
