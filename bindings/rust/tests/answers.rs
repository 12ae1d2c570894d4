//! What the crate answers of small files, and of hostile ones: document 01's examples, and files that claim more than they have.
use hooflift::{read_kept, Args, Error, Kind, Logical, Step};

const PREFIX: &str = "ISO-10303-21;DATA;";

fn data(records: &str) -> String {
    format!("{PREFIX}{records}ENDSEC;END-ISO-10303-21;")
}

fn refusal(file: &[u8]) -> (u8, u8, usize) {
    let refusal = Step::open(file).err().and_then(|e| e.refusal()).expect("a refusal");
    (refusal.number, refusal.reason, refusal.place)
}

#[test]
fn example_one() -> Result<(), Error> {
    let file = b"ISO-10303-21;HEADER;FILE_SCHEMA(('X'));ENDSEC;DATA;#1=A('a;''b',#2);#2=(P(1.)Q($));ENDSEC;END-ISO-10303-21;";
    let step = Step::open(file)?;
    assert_eq!((step.len(), step.max_id()), (2, 2));
    let lines: Vec<_> = step.records().map(|r| (r.id(), r.is_complex(), r.span().unwrap_or((0, 0)))).collect();
    assert_eq!(lines, [(1, false, (56, 66)), (2, true, (72, 81))]);
    let mut args = step.require(1)?.args()?;
    assert_eq!((args.next_str()?.as_ref(), args.next_ref()?), ("a;'b", 2));
    let mut schema = step.header("file_schema")?.expect("the record");
    assert_eq!(schema.next_param()?, b"('X')");
    assert!(step.header("FILE_NAME")?.is_none());
    Ok(())
}

#[test]
fn refusals_of_files() {
    assert_eq!(refusal(b"ISO-10303-21;/*/;"), (3, 0, 13));
    assert_eq!(refusal(b""), (1, 0, 0));
    assert_eq!(refusal(b"ISO-10303-21;DATA;;"), (7, 2, 18));
    assert_eq!(refusal(b"ISO-10303-21;DATA;#4294967296=A();"), (7, 3, 18));
    assert_eq!(refusal(&[0; 1000]), (1, 0, 0));
    assert_eq!(refusal(format!("{PREFIX}#1=A({};", "(".repeat(100_000)).as_bytes()), (6, 0, 22));
}

#[test]
fn the_later_of_two() -> Result<(), Error> {
    let file = data("#1=A(1);#1=A(2);");
    let step = Step::open(file.as_bytes())?;
    assert_eq!(step.require(1)?.args()?.next_i64()?, 2);
    assert_eq!(step.require(7).unwrap_err().refusal().map(|r| r.number), Some(14));
    assert!(step.get(0).is_none());
    Ok(())
}

#[test]
fn tables_are_sized_by_records() -> Result<(), Error> {
    let file = data("#4294967295=A();");
    let step = Step::open(file.as_bytes())?;
    assert_eq!((step.len(), step.max_id()), (1, u32::MAX));
    assert!(step.get(u32::MAX).is_some());
    let many = data(&"#7=A(1);".repeat(200_000));
    let step = Step::open(many.as_bytes())?;
    assert_eq!(step.len(), 200_000);
    assert_eq!(step.get(7).map(|r| r.number()), Some(199_999));
    Ok(())
}

#[test]
fn every_reader() -> Result<(), Error> {
    let file = data("#1=A(#2,$,-5,1.5E1,$,LENGTH_MEASURE(2.),.T.,.METRE.,'\\X2\\00C4\\X0\\',(#1,#2),(1,-2),(1.,2.),((#1),(#2,#3)),((1.),()));");
    let step = Step::open(file.as_bytes())?;
    let mut a = step.require(1)?.args()?;
    assert_eq!(a.next_ref()?, 2);
    assert_eq!(a.next_opt_ref()?, None);
    assert_eq!(a.next_i64()?, -5);
    assert_eq!(a.next_f64()?, 15.0);
    assert_eq!(a.next_opt_f64()?, None);
    assert_eq!(a.next_measure()?, 2.0);
    assert_eq!(a.next_bool()?, Logical::True);
    assert_eq!(a.next_enum()?, "METRE");
    assert_eq!(a.next_str()?, "Ä");
    assert_eq!(a.next_ref_list()?, [1, 2]);
    assert_eq!(a.next_i64_list()?, [1, -2]);
    assert_eq!(a.next_f64_list()?, [1.0, 2.0]);
    let grid = a.next_ref_grid()?;
    assert_eq!(grid.rows().collect::<Vec<_>>(), [&[1][..], &[2, 3]]);
    assert_eq!(a.next_f64_grid()?.ends, [1, 1]);
    assert!(a.is_empty()?);
    let end = a.offset();
    assert_eq!(a.skip().unwrap_err(), Args::new(file.as_bytes(), end, end)?.skip_n(1).unwrap_err());
    Ok(())
}

#[test]
fn a_reader_after_a_refusal() -> Result<(), Error> {
    let file = data("#1=A('s',1E28,'t);");
    let open = Step::open(file.as_bytes()).unwrap_err();
    assert_eq!(open.refusal().map(|r| (r.number, r.place)), Some((4, 32)));
    let mut args = Args::new(b"'s',1E28,'t", 0, 11)?;
    assert_eq!(args.next_i64().unwrap_err().refusal().map(|r| (r.number, r.place)), Some((12, 0)));
    assert_eq!(args.next_f64().unwrap_err().refusal().map(|r| (r.number, r.place)), Some((13, 4)));
    assert_eq!(args.next_str().unwrap_err().refusal().map(|r| (r.number, r.place)), Some((11, 9)));
    assert_eq!(args.offset(), 9);
    assert_eq!(Args::new(b"", 1, 0).err().and_then(|e| e.refusal()).map(|r| r.number), Some(9));
    Ok(())
}

#[test]
fn reals_of_nineteen_digits() -> Result<(), Error> {
    let real = |text: &str| Args::new(text.as_bytes(), 0, text.len())?.next_f64();
    assert_eq!(real("0.017453292519943295")?.to_bits(), 0x3f91_df46_a252_9d39);
    for text in ["1E23", "1E27", "1234567890123456789", "0.001234567890123456789E2", "9999999999999999999E27", "-9999999999999999999E-27", "-0E27"] {
        assert_eq!(Ok(real(text)?.to_bits()), text.parse::<f64>().map(f64::to_bits), "{text}");
    }
    for text in ["12345678901234567890", "10000000000000000000.", "1E28", "1E-28", "0E28"] {
        assert_eq!(real(text).unwrap_err().refusal().map(|r| (r.number, r.place)), Some((13, 0)), "{text}");
    }
    Ok(())
}

#[test]
fn units_of_a_file() -> Result<(), Error> {
    let file = data(concat!(
        "#1=(GEOMETRIC_REPRESENTATION_CONTEXT(3)GLOBAL_UNIT_ASSIGNED_CONTEXT((#2,#3))REPRESENTATION_CONTEXT('',''));",
        "#2=(LENGTH_UNIT()NAMED_UNIT(*)SI_UNIT(.MILLI.,.METRE.));",
        "#3=(NAMED_UNIT(*)PLANE_ANGLE_UNIT()SI_UNIT($,.RADIAN.));",
    ));
    let step = Step::open(file.as_bytes())?;
    let units = step.units()?;
    assert_eq!((units.length, units.angle, units.tolerance, units.resolved), (1.0, 1.0, 1e-3, true));
    assert_eq!(step.require(1)?.units()?, units);
    assert_eq!(step.require(2)?.kind(), Kind::Complex);
    assert_eq!(step.by_kind(Kind::Complex).count(), 3);
    let part = step.require(2)?.part(Kind::SiUnit)?.expect("the part");
    assert_eq!(part.args()?.next_enum()?, "MILLI");
    assert!(step.require(3)?.part(Kind::LengthUnit)?.is_none());
    assert_eq!(Kind::of(b"si_unit"), Kind::SiUnit);
    let none = Step::open(b"ISO-10303-21;")?;
    assert!(none.is_empty() && !none.units()?.resolved);
    Ok(())
}

#[test]
fn texts_of_the_header() -> Result<(), Error> {
    let file = b"ISO-10303-21;HEADER;FILE_NAME('it''s',$,(),(),'',' \\S\\D');ENDSEC;";
    let step = Step::open(file)?;
    assert_eq!((step.file_name()?.as_ref(), step.originating_system()?.as_ref()), ("it's", " Ä"));
    assert_eq!(Step::open(b"ISO-10303-21;")?.file_name()?, "");
    // a name in Cyrillic, on the page of ISO 8859-5, and a system whose string is on page A again
    let file = b"ISO-10303-21;HEADER;FILE_NAME('\\PE\\\\S\\2\\S\\P\\S\\[',$,(),(),'','\\S\\D');ENDSEC;";
    let step = Step::open(file)?;
    assert_eq!((step.file_name()?.as_ref(), step.originating_system()?.as_ref()), ("\u{412}\u{430}\u{43b}", "\u{c4}"));
    Ok(())
}

#[test]
fn texts_on_pages() -> Result<(), Error> {
    // each page's letter, the byte after `\S\`, and the character: A to I, in either case, and others that mean page A
    let pages = "A:D\u{c4} B:!\u{104} C:!\u{126} D:!\u{104} E:P\u{430} F:G\u{627} G:a\u{3b1} H:`\u{5d0} I:P\u{11e} g:a\u{3b1} i:P\u{11e} C:%\u{fffd} J:P\u{d0} ?:P\u{d0}";
    for page in pages.split(' ') {
        let of: Vec<char> = page.chars().collect();
        let text = format!("'\\P{}\\\\S\\{}'", of[0], of[2]);
        let mut args = hooflift::Args::new(text.as_bytes(), 0, text.len())?;
        assert_eq!(args.next_str()?, of[3].to_string(), "{text}");
    }
    Ok(())
}

#[test]
fn kept_rows_come_back() -> Result<(), Error> {
    let file = data("#1=A(1);#2=(P());");
    let step = Step::open(file.as_bytes())?;
    let kept = step.keep()?;
    assert_eq!(kept.len(), 48);
    let rows = read_kept(file.len(), &kept)?;
    assert_eq!((rows[0][0], rows[1][0], rows[1][5]), (1, 2, 1));
    assert_eq!(read_kept(file.len(), &kept[1..]).unwrap_err().refusal().map(|r| r.number), Some(9));
    assert_eq!(read_kept(3, &kept).unwrap_err().refusal().map(|r| r.number), Some(9));
    Ok(())
}
