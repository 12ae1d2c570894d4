//! The readers of any real, against `str::parse` bit by bit, and against the two that a halfway case lies between; and what they leave after a
//! refusal, which the boundary itself is asked for, since the crate shows no lent room.
use hooflift::{any_real, Args, Error};

#[path = "../src/raw.rs"]
#[allow(dead_code)]
mod raw;

/// Stands in lent memory before a call, and after a refusal.
const KEPT: f64 = -7.25;

/// Reals of all shapes: zeros, integers, noise, both ends of the class and of the f64s, long ones.
const WRITTEN: [&str; 52] = [
    "0", "0.", ".0", "+0", "1", "1.", ".5", "+.5E+1", "25.4", "1.5E1", "1e5", "0.017453292519943295", "0.017453292519943295769",
    "1.025893950136E-17", "6.123233995736766E-17", "1E22", "1E23", "1E27", "1E28", "0E28", "1E-27", "1E-28", "1.E-40", "8.9E-30",
    "9999999999999999999", "10000000000000000000", "12345678901234567890", "10000000000000000000.", "9999999999999999999E27",
    "9007199254740992", "9007199254740993", "9007199254740993.000000000000000000001", "9007199254740992.999999999999999999999",
    "9007199254740995", "18446744073709551615", "18446744073709551616", "340282366920938463463374607431768211456",
    "1.7976931348623157E308", "1.7976931348623158E308", "1.7976931348623159E308", "1.8E308", "1E309", "1E400", "1E99999999999999999999999",
    "2.2250738585072011E-308", "2.2250738585072014E-308", "4.9E-324", "2.4703282292062328E-324", "2.4703282292062327E-324", "1E-400",
    "1E-99999999999999999999999", "0E99999999999999999999999",
];

/// No reals, whoever asks. None is open, and none has a comma at depth 0.
const OTHER: [&str; 20] = [
    ".", "+", "-", "E5", "1E", "1E+", "1.5.", "1.E5.", "--1", "+-1", "1 2", "1D5", "0x1", "1_0", "inf", "-INF", "nan", "#1", "'1.'", ".T.",
];

/// Numbers that look like chance, and are the same in every run.
struct Chance(u64);

impl Chance {
    fn next(&mut self) -> u64 {
        self.0 ^= self.0 << 13;
        self.0 ^= self.0 >> 7;
        self.0 ^= self.0 << 17;
        self.0
    }

    fn below(&mut self, bound: u64) -> usize {
        usize::try_from(self.next() % bound).expect("small")
    }
}

/// The digits of x·10^1074, which is whole, all of one length with zeros to spare.
fn exact(x: f64) -> Vec<u32> {
    format!("{x:01390.1074}").bytes().filter(u8::is_ascii_digit).map(|b| u32::from(b - b'0')).collect()
}

/// The digits of the number halfway between two, times 10^1075; above the largest finite one lies 2^1024.
fn halfway(low: f64) -> Vec<u32> {
    let top = 2f64.powi(1023);
    let (one, other) = if low == f64::MAX { (top, top) } else { (f64::from_bits(low.to_bits() + 1), 0.0) };
    let mut digits: Vec<u32> = exact(low).iter().zip(exact(one)).zip(exact(other)).map(|((a, b), c)| (a + b + c) * 5).collect();
    let mut carry = 0;
    for digit in digits.iter_mut().rev() {
        let sum = *digit + carry;
        (*digit, carry) = (sum % 10, sum / 10);
    }
    digits
}

/// One less.
fn before(mut digits: Vec<u32>) -> Vec<u32> {
    for digit in digits.iter_mut().rev() {
        if *digit > 0 {
            *digit -= 1;
            break;
        }
        *digit = 9;
    }
    digits
}

/// Digits as a text, with the number of them that stand behind the point.
fn text_of(digits: &[u32], behind: usize) -> (String, String) {
    let all: String = digits.iter().map(u32::to_string).collect();
    let (whole, fraction) = all.split_at(all.len() - behind);
    (format!("{whole}.{fraction}"), format!("{all}E-{behind}"))
}

/// Halfway cases, and those next to them on either side, with the bits that each has.
fn ties() -> Vec<(String, u64)> {
    let mut chance = Chance(0x9e37_79b9_7f4a_7c15);
    let borders = [0, 1, 2, 0x000f_ffff_ffff_ffff, 0x0010_0000_0000_0000, 0x3fef_ffff_ffff_ffff, 0x3ff0_0000_0000_0000, 0x3ff0_0000_0000_0001];
    let lows = borders.into_iter().chain((0..60).map(|_| chance.next() % 0x7fef_ffff_ffff_ffff)).chain([f64::MAX.to_bits()]);
    let mut ties = Vec::new();
    for low in lows {
        let tie = halfway(f64::from_bits(low));
        let above: Vec<u32> = tie.iter().copied().chain([1]).collect();
        for (digits, behind, bits) in [(before(tie.clone()), 1075, low), (above, 1076, low + 1), (tie, 1075, low + low % 2)] {
            let (point, power) = text_of(&digits, behind);
            ties.extend([(point, bits), (power, bits)]);
        }
    }
    ties
}

/// Reals by chance: up to 40 digits, a point or none, an exponent from -360 to 359 or none.
fn by_chance(count: usize) -> Vec<String> {
    let mut chance = Chance(0x2545_f491_4f6c_dd1d);
    let mut texts = Vec::new();
    for _ in 0..count {
        let digits: String = (0..=chance.below(40)).map(|_| char::from(b'0' + u8::try_from(chance.below(10)).expect("a digit"))).collect();
        let (whole, fraction) = digits.split_at(chance.below(digits.len() as u64 + 1));
        let point = if fraction.is_empty() && chance.below(2) == 0 { "" } else { "." };
        let power = if chance.below(4) == 0 { String::new() } else { format!("E{}", 360 - i64::try_from(chance.below(720) + 1).expect("small")) };
        texts.push(format!("{whole}{point}{fraction}{power}"));
    }
    texts
}

/// All of these, and with a `-` before each.
fn reals() -> Vec<String> {
    let texts = WRITTEN.iter().map(ToString::to_string).chain(by_chance(5000)).chain(ties().into_iter().map(|(text, _)| text));
    texts.flat_map(|text| if text.starts_with('+') { vec![text] } else { vec![format!("-{text}"), text] }).collect()
}

fn parsed(text: &str) -> u64 {
    text.parse::<f64>().expect("a real").to_bits()
}

fn over(text: &str) -> Args<'_> {
    Args::new(text.as_bytes(), 0, text.len()).expect("a reader")
}

#[test]
fn one_real() -> Result<(), Error> {
    for text in reals() {
        assert_eq!(any_real(text.as_bytes())?.to_bits(), parsed(&text), "{text}");
        assert_eq!(over(&text).next_any_f64()?.to_bits(), parsed(&text), "{text}");
    }
    Ok(())
}

#[test]
fn halfway_cases() -> Result<(), Error> {
    for (text, bits) in ties() {
        assert_eq!(any_real(text.as_bytes())?.to_bits(), bits, "{text}");
    }
    assert_eq!(any_real(b"-0.")?.to_bits(), 1 << 63);
    assert_eq!(any_real(b"-1E-400")?.to_bits(), 1 << 63);
    Ok(())
}

#[test]
fn options_and_measures() -> Result<(), Error> {
    for text in reals() {
        let bits = parsed(&text);
        let file = format!(" {text} ,$,/*c*/{text},LENGTH_MEASURE( {text} ),{text}");
        let mut args = over(&file);
        assert_eq!(args.next_any_opt_f64()?.map(f64::to_bits), Some(bits), "{text}");
        assert_eq!(args.next_any_opt_f64()?, None);
        assert_eq!(args.next_any_measure()?.to_bits(), bits, "{text}");
        assert_eq!(args.next_any_measure()?.to_bits(), bits, "{text}");
        assert_eq!(args.next_any_f64()?.to_bits(), bits, "{text}");
        assert!(args.is_empty()?);
    }
    Ok(())
}

#[test]
fn lists_and_grids() -> Result<(), Error> {
    for texts in reals().chunks(7) {
        let bits: Vec<u64> = texts.iter().map(|text| parsed(text)).collect();
        let (first, rest) = texts.split_at(texts.len().min(3));
        let file = format!("({}),(({}),(),( {} )),()", texts.join(","), first.join(","), rest.join(" , "));
        let mut args = over(&file);
        assert_eq!(args.next_any_f64_list()?.into_iter().map(f64::to_bits).collect::<Vec<_>>(), bits);
        let grid = args.next_any_f64_grid()?;
        assert_eq!(grid.numbers.into_iter().map(f64::to_bits).collect::<Vec<_>>(), bits);
        assert_eq!(grid.ends, [first.len(), first.len(), texts.len()]);
        assert!(args.next_any_f64_list()?.is_empty());
    }
    Ok(())
}

/// Where the class has an answer, so has the other reader, and they are one.
#[test]
fn the_class_and_any() -> Result<(), Error> {
    let (mut inside, mut outside) = (0, 0);
    for text in reals() {
        let any = over(&text).next_any_f64()?;
        match over(&text).next_f64() {
            Ok(value) => {
                assert_eq!(value.to_bits(), any.to_bits(), "{text}");
                inside += 1;
            }
            Err(error) => {
                assert_eq!(error.refusal().map(|r| (r.number, r.place)), Some((13, 0)), "{text}");
                outside += 1;
            }
        }
    }
    assert!(inside > 100 && outside > 100);
    Ok(())
}

/// `str::parse` takes no more digits of an exponent from 65536 on, and errs where zeros make up for it.
#[test]
fn where_parse_errs() -> Result<(), Error> {
    let small = format!("0.{}1E655360", "0".repeat(655_332));
    assert_eq!(any_real(small.as_bytes())?, 1e27);
    let large = format!("1{}E-655360", "0".repeat(655_333));
    assert_eq!(any_real(large.as_bytes())?, 1e-27);
    Ok(())
}

#[test]
fn long_reals() -> Result<(), Error> {
    let many = 60_000;
    for text in [
        "7".repeat(many),
        format!("{}E-{many}", "3".repeat(many)),
        format!("0.{}1", "0".repeat(many)),
        format!("1.{}", "0".repeat(many)),
        format!("9007199254740993.{}1", "0".repeat(many)),
        format!("{}1.5", "0".repeat(many)),
    ] {
        assert_eq!(any_real(text.as_bytes())?.to_bits(), parsed(&text), "{:.40}", text);
    }
    Ok(())
}

#[test]
fn refusals_of_one_real() {
    for bad in OTHER {
        let mut bits = 5;
        assert_eq!((raw::hooflift_any_real(bad.as_bytes(), &mut bits), bits), (12, 5), "{bad}");
        assert_eq!(any_real(bad.as_bytes()).unwrap_err().refusal().map(|r| (r.number, r.reason, r.place)), Some((12, 0, 0)), "{bad}");
    }
    for bad in ["", " 1.", "1. ", "/**/1.", "$", "K(1.)", "(1.)"] {
        let mut bits = 5;
        assert_eq!((raw::hooflift_any_real(bad.as_bytes(), &mut bits), bits), (12, 5), "{bad}");
    }
}

/// 12 leaves the value, and the reader past the parameter and its comma; so do 10, 11 and 9, which leave the reader where document 01 says.
#[test]
fn refusals_of_a_parameter() {
    for bad in OTHER {
        let file = format!("  {bad} ,2E99");
        let (end, past) = (file.len(), file.len() - 4);
        let (mut place, mut value, mut fault) = (0, KEPT, 77);
        let code = raw::hooflift_any_f64(file.as_bytes(), &mut place, end, &mut value, &mut fault);
        assert_eq!((code, place, value, fault), (12, past, KEPT, 2), "{bad}");
        assert_eq!(raw::hooflift_any_f64(file.as_bytes(), &mut place, end, &mut value, &mut fault), 0);
        assert_eq!((place, value, fault), (end, 2e99, 2));

        let (mut place, mut value, mut set, mut fault) = (0, KEPT, 9, 77);
        let code = raw::hooflift_any_opt_f64(file.as_bytes(), &mut place, end, &mut value, &mut set, &mut fault);
        assert_eq!((code, place, value, set, fault), (12, past, KEPT, 9, 2), "{bad}");

        for (file, past) in [(file.clone(), past), (format!("  K({bad}),2E99"), past + 2)] {
            let (mut place, mut value, mut fault) = (0, KEPT, 77);
            let code = raw::hooflift_any_measure(file.as_bytes(), &mut place, file.len(), &mut value, &mut fault);
            assert_eq!((code, place, value, fault), (12, past, KEPT, 2), "{bad}");
        }
    }
    let (mut place, mut value, mut set, mut fault) = (0, KEPT, 9, 77);
    assert_eq!(raw::hooflift_any_opt_f64(b"$,1.", &mut place, 4, &mut value, &mut set, &mut fault), 0);
    assert_eq!((place, value, set, fault), (2, KEPT, 0, 77));
    for (file, start, end, code, to, at) in [("  ", 0, 2, 10, 2, 2), (" '1.", 0, 4, 11, 1, 1), ("1.", 2, 1, 9, 2, 0), ("1.", 0, 3, 9, 0, 0)] {
        let (mut place, mut value, mut fault) = (start, KEPT, 77);
        assert_eq!(raw::hooflift_any_f64(file.as_bytes(), &mut place, end, &mut value, &mut fault), code, "{file}");
        assert_eq!((place, value, fault), (to, KEPT, at), "{file}");
    }
}

/// 16 where all items read and the room is too short, 12 where one does not, whatever the room; the room and the count stay as they were.
/// The place of 16 is the parameter's, that of 12 the item's.
#[test]
fn refusals_of_lists() {
    let file = "(1.,2E99,3.),(1.,x,3.),4.";
    for (start, room, code, past, at) in [(0, 2, 16, 13, 0), (0, 0, 16, 13, 0), (13, 5, 12, 23, 17), (13, 0, 12, 23, 17), (23, 5, 12, 25, 23)] {
        let (mut list, mut place, mut count, mut fault) = (vec![KEPT; room], start, 99, 77);
        assert_eq!(raw::hooflift_any_f64_list(file.as_bytes(), &mut place, file.len(), &mut list, &mut count, &mut fault), code);
        assert_eq!((list, place, count, fault), (vec![KEPT; room], past, 99, at));
    }
    let (mut list, mut place, mut count, mut fault) = ([KEPT; 5], 0, 99, 77);
    assert_eq!(raw::hooflift_any_f64_list(file.as_bytes(), &mut place, file.len(), &mut list, &mut count, &mut fault), 0);
    assert_eq!((list, place, count, fault), ([1.0, 2e99, 3.0, KEPT, KEPT], 13, 3, 77));
    assert_eq!(over("(1.,x)").next_any_f64_list().unwrap_err().refusal().map(|r| (r.number, r.place)), Some((12, 4)));
}

#[test]
fn refusals_of_grids() {
    let file = "((1.,2E99),(3.)),((1.),(x)),(4.)";
    for (start, room, rows_room, code, past, at) in [
        (0, 2, 5, 16, 17, 0), (0, 5, 1, 16, 17, 0), (0, 0, 0, 16, 17, 0), (17, 5, 5, 12, 28, 24), (17, 0, 0, 12, 28, 24), (28, 5, 5, 12, 32, 29),
    ] {
        let (mut list, mut ends) = (vec![KEPT; room], vec![88; rows_room]);
        let (mut place, mut count, mut rows, mut fault) = (start, 99, 98, 77);
        let told = raw::hooflift_any_f64_grid(file.as_bytes(), &mut place, file.len(), &mut list, &mut ends, &mut count, &mut rows, &mut fault);
        assert_eq!((told, place, fault), (code, past, at));
        assert_eq!((list, ends, count, rows), (vec![KEPT; room], vec![88; rows_room], 99, 98));
    }
    let (mut list, mut ends) = ([KEPT; 4], [88; 3]);
    let (mut place, mut count, mut rows, mut fault) = (0, 99, 98, 77);
    let told = raw::hooflift_any_f64_grid(file.as_bytes(), &mut place, file.len(), &mut list, &mut ends, &mut count, &mut rows, &mut fault);
    assert_eq!((told, place, count, rows, fault), (0, 17, 3, 2, 77));
    assert_eq!((list, ends), ([1.0, 2e99, 3.0, KEPT], [2, 3, 88]));
    assert_eq!(over("((1.),(x))").next_any_f64_grid().unwrap_err().refusal().map(|r| (r.number, r.place)), Some((12, 7)));
}
