//! Document 01's reals: which bytes are one, and which of these are of the class. Shared with `../decimals.rs`.

pub enum Reading {
    /// The digits of m without its leading zeros, and e.
    Real {
        figures: String,
        e: i128,
    },
    NotReal,
}

fn all_digits(s: &str) -> bool {
    s.bytes().all(|b| b.is_ascii_digit())
}

fn without_sign(s: &str) -> &str {
    s.strip_prefix(['+', '-']).unwrap_or(s)
}

/// Optional sign; digits, at least one, with an optional point; optionally E or e, optional sign, digits.
pub fn reading(s: &str) -> Reading {
    let body = without_sign(s);
    let (mantissa, exponent) = match body.split_once(['E', 'e']) {
        Some((mantissa, exponent)) => (mantissa, Some(exponent)),
        None => (body, None),
    };
    let (whole, fraction) = mantissa.split_once('.').unwrap_or((mantissa, ""));
    if !all_digits(whole) || !all_digits(fraction) || whole.len() + fraction.len() == 0 {
        return Reading::NotReal;
    }
    let mut e: i128 = 0;
    if let Some(exponent) = exponent {
        let size = without_sign(exponent);
        if size.is_empty() || !all_digits(size) {
            return Reading::NotReal;
        }
        // No fraction of a file makes up for an exponent of more than 30 digits.
        let figures = size.trim_start_matches('0');
        e = match figures.len() {
            0 => 0,
            1..=30 => figures.parse().expect("digits"),
            _ => 10i128.pow(30),
        };
        if exponent.starts_with('-') {
            e = -e;
        }
    }
    let all = format!("{whole}{fraction}");
    Reading::Real {
        figures: all.trim_start_matches('0').to_string(),
        e: e - fraction.len() as i128,
    }
}

/// The class: m has at most so many digits, and e lies no farther from 0 than this.
const LONGEST: usize = 19;
const FARTHEST: i128 = 27;

pub fn of_class(figures: &str, e: i128) -> bool {
    figures.len() <= LONGEST && (-FARTHEST..=FARTHEST).contains(&e)
}

/// The f64 nearest to m·10^e of the class, ties to even, by whole numbers alone: m is below 2^64 and 5^27 below 2^63, so that m·5^e
/// has fewer than 128 bits, and m over 5^-e, with m moved up to the 128th bit, has 65 and more, of which an f64 holds 53.
pub fn nearest(figures: &str, e: i128) -> f64 {
    if figures.is_empty() {
        return 0.0;
    }
    let m: u128 = figures.parse().expect("digits");
    let fives = 5u128.pow(e.unsigned_abs() as u32);
    // m·10^e is whole·2^power, and where there is a rest a little more.
    let (whole, rest, power) = if e < 0 {
        let up = m.leading_zeros();
        let (m, power) = (m << up, e as i32 - up as i32);
        (m / fives, m % fives != 0, power)
    } else {
        (m * fives, false, e as i32)
    };
    let over = 75u32.saturating_sub(whole.leading_zeros());
    if over == 0 {
        return whole as f64 * power_of_two(power);
    }
    let (kept, below, half) = (whole >> over, whole & ((1 << over) - 1), 1 << (over - 1));
    let up = below > half || below == half && (rest || kept % 2 == 1);
    (kept + u128::from(up)) as f64 * power_of_two(power + over as i32)
}

fn power_of_two(power: i32) -> f64 {
    f64::from_bits(((1023 + power) as u64) << 52)
}

/// What Rust's parse takes beside the reals.
pub fn names_no_number(s: &str) -> bool {
    let word = without_sign(s).to_ascii_lowercase();
    word == "inf" || word == "infinity" || word == "nan"
}
