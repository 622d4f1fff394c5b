//! Measured numbers in words: no more digits than they are worth.

/// A time with three digits, in ns or µs.
pub fn time(nanoseconds: f64) -> String {
    match nanoseconds < 1e3 {
        true => format!("{} ns", rounded(nanoseconds, 3)),
        false => format!("{} µs", rounded(nanoseconds / 1e3, 3)),
    }
}

/// A size that is a multiple of 1,024 bytes.
pub fn size(bytes: usize) -> String {
    format!("{} KB", bytes / 1_024)
}

/// A ratio with two digits.
pub fn ratio(value: f64) -> String {
    rounded(value, 2)
}

/// So many digits, and zeros after them up to the point.
fn rounded(value: f64, digits: usize) -> String {
    let short = format!("{value:.*e}", digits - 1);
    let (_, exponent) = short.split_once('e').expect("a finite number");
    let before: isize = exponent.parse().expect("an exponent");
    let value: f64 = short.parse().expect("a number");
    let after = (digits as isize - 1 - before).max(0) as usize;
    grouped(&format!("{value:.after$}"))
}

/// A comma before every three digits that stand before the point.
fn grouped(number: &str) -> String {
    let (whole, _) = number.split_once('.').unwrap_or((number, ""));
    let mut text = String::new();
    for (place, digit) in number.chars().enumerate() {
        if 0 < place && place < whole.len() && (whole.len() - place).is_multiple_of(3) {
            text.push(',');
        }
        text.push(digit);
    }
    text
}
