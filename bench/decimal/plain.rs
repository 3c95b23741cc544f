//! The decimal operations and `edit` in plain Rust, over the same table as `s3_bench`.
//!
//! They are written as one would write them without proofs, and give the same results.

use std::cmp::Ordering;

#[derive(Clone, Copy)]
struct Form {
    digits: u8,
    decimals: u8,
}

#[derive(Clone, Copy)]
struct Dec {
    value: i64,
    digits: u8,
    decimals: u8,
}

#[derive(Clone, Copy)]
enum Rounding {
    Truncate,
    HalfAdjust,
}

struct ZeroDivisor;

struct BadDigit {
    number: Dec,
}

struct Division {
    quotient: Dec,
    remainder: Dec,
}

static POWERS: [u128; 28] = {
    let mut powers = [1; 28];
    let mut exponent = 1;
    while exponent < 28 {
        powers[exponent] = powers[exponent - 1] * 10;
        exponent += 1;
    }
    powers
};

fn power_of_ten(exponent: u8) -> u128 {
    POWERS[usize::from(exponent)]
}

fn with_sign(negative: bool, magnitude: u64) -> i64 {
    if negative { -(magnitude as i64) } else { magnitude as i64 }
}

fn kept(negative: bool, count: u128, form: Form) -> Dec {
    let low = (count % power_of_ten(form.digits)) as u64;
    Dec { value: with_sign(negative, low), digits: form.digits, decimals: form.decimals }
}

fn store(value: i128, decimals: u8, form: Form, rounding: Rounding) -> Dec {
    let magnitude = value.unsigned_abs();
    let count = if decimals <= form.decimals {
        magnitude % power_of_ten(form.digits) * power_of_ten(form.decimals - decimals)
    } else {
        let unit = power_of_ten(decimals - form.decimals);
        match rounding {
            Rounding::Truncate => magnitude / unit,
            Rounding::HalfAdjust => (magnitude + unit / 2) / unit,
        }
    };
    kept(value < 0, count, form)
}

fn aligned(number: Dec, decimals: u8) -> i128 {
    i128::from(number.value) * power_of_ten(decimals - number.decimals) as i128
}

fn add(augend: Dec, addend: Dec, form: Form, rounding: Rounding) -> Dec {
    let decimals = augend.decimals.max(addend.decimals);
    store(aligned(augend, decimals) + aligned(addend, decimals), decimals, form, rounding)
}

fn sub(minuend: Dec, subtrahend: Dec, form: Form, rounding: Rounding) -> Dec {
    let decimals = minuend.decimals.max(subtrahend.decimals);
    store(aligned(minuend, decimals) - aligned(subtrahend, decimals), decimals, form, rounding)
}

fn mult(multiplicand: Dec, multiplier: Dec, form: Form, rounding: Rounding) -> Dec {
    let product = i128::from(multiplicand.value) * i128::from(multiplier.value);
    store(product, multiplicand.decimals + multiplier.decimals, form, rounding)
}

fn div_mvr(
    dividend: Dec,
    divisor: Dec,
    quotient: Form,
    rounding: Rounding,
    remainder: Form,
) -> Result<Division, ZeroDivisor> {
    if divisor.value == 0 {
        return Err(ZeroDivisor);
    }
    let parts =
        u128::from(dividend.value.unsigned_abs()) * power_of_ten(divisor.decimals + quotient.decimals);
    let unit = u128::from(divisor.value.unsigned_abs()) * power_of_ten(dividend.decimals);
    let count = match rounding {
        Rounding::Truncate => parts / unit,
        Rounding::HalfAdjust => (2 * parts + unit) / (2 * unit),
    };
    let left = (parts % unit) as i128;
    let left = if dividend.value < 0 { -left } else { left };
    let decimals = dividend.decimals + divisor.decimals + quotient.decimals;
    Ok(Division {
        quotient: kept((dividend.value < 0) != (divisor.value < 0), count, quotient),
        remainder: store(left, decimals, remainder, Rounding::Truncate),
    })
}

fn move_to(source: Dec, target: Dec) -> Dec {
    let unit = power_of_ten(source.digits.min(target.digits)) as u64;
    let stays = target.value.unsigned_abs() / unit * unit;
    let comes = source.value.unsigned_abs() % unit;
    Dec { value: with_sign(source.value < 0, stays + comes), ..target }
}

fn compare(left: Dec, right: Dec) -> Ordering {
    let decimals = left.decimals.max(right.decimals);
    aligned(left, decimals).cmp(&aligned(right, decimals))
}

#[derive(Default)]
struct Reading {
    magnitude: u64,
    bad: bool,
}

impl Reading {
    fn push(&mut self, digit: u8) {
        self.magnitude *= 10;
        if digit < 10 {
            self.magnitude += u64::from(digit);
        } else {
            self.bad = true;
        }
    }

    fn finish(self, negative: bool, digits: u8, decimals: u8) -> Result<Dec, BadDigit> {
        let number = Dec { value: with_sign(negative, self.magnitude), digits, decimals };
        if self.bad { Err(BadDigit { number }) } else { Ok(number) }
    }
}

fn zoned_read(bytes: &[u8], decimals: u8) -> Result<Dec, BadDigit> {
    let mut reading = Reading::default();
    for byte in bytes {
        reading.push(byte % 16);
    }
    let negative = bytes[bytes.len() - 1] / 16 == 0xd;
    reading.finish(negative, bytes.len() as u8, decimals)
}

fn zoned_write(number: Dec, bytes: &mut [u8]) {
    let mut rest = number.value.unsigned_abs();
    for byte in bytes.iter_mut().rev() {
        *byte = 0xf0 + (rest % 10) as u8;
        rest /= 10;
    }
    if number.value < 0 {
        bytes[bytes.len() - 1] -= 0x20;
    }
}

fn packed_read(bytes: &[u8], decimals: u8) -> Result<Dec, BadDigit> {
    let last = bytes.len() - 1;
    let mut reading = Reading::default();
    for byte in &bytes[..last] {
        reading.push(byte / 16);
        reading.push(byte % 16);
    }
    reading.push(bytes[last] / 16);
    reading.finish(bytes[last] % 16 == 0xd, (2 * bytes.len() - 1) as u8, decimals)
}

fn packed_write(number: Dec, bytes: &mut [u8]) {
    let mut rest = number.value.unsigned_abs();
    let mut low = if number.value < 0 { 0xd } else { 0xf };
    for byte in bytes.iter_mut().rev() {
        *byte = (rest % 10) as u8 * 16 + low;
        low = (rest / 10 % 10) as u8;
        rest /= 100;
    }
}

#[derive(Clone, Copy)]
enum Sign {
    Never,
    Credit,
    Minus,
}

#[derive(Clone, Copy)]
struct Amount {
    commas: bool,
    zero_printed: bool,
    sign: Sign,
}

#[derive(Clone, Copy)]
enum EditCode {
    Edited(Amount),
    Zoned,
    Date,
    Suppressed,
}

impl EditCode {
    fn of(character: u8) -> Option<EditCode> {
        let edited = |commas, zero_printed, sign| {
            EditCode::Edited(Amount { commas, zero_printed, sign })
        };
        let sign = match character / 16 {
            0xf => Sign::Never,
            0xc => Sign::Credit,
            0xd => Sign::Minus,
            _ => {
                return match character {
                    0xe7 => Some(EditCode::Zoned),
                    0xe8 => Some(EditCode::Date),
                    0xe9 => Some(EditCode::Suppressed),
                    _ => None,
                };
            }
        };
        match character % 16 {
            1 => Some(edited(true, true, sign)),
            2 => Some(edited(true, false, sign)),
            3 => Some(edited(false, true, sign)),
            4 => Some(edited(false, false, sign)),
            _ => None,
        }
    }
}

fn body_width(commas: bool, digits: usize, decimals: usize) -> usize {
    let commas = if commas { digits.saturating_sub(decimals + 1) / 3 } else { 0 };
    digits + commas + usize::from(decimals > 0)
}

fn sign_width(sign: Sign) -> usize {
    match sign {
        Sign::Never => 0,
        Sign::Credit => 2,
        Sign::Minus => 1,
    }
}

fn width(code: EditCode, digits: u8, decimals: u8) -> Option<usize> {
    if digits == 0 || digits > 15 || decimals > 9 || decimals > digits {
        return None;
    }
    match code {
        EditCode::Edited(style) => Some(
            body_width(style.commas, usize::from(digits), usize::from(decimals))
                + sign_width(style.sign),
        ),
        EditCode::Date if digits == 6 && decimals == 0 => Some(8),
        EditCode::Date => None,
        EditCode::Zoned | EditCode::Suppressed => Some(usize::from(digits)),
    }
}

fn edit_body(magnitude: u64, decimals: usize, style: Amount, out: &mut [u8]) {
    if magnitude == 0 && !style.zero_printed {
        out.fill(0x40);
        return;
    }
    let point = usize::from(decimals > 0);
    let mut rest = magnitude;
    for (place, byte) in out.iter_mut().rev().enumerate() {
        if decimals > 0 && place == decimals {
            *byte = 0x4b;
            continue;
        }
        let shown = place < decimals || decimals == 0 && place == 0 || rest > 0;
        if style.commas && place > decimals && (place - decimals - point) % 4 == 3 {
            *byte = if shown { 0x6b } else { 0x40 };
            continue;
        }
        *byte = if shown { 0xf0 + (rest % 10) as u8 } else { 0x40 };
        rest /= 10;
    }
}

fn edit(number: Dec, code: EditCode, out: &mut [u8]) -> usize {
    let digits = usize::from(number.digits);
    let mut rest = number.value.unsigned_abs();
    match code {
        EditCode::Edited(style) => {
            let decimals = usize::from(number.decimals);
            let body = body_width(style.commas, digits, decimals);
            edit_body(rest, decimals, style, &mut out[..body]);
            let sign: &[u8] = match (style.sign, number.value < 0) {
                (Sign::Never, _) => &[],
                (Sign::Credit, true) => &[0xc3, 0xd9],
                (Sign::Credit, false) => &[0x40, 0x40],
                (Sign::Minus, true) => &[0x60],
                (Sign::Minus, false) => &[0x40],
            };
            out[body..body + sign.len()].copy_from_slice(sign);
            body + sign.len()
        }
        EditCode::Date => {
            for (place, byte) in out[..8].iter_mut().rev().enumerate() {
                if place % 3 == 2 {
                    *byte = 0x61;
                } else {
                    *byte = if place == 7 && rest == 0 { 0x40 } else { 0xf0 + (rest % 10) as u8 };
                    rest /= 10;
                }
            }
            8
        }
        EditCode::Zoned => {
            zoned_write(number, &mut out[..digits]);
            digits
        }
        EditCode::Suppressed => {
            for byte in out[..digits].iter_mut().rev() {
                *byte = if rest == 0 { 0x40 } else { 0xf0 + (rest % 10) as u8 };
                rest /= 10;
            }
            digits
        }
    }
}

// The table, and the runs over it.
include!("table.rs");

fn main() {
    let words: Vec<String> = std::env::args().collect();
    let table = Table::new();
    if let [_, operation, rounds] = words.as_slice() {
        let checksum = repeated(&table, operation, rounds.parse().unwrap_or(1));
        println!("{operation} {checksum}");
        return;
    }
    for operation in OPERATIONS {
        println!("{operation} {}", repeated(&table, operation, 1));
    }
}
