//! The calculations of `source.txt` in plain Rust: data cards on standard input, the report on standard output.
//! Numbers are whole, in units of their last decimal.

use std::cmp::Ordering;
use std::io::{Read, Write};

const PAGE_LINES: usize = 66;
const POWERS: [i64; 16] = {
    let mut powers = [1; 16];
    let mut digits = 1;
    while digits < 16 {
        powers[digits] = powers[digits - 1] * 10;
        digits += 1;
    }
    powers
};

/// The low digits of a number. Cut are the sums of amounts, and the results that the numbers of one card can overfill; a count
/// of cards is not, since a deck has at most 9,999 of them.
fn cut(number: i64, digits: usize) -> i64 {
    number % POWERS[digits]
}

/// Divided by 10 as often as there are digits to drop, half adjusted.
fn half_adjusted(number: i64, drop: usize) -> i64 {
    (number + number.signum() * POWERS[drop] / 2) / POWERS[drop]
}

/// A number on a card.
fn punched(columns: &[u8]) -> i64 {
    let (last, first) = columns.split_last().expect("a number has columns");
    let front = first.iter().fold(0, |number, &byte| number * 10 + i64::from(byte - b'0')) * 10;
    match last {
        b'}' => -front,
        b'J'..=b'R' => -(front + i64::from(last - b'J') + 1),
        _ => front + i64::from(last - b'0'),
    }
}

/// A number as it is punched.
fn zoned<const N: usize>(number: i64) -> [u8; N] {
    let mut columns = [b'0'; N];
    let mut rest = number.unsigned_abs();
    for byte in columns.iter_mut().rev() {
        *byte = b'0' + (rest % 10) as u8;
        rest /= 10;
    }
    if number < 0 {
        columns[N - 1] = match columns[N - 1] {
            b'0' => b'}',
            digit => b'J' + (digit - b'1'),
        };
    }
    columns
}

fn padded<const N: usize, const M: usize>(text: &[u8; N]) -> [u8; M] {
    let mut out = [b' '; M];
    out[..N].copy_from_slice(text);
    out
}

#[derive(Default)]
struct Work {
    a: i64,
    b: i64,
    q: i64,
    k: i64,
    tx: [u8; 8],
    ty: [u8; 4],
    td: [u8; 4],
    sum: i64,
    dif: i64,
    prd: i64,
    totp: i64,
    quo: i64,
    rem: i64,
    sev: i64,
    za: i64,
    zs: i64,
    suma: i64,
    sumb: i64,
    num: i64,
    sumn: i64,
    ta: [u8; 9],
    t4: [u8; 4],
    tl: [u8; 6],
    cnta: i64,
    cntb: i64,
    left: i64,
    cnt: i64,
    ten: i64,
    acc: i64,
    cnti: i64,
    sum_sign: Option<Ordering>,
    dif_sign: Option<Ordering>,
    no_divisor: bool,
    texts: Option<Ordering>,
    against_sum: Option<Ordering>,
    on_31: bool,
    on_32: bool,
}

impl Work {
    fn read(&mut self, card: &[u8; 96]) {
        self.a = punched(&card[..7]);
        self.b = punched(&card[7..12]);
        self.q = punched(&card[12..15]);
        self.k = punched(&card[15..16]);
        self.tx.copy_from_slice(&card[16..24]);
        self.ty.copy_from_slice(&card[24..28]);
        self.td.copy_from_slice(&card[28..32]);
    }

    fn arithmetic(&mut self) {
        self.sum = self.a * 10 + self.b;
        self.sum_sign = Some(self.sum.cmp(&0));
        self.dif = self.a * 10 - self.b;
        self.dif_sign = Some(self.dif.cmp(&0));
        self.prd = half_adjusted(self.a * self.b, 3);
        self.totp = cut(self.totp + self.prd, 15);
        self.no_divisor = self.q == 0;
        if !self.no_divisor {
            let quotient = self.a * 10 / self.q;
            self.quo = quotient;
            self.rem = (self.a * 10 - quotient * self.q) * 100;
            // One digit more than is kept, to adjust.
            self.sev = cut(half_adjusted(self.prd * 1000 / 7, 1), 9);
        } else {
            self.rem = 0;
        }
        self.za = cut(half_adjusted(self.a, 1), 4);
        self.zs = -self.b;
        self.suma = cut(self.suma + self.rem, 15);
        self.suma = cut(self.suma + self.quo * 100, 15);
        self.sumb = cut(self.sumb - self.zs * 10, 13);
        self.sumb = cut(self.sumb + self.sev, 13);
    }

    fn moves(&mut self) {
        self.num = punched(&self.td);
        self.sumn = cut(self.sumn + self.num, 9);
        self.ta[2..].copy_from_slice(&zoned::<7>(self.a));
        self.ta[..4].copy_from_slice(&self.ty);
        self.t4.copy_from_slice(&self.tx[4..]);
        self.tl[..4].copy_from_slice(&self.t4);
    }

    fn choices(&mut self) {
        self.texts = Some(self.tx.cmp(&padded(&self.ty)));
        self.against_sum = Some((self.a * 10).cmp(&self.sum));
        self.on_31 = true;
        self.on_32 = true;
        if self.texts == Some(Ordering::Greater) {
            self.on_31 = false;
        } else {
            self.on_32 = false;
        }
        if self.texts != Some(Ordering::Less) {
            if self.on_31 && self.against_sum == Some(Ordering::Greater) {
                self.cnta += 1;
            }
            if self.on_32 && self.texts != Some(Ordering::Equal) {
                self.cntb += 1;
            }
            self.prd -= 125;
        }
    }

    fn step(&mut self) {
        self.acc = cut(self.acc * 3, 9);
        self.acc = cut(self.acc + self.k, 9);
        if self.against_sum == Some(Ordering::Greater) {
            self.inner();
        }
    }

    fn inner(&mut self) {
        self.cnti += 1;
    }

    /// Whether this is a tenth card, which is shown.
    fn calculate(&mut self) -> bool {
        self.arithmetic();
        self.moves();
        self.choices();
        self.left = self.k;
        loop {
            self.step();
            self.left -= 1;
            if self.left <= 0 {
                break;
            }
        }
        self.cnt += 1;
        self.ten += 1;
        let is_tenth = self.ten == 10;
        if is_tenth {
            self.ten = 0;
        }
        is_tenth
    }
}

/// The line that is being made, and the report before it.
struct Printer {
    lines: usize,
    text: [u8; 132],
    report: Vec<u8>,
}

impl Printer {
    fn text(&mut self, text: &[u8], end: usize) {
        self.text[end - text.len()..end].copy_from_slice(text);
    }

    /// A number with so many decimals; a minus stands in the last column of one that has a sign.
    fn number(&mut self, number: i64, decimals: usize, commas: bool, has_sign: bool, end: usize) {
        let mut place = end;
        if has_sign {
            place -= 1;
            self.text[place] = if number < 0 { b'-' } else { b' ' };
        }
        let mut rest = number.unsigned_abs();
        for _ in 0..decimals {
            place -= 1;
            self.text[place] = b'0' + (rest % 10) as u8;
            rest /= 10;
        }
        if decimals > 0 {
            place -= 1;
            self.text[place] = b'.';
        } else if rest == 0 {
            self.text[place - 1] = b'0';
        }
        let mut shown = 0;
        while rest > 0 {
            if commas && shown > 0 && shown % 3 == 0 {
                place -= 1;
                self.text[place] = b',';
            }
            place -= 1;
            self.text[place] = b'0' + (rest % 10) as u8;
            rest /= 10;
            shown += 1;
        }
    }

    /// A sign or a letter for how two things compare.
    fn ordering(&mut self, ordering: Option<Ordering>, signs: &[u8; 3], end: usize) {
        match ordering {
            Some(Ordering::Greater) => self.text[end - 1] = signs[0],
            Some(Ordering::Less) => self.text[end - 1] = signs[1],
            Some(Ordering::Equal) => self.text[end - 1] = signs[2],
            None => {}
        }
    }

    fn print(&mut self) {
        let head = (self.lines / PAGE_LINES + 1, self.lines % PAGE_LINES + 1);
        let shown = self.text.iter().rposition(|&byte| byte != b' ').map_or(0, |last| last + 1);
        self.report.extend_from_slice(format!("{:04} {:02} ", head.0, head.1).as_bytes());
        self.report.extend_from_slice(&self.text[..shown]);
        self.report.push(b'\n');
        self.text = [b' '; 132];
        self.lines += 1;
    }

    fn tenth_card(&mut self, work: &Work) {
        self.number(work.cnt, 0, false, false, 8);
        self.number(work.prd, 2, true, true, 24);
        self.number(work.quo, 3, true, true, 37);
        self.number(work.rem, 5, false, true, 49);
        self.number(work.sev, 4, false, true, 61);
        self.number(work.za, 1, false, true, 68);
        self.number(work.zs, 3, false, true, 76);
        self.text(&work.ta, 86);
        self.text(&work.tl, 93);
        self.number(work.num, 0, false, true, 99);
        self.number(work.acc, 0, false, false, 109);
        self.ordering(work.sum_sign, b"+-0", 111);
        self.ordering(work.dif_sign, b"+-0", 113);
        self.text(&work.t4, 118);
        self.ordering(work.texts, b"HLE", 120);
        self.print();
    }

    fn totals(&mut self, work: &Work) {
        let half = half_adjusted(work.totp * 5, 1);
        self.number(work.totp, 2, true, true, 21);
        self.number(half, 2, true, true, 43);
        self.number(work.suma, 5, false, true, 61);
        self.number(work.sumb, 4, false, true, 77);
        self.number(work.sumn, 0, false, true, 88);
        self.number(work.cnta, 0, false, false, 96);
        self.number(work.cntb, 0, false, false, 104);
        self.number(work.cnti, 0, false, false, 112);
        self.ordering(work.against_sum, b" LE", 114);
        self.print();
    }
}

fn main() -> std::io::Result<()> {
    let mut input = String::new();
    std::io::stdin().lock().read_to_string(&mut input)?;
    let mut work = Work { ta: [b' '; 9], tl: [b' '; 6], ..Work::default() };
    let mut printer = Printer { lines: 0, text: [b' '; 132], report: Vec::new() };
    for line in input.lines() {
        let mut card = [b' '; 96];
        card[..line.len()].copy_from_slice(line.as_bytes());
        work.read(&card);
        if work.calculate() {
            printer.tenth_card(&work);
        }
    }
    printer.totals(&work);
    std::io::stdout().lock().write_all(&printer.report)
}
