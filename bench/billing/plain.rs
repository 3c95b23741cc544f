//! The billing of `samples/billing.py` in plain Rust: data cards on standard input, the report on standard output.

use std::io::{Read, Write};

const DATE: i64 = 61576;
const PAGE_LINES: usize = 66;
const OVERFLOW_LINE: usize = 60;
/// In hundredths.
const LEAST_FOR_DISCOUNT: i64 = 100_000;

#[derive(Clone, Copy)]
enum Sign {
    Never,
    Minus,
    Credit,
}

/// The line that is being made, and where the printer stands.
struct Printer {
    page: usize,
    line: usize,
    overflow: bool,
    text: [u8; 132],
    report: Vec<u8>,
}

impl Printer {
    fn new() -> Self {
        Printer { page: 1, line: 1, overflow: false, text: [b' '; 132], report: Vec::new() }
    }

    fn text(&mut self, text: &[u8], end: usize) {
        self.text[end - text.len()..end].copy_from_slice(text);
    }

    /// Digits without leading zeros; a zero is blank unless it is to be shown.
    fn whole(&mut self, number: i64, shows_zero: bool, end: usize) {
        let mut rest = number;
        let mut place = end;
        if rest == 0 && shows_zero {
            self.text[place - 1] = b'0';
        }
        while rest > 0 {
            place -= 1;
            self.text[place] = b'0' + (rest % 10) as u8;
            rest /= 10;
        }
    }

    /// With commas and so many decimals; the sign stands in the last columns.
    fn amount(&mut self, number: i64, decimals: usize, sign: Sign, end: usize) {
        let mut place = match sign {
            Sign::Never => end,
            Sign::Minus => end - 1,
            Sign::Credit => end - 2,
        };
        match sign {
            Sign::Minus if number < 0 => self.text[place] = b'-',
            Sign::Credit if number < 0 => self.text[place..end].copy_from_slice(b"CR"),
            Sign::Never | Sign::Minus | Sign::Credit => {}
        }
        let mut rest = number.unsigned_abs();
        for _ in 0..decimals {
            place -= 1;
            self.text[place] = b'0' + (rest % 10) as u8;
            rest /= 10;
        }
        if decimals > 0 {
            place -= 1;
            self.text[place] = b'.';
        }
        if rest == 0 && decimals == 0 {
            self.text[place - 1] = b'0';
        }
        let mut shown = 0;
        while rest > 0 {
            if shown > 0 && shown % 3 == 0 {
                place -= 1;
                self.text[place] = b',';
            }
            place -= 1;
            self.text[place] = b'0' + (rest % 10) as u8;
            rest /= 10;
            shown += 1;
        }
    }

    fn date(&mut self, date: i64, end: usize) {
        let mut rest = date;
        for place in (end - 8..end).rev() {
            if end - place == 3 || end - place == 6 {
                self.text[place] = b'/';
                continue;
            }
            self.text[place] = b'0' + (rest % 10) as u8;
            rest /= 10;
        }
        if self.text[end - 8] == b'0' {
            self.text[end - 8] = b' ';
        }
    }

    fn space(&mut self, lines: usize) {
        let from = self.line;
        self.line += lines;
        if self.line > PAGE_LINES {
            self.line -= PAGE_LINES;
            self.page = (self.page + 1) % 10_000;
        } else if from <= OVERFLOW_LINE && self.line > OVERFLOW_LINE {
            self.overflow = true;
        }
    }

    fn skip(&mut self, line: usize) {
        if line >= self.line {
            self.space(line - self.line);
        } else {
            self.page = (self.page + 1) % 10_000;
            self.line = line;
        }
    }

    /// Prints the line that was made, and begins the next.
    fn print(&mut self, after: usize) {
        if self.line == OVERFLOW_LINE {
            self.overflow = true;
        }
        let mut head = *b"0000 00 ";
        let mut rest = self.page;
        for place in (0..4).rev() {
            head[place] = b'0' + (rest % 10) as u8;
            rest /= 10;
        }
        head[5] = b'0' + (self.line / 10) as u8;
        head[6] = b'0' + (self.line % 10) as u8;
        self.report.extend_from_slice(&head);
        let shown = self.text.iter().rposition(|&byte| byte != b' ').map_or(0, |last| last + 1);
        self.report.extend_from_slice(&self.text[..shown]);
        self.report.push(b'\n');
        self.text = [b' '; 132];
        self.space(after);
    }
}

/// A number on a card: digits or blanks, the last one with a zone for minus.
fn punched(columns: &[u8]) -> i64 {
    let digit = |byte: u8| if byte == b' ' { 0 } else { i64::from(byte - b'0') };
    let (last, first) = columns.split_last().expect("a number has columns");
    let front = first.iter().fold(0, |number, &byte| number * 10 + digit(byte)) * 10;
    match last {
        b'}' => -front,
        b'J'..=b'R' => -(front + i64::from(last - b'J') + 1),
        _ => front + digit(*last),
    }
}

/// Divided by a power of ten, half adjusted.
fn half_adjusted(number: i64, divisor: i64) -> i64 {
    (number + number.signum() * divisor / 2) / divisor
}

struct Billing {
    printer: Printer,
    pages: i64,
    customer: Option<i64>,
    total: i64,
    items: i64,
    all_due: i64,
    all_items: i64,
    customers: i64,
}

impl Billing {
    fn headings(&mut self) {
        let printer = &mut self.printer;
        self.pages = (self.pages + 1) % 10_000;
        printer.skip(1);
        printer.text(b"BILLING REGISTER", 16);
        printer.date(DATE, 40);
        printer.text(b"PAGE", 57);
        printer.whole(self.pages, false, 62);
        printer.print(2);
        printer.text(b"ITEM", 6);
        printer.text(b"DESCRIPTION", 21);
        printer.text(b"QUANTITY", 40);
        printer.text(b"PRICE", 50);
        printer.text(b"AMOUNT", 64);
        printer.print(2);
        printer.overflow = false;
    }

    fn customer_totals(&mut self) {
        let has_discount = self.total >= LEAST_FOR_DISCOUNT;
        let discount = if has_discount { half_adjusted(self.total * 25, 1000) } else { 0 };
        let due = self.total - discount;
        self.all_due += due;
        self.all_items += self.items;
        self.customers += 1;
        let printer = &mut self.printer;
        printer.space(1);
        printer.whole(self.items, true, 8);
        printer.text(b"ITEMS", 14);
        printer.text(b"CUSTOMER TOTAL", 40);
        printer.amount(self.total, 2, Sign::Credit, 66);
        printer.print(1);
        if has_discount {
            printer.text(b"LESS 2.5% DISCOUNT", 40);
            printer.amount(discount, 2, Sign::Credit, 66);
            printer.print(1);
        }
        printer.text(b"AMOUNT DUE", 40);
        printer.amount(due, 2, Sign::Credit, 66);
        printer.text(b"*", 68);
        printer.print(1);
        self.total = 0;
        self.items = 0;
    }

    fn all_totals(&mut self) {
        let printer = &mut self.printer;
        printer.space(1);
        printer.whole(self.customers, true, 8);
        printer.text(b"CUSTOMERS", 18);
        printer.amount(self.all_items, 0, Sign::Never, 28);
        printer.text(b"ITEMS", 34);
        printer.text(b"TOTAL DUE", 45);
        printer.amount(self.all_due, 2, Sign::Credit, 66);
        printer.text(b"**", 69);
        printer.print(1);
    }

    fn card(&mut self, card: &[u8; 96]) {
        let customer = punched(&card[1..6]);
        if self.customer.is_some_and(|held| held != customer) {
            self.customer_totals();
        }
        self.customer = Some(customer);
        if self.printer.overflow {
            self.headings();
        }
        match card[0] {
            b'C' => self.customer_card(customer, card),
            _ => self.item_card(card),
        }
    }

    fn customer_card(&mut self, customer: i64, card: &[u8; 96]) {
        self.printer.space(1);
        self.printer.whole(customer, false, 7);
        self.printer.text(&card[6..30], 32);
        self.printer.print(1);
    }

    fn item_card(&mut self, card: &[u8; 96]) {
        let quantity = punched(&card[32..37]);
        let price = punched(&card[37..43]);
        let amount = half_adjusted(quantity * price, 100);
        self.total += amount;
        self.items += 1;
        let printer = &mut self.printer;
        printer.text(&card[6..12], 8);
        printer.text(&card[12..32], 30);
        printer.amount(quantity, 1, Sign::Minus, 40);
        printer.amount(price, 3, Sign::Never, 50);
        printer.amount(amount, 2, Sign::Minus, 65);
        if amount < 0 {
            printer.text(b"CREDIT", 73);
        }
        printer.print(1);
    }
}

fn main() -> std::io::Result<()> {
    let mut input = String::new();
    std::io::stdin().lock().read_to_string(&mut input)?;
    let mut billing = Billing { printer: Printer::new(), pages: 0, customer: None, total: 0, items: 0, all_due: 0, all_items: 0, customers: 0 };
    billing.headings();
    for line in input.lines() {
        let mut card = [b' '; 96];
        card[..line.len()].copy_from_slice(line.as_bytes());
        billing.card(&card);
    }
    if billing.customer.is_some() {
        billing.customer_totals();
    }
    billing.all_totals();
    std::io::stdout().lock().write_all(&billing.printer.report)
}
