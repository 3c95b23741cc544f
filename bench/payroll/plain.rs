//! The payroll of `source.txt` in plain Rust: cards on standard input, the report on standard output.
//! Amounts are in hundredths, rates in thousandths.

use std::io::{Read, Write};

#[path = "../printer.rs"]
mod printer;

use printer::{Headings, Printer, Sign, half_adjusted, zoned};

const FULL_WEEK: i64 = 4000;
const CEILING: i64 = 15300_00;
/// In ten thousandths.
const SOCIAL: i64 = 585;
const EXEMPTION: i64 = 14_40;
const MOST_PAID_BACK: i64 = 25_00;
const HEADINGS: Headings = Headings {
    titles: &[(b"PAYROLL REGISTER", 16), (b"WEEK ENDED", 38)],
    date: (61876, 47),
    page_end: 113,
    columns: &[
        (b"EMPLOYEE", 14),
        (b"HOURS", 33),
        (b"RATE", 42),
        (b"GROSS", 53),
        (b"F.I.C.A.", 63),
        (b"TAX", 73),
        (b"STATE", 83),
        (b"INSURANCE", 92),
        (b"LOAN", 101),
        (b"NET", 112),
    ],
};

#[derive(Clone, Copy, Default)]
struct Pay {
    gross: i64,
    social: i64,
    tax: i64,
    state: i64,
    loan: i64,
    net: i64,
}

#[derive(Default)]
struct Sums {
    count: i64,
    of: Pay,
}

impl Sums {
    fn add(&mut self, count: i64, pay: &Pay) {
        self.count += count;
        self.of.gross += pay.gross;
        self.of.social += pay.social;
        self.of.tax += pay.tax;
        self.of.state += pay.state;
        self.of.net += pay.net;
    }
}

fn wages(hours: i64, rate: i64) -> i64 {
    let regular = half_adjusted(hours.min(FULL_WEEK) * rate, 1000);
    if hours > FULL_WEEK { regular + half_adjusted((hours - FULL_WEEK) * (rate * 15), 10_000) } else { regular }
}

fn social_tax(gross: i64, earned: i64) -> i64 {
    let base = if earned + gross <= CEILING { gross } else { (CEILING - earned).max(0) };
    half_adjusted(base * SOCIAL, 10_000)
}

fn tax(taxable: i64) -> i64 {
    if taxable <= 25_00 {
        0
    } else if taxable <= 183_00 {
        half_adjusted((taxable - 25_00) * 16, 100)
    } else {
        half_adjusted((taxable - 183_00) * 26, 100) + 25_28
    }
}

fn state_tax(gross: i64, state: &[u8]) -> i64 {
    match state {
        b"NY" => half_adjusted(gross * 25, 1000),
        b"NJ" => half_adjusted(gross * 2, 100),
        _ => 0,
    }
}

struct Payroll<'a> {
    printer: Printer,
    department: &'a [u8],
    of_department: Sums,
    of_all: Sums,
}

impl<'a> Payroll<'a> {
    fn card(&mut self, card: &'a [u8]) {
        if card[1..4] != *self.department {
            self.department_totals();
            self.department = &card[1..4];
        }
        self.printer.begin_record(&HEADINGS);
        let gross = self.gross(card);
        let (exemptions, earned) = (zoned(&card[27..29]), zoned(&card[29..37]));
        let (insurance, owed) = (zoned(&card[37..42]), zoned(&card[42..48]));
        let (social, tax) = (social_tax(gross, earned), tax(gross - exemptions * EXEMPTION));
        let state = state_tax(gross, &card[48..50]);
        let net = gross - social - tax - state - insurance;
        let due = owed.min(MOST_PAID_BACK);
        let loan = if due <= net { due } else { 0 };
        let pay = Pay { gross, social, tax, state, loan, net: net - loan };
        self.of_department.add(1, &pay);
        self.line(card, &pay, insurance);
        if net < 0 {
            self.printer.text(b"NOT PAID", 123);
        }
        self.printer.print(1);
    }

    /// What is earned before deductions, with its part of the line.
    fn gross(&mut self, card: &[u8]) -> i64 {
        let printer = &mut self.printer;
        if card[0] == b'S' {
            printer.text(b"SALARY", 43);
            return zoned(&card[50..57]);
        }
        let (hours, rate) = (zoned(&card[50..54]), zoned(&card[54..60]));
        printer.amount(hours, 2, Sign::Never, 33);
        printer.amount(rate, 3, Sign::Never, 43);
        if hours > FULL_WEEK {
            printer.text(b"O", 35);
        }
        wages(hours, rate)
    }

    fn line(&mut self, card: &[u8], pay: &Pay, insurance: i64) {
        let printer = &mut self.printer;
        printer.whole(zoned(&card[4..9]), false, 6);
        printer.text(&card[9..27], 26);
        printer.amount(pay.gross, 2, Sign::Never, 53);
        printer.amount(pay.social, 2, Sign::Never, 63);
        printer.amount(pay.tax, 2, Sign::Never, 73);
        for (amount, end) in [(pay.state, 83), (insurance, 92), (pay.loan, 101)] {
            if amount != 0 {
                printer.amount(amount, 2, Sign::Never, end);
            }
        }
        printer.amount(pay.net, 2, Sign::Minus, 113);
    }

    fn department_totals(&mut self) {
        let Sums { count, of } = std::mem::take(&mut self.of_department);
        self.of_all.add(count, &of);
        let printer = &mut self.printer;
        printer.space(1);
        printer.text(b"DEPARTMENT", 12);
        printer.text(self.department, 16);
        printer.whole(count, true, 22);
        printer.text(b"PAID", 27);
        printer.amount(of.gross, 2, Sign::Never, 53);
        printer.amount(of.social, 2, Sign::Never, 66);
        printer.amount(of.tax, 2, Sign::Never, 79);
        if of.state != 0 {
            printer.amount(of.state, 2, Sign::Never, 92);
        }
        printer.amount(of.net, 2, Sign::Credit, 114);
        printer.print(1);
        printer.text(b"AVERAGE GROSS PAY", 27);
        printer.amount((2 * of.gross + count) / (2 * count), 2, Sign::Never, 53);
        printer.print(2);
    }

    fn end(mut self) -> Vec<u8> {
        self.department_totals();
        let Sums { count, of } = self.of_all;
        let printer = &mut self.printer;
        printer.text(b"WHOLE SHOP", 12);
        printer.amount(count, 0, Sign::Never, 22);
        printer.text(b"PAID", 27);
        for (sum, end) in [(of.gross, 45), (of.social, 61), (of.tax, 77), (of.state, 93)] {
            printer.amount(sum, 2, Sign::Never, end);
        }
        printer.amount(of.net, 2, Sign::Credit, 114);
        printer.print(1);
        self.printer.report()
    }
}

fn main() -> std::io::Result<()> {
    let mut input = String::new();
    std::io::stdin().lock().read_to_string(&mut input)?;
    let department = &input.as_bytes()[1..4];
    let mut payroll = Payroll { printer: Printer::headed(&HEADINGS, Vec::new()), department, of_department: Sums::default(), of_all: Sums::default() };
    for line in input.lines() {
        payroll.card(line.as_bytes());
    }
    std::io::stdout().lock().write_all(&payroll.end())
}
