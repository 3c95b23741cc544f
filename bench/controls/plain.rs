//! The sales of `source.txt` in plain Rust: cards on standard input, the report on standard output.
//! Amounts are in hundredths, prices in thousandths, parts of an amount in tenths of a hundredth.

use std::io::{Read, Write};

#[path = "../printer.rs"]
mod printer;

use printer::{Headings, Printer, Sign, half_adjusted, signed, zoned};

const HEADINGS: Headings = Headings {
    titles: &[(b"SALES BY REGION, BRANCH", 23), (b"AND SALESMAN", 36)],
    date: (61876, 60),
    page_end: 95,
    columns: &[
        (b"MAN", 4),
        (b"ORDER", 10),
        (b"DATE", 16),
        (b"UNITS", 32),
        (b"AMOUNT", 45),
        (b"EACH", 58),
        (b"COST", 72),
        (b"MARGIN", 85),
        (b"PERCENT", 95),
        (b"QUOTA", 101),
    ],
};

/// The columns of the control fields on a card, up to the end of the region, the branch and the salesman.
const CONTROLS: std::ops::Range<usize> = 1..10;
const REGION_ENDS: usize = 3;
const BRANCH_ENDS: usize = 6;

#[derive(Clone, Copy, Default)]
struct Sums {
    count: i64,
    units: i64,
    amount: i64,
    margin: i64,
}

impl Sums {
    fn add(&mut self, other: &Sums) {
        self.count += other.count;
        self.units += other.units;
        self.amount += other.amount;
        self.margin += other.margin;
    }

    fn average(&self) -> i64 {
        half_adjusted(self.amount * 10 / self.count, 10)
    }

    fn percent(&self) -> i64 {
        part_of(self.margin, self.amount)
    }
}

fn part_of(margin: i64, amount: i64) -> i64 {
    if amount == 0 { 0 } else { half_adjusted(margin * 10_000 / amount, 10) }
}

struct Sales<'a> {
    printer: Printer,
    /// The card whose control fields are the last ones.
    last: &'a [u8],
    salesman: Sums,
    branch: Sums,
    region: Sums,
    all: Sums,
}

impl<'a> Sales<'a> {
    fn card(&mut self, card: &'a [u8]) {
        if card[CONTROLS] != self.last[CONTROLS] {
            self.totals_before(card);
            self.last = card;
        }
        self.printer.begin_record(&HEADINGS);
        let (units, amount, cost) = (signed(&card[21..26]), signed(&card[26..35]), signed(&card[35..44]));
        let margin = amount - cost;
        let each = if units == 0 { 0 } else { half_adjusted(amount * 100 / units, 10) };
        let (percent, quota) = (part_of(margin, amount), zoned(&card[44..48]));
        self.salesman.add(&Sums { count: 1, units, amount, margin });
        let printer = &mut self.printer;
        printer.whole(zoned(&card[6..10]), false, 4);
        printer.whole(zoned(&card[10..15]), true, 10);
        printer.date(zoned(&card[15..21]), 19);
        printer.punched(units, 5, 25);
        printer.amount(units, 0, Sign::Minus, 33);
        if amount != 0 {
            printer.amount(amount, 2, Sign::Minus, 47);
        }
        printer.ungrouped(each, 3, Sign::Minus, 59);
        printer.amount(cost, 2, Sign::Credit, 74);
        if margin != 0 {
            printer.ungrouped(margin, 2, Sign::Minus, 86);
        }
        printer.ungrouped(percent, 1, Sign::Credit, 95);
        printer.whole(quota, false, 101);
        if percent < 0 {
            printer.text(b"LOSS", 107);
        }
        printer.print(1);
    }

    /// The totals that are due before a card, or at the end before a card that is like none.
    fn totals_before(&mut self, card: &[u8]) {
        self.salesman_total();
        if card[1..BRANCH_ENDS] != self.last[1..BRANCH_ENDS] {
            self.branch_total();
        }
        if card[1..REGION_ENDS] != self.last[1..REGION_ENDS] {
            self.region_total();
        }
    }

    fn salesman_total(&mut self) {
        let sums = std::mem::take(&mut self.salesman);
        self.branch.add(&sums);
        let printer = &mut self.printer;
        printer.space(1);
        printer.text(b"SALESMAN", 12);
        printer.whole(zoned(&self.last[6..10]), false, 17);
        printer.amount(sums.count, 0, Sign::Never, 23);
        if sums.units != 0 {
            printer.amount(sums.units, 0, Sign::Credit, 36);
        }
        printer.amount(sums.amount, 2, Sign::Credit, 54);
        if sums.average() != 0 {
            printer.ungrouped(sums.average(), 2, Sign::Credit, 68);
        }
        printer.amount(sums.margin, 2, Sign::Minus, 86);
        printer.ungrouped(sums.percent(), 1, Sign::Minus, 95);
        printer.print(1);
    }

    fn branch_total(&mut self) {
        let sums = std::mem::take(&mut self.branch);
        self.region.add(&sums);
        let printer = &mut self.printer;
        printer.text(b"BRANCH", 12);
        printer.text(&self.last[REGION_ENDS..BRANCH_ENDS], 17);
        printer.amount(sums.count, 0, Sign::Never, 24);
        printer.ungrouped(sums.units, 0, Sign::Credit, 38);
        if sums.amount != 0 {
            printer.ungrouped(sums.amount, 2, Sign::Minus, 56);
        }
        printer.amount(sums.average(), 2, Sign::Credit, 70);
        if sums.margin != 0 {
            printer.amount(sums.margin, 2, Sign::Minus, 89);
        }
        if sums.percent() != 0 {
            printer.ungrouped(sums.percent(), 1, Sign::Credit, 98);
        }
        printer.print(2);
    }

    fn region_total(&mut self) {
        let sums = std::mem::take(&mut self.region);
        self.all.add(&sums);
        let printer = &mut self.printer;
        printer.space(1);
        printer.text(b"REGION", 12);
        printer.text(&self.last[1..REGION_ENDS], 17);
        printer.whole(sums.count, false, 24);
        printer.amount(sums.units, 0, Sign::Minus, 38);
        if sums.amount != 0 {
            printer.amount(sums.amount, 2, Sign::Credit, 58);
        }
        if sums.average() != 0 {
            printer.amount(sums.average(), 2, Sign::Minus, 72);
        }
        printer.ungrouped(sums.margin, 2, Sign::Minus, 89);
        printer.amount(sums.percent(), 1, Sign::Credit, 98);
        printer.print(2);
    }

    fn end(mut self) -> Vec<u8> {
        self.totals_before(&[0; BRANCH_ENDS]);
        let (printer, sums) = (&mut self.printer, self.all);
        printer.text(b"ALL", 12);
        printer.amount(sums.count, 0, Sign::Never, 24);
        if sums.units != 0 {
            printer.ungrouped(sums.units, 0, Sign::Minus, 38);
        }
        printer.ungrouped(sums.amount, 2, Sign::Credit, 58);
        printer.ungrouped(sums.average(), 2, Sign::Minus, 72);
        printer.amount(sums.margin, 2, Sign::Credit, 91);
        printer.amount(sums.percent(), 1, Sign::Minus, 100);
        printer.print(1);
        self.printer.report()
    }
}

fn main() -> std::io::Result<()> {
    let mut input = String::new();
    std::io::stdin().lock().read_to_string(&mut input)?;
    let none = Sums::default();
    let mut sales = Sales { printer: Printer::headed(&HEADINGS, Vec::new()), last: input.as_bytes(), salesman: none, branch: none, region: none, all: none };
    for line in input.lines() {
        sales.card(line.as_bytes());
    }
    std::io::stdout().lock().write_all(&sales.end())
}
