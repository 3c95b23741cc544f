//! The orders of `source.txt` by customer in plain Rust.
//!
//!     plain_rust PACK < orders      prints the report

use std::io::{Read, Write};

#[path = "../pack.rs"]
mod pack;
#[path = "../printer.rs"]
mod printer;

use pack::{CHARACTERS, File, packed};
use printer::{Headings, Printer, Sign, half_adjusted, zoned};

const HEADINGS: Headings = Headings {
    titles: &[(b"ORDERS BY CUSTOMER", 18)],
    date: (61576, 40),
    page_end: 93,
    columns: &[
        (b"ORDER", 8),
        (b"DUE", 18),
        (b"ITEM", 24),
        (b"QUANTITY", 38),
        (b"PRICE", 49),
        (b"AMOUNT", 64),
        (b"DISCOUNT", 79),
        (b"NET", 93),
    ],
};

/// A customer's record; amounts are in hundredths, the discount in tenths of a hundredth.
#[derive(Clone, Copy)]
struct Customer<'a> {
    number: i64,
    name: &'a [u8],
    city: &'a [u8],
    region: &'a [u8],
    balance: i64,
    limit: i64,
    discount: i64,
}

impl<'a> Customer<'a> {
    fn of(record: &'a [u8]) -> Self {
        Customer {
            number: zoned(&record[..6]),
            name: &record[6..30],
            city: &record[48..62],
            region: &record[62..64],
            balance: packed(&record[68..73]),
            limit: packed(&record[73..78]),
            discount: packed(&record[78..80]),
        }
    }
}

#[derive(Default)]
struct Sums {
    count: i64,
    less: i64,
    net: i64,
}

struct Register {
    printer: Printer,
    of_all: Sums,
    buyers: i64,
    idle: i64,
    lost: i64,
    lost_sum: i64,
}

impl Register {
    fn customer(&mut self, customer: &Customer) {
        let printer = &mut self.printer;
        printer.space(1);
        printer.whole(customer.number, false, 6);
        printer.coded(customer.name, CHARACTERS, 32);
        printer.coded(customer.city, CHARACTERS, 48);
        printer.text(b"REGION", 56);
        printer.coded(customer.region, CHARACTERS, 59);
        printer.text(b"DISCOUNT", 69);
        printer.amount(customer.discount, 1, Sign::Never, 74);
        printer.print(1);
    }

    /// An order's line, up to its amount, which it gives.
    fn order(&mut self, card: &[u8]) -> i64 {
        let (quantity, price) = (zoned(&card[35..40]), zoned(&card[42..49]));
        let amount = quantity * price;
        let printer = &mut self.printer;
        printer.whole(zoned(&card[7..13]), false, 8);
        printer.date(zoned(&card[19..25]), 18);
        printer.text(&card[25..33], 28);
        printer.amount(quantity, 0, Sign::Never, 38);
        printer.amount(price, 2, Sign::Never, 49);
        printer.amount(amount, 2, Sign::Never, 64);
        amount
    }

    fn order_of(&mut self, customer: &Customer, card: &[u8], sums: &mut Sums) {
        let amount = self.order(card);
        let less = half_adjusted(amount * customer.discount, 1000);
        if less != 0 {
            self.printer.amount(less, 2, Sign::Never, 79);
        }
        self.printer.amount(amount - less, 2, Sign::Never, 93);
        self.printer.print(1);
        sums.count += 1;
        sums.less += less;
        sums.net += amount - less;
    }

    fn lost_order(&mut self, number: i64, card: &[u8]) {
        self.printer.begin_record(&HEADINGS);
        self.lost_sum += self.order(card);
        self.lost += 1;
        self.printer.text(b"NO CUSTOMER", 80);
        self.printer.whole(number, false, 87);
        self.printer.print(1);
    }

    fn total(&mut self, customer: &Customer, sums: &Sums) {
        let owed = customer.balance + sums.net;
        self.buyers += 1;
        self.of_all.count += sums.count;
        self.of_all.less += sums.less;
        self.of_all.net += sums.net;
        let printer = &mut self.printer;
        printer.space(1);
        printer.whole(sums.count, true, 6);
        printer.text(b"ORDERS", 13);
        printer.text(b"OWED BEFORE", 25);
        printer.amount(customer.balance, 2, Sign::Minus, 40);
        printer.text(b"ORDERED", 48);
        if sums.less != 0 {
            printer.amount(sums.less, 2, Sign::Never, 79);
        }
        printer.amount(sums.net, 2, Sign::Never, 93);
        printer.print(1);
        printer.text(b"OWED NOW", 25);
        printer.amount(owed, 2, Sign::Minus, 40);
        if owed > customer.limit {
            printer.text(b"OVER THE LIMIT BY", 58);
            printer.amount(owed - customer.limit, 2, Sign::Never, 74);
        }
        printer.print(1);
    }

    fn end(mut self) -> Vec<u8> {
        let printer = &mut self.printer;
        printer.space(2);
        printer.whole(self.buyers, true, 6);
        printer.text(b"CUSTOMERS", 16);
        printer.amount(self.of_all.count, 0, Sign::Never, 25);
        printer.text(b"ORDERS", 32);
        printer.amount(self.of_all.less, 2, Sign::Never, 79);
        printer.amount(self.of_all.net, 2, Sign::Never, 97);
        printer.print(1);
        printer.whole(self.idle, true, 6);
        printer.text(b"CUSTOMERS WITHOUT ORDERS", 31);
        printer.whole(self.lost, true, 38);
        printer.text(b"ORDERS OF NO CUSTOMER", 60);
        printer.amount(self.lost_sum, 2, Sign::Never, 79);
        printer.print(1);
        self.printer.report()
    }
}

fn main() -> std::io::Result<()> {
    let words: Vec<String> = std::env::args().collect();
    let pack = std::fs::read(&words[1])?;
    let mut input = String::new();
    std::io::stdin().lock().read_to_string(&mut input)?;
    let file = File::first_of(&pack, 0);
    let mut register = Register { printer: Printer::headed(&HEADINGS, Vec::new()), of_all: Sums::default(), buyers: 0, idle: 0, lost: 0, lost_sum: 0 };
    let mut orders = input.lines().map(|line| (zoned(&line.as_bytes()[1..7]), line.as_bytes())).peekable();
    for record in pack[file.records..].chunks_exact(file.length).take(file.count) {
        let customer = Customer::of(record);
        while let Some((number, card)) = orders.next_if(|&(number, _)| number < customer.number) {
            register.lost_order(number, card);
        }
        register.printer.begin_record(&HEADINGS);
        let mut sums = Sums::default();
        while let Some((_, card)) = orders.next_if(|&(number, _)| number == customer.number) {
            if sums.count == 0 {
                register.customer(&customer);
            }
            register.printer.begin_record(&HEADINGS);
            register.order_of(&customer, card, &mut sums);
        }
        if sums.count == 0 {
            register.idle += 1;
        } else {
            register.total(&customer, &sums);
        }
    }
    for (number, card) in orders {
        register.lost_order(number, card);
    }
    std::io::stdout().lock().write_all(&register.end())
}
