//! The short jobs of `source.txt` in plain Rust, over level 1 of a pack.
//!
//!     plain_rust PACK SAVE < jobs      the job stream without the jobs that compile
//!
//! Prints the report, and writes the pack.

use std::io::{Read, Write};

#[path = "../pack.rs"]
mod pack;
#[path = "../printer.rs"]
mod printer;

use pack::{CHARACTERS, CODES, SECTOR, pack, packed, translate};
use printer::{Printer, Sign, zoned};

const RECORD: usize = 48;
const ROOM: u8 = 8;
const TRACK: u8 = 24;
/// The label's slot: the first one of level 1.
const LABEL: usize = 9 * SECTOR;
/// The header's place for the start of level 1.
const START: usize = 14;

struct Shop {
    pack: Vec<u8>,
    date: [u8; 6],
    records: usize,
    count: usize,
    report: Vec<u8>,
}

impl Shop {
    fn record(&mut self, number: usize) -> &mut [u8] {
        let at = self.records + number * RECORD;
        &mut self.pack[at..at + RECORD]
    }

    /// Makes DAY anew; its records are counted at the end of the job.
    fn make(&mut self) {
        let mut slot = [0; 34];
        slot[0] = 1;
        translate(b"DAY     ST", CODES, &mut slot[1..11]);
        slot[12] = RECORD as u8;
        slot[16..18].copy_from_slice(&((self.records / SECTOR) as u16).to_be_bytes());
        slot[19] = TRACK;
        slot[23] = ROOM;
        translate(&self.date, CODES, &mut slot[28..34]);
        self.pack[LABEL..LABEL + slot.len()].copy_from_slice(&slot);
        self.count = 0;
    }

    fn take_in<'a>(&mut self, cards: &mut impl Iterator<Item = &'a [u8]>) {
        self.make();
        let date = self.date;
        let mut sum = 0;
        while let Some(card) = cards.next().filter(|card| card[0] != b'/') {
            let (quantity, price) = (zoned(&card[25..30]), zoned(&card[30..37]));
            let number = self.count;
            let record = self.record(number);
            record.fill(0x40);
            translate(&card[1..25], CODES, record);
            pack(quantity, &mut record[24..27]);
            pack(price, &mut record[27..31]);
            pack(quantity * price, &mut record[32..38]);
            translate(&date, CODES, &mut record[38..44]);
            sum += quantity * price;
            self.count += 1;
        }
        self.pack[LABEL + 27] = self.count as u8;
        let mut printer = self.printer();
        printer.text(b"TAKEN IN", 8);
        printer.date(zoned(&date), 18);
        printer.whole(self.count as i64, true, 23);
        printer.text(b"ORDERS", 30);
        printer.amount(sum, 2, Sign::Never, 60);
        printer.print(1);
        self.report = printer.report();
    }

    fn picked<'a>(&mut self, cards: &mut impl Iterator<Item = &'a [u8]>) {
        let mut printer = self.printer();
        let mut sum = 0;
        while let Some(card) = cards.next().filter(|card| card[0] != b'/') {
            let (number, delivered) = (zoned(&card[1..3]), zoned(&card[3..8]));
            if number < 1 || number > self.count as i64 {
                printer.text(b"NO RECORD", 9);
                printer.whole(number, true, 13);
                printer.print(1);
                continue;
            }
            let record = self.record(number as usize - 1);
            let (ordered, amount) = (packed(&record[24..27]), delivered * packed(&record[27..31]));
            pack(delivered, &mut record[24..27]);
            record[31] = if delivered < ordered { 0xE2 } else { 0xC4 };
            pack(amount, &mut record[32..38]);
            sum += amount;
            if delivered < ordered {
                printer.text(b"SHORT", 5);
                printer.coded(&record[..6], CHARACTERS, 13);
                printer.coded(&record[12..24], CHARACTERS, 26);
                printer.amount(delivered, 0, Sign::Never, 33);
                printer.text(b"OF", 37);
                printer.amount(ordered, 0, Sign::Never, 44);
                printer.print(1);
            }
        }
        printer.text(b"PICKED", 6);
        printer.date(zoned(&self.date), 18);
        printer.amount(sum, 2, Sign::Never, 60);
        printer.print(1);
        self.report = printer.report();
    }

    fn shown(&mut self) {
        let mut printer = self.printer();
        let (mut sum, mut shorts) = (0, 0);
        for number in 0..self.count {
            let record = &*self.record(number);
            let amount = packed(&record[32..38]);
            sum += amount;
            shorts += i64::from(record[31] == 0xE2);
            printer.coded(&record[..6], CHARACTERS, 6);
            printer.coded(&record[6..12], CHARACTERS, 14);
            printer.coded(&record[12..24], CHARACTERS, 28);
            printer.amount(packed(&record[24..27]), 0, Sign::Never, 35);
            printer.amount(packed(&record[27..31]), 2, Sign::Never, 46);
            printer.amount(amount, 2, Sign::Never, 62);
            printer.coded(&record[31..32], CHARACTERS, 64);
            printer.date(zoned(&record[38..44]), 73);
            printer.print(1);
        }
        printer.text(b"SHORT", 5);
        printer.whole(shorts, true, 9);
        printer.amount(sum, 2, Sign::Never, 62);
        printer.print(1);
        self.report = printer.report();
    }

    fn printer(&mut self) -> Printer {
        Printer::new(std::mem::take(&mut self.report))
    }
}

fn main() -> std::io::Result<()> {
    let words: Vec<String> = std::env::args().collect();
    let pack = std::fs::read(&words[1])?;
    let mut input = String::new();
    std::io::stdin().lock().read_to_string(&mut input)?;
    let records = (usize::from(pack[START]) << 8 | usize::from(pack[START + 1])) * SECTOR;
    let mut shop = Shop { pack, date: *b"000000", records, count: 0, report: Vec::new() };
    let mut cards = input.lines().map(str::as_bytes);
    let mut program = b' ';
    while let Some(card) = cards.next() {
        match card {
            [b'/', b'/', b' ', b'L', ..] => program = card[8],
            [b'/', b'/', b' ', b'D', ..] => shop.date.copy_from_slice(&card[8..14]),
            [b'/', b'/', b' ', b'R', ..] => match program {
                b'T' => shop.take_in(&mut cards),
                b'P' => shop.picked(&mut cards),
                _ => shop.shown(),
            },
            _ => (),
        }
    }
    std::fs::write(&words[2], &shop.pack)?;
    std::io::stdout().lock().write_all(&shop.report)
}
