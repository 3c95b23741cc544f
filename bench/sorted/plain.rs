//! What `run` does to a pack's file of sales, in plain Rust.
//!
//!     plain_rust sort PACK SAVE      sorts the file of level 1 by store, and by amounts, the greatest first
//!     plain_rust copy PACK SAVE      copies the file to level 2
//!     plain_rust print PACK          prints the file of each level

use std::io::Write;

#[path = "../pack.rs"]
mod pack;
#[path = "../printer.rs"]
mod printer;

use pack::{CHARACTERS, File, SECTOR, packed};
use printer::{Headings, Printer, Sign, zoned};

/// Above each amount.
const MOST: i64 = 1_000_000_000;
const STORE: std::ops::Range<usize> = 0..3;
const AMOUNT: std::ops::Range<usize> = 15..20;
/// The header's places for the starts of both levels.
const STARTS: [usize; 2] = [14, 18];
const SLOT: usize = 64;
const SLOT_START: usize = 16;
const HEADINGS: Headings = Headings {
    titles: &[(b"SALES BY STORE", 14)],
    date: (61876, 40),
    page_end: 75,
    columns: &[],
};

fn records<'a>(pack: &'a [u8], file: &File) -> std::slice::ChunksExact<'a, u8> {
    pack[file.records..file.records + file.count * file.length].chunks_exact(file.length)
}

/// A number that is the less, the earlier a record comes.
fn key(record: &[u8]) -> u64 {
    let store = record[STORE].iter().fold(0, |number, &byte| number << 8 | u64::from(byte));
    store << 40 | (MOST - packed(&record[AMOUNT])) as u64
}

fn sort(pack: &mut [u8]) {
    let file = File::first_of(pack, 1);
    let mut order: Vec<(u64, u32)> = records(pack, &file).zip(0..).map(|(record, place)| (key(record), place)).collect();
    order.sort_unstable();
    let mut sorted = Vec::with_capacity(file.count * file.length);
    for &(_, place) in &order {
        let at = file.records + place as usize * file.length;
        sorted.extend_from_slice(&pack[at..at + file.length]);
    }
    pack[file.records..file.records + sorted.len()].copy_from_slice(&sorted);
}

/// Copies all the sectors of level 1's first file and its label.
fn copy(pack: &mut [u8]) {
    let [from, to] = STARTS.map(|place| usize::from(pack[place]) << 8 | usize::from(pack[place + 1]));
    let labels = [1, 2].map(|area| File::first_of(pack, area).label);
    let sectors = usize::from(pack[labels[0] + SLOT_START + 2]) << 8 | usize::from(pack[labels[0] + SLOT_START + 3]);
    pack.copy_within(from * SECTOR..(from + sectors) * SECTOR, to * SECTOR);
    pack.copy_within(labels[0]..labels[0] + SLOT, labels[1]);
    pack[labels[1] + SLOT_START..][..2].copy_from_slice(&(to as u16).to_be_bytes());
}

struct Sales {
    printer: Printer,
    units: i64,
    amount: i64,
}

impl Sales {
    fn total(&mut self, store: &[u8], units: i64, amount: i64) {
        self.units += units;
        self.amount += amount;
        let printer = &mut self.printer;
        printer.space(1);
        printer.text(b"STORE", 9);
        printer.coded(store, CHARACTERS, 13);
        printer.amount(units, 0, Sign::Never, 51);
        printer.amount(amount, 2, Sign::Minus, 72);
        printer.print(2);
    }
}

fn print(pack: &[u8], file: &File, report: Vec<u8>) -> Vec<u8> {
    let mut sales = Sales { printer: Printer::headed(&HEADINGS, report), units: 0, amount: 0 };
    let mut store = &pack[file.records..][STORE];
    let (mut all_units, mut all_amount) = (0, 0);
    for record in records(pack, file) {
        if record[STORE] != *store {
            sales.total(store, all_units, all_amount);
            (store, all_units, all_amount) = (&record[STORE], 0, 0);
        }
        sales.printer.begin_record(&HEADINGS);
        let (amount, units) = (packed(&record[AMOUNT]), packed(&record[20..23]));
        all_units += units;
        all_amount += amount;
        let printer = &mut sales.printer;
        printer.coded(&record[STORE], CHARACTERS, 3);
        printer.coded(&record[3..9], CHARACTERS, 11);
        printer.coded(&record[23..43], CHARACTERS, 33);
        printer.date(zoned(&record[9..15]), 43);
        printer.amount(units, 0, Sign::Never, 51);
        printer.amount(amount, 2, Sign::Minus, 66);
        printer.print(1);
    }
    sales.total(store, all_units, all_amount);
    let (printer, units, amount) = (&mut sales.printer, sales.units, sales.amount);
    printer.amount(file.count as i64, 0, Sign::Never, 13);
    printer.text(b"SALES", 19);
    printer.amount(units, 0, Sign::Never, 51);
    printer.amount(amount, 2, Sign::Minus, 72);
    printer.print(1);
    sales.printer.report()
}

fn main() -> std::io::Result<()> {
    let words: Vec<String> = std::env::args().collect();
    let mut pack = std::fs::read(&words[2])?;
    match words[1].as_str() {
        "sort" => sort(&mut pack),
        "copy" => copy(&mut pack),
        _ => {
            let report = print(&pack, &File::first_of(&pack, 1), b":report1\n".to_vec());
            let report = print(&pack, &File::first_of(&pack, 2), [&report[..], b":halts1\n:report2\n"].concat());
            std::io::stdout().lock().write_all(&report)?;
            return std::io::stdout().lock().write_all(b":halts2\n");
        }
    }
    std::fs::write(&words[3], &pack)
}
