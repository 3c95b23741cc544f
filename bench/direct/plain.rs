//! The runs of `source.txt` and the list of machines in plain Rust.
//!
//!     plain_rust PACK SAVE < cards
//!
//! Prints both reports, and writes the pack. Hours are in tenths, costs in hundredths.

use std::io::{Read, Write};

#[path = "../pack.rs"]
mod pack;
#[path = "../printer.rs"]
mod printer;

use pack::{CHARACTERS, File, pack, packed};
use printer::{Headings, Printer, Sign, half_adjusted, zoned};

const DATE_IN_RECORDS: [u8; 6] = [0xF0, 0xF6, 0xF1, 0xF8, 0xF7, 0xF6];
const RUNS: Headings = Headings {
    titles: &[(b"RUNS OF MACHINES", 16)],
    date: (61876, 40),
    page_end: 85,
    columns: &[],
};
const MACHINES: Headings = Headings {
    titles: &[(b"MACHINES", 8)],
    date: (61876, 40),
    page_end: 85,
    columns: &[],
};

/// Adds to a packed number of a record.
fn add_packed(amount: i64, bytes: &mut [u8]) {
    pack(packed(bytes) + amount, bytes);
}

/// Adds one to a zoned number of a record.
fn count_up(digits: &mut [u8]) {
    for digit in digits.iter_mut().rev() {
        if *digit < 0xF9 {
            *digit += 1;
            return;
        }
        *digit = 0xF0;
    }
}

fn runs(sectors: &mut [u8], file: &File, cards: &str) -> Vec<u8> {
    let mut printer = Printer::headed(&RUNS, Vec::new());
    let (mut all_hours, mut all_pieces, mut all_cost, mut lost) = (0, 0, 0, 0);
    for card in cards.lines().map(str::as_bytes) {
        let (number, hours, pieces, scrap) = (zoned(&card[1..5]), zoned(&card[5..9]), zoned(&card[9..14]), zoned(&card[14..18]));
        printer.begin_record(&RUNS);
        if number < 1 || number as usize > file.count {
            lost += 1;
            printer.whole(number, false, 4);
            printer.text(b"NO SUCH MACHINE", 20);
            printer.print(1);
            continue;
        }
        let record = &mut sectors[file.records + (number as usize - 1) * file.length..][..file.length];
        let cost = half_adjusted(hours * packed(&record[33..36]), 10);
        add_packed(hours, &mut record[16..20]);
        add_packed(pieces, &mut record[20..24]);
        add_packed(scrap, &mut record[24..27]);
        add_packed(cost, &mut record[27..33]);
        count_up(&mut record[36..40]);
        record[40..46].copy_from_slice(&DATE_IN_RECORDS);
        all_hours += hours;
        all_pieces += pieces;
        all_cost += cost;
        let (is_least, is_most) = (pieces < packed(&record[46..49]), pieces > packed(&record[49..52]));
        if is_least {
            pack(pieces, &mut record[46..49]);
            printer.text(b"LEAST", 96);
        }
        if is_most {
            pack(pieces, &mut record[49..52]);
            printer.text(b"MOST", 90);
        }
        if !is_least && !is_most {
            continue;
        }
        printer.whole(number, false, 4);
        printer.coded(&record[..16], CHARACTERS, 22);
        printer.amount(hours, 1, Sign::Never, 28);
        printer.amount(pieces, 0, Sign::Never, 36);
        if scrap != 0 {
            printer.amount(scrap, 0, Sign::Never, 42);
        }
        printer.amount(cost, 2, Sign::Never, 56);
        printer.amount(all_pieces, 0, Sign::Never, 69);
        printer.amount(all_cost, 2, Sign::Never, 85);
        printer.print(1);
    }
    printer.space(1);
    printer.whole(lost, true, 6);
    printer.text(b"NO SUCH MACHINE", 22);
    printer.amount(all_hours, 1, Sign::Never, 36);
    printer.amount(all_pieces, 0, Sign::Never, 69);
    printer.amount(all_cost, 2, Sign::Never, 85);
    printer.print(1);
    printer.report()
}

fn list(sectors: &[u8], file: &File, report: Vec<u8>) -> Vec<u8> {
    let mut printer = Printer::headed(&MACHINES, report);
    let (mut all_cost, mut all_runs) = (0, 0);
    for (place, record) in sectors[file.records..].chunks_exact(file.length).take(file.count).enumerate() {
        let (hours, pieces, scrap, cost) = (packed(&record[16..20]), packed(&record[20..24]), packed(&record[24..27]), packed(&record[27..33]));
        let runs = zoned(&record[36..40]);
        all_cost += cost;
        all_runs += runs;
        printer.begin_record(&MACHINES);
        printer.whole(place as i64 + 1, false, 4);
        printer.coded(&record[..16], CHARACTERS, 22);
        printer.amount(hours, 1, Sign::Never, 38);
        printer.amount(pieces, 0, Sign::Never, 48);
        for (count, end) in [(runs, 28), (scrap, 55), (packed(&record[46..49]), 71), (packed(&record[49..52]), 78)] {
            if count != 0 {
                printer.amount(count, 0, Sign::Never, end);
            }
        }
        if hours > 0 {
            printer.ungrouped(half_adjusted(pieces * 1000 / hours, 10), 1, Sign::Never, 64);
        }
        printer.amount(cost, 2, Sign::Minus, 94);
        printer.amount(all_cost, 2, Sign::Minus, 113);
        printer.date(zoned(&record[40..46]), 122);
        printer.print(1);
    }
    printer.space(1);
    printer.whole(file.count as i64, true, 6);
    printer.text(b"MACHINES", 15);
    printer.amount(all_runs, 0, Sign::Never, 28);
    printer.amount(all_cost, 2, Sign::Minus, 113);
    printer.print(1);
    printer.report()
}

fn main() -> std::io::Result<()> {
    let words: Vec<String> = std::env::args().collect();
    let mut pack = std::fs::read(&words[1])?;
    let mut input = String::new();
    std::io::stdin().lock().read_to_string(&mut input)?;
    let file = File::first_of(&pack, 1);
    let report = runs(&mut pack, &file, &input);
    let report = list(&pack, &file, report);
    std::fs::write(&words[2], &pack)?;
    std::io::stdout().lock().write_all(&report)
}
