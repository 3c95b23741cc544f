//! The transfers of `source.txt` in plain Rust.
//!
//!     plain_rust PACK SAVE < cards
//!
//! Prints the report, and writes the pack.

use std::io::{Read, Write};

#[path = "../pack.rs"]
mod pack;
#[path = "../printer.rs"]
mod printer;

use pack::{CHARACTERS, CODES, File, pack, packed, translate};
use printer::{Headings, Printer, Sign, zoned};

const DATE_IN_RECORDS: [u8; 6] = [0xF0, 0xF6, 0xF1, 0xF8, 0xF7, 0xF6];
const KEY: usize = 12;
/// A key and the number of its record. The entries fill their sectors.
const ENTRY: usize = KEY + 4;
const HEADINGS: Headings = Headings {
    titles: &[(b"TRANSFERS", 9)],
    date: (61876, 30),
    page_end: 65,
    columns: &[],
};

/// A number that is above the entries of lesser keys, and below the entry of this key.
fn key_of(card: &[u8]) -> u128 {
    let mut bytes = [0; ENTRY];
    translate(card, CODES, &mut bytes);
    u128::from_be_bytes(bytes)
}

struct Accounts {
    pack: Vec<u8>,
    file: File,
}

impl Accounts {
    fn entry(&self, place: usize) -> u128 {
        let at = self.file.index + place * ENTRY;
        u128::from_be_bytes(self.pack[at..at + ENTRY].try_into().expect("an entry has its length"))
    }

    fn find(&mut self, key: u128) -> Option<&mut [u8]> {
        let (mut low, mut high) = (0, self.file.count);
        while low < high {
            let middle = (low + high) / 2;
            if self.entry(middle) < key {
                low = middle + 1;
            } else {
                high = middle;
            }
        }
        if low == self.file.count || self.entry(low) >> 32 != key >> 32 {
            return None;
        }
        let at = self.file.records + (self.entry(low) as u32 as usize - 1) * self.file.length;
        Some(&mut self.pack[at..at + self.file.length])
    }
}

/// Moves an amount into an account, and returns the new balance.
fn move_into(record: &mut [u8], amount: i64) -> i64 {
    let balance = packed(&record[28..34]) + amount;
    pack(balance, &mut record[28..34]);
    pack(packed(&record[34..37]) + 1, &mut record[34..37]);
    record[37..43].copy_from_slice(&DATE_IN_RECORDS);
    balance
}

fn main() -> std::io::Result<()> {
    let words: Vec<String> = std::env::args().collect();
    let pack = std::fs::read(&words[1])?;
    let mut input = String::new();
    std::io::stdin().lock().read_to_string(&mut input)?;
    let file = File::first_of(&pack, 1);
    let mut accounts = Accounts { pack, file };
    let mut printer = Printer::headed(&HEADINGS, Vec::new());
    let (mut sum, mut lost, mut count) = (0, 0, 0);
    for card in input.lines().map(str::as_bytes) {
        printer.begin_record(&HEADINGS);
        let (source, target, amount) = (&card[1..13], &card[13..25], zoned(&card[25..32]));
        let Some(record) = accounts.find(key_of(source)) else {
            printer.text(source, 12);
            printer.text(b"NO SUCH ACCOUNT", 29);
            printer.print(1);
            continue;
        };
        let balance = move_into(record, -amount);
        if balance < 0 {
            printer.text(source, 12);
            printer.coded(&record[12..28], CHARACTERS, 30);
            printer.text(b"OVERDRAWN", 41);
            printer.amount(balance, 2, Sign::Minus, 60);
            printer.print(1);
        }
        if let Some(record) = accounts.find(key_of(target)) {
            move_into(record, amount);
            sum += amount;
            count += 1;
        } else {
            lost += amount;
            printer.text(target, 12);
            printer.text(b"NO SUCH ACCOUNT", 29);
            printer.amount(amount, 2, Sign::Minus, 60);
            printer.print(1);
        }
    }
    printer.space(1);
    printer.whole(count, true, 6);
    printer.text(b"TRANSFERS", 16);
    printer.amount(sum, 2, Sign::Never, 40);
    printer.text(b"NOT TAKEN", 52);
    printer.amount(lost, 2, Sign::Never, 72);
    printer.print(1);
    std::fs::write(&words[2], &accounts.pack)?;
    std::io::stdout().lock().write_all(&printer.report())
}
