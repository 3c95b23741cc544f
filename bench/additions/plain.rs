//! The additions of `source.txt` and the list by key in plain Rust, for both levels of a pack.
//!
//!     plain_rust PACK SAVE < cards      the cards of level 1, the line `:`, those of level 2
//!
//! Prints what `bureau run` prints, and writes the pack.

use std::collections::BTreeMap;
use std::io::{Read, Write};

#[path = "../pack.rs"]
mod pack;
#[path = "../printer.rs"]
mod printer;

use pack::{CHARACTERS, CODES, File, SECTOR, pack, packed, translate};
use printer::{Headings, Printer, Sign, half_adjusted, zoned};

const DATE_IN_RECORDS: [u8; 6] = [0xF0, 0xF6, 0xF1, 0xF5, 0xF7, 0xF6];
const KEY: usize = 6;
const ENTRY: usize = KEY + 4;
const ENTRIES: usize = SECTOR / ENTRY;
const HEADINGS: Headings = Headings {
    titles: &[(b"ITEMS BY KEY", 12)],
    date: (61576, 60),
    page_end: 88,
    columns: &[
        (b"ITEM", 4),
        (b"BIN", 28),
        (b"ON HAND", 38),
        (b"PRICE", 49),
        (b"VALUE", 65),
        (b"MADE", 75),
    ],
};

/// A key as a number, which is in the same order.
fn key_of(bytes: &[u8]) -> u64 {
    bytes[..KEY].iter().fold(0, |number, &byte| number << 8 | u64::from(byte))
}

struct Items<'a> {
    pack: &'a mut [u8],
    file: File,
}

impl Items<'_> {
    fn entry_at(&self, place: usize) -> usize {
        self.file.index + place / ENTRIES * SECTOR + place % ENTRIES * ENTRY
    }

    fn key(&self, place: usize) -> u64 {
        key_of(&self.pack[self.entry_at(place)..])
    }

    fn has(&self, key: u64) -> bool {
        let (mut low, mut high) = (0, self.file.count);
        while low < high {
            let middle = (low + high) / 2;
            match self.key(middle).cmp(&key) {
                std::cmp::Ordering::Less => low = middle + 1,
                std::cmp::Ordering::Greater => high = middle,
                std::cmp::Ordering::Equal => return true,
            }
        }
        false
    }

    /// The record of the entry at a place.
    fn record(&self, place: usize) -> &[u8] {
        let number = &self.pack[self.entry_at(place) + KEY..][..4];
        let number = number.iter().fold(0, |number, &byte| number << 8 | usize::from(byte));
        &self.pack[self.file.records + (number - 1) * self.file.length..][..self.file.length]
    }

    /// Puts what stands behind a card's texts into its record, and gives its value.
    fn put(&mut self, record: usize, card: &[u8]) -> i64 {
        let record = &mut self.pack[record..record + self.file.length];
        let (on_hand, price) = (zoned(&card[26..31]), zoned(&card[31..38]));
        pack(on_hand, &mut record[26..29]);
        pack(price, &mut record[29..33]);
        record[33..39].copy_from_slice(&DATE_IN_RECORDS);
        record[39] = 0x40;
        half_adjusted(on_hand * price, 10)
    }

    /// Adds the items of cards, in any order of their keys.
    fn add(&mut self, cards: &str, report: Vec<u8>) -> Vec<u8> {
        let mut printer = Printer::new(report);
        let mut added: BTreeMap<u64, usize> = BTreeMap::new();
        let mut sum = 0;
        for card in cards.lines().map(str::as_bytes) {
            let place = self.file.count + added.len();
            let record = self.file.records + place * self.file.length;
            translate(&card[..26], CODES, &mut self.pack[record..]);
            let key = key_of(&self.pack[record..]);
            assert!(!self.has(key) && added.insert(key, place).is_none(), "a key is there already");
            sum += self.put(record, card);
        }
        printer.whole(added.len() as i64, true, 6);
        printer.text(b"ITEMS ADDED, VALUE", 26);
        printer.amount(sum, 2, Sign::Never, 44);
        printer.print(1);
        self.close(&added);
        printer.report()
    }

    /// Puts the entries of what was added among the others, from the last one on, and counts the records anew.
    fn close(&mut self, added: &BTreeMap<u64, usize>) {
        let mut old = self.file.count;
        self.file.count += added.len();
        let mut free = self.file.count;
        for (&key, &place) in added.iter().rev() {
            while old > 0 && self.key(old - 1) > key {
                old -= 1;
                free -= 1;
                let from = self.entry_at(old);
                self.pack.copy_within(from..from + ENTRY, self.entry_at(free));
            }
            free -= 1;
            let at = self.entry_at(free);
            self.pack[at..at + KEY].copy_from_slice(&key.to_be_bytes()[8 - KEY..]);
            self.pack[at + KEY..at + ENTRY].copy_from_slice(&(place as u32 + 1).to_be_bytes());
        }
        self.pack[self.file.label + 24..][..4].copy_from_slice(&(self.file.count as u32).to_be_bytes());
    }

    fn list(&self, report: Vec<u8>) -> Vec<u8> {
        let mut printer = Printer::headed(&HEADINGS, report);
        let mut sum = 0;
        for place in 0..self.file.count {
            printer.begin_record(&HEADINGS);
            let record = self.record(place);
            let (on_hand, price) = (packed(&record[26..29]), packed(&record[29..33]));
            let value = half_adjusted(on_hand * price, 10);
            sum += value;
            printer.coded(&record[..6], CHARACTERS, 6);
            printer.coded(&record[6..22], CHARACTERS, 24);
            printer.coded(&record[22..26], CHARACTERS, 29);
            printer.amount(on_hand, 0, Sign::Never, 38);
            printer.amount(price, 3, Sign::Never, 49);
            printer.amount(value, 2, Sign::Never, 65);
            printer.date(zoned(&record[33..39]), 75);
            printer.print(1);
        }
        printer.space(1);
        printer.whole(self.file.count as i64, true, 6);
        printer.text(b"ITEMS", 12);
        printer.text(b"VALUE", 49);
        printer.amount(sum, 2, Sign::Never, 67);
        printer.print(1);
        printer.report()
    }
}

fn main() -> std::io::Result<()> {
    let words: Vec<String> = std::env::args().collect();
    let mut pack = std::fs::read(&words[1])?;
    let mut input = String::new();
    std::io::stdin().lock().read_to_string(&mut input)?;
    let (first, second) = input.split_once(":\n").expect("the cards of two levels");
    let mut report = Vec::new();
    for (area, cards) in [(1, first), (2, second)] {
        let file = File::first_of(&pack, area);
        let mut items = Items { pack: &mut pack, file };
        report.extend_from_slice(if area == 1 { b":report1\n" } else { b":report2\n" });
        report = items.add(cards, report);
        report = items.list(report);
        report.extend_from_slice(if area == 1 { b":halts1\n" } else { b":halts2\n" });
    }
    std::fs::write(&words[2], &pack)?;
    std::io::stdout().lock().write_all(&report)
}
