//! The movements and the list of `samples/stock/README.md` in plain Rust, for both levels of a pack.
//!
//!     plain_rust PACK SAVE < cards      the movement cards of level 1, the line `:`, those of level 2
//!
//! Prints what `bureau run` prints, and writes the pack. A file of the pack is its label's extent: records, then the index.

use std::io::{Read, Write};

const SECTOR: usize = 256;
const PAGE_LINES: usize = 66;
const OVERFLOW_LINE: usize = 60;
const DATE: i64 = 61576;
const KEY: usize = 6;
const ENTRY: usize = KEY + 4;
const ENTRIES: usize = SECTOR / ENTRY;
const EBCDIC: &[u8; 256] = &translation();

/// The letters, digits and signs that stand in keys, descriptions and bins.
const fn translation() -> [u8; 256] {
    let mut table = [b'?'; 256];
    let mut digit = 0;
    while digit < 10 {
        table[0xF0 + digit] = b'0' + digit as u8;
        digit += 1;
    }
    let mut letter = 0;
    while letter < 26 {
        let code = if letter < 9 { 0xC1 + letter } else if letter < 18 { 0xD1 + letter - 9 } else { 0xE2 + letter - 18 };
        table[code] = b'A' + letter as u8;
        letter += 1;
    }
    table[0x40] = b' ';
    table[0x6B] = b',';
    table[0x61] = b'/';
    table
}

/// The line that is being made, and where the printer stands.
struct Printer {
    page: usize,
    line: usize,
    overflow: bool,
    text: [u8; 132],
    report: Vec<u8>,
}

impl Printer {
    fn new(report: Vec<u8>) -> Self {
        Printer { page: 1, line: 1, overflow: false, text: [b' '; 132], report }
    }

    fn text(&mut self, text: &[u8], end: usize) {
        self.text[end - text.len()..end].copy_from_slice(text);
    }

    fn ebcdic(&mut self, text: &[u8], end: usize) {
        let begin = end - text.len();
        for (place, &byte) in self.text[begin..end].iter_mut().zip(text) {
            *place = EBCDIC[usize::from(byte)];
        }
    }

    fn whole(&mut self, number: i64, shows_zero: bool, end: usize) {
        let (mut rest, mut place) = (number, end);
        if rest == 0 && shows_zero {
            self.text[place - 1] = b'0';
        }
        while rest > 0 {
            place -= 1;
            self.text[place] = b'0' + (rest % 10) as u8;
            rest /= 10;
        }
    }

    /// With commas and so many decimals.
    fn amount(&mut self, number: i64, decimals: usize, end: usize) {
        let (mut rest, mut place) = (number.unsigned_abs(), end);
        for _ in 0..decimals {
            place -= 1;
            self.text[place] = b'0' + (rest % 10) as u8;
            rest /= 10;
        }
        if decimals > 0 {
            place -= 1;
            self.text[place] = b'.';
        } else if rest == 0 {
            self.text[place - 1] = b'0';
        }
        let mut shown = 0;
        while rest > 0 {
            if shown > 0 && shown % 3 == 0 {
                place -= 1;
                self.text[place] = b',';
            }
            place -= 1;
            self.text[place] = b'0' + (rest % 10) as u8;
            rest /= 10;
            shown += 1;
        }
    }

    fn date(&mut self, date: i64, end: usize) {
        let mut rest = date;
        for place in (end - 8..end).rev() {
            if end - place == 3 || end - place == 6 {
                self.text[place] = b'/';
                continue;
            }
            self.text[place] = b'0' + (rest % 10) as u8;
            rest /= 10;
        }
        if self.text[end - 8] == b'0' {
            self.text[end - 8] = b' ';
        }
    }

    fn space(&mut self, lines: usize) {
        let from = self.line;
        self.line += lines;
        if self.line > PAGE_LINES {
            self.line -= PAGE_LINES;
            self.page = (self.page + 1) % 10_000;
        } else if from <= OVERFLOW_LINE && self.line > OVERFLOW_LINE {
            self.overflow = true;
        }
    }

    fn first_line(&mut self) {
        if self.line > 1 {
            self.page = (self.page + 1) % 10_000;
            self.line = 1;
        }
    }

    /// Prints the line that was made, and begins the next.
    fn print(&mut self, after: usize) {
        if self.line == OVERFLOW_LINE {
            self.overflow = true;
        }
        let mut head = *b"0000 00 ";
        let mut rest = self.page;
        for place in (0..4).rev() {
            head[place] = b'0' + (rest % 10) as u8;
            rest /= 10;
        }
        head[5] = b'0' + (self.line / 10) as u8;
        head[6] = b'0' + (self.line % 10) as u8;
        self.report.extend_from_slice(&head);
        let shown = self.text.iter().rposition(|&byte| byte != b' ').map_or(0, |last| last + 1);
        self.report.extend_from_slice(&self.text[..shown]);
        self.report.push(b'\n');
        self.text = [b' '; 132];
        self.space(after);
    }
}

fn packed(bytes: &[u8]) -> i64 {
    let (last, front) = bytes.split_last().expect("a packed number has bytes");
    let number = front.iter().fold(0, |number, &byte| number * 100 + i64::from(byte >> 4) * 10 + i64::from(byte & 15));
    let number = number * 10 + i64::from(last >> 4);
    if last & 15 == 0x0D { -number } else { number }
}

fn pack(number: i64, bytes: &mut [u8]) {
    let (last, front) = bytes.split_last_mut().expect("a packed number has bytes");
    let mut rest = number.unsigned_abs();
    *last = ((rest % 10) as u8) << 4 | if number < 0 { 0x0D } else { 0x0F };
    rest /= 10;
    for byte in front.iter_mut().rev() {
        *byte = (rest % 10) as u8 | ((rest / 10 % 10) as u8) << 4;
        rest /= 100;
    }
}

fn zoned(bytes: &[u8]) -> i64 {
    bytes.iter().fold(0, |number, &byte| number * 10 + i64::from(byte & 15))
}

fn number_at(bytes: &[u8], at: usize) -> usize {
    usize::from(bytes[at]) << 8 | usize::from(bytes[at + 1])
}

/// Where the records and the index of a file by key lie on the pack.
#[derive(Clone, Copy)]
struct KeyedFile {
    records: usize,
    index: usize,
    length: usize,
    count: usize,
}

impl KeyedFile {
    /// The file in the first slot of an area.
    fn first_of(pack: &[u8], area: usize) -> Self {
        let slot = &pack[(1 + 8 * area) * SECTOR..];
        let length = number_at(slot, 11);
        let capacity = number_at(slot, 20) << 16 | number_at(slot, 22);
        let start = number_at(slot, 16);
        let index = start + (capacity * length).div_ceil(SECTOR);
        KeyedFile { records: start * SECTOR, index: index * SECTOR, length, count: number_at(slot, 24) << 16 | number_at(slot, 26) }
    }

    fn entry<'a>(&self, pack: &'a [u8], place: usize) -> &'a [u8] {
        let at = self.index + place / ENTRIES * SECTOR + place % ENTRIES * ENTRY;
        &pack[at..at + ENTRY]
    }

    /// Where the record of the entry at a place begins.
    fn nth_by_key(&self, pack: &[u8], place: usize) -> usize {
        let number = number_at(self.entry(pack, place), KEY) << 16 | number_at(self.entry(pack, place), KEY + 2);
        self.records + (number - 1) * self.length
    }

    /// Where the record of a key begins.
    fn find(&self, pack: &[u8], key: &[u8]) -> Option<usize> {
        let (mut low, mut high) = (0, self.count);
        while low < high {
            let middle = (low + high) / 2;
            match self.entry(pack, middle)[..KEY].cmp(key) {
                std::cmp::Ordering::Less => low = middle + 1,
                std::cmp::Ordering::Greater => high = middle,
                std::cmp::Ordering::Equal => return Some(self.nth_by_key(pack, middle)),
            }
        }
        None
    }
}

struct Department<'a> {
    name: &'a [u8],
    pack: &'a mut [u8],
    stock: KeyedFile,
    prices: KeyedFile,
}

impl Department<'_> {
    fn movement_headings(&self, printer: &mut Printer, pages: &mut i64) {
        *pages += 1;
        printer.first_line();
        printer.text(self.name, 4);
        printer.text(b"STOCK", 10);
        printer.text(b"MOVEMENTS", 20);
        printer.date(DATE, 54);
        printer.text(b"PAGE", 74);
        printer.whole(*pages, false, 79);
        printer.print(2);
        for (text, end) in [(&b"ITEM"[..], 4), (b"QUANTITY", 42), (b"ON HAND", 54), (b"PRICE", 65), (b"VALUE", 79)] {
            printer.text(text, end);
        }
        printer.print(2);
        printer.overflow = false;
    }

    fn movements(&mut self, cards: &str, report: Vec<u8>) -> Vec<u8> {
        let mut printer = Printer::new(report);
        let mut pages = 0;
        self.movement_headings(&mut printer, &mut pages);
        let (mut received, mut issued) = (0, 0);
        for card in cards.lines().map(str::as_bytes) {
            if printer.overflow {
                self.movement_headings(&mut printer, &mut pages);
            }
            let mut key = [0; KEY];
            for (code, &byte) in key.iter_mut().zip(&card[1..7]) {
                *code = ebcdic_of(byte);
            }
            printer.text(&card[1..7], 6);
            match self.stock.find(self.pack, &key) {
                Some(at) => self.movement(card, &key, at, &mut printer, &mut received, &mut issued),
                None => printer.text(b"NO SUCH ITEM", 34),
            }
            printer.print(1);
        }
        printer.space(1);
        printer.text(b"RECEIVED", 34);
        printer.amount(received, 2, 54);
        printer.text(b"ISSUED", 65);
        printer.amount(issued, 2, 79);
        printer.print(1);
        printer.report
    }

    fn movement(&mut self, card: &[u8], key: &[u8; KEY], at: usize, printer: &mut Printer, received: &mut i64, issued: &mut i64) {
        let quantity = zoned(&card[7..12]);
        let mut on_hand = packed(&self.pack[at + 10..at + 14]);
        let least = packed(&self.pack[at + 14..at + 17]);
        let is_issue = card[0] == b'I';
        let is_short = is_issue && quantity > on_hand;
        if !is_short {
            on_hand += if is_issue { -quantity } else { quantity };
            pack(on_hand, &mut self.pack[at + 10..at + 14]);
            self.pack[at + 17..at + 23].copy_from_slice(&[0xF0, 0xF6, 0xF1, 0xF5, 0xF7, 0xF6]);
        }
        printer.text(if is_issue { b"  ISSUED" } else { b"RECEIVED" }, 34);
        printer.amount(quantity, 0, 42);
        printer.amount(on_hand, 0, 53);
        match self.prices.find(self.pack, key) {
            None => printer.text(b"NO PRICE", 24),
            Some(place) => {
                printer.ebcdic(&self.pack[place + 6..place + 22], 24);
                let price = packed(&self.pack[place + 22..place + 26]);
                printer.amount(price, 3, 65);
                if !is_short {
                    let value = (quantity * price + 5) / 10;
                    *if is_issue { issued } else { received } += value;
                    printer.amount(value, 2, 79);
                }
            }
        }
        if is_short {
            printer.text(b"SHORT", 86);
        } else if on_hand < least {
            printer.text(b"BELOW LEAST", 92);
        }
    }

    fn list_headings(&self, printer: &mut Printer, pages: &mut i64) {
        *pages += 1;
        printer.first_line();
        printer.text(self.name, 4);
        printer.text(b"STOCK LIST", 15);
        printer.date(DATE, 59);
        printer.text(b"PAGE", 82);
        printer.whole(*pages, false, 87);
        printer.print(2);
        for (text, end) in [(&b"ITEM"[..], 4), (b"BIN", 30), (b"ON HAND", 40), (b"LEAST", 47), (b"PRICE", 58), (b"VALUE", 74), (b"MOVED", 84)] {
            printer.text(text, end);
        }
        printer.print(2);
        printer.overflow = false;
    }

    fn list(&self, report: Vec<u8>) -> Vec<u8> {
        let mut printer = Printer::new(report);
        let mut pages = 0;
        self.list_headings(&mut printer, &mut pages);
        let mut total = 0;
        for place in 0..self.stock.count {
            if printer.overflow {
                self.list_headings(&mut printer, &mut pages);
            }
            let at = self.stock.nth_by_key(self.pack, place);
            let record = &self.pack[at..at + 24];
            let (on_hand, least) = (packed(&record[10..14]), packed(&record[14..17]));
            printer.ebcdic(&record[..6], 6);
            printer.ebcdic(&record[6..10], 30);
            printer.amount(on_hand, 0, 40);
            printer.whole(least, true, 47);
            printer.date(zoned(&record[17..23]), 84);
            match self.prices.find(self.pack, &record[..KEY]) {
                None => printer.text(b"NO PRICE", 24),
                Some(place) => {
                    printer.ebcdic(&self.pack[place + 6..place + 22], 24);
                    let price = packed(&self.pack[place + 22..place + 26]);
                    let value = (on_hand * price + 5) / 10;
                    total += value;
                    printer.amount(price, 3, 58);
                    printer.amount(value, 2, 74);
                }
            }
            if on_hand < least {
                printer.text(b"*", 86);
            }
            printer.print(1);
        }
        printer.space(1);
        printer.whole(self.stock.count as i64, true, 6);
        printer.text(b"ITEMS", 12);
        printer.text(b"STOCK VALUE", 47);
        printer.amount(total, 2, 74);
        printer.print(1);
        printer.report
    }
}

fn ebcdic_of(byte: u8) -> u8 {
    match byte {
        b'0'..=b'9' => byte - b'0' + 0xF0,
        b'A'..=b'I' => byte - b'A' + 0xC1,
        b'J'..=b'R' => byte - b'J' + 0xD1,
        b'S'..=b'Z' => byte - b'S' + 0xE2,
        _ => 0x40,
    }
}

fn main() -> std::io::Result<()> {
    let words: Vec<String> = std::env::args().collect();
    let mut pack = std::fs::read(&words[1])?;
    let mut input = String::new();
    std::io::stdin().lock().read_to_string(&mut input)?;
    let (first, second) = input.split_once(":\n").expect("the cards of two levels");
    let prices = KeyedFile::first_of(&pack, 0);
    let mut report = Vec::new();
    for (level, (name, cards)) in [(&b"SHOP"[..], first), (b"YARD", second)].into_iter().enumerate() {
        let stock = KeyedFile::first_of(&pack, level + 1);
        let mut department = Department { name, pack: &mut pack, stock, prices };
        report.extend_from_slice(if level == 0 { b":report1\n" } else { b":report2\n" });
        report = department.movements(cards, report);
        report = department.list(report);
        report.extend_from_slice(if level == 0 { b":halts1\n" } else { b":halts2\n" });
    }
    std::fs::write(&words[2], &pack)?;
    std::io::stdout().lock().write_all(&report)
}
