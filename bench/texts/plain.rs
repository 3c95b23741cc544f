//! The list of `source.txt` in plain Rust: cards on standard input, the report on standard output.
//! The characters that are compared are letters, blanks, and digits where all texts have digits: their order is that of the cards.

use std::io::{Read, Write};

#[path = "../printer.rs"]
mod printer;

use printer::{Headings, Printer};

const HEADINGS: Headings = Headings {
    titles: &[(b"MEMBERS AND FIRMS", 17)],
    date: (61876, 60),
    page_end: 93,
    columns: &[
        (b"NAME", 22),
        (b"STREET", 50),
        (b"TOWN", 69),
        (b"MEMBER", 95),
        (b"INTERESTS", 107),
        (b"ZONE", 126),
    ],
};

struct Society<'a> {
    printer: Printer,
    town: &'a [u8],
    name: [u8; 20],
    greatest: [u8; 10],
    remark: &'static [u8],
    east: i64,
    to_look_at: i64,
}

/// A text moved to the left of a field.
fn moved_left(text: &[u8]) -> [u8; 20] {
    let mut field = [b' '; 20];
    field[..text.len()].copy_from_slice(text);
    field
}

fn title(card: &[u8]) -> &'static [u8] {
    match (card[0], card[33], card[34]) {
        (b'B', ..) => b"FIRM",
        (_, b'M', _) => b"MR. ",
        (_, b'D', _) => b"DR. ",
        (.., b'S') => b"MISS",
        _ => b"MRS.",
    }
}

fn zone(state: &[u8], zip: &[u8]) -> &'static [u8] {
    match state {
        b"NY" | b"NJ" => b"EAST",
        b"OH" => b"MIDDLE",
        b"PA" if zip > b"18500" => b"MIDDLE",
        _ => b"WEST",
    }
}

fn membership(kind: u8) -> &'static [u8] {
    match kind {
        b'A' => b"LIFE    ",
        b'B' => b"PATRON  ",
        b'C' => b"FULL    ",
        _ => b"JUNIOR  ",
    }
}

fn interest(code: u8) -> &'static [u8] {
    match code {
        b'A' => b"ART    ",
        b'B' => b"BOOKS  ",
        b'M' => b"MUSIC  ",
        b'S' => b"SPORT  ",
        b'T' => b"TRAVEL ",
        _ => b"       ",
    }
}

impl<'a> Society<'a> {
    fn card(&mut self, card: &'a [u8]) {
        self.printer.begin_record(&HEADINGS);
        let is_firm = card[0] == b'B';
        let begin = card[1..21].iter().position(|&byte| byte != b' ').unwrap_or(0);
        let name = moved_left(&card[1 + begin..21]);
        let has_no_name = name[0] == b' ';
        let (first, town, zip, kind) = (&card[21..33], &card[55..69], &card[71..76], card[76]);
        let is_in_order = if is_firm { name > self.name && !has_no_name } else { name >= self.name && !(*first == name[..12] && name[12..] == [b' '; 8]) };
        let is_seen = (kind == b'C' && town == self.town) || (kind > b'C' && card[33] == b'F' && !is_in_order);
        let is_below = town <= self.town;
        self.town = town;
        self.name = name;
        let mut key = [b' '; 10];
        key[..3].copy_from_slice(&town[..3]);
        key[3..7].copy_from_slice(&name[..4]);
        key[7..].copy_from_slice(&zip[2..]);
        self.greatest = self.greatest.max(key);
        self.east += i64::from(&card[69..71] == b"NY");
        let printer = &mut self.printer;
        printer.text(title(card), 4);
        printer.text(first, 17);
        printer.text(&name, 38);
        let street = &card[35..55];
        let has_number = street[0].is_ascii_digit();
        let digits = if has_number { street.iter().position(|&byte| byte == b' ').unwrap_or(20) } else { 0 };
        printer.text(&street[..digits], 43);
        printer.text(&moved_left(&street[if has_number { digits + 1 } else { 0 }..]), 64);
        printer.text(town, 79);
        printer.text(&card[69..71], 82);
        printer.text(zip, 88);
        printer.text(membership(kind), 97);
        for (&code, end) in card[77..80].iter().zip([105, 113, 121]) {
            printer.text(interest(code), end);
        }
        let zone = zone(&card[69..71], zip);
        printer.text(zone, 122 + zone.len());
        if is_in_order {
            printer.text(b"*", 130);
        }
        printer.print(1);
        self.remark = match (has_no_name, is_seen, has_number) {
            (true, ..) => b"NO NAME",
            (_, true, _) => b"SEE    ",
            (.., false) => b"STREET ",
            _ => self.remark,
        };
        if (!has_number && is_below) || has_no_name || (is_seen && first >= b"JOHN        ") {
            self.to_look_at += 1;
            self.printer.text(&key, 48);
            self.printer.text(self.remark, 56);
            self.printer.text(&self.greatest, 72);
            self.printer.print(1);
        }
    }

    fn end(mut self) -> Vec<u8> {
        let printer = &mut self.printer;
        printer.space(1);
        printer.whole(self.east, true, 6);
        printer.text(b"IN THE EAST,", 19);
        printer.whole(self.to_look_at, true, 25);
        printer.text(b"TO LOOK AT", 36);
        printer.text(b"GREATEST KEY", 50);
        printer.text(&self.greatest, 61);
        printer.print(1);
        self.printer.report()
    }
}

fn main() -> std::io::Result<()> {
    let mut input = String::new();
    std::io::stdin().lock().read_to_string(&mut input)?;
    let mut society =
        Society { printer: Printer::headed(&HEADINGS, Vec::new()), town: &[b' '; 14], name: [b' '; 20], greatest: [b' '; 10], remark: b"", east: 0, to_look_at: 0 };
    for line in input.lines() {
        society.card(line.as_bytes());
    }
    std::io::stdout().lock().write_all(&society.end())
}
