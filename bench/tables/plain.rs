//! The benchmark's tables in plain Rust: a file's records unloaded as CSV, and loaded from CSV into a new file. Cells are written and
//! read as the `csv` crate does it: a table says which bytes need quotes, and a reader goes from state to state by the class of each
//! byte.
//!
//!     plain unload PACK > table.csv
//!     plain load PACK SAVE < table.csv

#[path = "../pack.rs"]
mod pack;

use pack::{CHARACTERS, CODES, File, SECTOR, pack as put_packed, packed};
use std::io::{Read, Write};

const KEY: usize = 6;
const RECORD: usize = 96;
const TRACK: usize = 24;
const LABEL: &[u8; 8] = b"\xC9\xE3\xC5\xD4\xE2\x40\x40\x40";

enum Kind {
    Text,
    Zoned(usize),
    Packed(usize),
}

struct Field {
    name: &'static str,
    from: usize,
    to: usize,
    kind: Kind,
}

const fn field(name: &'static str, from: usize, to: usize, kind: Kind) -> Field {
    Field { name, from: from - 1, to, kind }
}

const FIELDS: [Field; 8] = [
    field("ITEM", 1, 6, Kind::Text),
    field("DESC", 7, 30, Kind::Text),
    field("CITY", 31, 44, Kind::Text),
    field("QTY", 45, 51, Kind::Zoned(0)),
    field("PRICE", 52, 56, Kind::Packed(2)),
    field("WORTH", 57, 62, Kind::Packed(2)),
    field("DATE", 63, 68, Kind::Zoned(0)),
    field("NOTE", 69, 96, Kind::Text),
];

fn main() {
    let words: Vec<String> = std::env::args().collect();
    match words.get(1).map(String::as_str) {
        Some("unload") => unload(&words[2]),
        Some("load") => load(&words[2], &words[3]),
        _ => panic!("unload or load"),
    }
}

/// The digits of the last two places of a number, in front of the others.
fn put_number(cell: &mut Vec<u8>, number: i64, decimals: usize) {
    let mut digits = [b'0'; 20];
    let mut at = digits.len();
    let mut rest = number.unsigned_abs();
    while rest > 0 || digits.len() - at <= decimals {
        at -= 1;
        digits[at] = b'0' + (rest % 10) as u8;
        rest /= 10;
    }
    if number < 0 {
        cell.push(b'-');
    }
    let point = digits.len() - decimals;
    cell.extend_from_slice(&digits[at..point]);
    if decimals > 0 {
        cell.push(b'.');
        cell.extend_from_slice(&digits[point..]);
    }
}

/// The number of a zoned field.
fn zoned(bytes: &[u8]) -> i64 {
    let number = bytes.iter().fold(0, |number, &byte| number * 10 + i64::from(byte & 15));
    if bytes[bytes.len() - 1] >> 4 == 0x0D { -number } else { number }
}

/// Puts a number into a zoned field.
fn put_zoned(number: i64, bytes: &mut [u8]) {
    let mut rest = number.unsigned_abs();
    for byte in bytes.iter_mut().rev() {
        *byte = 0xF0 | (rest % 10) as u8;
        rest /= 10;
    }
    if number < 0 {
        let last = bytes.len() - 1;
        bytes[last] &= 0xDF;
    }
}

fn is_shown(byte: u8) -> bool {
    CHARACTERS_OF_NOTES[usize::from(byte)] != b'?'
}

/// The letters, digits and signs, with the quote, the hyphen and the point as well.
const CHARACTERS_OF_NOTES: &[u8; 256] = &{
    let mut table = *CHARACTERS;
    table[0x7F] = b'"';
    table[0x60] = b'-';
    table[0x4B] = b'.';
    table
};

/// Their codes, and 0 for a byte that is none of them.
const CODES_OF_NOTES: &[u8; 256] = &{
    let mut table = [0; 256];
    let mut byte = 0;
    while byte < 256 {
        if CODES[byte] != 0x40 {
            table[byte] = CODES[byte];
        }
        byte += 1;
    }
    table[b' ' as usize] = 0x40;
    table[b'"' as usize] = 0x7F;
    table[b'-' as usize] = 0x60;
    table[b'.' as usize] = 0x4B;
    table
};

/// The cell of a field.
fn put_cell(cell: &mut Vec<u8>, field: &Field, bytes: &[u8]) {
    match field.kind {
        Kind::Text => {
            for &byte in bytes {
                assert!(is_shown(byte), "a byte that is no character");
                cell.push(CHARACTERS_OF_NOTES[usize::from(byte)]);
            }
            while cell.last() == Some(&b' ') {
                cell.pop();
            }
        }
        Kind::Zoned(decimals) => {
            assert!(bytes.iter().all(|byte| byte & 15 < 10), "a digit above 9");
            put_number(cell, zoned(bytes), decimals);
        }
        Kind::Packed(decimals) => {
            let (last, front) = bytes.split_last().expect("a packed number has bytes");
            assert!(last >> 4 < 10 && front.iter().all(|byte| byte >> 4 < 10 && byte & 15 < 10), "a digit above 9");
            put_number(cell, packed(bytes), decimals);
        }
    }
}

/// Which bytes need quotes around their cell.
const QUOTED: &[bool; 256] = &{
    let mut table = [false; 256];
    table[b',' as usize] = true;
    table[b'"' as usize] = true;
    table[b'\n' as usize] = true;
    table[b'\r' as usize] = true;
    table
};

struct Table<W: Write> {
    out: W,
    is_first: bool,
}

impl<W: Write> Table<W> {
    fn cell(&mut self, cell: &[u8]) {
        if !self.is_first {
            self.out.write_all(b",").expect("output");
        }
        self.is_first = false;
        if cell.iter().any(|&byte| QUOTED[usize::from(byte)]) {
            self.out.write_all(b"\"").expect("output");
            for part in cell.split_inclusive(|&byte| byte == b'"') {
                self.out.write_all(part).expect("output");
                if part.ends_with(b"\"") {
                    self.out.write_all(b"\"").expect("output");
                }
            }
            self.out.write_all(b"\"").expect("output");
        } else {
            self.out.write_all(cell).expect("output");
        }
    }

    fn end(&mut self) {
        self.out.write_all(b"\n").expect("output");
        self.is_first = true;
    }
}

/// Whether an index has the key of each record, once, in order: as it has to be before records are read by it.
fn is_good(pack: &[u8], file: &File) -> bool {
    let mut before: Option<&[u8]> = None;
    for entry in 0..file.count {
        let (key, record) = entry_at(pack, file, entry);
        if record >= file.count || before.is_some_and(|before| before >= key) || key != &record_at(pack, file, record)[..KEY] {
            return false;
        }
        before = Some(key);
    }
    true
}

/// An entry of an index: its key, and the number of its record from 0.
fn entry_at<'a>(pack: &'a [u8], file: &File, entry: usize) -> (&'a [u8], usize) {
    let entries = SECTOR / (KEY + 4);
    let at = file.index + entry / entries * SECTOR + entry % entries * (KEY + 4);
    let bytes = &pack[at..at + KEY + 4];
    let number = bytes[KEY..].iter().fold(0, |number, &byte| number << 8 | usize::from(byte));
    (&bytes[..KEY], number.wrapping_sub(1))
}

fn record_at<'a>(pack: &'a [u8], file: &File, record: usize) -> &'a [u8] {
    &pack[file.records + record * RECORD..][..RECORD]
}

fn unload(path: &str) {
    let pack = std::fs::read(path).expect("a pack");
    let file = File::first_of(&pack, 1);
    assert!(is_good(&pack, &file), "the index is bad");
    let mut table = Table { out: std::io::BufWriter::new(std::io::stdout().lock()), is_first: true };
    for field in &FIELDS {
        table.cell(field.name.as_bytes());
    }
    table.end();
    let mut cell = Vec::new();
    for entry in 0..file.count {
        let record = record_at(&pack, &file, entry_at(&pack, &file, entry).1);
        for field in &FIELDS {
            cell.clear();
            put_cell(&mut cell, field, &record[field.from..field.to]);
            table.cell(&cell);
        }
        table.end();
    }
    table.out.flush().expect("output");
}

// The states of the reader.
const START_ROW: usize = 0;
const START_CELL: usize = 1;
const IN_CELL: usize = 2;
const IN_QUOTES: usize = 3;
const QUOTE_IN_QUOTES: usize = 4;
const END_OF_CELL: usize = 5;
const END_OF_ROW: usize = 6;
const AFTER_RETURN: usize = 7;
const STATES: usize = 8;

// The classes of bytes.
const OTHER: usize = 0;
const DELIMITER: usize = 1;
const QUOTE: usize = 2;
const LINE_FEED: usize = 3;
const RETURN: usize = 4;
const CLASSES: usize = 5;

const CLASS: &[u8; 256] = &{
    let mut table = [OTHER as u8; 256];
    table[b',' as usize] = DELIMITER as u8;
    table[b'"' as usize] = QUOTE as u8;
    table[b'\n' as usize] = LINE_FEED as u8;
    table[b'\r' as usize] = RETURN as u8;
    table
};

/// The next state, and whether the byte is one of the cell.
const NEXT: &[[(u8, bool); CLASSES]; STATES] = &{
    const fn to(state: usize, copies: bool) -> (u8, bool) {
        (state as u8, copies)
    }
    let cell = [to(IN_CELL, true), to(END_OF_CELL, false), to(IN_QUOTES, false), to(END_OF_ROW, false), to(AFTER_RETURN, false)];
    let row = [to(IN_CELL, true), to(END_OF_CELL, false), to(IN_QUOTES, false), to(START_ROW, false), to(START_ROW, false)];
    let in_cell = [to(IN_CELL, true), to(END_OF_CELL, false), to(IN_CELL, true), to(END_OF_ROW, false), to(AFTER_RETURN, false)];
    let in_quotes = [to(IN_QUOTES, true), to(IN_QUOTES, true), to(QUOTE_IN_QUOTES, false), to(IN_QUOTES, true), to(IN_QUOTES, true)];
    let quote = [to(IN_CELL, true), to(END_OF_CELL, false), to(IN_QUOTES, true), to(END_OF_ROW, false), to(AFTER_RETURN, false)];
    [row, cell, in_cell, in_quotes, quote, cell, row, row]
};

/// A row: its cells one behind the other, and where each ends.
#[derive(Default)]
struct Row {
    bytes: Vec<u8>,
    ends: Vec<usize>,
}

impl Row {
    fn cell(&self, place: usize) -> &[u8] {
        let from = if place == 0 { 0 } else { self.ends[place - 1] };
        &self.bytes[from..self.ends[place]]
    }
}

/// Reads the row at the front of a text, and gives how many bytes it takes; none at the end of the text.
fn read_row(text: &[u8], row: &mut Row) -> Option<usize> {
    row.bytes.clear();
    row.ends.clear();
    let mut state = START_ROW;
    for (place, &byte) in text.iter().enumerate() {
        let (next, copies) = NEXT[state][usize::from(CLASS[usize::from(byte)])];
        if copies {
            row.bytes.push(byte);
        }
        state = usize::from(next);
        if state == END_OF_CELL {
            row.ends.push(row.bytes.len());
            state = START_CELL;
        } else if state >= END_OF_ROW {
            row.ends.push(row.bytes.len());
            let pair = state == AFTER_RETURN && text.get(place + 1) == Some(&b'\n');
            return Some(place + 1 + usize::from(pair));
        }
    }
    if state == START_ROW {
        return None;
    }
    row.ends.push(row.bytes.len());
    Some(text.len())
}

/// The number of a cell, in units of the last decimal.
fn number_of(cell: &[u8], digits: usize, decimals: usize) -> Result<i64, &'static str> {
    let (minus, rest) = match cell.split_first() {
        Some((b'-', rest)) => (true, rest),
        Some((b'+', rest)) => (false, rest),
        _ => (false, cell),
    };
    let mut number = 0i64;
    let mut count = 0;
    let mut after: Option<usize> = None;
    for &byte in rest {
        match byte {
            b'0'..=b'9' => {
                number = number.checked_mul(10).and_then(|number| number.checked_add(i64::from(byte - b'0'))).ok_or("too large")?;
                count += 1;
                after = after.map(|after| after + 1);
            }
            b'.' if after.is_none() => after = Some(0),
            _ => return Err("no number"),
        }
    }
    let after = after.unwrap_or(0);
    if count == 0 {
        return Err("no number");
    }
    if after > decimals {
        return Err("too many decimals");
    }
    for _ in after..decimals {
        number = number.checked_mul(10).ok_or("too large")?;
    }
    if number >= 10i64.pow(digits as u32) {
        return Err("too large");
    }
    Ok(if minus { -number } else { number })
}

/// Puts the value of a cell into its field.
fn put_value(cell: &[u8], field: &Field, bytes: &mut [u8]) -> Result<(), &'static str> {
    match field.kind {
        Kind::Text => {
            let end = cell.iter().rposition(|&byte| byte != b' ').map_or(0, |last| last + 1);
            if end > bytes.len() {
                return Err("too long");
            }
            for (place, &byte) in bytes.iter_mut().zip(&cell[..end]) {
                let code = CODES_OF_NOTES[usize::from(byte)];
                if code == 0 {
                    return Err("no character");
                }
                *place = code;
            }
        }
        Kind::Zoned(decimals) => put_zoned(number_of(cell, bytes.len(), decimals)?, bytes),
        Kind::Packed(decimals) => put_packed(number_of(cell, 2 * bytes.len() - 1, decimals)?, bytes),
    }
    Ok(())
}

fn load(path: &str, save: &str) {
    let mut pack = std::fs::read(path).expect("a pack");
    let mut text = Vec::new();
    std::io::stdin().lock().read_to_end(&mut text).expect("a table");
    let mut row = Row::default();
    let mut at = read_row(&text, &mut row).expect("a heading");
    let columns: Vec<&Field> = (0..row.ends.len())
        .map(|place| FIELDS.iter().find(|field| field.name.as_bytes() == row.cell(place)).expect("a name of the layout"))
        .collect();
    assert!(FIELDS.iter().all(|field| columns.iter().any(|column| column.name == field.name)), "a field is missing");
    let mut records: Vec<(u32, [u8; RECORD])> = Vec::new();
    let mut line = 1;
    while let Some(taken) = read_row(&text[at..], &mut row) {
        at += taken;
        line += 1;
        let mut record = [0x40; RECORD];
        assert!(row.ends.len() == columns.len(), "line {line}: another number of cells");
        for (place, field) in columns.iter().enumerate() {
            if let Err(reason) = put_value(row.cell(place), field, &mut record[field.from..field.to]) {
                panic!("line {line}, {}: {reason}", field.name);
            }
        }
        records.push((line, record));
    }
    records.sort_by(|one, other| one.1[..KEY].cmp(&other.1[..KEY]));
    for pair in records.windows(2) {
        assert!(pair[0].1[..KEY] != pair[1].1[..KEY], "line {}: the same key as line {}", pair[1].0, pair[0].0);
    }
    put_file(&mut pack, &records);
    std::fs::write(save, &pack).expect("a file for the pack");
}

fn number_at(bytes: &[u8], at: usize) -> usize {
    usize::from(bytes[at]) << 8 | usize::from(bytes[at + 1])
}

/// Makes the file in the first slot of level 1, at the front of its region, with room for its records.
fn put_file(pack: &mut [u8], records: &[(u32, [u8; RECORD])]) {
    let start = number_at(pack, 14);
    let region = number_at(pack, 16);
    let entries = SECTOR / (KEY + 4);
    let index = (records.len() * RECORD).div_ceil(SECTOR);
    let sectors = (index + records.len().div_ceil(entries)).next_multiple_of(TRACK);
    assert!(sectors <= region, "no room");
    let slot = &mut pack[9 * SECTOR..][..64];
    assert!(slot.iter().all(|&byte| byte == 0), "the slot is used");
    slot[0] = 1;
    slot[1..9].copy_from_slice(LABEL);
    slot[9..11].copy_from_slice(b"\xC9\xD7");
    slot[11..13].copy_from_slice(&(RECORD as u16).to_be_bytes());
    slot[13] = KEY as u8;
    slot[14..16].copy_from_slice(&1u16.to_be_bytes());
    slot[16..18].copy_from_slice(&(start as u16).to_be_bytes());
    slot[18..20].copy_from_slice(&(sectors as u16).to_be_bytes());
    slot[20..24].copy_from_slice(&(records.len() as u32).to_be_bytes());
    slot[24..28].copy_from_slice(&(records.len() as u32).to_be_bytes());
    slot[28..34].copy_from_slice(b"\xF0\xF6\xF1\xF5\xF7\xF6");
    for (place, (_, record)) in records.iter().enumerate() {
        pack[start * SECTOR + place * RECORD..][..RECORD].copy_from_slice(record);
    }
    for (place, (_, record)) in records.iter().enumerate() {
        let at = (start + index + place / entries) * SECTOR + place % entries * (KEY + 4);
        pack[at..at + KEY].copy_from_slice(&record[..KEY]);
        pack[at + KEY..at + KEY + 4].copy_from_slice(&(place as u32 + 1).to_be_bytes());
    }
}
