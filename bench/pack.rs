//! What the benchmarks' plain Rust reads of a pack: a file's records lie at its label's extent, and its index behind them.

pub const SECTOR: usize = 256;

/// The letters, digits and signs that stand in records.
pub const CHARACTERS: &[u8; 256] = &{
    let mut table = [b'?'; 256];
    let mut digit = 0;
    while digit < 10 {
        table[0xF0 + digit] = b'0' + digit as u8;
        digit += 1;
    }
    let mut letter = 0;
    while letter < 26 {
        let code = if letter < 9 { 0xC1 + letter } else if letter < 18 { 0xD1 + letter - 9 } else { 0xE2 + letter - 18 };
        table[code] = b'A' + letter as u8;
        letter += 1;
    }
    table[0x40] = b' ';
    table[0x50] = b'&';
    table[0x6B] = b',';
    table[0x61] = b'/';
    table
};

/// The number of a packed field.
pub fn packed(bytes: &[u8]) -> i64 {
    let (last, front) = bytes.split_last().expect("a packed number has bytes");
    let number = front.iter().fold(0, |number, &byte| number * 100 + i64::from(byte >> 4) * 10 + i64::from(byte & 15));
    let number = number * 10 + i64::from(last >> 4);
    if last & 15 == 0x0D { -number } else { number }
}

/// Puts a number into a packed field.
pub fn pack(number: i64, bytes: &mut [u8]) {
    let (last, front) = bytes.split_last_mut().expect("a packed number has bytes");
    let mut rest = number.unsigned_abs();
    *last = ((rest % 10) as u8) << 4 | if number < 0 { 0x0D } else { 0x0F };
    rest /= 10;
    for byte in front.iter_mut().rev() {
        *byte = (rest % 10) as u8 | ((rest / 10 % 10) as u8) << 4;
        rest /= 100;
    }
}

/// The codes of these characters, and a blank's for any other.
pub const CODES: &[u8; 256] = &{
    let mut table = [0x40; 256];
    let mut code = 0;
    while code < 256 {
        if CHARACTERS[code] != b'?' {
            table[CHARACTERS[code] as usize] = code as u8;
        }
        code += 1;
    }
    table
};

pub fn translate(from: &[u8], table: &[u8; 256], to: &mut [u8]) {
    for (place, &byte) in to.iter_mut().zip(from) {
        *place = table[usize::from(byte)];
    }
}

fn number_at(bytes: &[u8], at: usize) -> usize {
    usize::from(bytes[at]) << 8 | usize::from(bytes[at + 1])
}

/// Where a file lies on the pack.
#[derive(Clone, Copy)]
pub struct File {
    pub label: usize,
    pub records: usize,
    pub index: usize,
    pub length: usize,
    pub count: usize,
}

impl File {
    /// The file in the first slot of an area.
    pub fn first_of(pack: &[u8], area: usize) -> Self {
        let label = (1 + 8 * area) * SECTOR;
        let slot = &pack[label..];
        let length = number_at(slot, 11);
        let capacity = number_at(slot, 20) << 16 | number_at(slot, 22);
        let start = number_at(slot, 16);
        let index = start + (capacity * length).div_ceil(SECTOR);
        let count = number_at(slot, 24) << 16 | number_at(slot, 26);
        File { label, records: start * SECTOR, index: index * SECTOR, length, count }
    }
}
