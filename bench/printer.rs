//! The printer and the numbers of the benchmarks' plain Rust: lines made in one room, digits written by hand.

const PAGE_LINES: usize = 66;
const OVERFLOW_LINE: usize = 60;

#[derive(Clone, Copy)]
pub enum Sign {
    Never,
    Minus,
    Credit,
}

type Pieces = &'static [(&'static [u8], usize)];

/// The headings of a report: titles with the date and the number of the page, then columns, if there are any.
pub struct Headings {
    pub titles: Pieces,
    pub date: (i64, usize),
    pub page_end: usize,
    pub columns: Pieces,
}

/// The line that is being made, and the printer's place.
pub struct Printer {
    headings: i64,
    page: usize,
    line: usize,
    overflow: bool,
    text: [u8; 132],
    report: Vec<u8>,
}

impl Printer {
    pub fn new(report: Vec<u8>) -> Self {
        Printer { headings: 0, page: 1, line: 1, overflow: false, text: [b' '; 132], report }
    }

    /// A printer whose first page has its headings.
    pub fn headed(headings: &Headings, report: Vec<u8>) -> Self {
        let mut printer = Printer::new(report);
        printer.put_headings(headings);
        printer
    }

    /// Prints headings on a new page if they are due.
    pub fn begin_record(&mut self, headings: &Headings) {
        if self.overflow {
            self.put_headings(headings);
        }
    }

    fn put_headings(&mut self, headings: &Headings) {
        self.headings += 1;
        self.first_line();
        self.pieces(headings.titles);
        self.date(headings.date.0, headings.date.1);
        self.text(b"PAGE", headings.page_end - 5);
        self.whole(self.headings, false, headings.page_end);
        self.print(2);
        if !headings.columns.is_empty() {
            self.pieces(headings.columns);
            self.print(2);
        }
        self.overflow = false;
    }

    fn pieces(&mut self, pieces: Pieces) {
        for (text, end) in pieces {
            self.text(text, *end);
        }
    }

    pub fn text(&mut self, text: &[u8], end: usize) {
        self.text[end - text.len()..end].copy_from_slice(text);
    }

    /// The characters of codes that a table translates.
    pub fn coded(&mut self, codes: &[u8], table: &[u8; 256], end: usize) {
        let begin = end - codes.len();
        for (place, &code) in self.text[begin..end].iter_mut().zip(codes) {
            *place = table[usize::from(code)];
        }
    }

    /// Digits without leading zeros; a zero is blank unless it is to be shown.
    pub fn whole(&mut self, number: i64, shows_zero: bool, end: usize) {
        let (mut rest, mut place) = (number, end);
        if rest == 0 && shows_zero {
            self.text[place - 1] = b'0';
        }
        while rest > 0 {
            place -= 1;
            self.text[place] = b'0' + (rest % 10) as u8;
            rest /= 10;
        }
    }

    /// With commas and so many decimals; the sign is in the last columns.
    pub fn amount(&mut self, number: i64, decimals: usize, sign: Sign, end: usize) {
        self.edited::<true>(number, decimals, sign, end);
    }

    /// As `amount`, without commas.
    pub fn ungrouped(&mut self, number: i64, decimals: usize, sign: Sign, end: usize) {
        self.edited::<false>(number, decimals, sign, end);
    }

    fn edited<const HAS_COMMAS: bool>(&mut self, number: i64, decimals: usize, sign: Sign, end: usize) {
        let mut place = self.sign(number < 0, sign, end);
        let mut rest = number.unsigned_abs();
        for _ in 0..decimals {
            place -= 1;
            self.text[place] = b'0' + (rest % 10) as u8;
            rest /= 10;
        }
        if decimals > 0 {
            place -= 1;
            self.text[place] = b'.';
        } else if rest == 0 {
            self.text[place - 1] = b'0';
        }
        let mut shown = 0;
        while rest > 0 {
            if HAS_COMMAS && shown > 0 && shown % 3 == 0 {
                place -= 1;
                self.text[place] = b',';
            }
            place -= 1;
            self.text[place] = b'0' + (rest % 10) as u8;
            rest /= 10;
            shown += 1;
        }
    }

    /// Where the digits end.
    fn sign(&mut self, is_minus: bool, sign: Sign, end: usize) -> usize {
        match sign {
            Sign::Never => end,
            Sign::Minus => {
                if is_minus {
                    self.text[end - 1] = b'-';
                }
                end - 1
            }
            Sign::Credit => {
                if is_minus {
                    self.text[end - 2..end].copy_from_slice(b"CR");
                }
                end - 2
            }
        }
    }

    /// So many digits as they are punched, a number below zero with zone D in its last column.
    pub fn punched(&mut self, number: i64, digits: usize, end: usize) {
        let mut rest = number.unsigned_abs();
        for place in self.text[end - digits..end].iter_mut().rev() {
            *place = b'0' + (rest % 10) as u8;
            rest /= 10;
        }
        if number < 0 {
            let last = &mut self.text[end - 1];
            *last = if *last == b'0' { b'}' } else { *last - b'1' + b'J' };
        }
    }

    pub fn date(&mut self, date: i64, end: usize) {
        let mut rest = date;
        for place in (end - 8..end).rev() {
            if end - place == 3 || end - place == 6 {
                self.text[place] = b'/';
                continue;
            }
            self.text[place] = b'0' + (rest % 10) as u8;
            rest /= 10;
        }
        if self.text[end - 8] == b'0' {
            self.text[end - 8] = b' ';
        }
    }

    pub fn space(&mut self, lines: usize) {
        let from = self.line;
        self.line += lines;
        if self.line > PAGE_LINES {
            self.line -= PAGE_LINES;
            self.page = (self.page + 1) % 10_000;
        } else if from <= OVERFLOW_LINE && self.line > OVERFLOW_LINE {
            self.overflow = true;
        }
    }

    fn first_line(&mut self) {
        if self.line > 1 {
            self.page = (self.page + 1) % 10_000;
            self.line = 1;
        }
    }

    /// Prints the line that was made, and begins the next.
    pub fn print(&mut self, after: usize) {
        if self.line == OVERFLOW_LINE {
            self.overflow = true;
        }
        let mut head = *b"0000 00 ";
        let mut rest = self.page;
        for place in (0..4).rev() {
            head[place] = b'0' + (rest % 10) as u8;
            rest /= 10;
        }
        head[5] = b'0' + (self.line / 10) as u8;
        head[6] = b'0' + (self.line % 10) as u8;
        self.report.extend_from_slice(&head);
        let shown = self.text.iter().rposition(|&byte| byte != b' ').map_or(0, |last| last + 1);
        self.report.extend_from_slice(&self.text[..shown]);
        self.report.push(b'\n');
        self.text = [b' '; 132];
        self.space(after);
    }

    pub fn report(self) -> Vec<u8> {
        self.report
    }
}

/// Digits on a card or in a record, without a sign.
pub fn zoned(bytes: &[u8]) -> i64 {
    bytes.iter().fold(0, |number, &byte| number * 10 + i64::from(byte & 15))
}

/// The digits on a card of a number that may be below zero.
pub fn signed(bytes: &[u8]) -> i64 {
    let (&last, front) = bytes.split_last().expect("a number has digits");
    let front = zoned(front) * 10;
    match last {
        b'}' => -front,
        b'J'..=b'R' => -(front + i64::from(last - b'J') + 1),
        _ => front + i64::from(last & 15),
    }
}

/// Divided by a power of ten, half adjusted.
pub fn half_adjusted(number: i64, divisor: i64) -> i64 {
    (number + number.signum() * divisor / 2) / divisor
}
