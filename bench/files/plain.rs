//! What `file_walks` of `crates/s3_bench` does, written plainly in Rust, over a pool of 16 buffers as in `bench/pool/plain.rs`.

use std::collections::HashMap;
use std::env;

const ROOM: usize = 16;
const NONE: usize = usize::MAX;

struct Buffer {
    n: u16,
    is_dirty: bool,
    newer: usize,
    older: usize,
    bytes: [u8; 256],
}

struct Pool {
    store: Vec<u8>,
    reads: u64,
    writes: u64,
    buffers: Vec<Buffer>,
    places: HashMap<u16, usize>,
    newest: usize,
    oldest: usize,
}

impl Pool {
    fn new(store: Vec<u8>) -> Self {
        Pool {
            store,
            reads: 0,
            writes: 0,
            buffers: Vec::with_capacity(ROOM),
            places: HashMap::with_capacity(ROOM),
            newest: NONE,
            oldest: NONE,
        }
    }

    fn unlink(&mut self, i: usize) {
        let (newer, older) = (self.buffers[i].newer, self.buffers[i].older);
        match newer {
            NONE => self.newest = older,
            _ => self.buffers[newer].older = older,
        }
        match older {
            NONE => self.oldest = newer,
            _ => self.buffers[older].newer = newer,
        }
    }

    fn link_first(&mut self, i: usize) {
        self.buffers[i].newer = NONE;
        self.buffers[i].older = self.newest;
        match self.newest {
            NONE => self.oldest = i,
            newest => self.buffers[newest].newer = i,
        }
        self.newest = i;
    }

    fn write_back(&mut self, i: usize) {
        let buffer = &mut self.buffers[i];
        if buffer.is_dirty {
            let at = usize::from(buffer.n) * 256;
            self.store[at..at + 256].copy_from_slice(&buffer.bytes);
            self.writes += 1;
            buffer.is_dirty = false;
        }
    }

    /// The place of a buffer that may be used anew, which is linked nowhere.
    fn free_place(&mut self) -> usize {
        if self.buffers.len() < ROOM {
            self.buffers.push(Buffer {
                n: 0,
                is_dirty: false,
                newer: NONE,
                older: NONE,
                bytes: [0; 256],
            });
            return self.buffers.len() - 1;
        }
        let i = self.oldest;
        self.write_back(i);
        self.unlink(i);
        self.places.remove(&self.buffers[i].n);
        i
    }

    fn load(&mut self, n: u16) -> Option<usize> {
        let at = usize::from(n) * 256;
        if at >= self.store.len() {
            return None;
        }
        if let Some(&i) = self.places.get(&n) {
            self.unlink(i);
            self.link_first(i);
            return Some(i);
        }
        let i = self.free_place();
        self.buffers[i].n = n;
        self.buffers[i].bytes.copy_from_slice(&self.store[at..at + 256]);
        self.reads += 1;
        self.places.insert(n, i);
        self.link_first(i);
        Some(i)
    }

    fn sector(&mut self, n: u16) -> Option<&[u8; 256]> {
        let i = self.load(n)?;
        Some(&self.buffers[i].bytes)
    }

    fn sector_mut(&mut self, n: u16) -> Option<&mut [u8; 256]> {
        let i = self.load(n)?;
        self.buffers[i].is_dirty = true;
        Some(&mut self.buffers[i].bytes)
    }

    fn flush(&mut self) {
        for i in 0..self.buffers.len() {
            self.write_back(i);
        }
    }
}

/// Runs of sectors, in the order of a file's bytes.
struct Extents(Vec<(u16, u16)>);

impl Extents {
    fn sector(&self, mut i: usize) -> Option<u16> {
        for &(start, sectors) in &self.0 {
            if i < usize::from(sectors) {
                return Some(start + i as u16);
            }
            i -= usize::from(sectors);
        }
        None
    }

    fn read(&self, pool: &mut Pool, mut at: usize, mut bytes: &mut [u8]) -> Option<()> {
        while !bytes.is_empty() {
            let count = bytes.len().min(256 - at % 256);
            let (piece, rest) = bytes.split_at_mut(count);
            let sector = pool.sector(self.sector(at / 256)?)?;
            piece.copy_from_slice(&sector[at % 256..at % 256 + count]);
            bytes = rest;
            at += count;
        }
        Some(())
    }

    fn write(&self, pool: &mut Pool, mut at: usize, mut bytes: &[u8]) -> Option<()> {
        while !bytes.is_empty() {
            let count = bytes.len().min(256 - at % 256);
            let (piece, rest) = bytes.split_at(count);
            let sector = pool.sector_mut(self.sector(at / 256)?)?;
            sector[at % 256..at % 256 + count].copy_from_slice(piece);
            bytes = rest;
            at += count;
        }
        Some(())
    }
}

/// Records of one length, one behind another.
struct Records {
    extents: Extents,
    length: usize,
    capacity: u32,
    count: u32,
}

impl Records {
    fn get(&self, pool: &mut Pool, i: u32, bytes: &mut [u8]) -> Option<()> {
        if i >= self.count {
            return None;
        }
        self.extents.read(pool, i as usize * self.length, bytes)
    }

    fn append(&mut self, pool: &mut Pool, bytes: &[u8]) -> Option<()> {
        if self.count == self.capacity {
            return None;
        }
        self.extents.write(pool, self.count as usize * self.length, bytes)?;
        self.count += 1;
        Some(())
    }
}

#[derive(Clone, Copy)]
struct Entry {
    key: [u8; 29],
    number: u32,
}

/// Records with keys: the index lies behind them, and what is added has its entry in memory until the close.
struct Keyed {
    records: Records,
    key_start: usize,
    key_length: usize,
    indexed: u32,
    added: Vec<Entry>,
    /// The first key in each sector of the index.
    firsts: Vec<[u8; 29]>,
}

fn key_of(bytes: &[u8]) -> [u8; 29] {
    let mut key = [0; 29];
    key[29 - bytes.len()..].copy_from_slice(bytes);
    key
}

impl Keyed {
    fn per_sector(&self) -> u32 {
        256 / (self.key_length as u32 + 4)
    }

    fn place_of(&self, i: u32) -> usize {
        let width = self.key_length + 4;
        let per_sector = 256 / width;
        let records = self.records.capacity as usize * self.records.length;
        256 * (records.div_ceil(256) + i as usize / per_sector) + i as usize % per_sector * width
    }

    fn read_entry(&self, pool: &mut Pool, i: u32) -> Option<Entry> {
        let mut buffer = [0; 33];
        let bytes = &mut buffer[..self.key_length + 4];
        self.records.extents.read(pool, self.place_of(i), bytes)?;
        let (key, number) = bytes.split_at(self.key_length);
        Some(Entry {
            key: key_of(key),
            number: u32::from_be_bytes(number.try_into().ok()?),
        })
    }

    fn write_entry(&self, pool: &mut Pool, i: u32, entry: &Entry) -> Option<()> {
        let mut buffer = [0; 33];
        let bytes = &mut buffer[..self.key_length + 4];
        bytes[..self.key_length].copy_from_slice(&entry.key[29 - self.key_length..]);
        bytes[self.key_length..].copy_from_slice(&entry.number.to_be_bytes());
        self.records.extents.write(pool, self.place_of(i), bytes)
    }

    fn read_key(&self, pool: &mut Pool, i: u32) -> Option<[u8; 29]> {
        let mut buffer = [0; 29];
        let bytes = &mut buffer[..self.key_length];
        let at = i as usize * self.records.length + self.key_start - 1;
        self.records.extents.read(pool, at, bytes)?;
        Some(key_of(bytes))
    }

    /// Opens a file, if its index is that of its records.
    fn check(records: Records, pool: &mut Pool) -> Option<Self> {
        let count = records.count;
        let mut file = Keyed {
            records,
            key_start: 1,
            key_length: 6,
            indexed: count,
            added: Vec::new(),
            firsts: Vec::new(),
        };
        let mut last = [0; 29];
        for i in 0..count {
            let entry = file.read_entry(pool, i)?;
            if (i > 0 && entry.key <= last) || entry.number == 0 || entry.number > count {
                return None;
            }
            if file.read_key(pool, entry.number - 1)? != entry.key {
                return None;
            }
            if i % file.per_sector() == 0 {
                file.firsts.push(entry.key);
            }
            last = entry.key;
        }
        Some(file)
    }

    /// Reads the sector of the index that entry `i` lies in, where it isn't this one.
    fn go_to(&self, pool: &mut Pool, sector: &mut (u32, [u8; 256]), i: u32) -> Option<()> {
        let place = i / self.per_sector();
        if sector.0 != place {
            self.records.extents.read(pool, self.place_of(place * self.per_sector()), &mut sector.1)?;
            sector.0 = place;
        }
        Some(())
    }

    fn search(&self, pool: &mut Pool, key: &[u8; 29]) -> Option<Option<u32>> {
        let per_sector = self.per_sector();
        let sectors = self.firsts.partition_point(|first| first <= key) as u32;
        let guess = sectors.saturating_sub(1) * per_sector;
        let key = &key[29 - self.key_length..];
        let (mut low, mut high) = (0, self.indexed);
        let mut sector = (u32::MAX, [0; 256]);
        while low < high {
            let middle = low + (high - low) / 2;
            let first = middle - middle % per_sector;
            let behind = guess + per_sector;
            let i = [guess, behind - 1, behind]
                .into_iter()
                .find(|i| (low..high).contains(i))
                .unwrap_or(if first > low { first } else { middle });
            self.go_to(pool, &mut sector, i)?;
            let width = self.key_length + 4;
            let entry = &sector.1[(i % per_sector) as usize * width..][..width];
            let (other, number) = entry.split_at(self.key_length);
            match other.cmp(key) {
                std::cmp::Ordering::Less => low = i + 1,
                std::cmp::Ordering::Equal => return Some(Some(u32::from_be_bytes(number.try_into().ok()?) - 1)),
                std::cmp::Ordering::Greater => high = i,
            }
        }
        Some(None)
    }

    fn place(&self, pool: &mut Pool, key: &[u8; 29]) -> Option<Option<u32>> {
        if let Some(place) = self.search(pool, key)? {
            return Some(Some(place));
        }
        let found = self.added.binary_search_by(|entry| entry.key.cmp(key));
        Some(found.ok().map(|at| self.added[at].number - 1))
    }

    fn find(&self, pool: &mut Pool, key: &[u8]) -> Option<u32> {
        self.place(pool, &key_of(key))?
    }

    fn add(&mut self, pool: &mut Pool, bytes: &[u8]) -> Option<()> {
        let start = self.key_start - 1;
        let key = key_of(&bytes[start..start + self.key_length]);
        if self.place(pool, &key)?.is_some() || self.records.count == self.records.capacity {
            return None;
        }
        let at = self.added.partition_point(|entry| entry.key < key);
        let number = self.records.count + 1;
        self.added.insert(at, Entry { key, number });
        self.records.append(pool, bytes)
    }

    fn load(&mut self, pool: &mut Pool, bytes: &[u8]) -> Option<()> {
        let start = self.key_start - 1;
        let key = key_of(&bytes[start..start + self.key_length]);
        if self.indexed > 0 && self.read_entry(pool, self.indexed - 1)?.key >= key {
            return None;
        }
        if self.records.count == self.records.capacity {
            return None;
        }
        let number = self.records.count + 1;
        self.write_entry(pool, self.indexed, &Entry { key, number })?;
        self.records.append(pool, bytes)?;
        self.indexed = number;
        Some(())
    }

    fn close(mut self, pool: &mut Pool) -> Option<()> {
        let mut left = self.indexed;
        while let Some(top) = self.added.last().copied() {
            let above = self.added.len() as u32 - 1;
            let last = match left {
                0 => None,
                _ => Some(self.read_entry(pool, left - 1)?),
            };
            match last {
                Some(last) if last.key > top.key => {
                    self.write_entry(pool, left + above, &last)?;
                    left -= 1;
                }
                _ => {
                    self.write_entry(pool, left + above, &top)?;
                    self.added.pop();
                }
            }
        }
        Some(())
    }
}

const SECTORS: u16 = 24_000;
const LENGTH: usize = 96;
const RECORDS: u32 = 60_000;
const KEYED: u32 = 50_000;
const KEYED_ROOM: u32 = 55_000;

fn records_of(capacity: u32, count: u32) -> Records {
    Records {
        extents: Extents(vec![(0, SECTORS)]),
        length: LENGTH,
        capacity,
        count,
    }
}

fn read(pool: &mut Pool, calls: u32) -> Option<u64> {
    let file = records_of(RECORDS, RECORDS);
    let mut bytes = [0; LENGTH];
    let mut total = 0u64;
    for i in 0..calls {
        file.get(pool, i, &mut bytes)?;
        total = total.wrapping_add(u64::from(bytes[0]));
    }
    Some(total)
}

fn direct(pool: &mut Pool, calls: u32) -> Option<u64> {
    let file = records_of(RECORDS, RECORDS);
    let mut bytes = [0; LENGTH];
    let mut total = 0u64;
    for call in 0..calls {
        let i = u64::from(call) * 7_919 % u64::from(RECORDS);
        file.get(pool, i as u32, &mut bytes)?;
        total = total.wrapping_add(u64::from(bytes[0]));
    }
    Some(total)
}

fn load(pool: &mut Pool, calls: u32) -> Option<u64> {
    let mut file = records_of(RECORDS, 0);
    let mut bytes = [0; LENGTH];
    for i in 0..calls {
        bytes[..4].copy_from_slice(&i.to_be_bytes());
        file.append(pool, &bytes)?;
    }
    Some(0)
}

fn number_of(call: u32) -> u32 {
    (u64::from(call) * 7_919 % u64::from(KEYED)) as u32
}

fn load_all(pool: &mut Pool) -> Option<()> {
    let mut file = Keyed::check(records_of(KEYED_ROOM, 0), pool)?;
    let mut bytes = [0; LENGTH];
    for i in 0..KEYED {
        bytes[2..6].copy_from_slice(&(2 * i).to_be_bytes());
        file.load(pool, &bytes)?;
    }
    file.close(pool)
}

fn find(pool: &mut Pool, calls: u32) -> Option<u64> {
    load_all(pool)?;
    let file = Keyed::check(records_of(KEYED_ROOM, KEYED), pool)?;
    let mut key = [0; 6];
    let mut total = 0u64;
    for call in 0..calls {
        key[2..].copy_from_slice(&(2 * number_of(call)).to_be_bytes());
        total = total.wrapping_add(u64::from(file.find(pool, &key)?));
    }
    Some(total)
}

fn add(pool: &mut Pool, calls: u32) -> Option<u64> {
    load_all(pool)?;
    let mut file = Keyed::check(records_of(KEYED_ROOM, KEYED), pool)?;
    let mut bytes = [0; LENGTH];
    for call in 0..calls {
        bytes[2..6].copy_from_slice(&(2 * number_of(call) + 1).to_be_bytes());
        file.add(pool, &bytes)?;
    }
    file.close(pool)?;
    Some(0)
}

fn main() {
    let mut args = env::args().skip(1);
    let walk = match args.next().as_deref() {
        Some("read") => read,
        Some("load") => load,
        Some("direct") => direct,
        Some("find") => find,
        Some("add") => add,
        _ => panic!("an unknown walk"),
    };
    let calls: u32 = args.next().and_then(|n| n.parse().ok()).expect("a count of calls");
    let store = (0..usize::from(SECTORS) * 256).map(|i| (i % 251) as u8).collect();
    let mut pool = Pool::new(store);
    let answer = walk(&mut pool, calls).expect("files");
    pool.flush();
    let left: u64 = pool.store.iter().map(|&byte| u64::from(byte)).sum();
    println!("{answer} {left} {} {}", pool.reads, pool.writes);
}
