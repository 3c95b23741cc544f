//! What `pool_walks` of `crates/s3_bench` does, written plainly in Rust: a `Vec` of 16 buffers, linked in the order of their
//! last use, and a map from sectors to them.

use std::collections::HashMap;
use std::env;

const ROOM: usize = 16;
const NONE: usize = usize::MAX;

struct Buffer {
    n: u16,
    is_dirty: bool,
    newer: usize,
    older: usize,
    bytes: [u8; 256],
}

struct Pool {
    store: Vec<u8>,
    buffers: Vec<Buffer>,
    places: HashMap<u16, usize>,
    newest: usize,
    oldest: usize,
}

impl Pool {
    fn new(store: Vec<u8>) -> Self {
        Pool {
            store,
            buffers: Vec::with_capacity(ROOM),
            places: HashMap::with_capacity(ROOM),
            newest: NONE,
            oldest: NONE,
        }
    }

    fn unlink(&mut self, i: usize) {
        let (newer, older) = (self.buffers[i].newer, self.buffers[i].older);
        match newer {
            NONE => self.newest = older,
            _ => self.buffers[newer].older = older,
        }
        match older {
            NONE => self.oldest = newer,
            _ => self.buffers[older].newer = newer,
        }
    }

    fn link_first(&mut self, i: usize) {
        self.buffers[i].newer = NONE;
        self.buffers[i].older = self.newest;
        match self.newest {
            NONE => self.oldest = i,
            newest => self.buffers[newest].newer = i,
        }
        self.newest = i;
    }

    fn write_back(&mut self, i: usize) {
        let buffer = &mut self.buffers[i];
        if buffer.is_dirty {
            let at = usize::from(buffer.n) * 256;
            self.store[at..at + 256].copy_from_slice(&buffer.bytes);
            buffer.is_dirty = false;
        }
    }

    /// The place of a buffer that may be used anew, which is linked nowhere.
    fn free_place(&mut self) -> usize {
        if self.buffers.len() < ROOM {
            self.buffers.push(Buffer {
                n: 0,
                is_dirty: false,
                newer: NONE,
                older: NONE,
                bytes: [0; 256],
            });
            return self.buffers.len() - 1;
        }
        let i = self.oldest;
        self.write_back(i);
        self.unlink(i);
        self.places.remove(&self.buffers[i].n);
        i
    }

    fn load(&mut self, n: u16) -> Option<usize> {
        let at = usize::from(n) * 256;
        if at >= self.store.len() {
            return None;
        }
        if let Some(&i) = self.places.get(&n) {
            self.unlink(i);
            self.link_first(i);
            return Some(i);
        }
        let i = self.free_place();
        self.buffers[i].n = n;
        self.buffers[i].bytes.copy_from_slice(&self.store[at..at + 256]);
        self.places.insert(n, i);
        self.link_first(i);
        Some(i)
    }

    fn sector(&mut self, n: u16) -> Option<&[u8; 256]> {
        let i = self.load(n)?;
        Some(&self.buffers[i].bytes)
    }

    fn sector_mut(&mut self, n: u16) -> Option<&mut [u8; 256]> {
        let i = self.load(n)?;
        self.buffers[i].is_dirty = true;
        Some(&mut self.buffers[i].bytes)
    }

    fn flush(&mut self) {
        for i in 0..self.buffers.len() {
            self.write_back(i);
        }
    }
}

#[derive(Clone, Copy)]
enum Order {
    Sequential,
    Random,
    Few,
}

fn walk_of(name: &str) -> Option<(Order, bool)> {
    Some(match name {
        "sequential-read" => (Order::Sequential, false),
        "random-read" => (Order::Random, false),
        "sequential-write" => (Order::Sequential, true),
        "random-write" => (Order::Random, true),
        "hit-read" => (Order::Few, false),
        "hit-write" => (Order::Few, true),
        _ => return None,
    })
}

fn next_sector(order: Order, sectors: u16, call: u32, state: u64) -> (u16, u64) {
    let count = u64::from(sectors);
    match order {
        Order::Sequential => ((u64::from(call) % count) as u16, state),
        Order::Few => ((u64::from(call) % count.min(8)) as u16, state),
        Order::Random => {
            let next = state
                .wrapping_mul(6_364_136_223_846_793_005)
                .wrapping_add(1_442_695_040_888_963_407);
            (((next >> 33) % count) as u16, next)
        }
    }
}

fn use_pool(pool: &mut Pool, (order, writes): (Order, bool), sectors: u16, calls: u32) -> Option<u64> {
    let mut total = 0u64;
    let mut state = 1;
    for call in 0..calls {
        let (n, next) = next_sector(order, sectors, call, state);
        state = next;
        let at = usize::from(n % 256);
        if writes {
            let sector = pool.sector_mut(n)?;
            sector[at] = sector[at].wrapping_add(1);
        } else {
            let sector = pool.sector(n)?;
            total = total.wrapping_add(u64::from(sector[at]));
        }
    }
    Some(total)
}

fn main() {
    let mut args = env::args().skip(1);
    let walk = args.next().and_then(|name| walk_of(&name)).expect("a walk");
    let sectors: u16 = args.next().and_then(|n| n.parse().ok()).expect("a count of sectors");
    let calls: u32 = args.next().and_then(|n| n.parse().ok()).expect("a count of calls");
    let store = (0..usize::from(sectors) * 256).map(|i| (i % 251) as u8).collect();
    let mut pool = Pool::new(store);
    let read = use_pool(&mut pool, walk, sectors, calls).expect("sectors");
    pool.flush();
    let left: u64 = pool.store.iter().map(|&byte| u64::from(byte)).sum();
    println!("{read} {left}");
}
