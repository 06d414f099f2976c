//! A plain program that answers lines `fill L N HEX` over zones in memory by the rules of zonedisk, with the same
//! batches and the same cleans, but without commands, faults, other lines and proofs. A line `list HEX L..` writes
//! blocks that are apart, as a list of zonedisk does.
//!
//! usage: plain ZONES CAPACITY BLOCK_BYTES BATCH BLOCKS < lines
//!
//! BATCH is how many blocks are in a batch at most. At the end it says on standard error how many blocks were
//! written to zones, how many of them were moved, and how many zones were cleaned.

use std::io::{self, BufRead, BufWriter, Write};

const HOST: u16 = 1;
const MOVE: u16 = 2;

#[derive(Default)]
struct Zone {
    bytes: Vec<u8>,
    /// The logical blocks that were written there, also those that are dead by now.
    named: Vec<u32>,
    live: u32,
}

struct Disk {
    zones: Vec<Zone>,
    capacity: usize,
    block_bytes: usize,
    most: usize,
    /// Where the data of each logical block is: its place among all blocks of all zones.
    places: Vec<Option<u32>>,
    /// The zone that batches of the host go to.
    host: Option<usize>,
    /// The zone that the last clean filled, until it is the host's.
    next: Option<usize>,
    sequence: u64,
    /// The header block of the batch that is built, and its data; and the logical blocks that it names.
    batch: Vec<u8>,
    entries: Vec<u32>,
    appended: u64,
    moved: u64,
    cleans: u64,
}

impl Disk {
    fn new(zones: usize, capacity: usize, block_bytes: usize, most: usize, blocks: usize) -> Disk {
        Disk {
            zones: (0..zones).map(|_| Zone::default()).collect(),
            capacity,
            block_bytes,
            most,
            places: vec![None; blocks],
            host: None,
            next: None,
            sequence: 1,
            batch: vec![0; (1 + most) * block_bytes],
            entries: Vec::new(),
            appended: 0,
            moved: 0,
            cleans: 0,
        }
    }

    /// How many blocks of a zone are written.
    fn written(&self, zone: usize) -> usize {
        self.zones[zone].bytes.len() / self.block_bytes
    }

    fn encode(&mut self, kind: u16, source: usize) {
        let header = &mut self.batch[..self.block_bytes];
        header.fill(0);
        header[..8].copy_from_slice(b"ZLOGBAT1");
        header[8..10].copy_from_slice(&2u16.to_le_bytes());
        header[10..12].copy_from_slice(&kind.to_le_bytes());
        header[12..16].copy_from_slice(&(self.entries.len() as u32).to_le_bytes());
        header[16..24].copy_from_slice(&self.sequence.to_le_bytes());
        header[24..28].copy_from_slice(&(source as u32).to_le_bytes());
        header[28..32].copy_from_slice(&(self.places.len() as u32).to_le_bytes());
        for (field, block) in header[32..].chunks_exact_mut(8).zip(&self.entries) {
            field.copy_from_slice(&u64::from(*block).to_le_bytes());
        }
    }

    /// Notes that a logical block lies at a place from now on.
    fn place(&mut self, block: u32, place: usize) {
        if let Some(old) = self.places[block as usize].replace(place as u32) {
            self.zones[old as usize / self.capacity].live -= 1;
        }
        self.zones[place / self.capacity].live += 1;
    }

    fn append(&mut self, to: usize, kind: u16, source: usize) {
        self.encode(kind, source);
        let first = to * self.capacity + self.written(to) + 1;
        let length = (1 + self.entries.len()) * self.block_bytes;
        let zone = &mut self.zones[to];
        if zone.bytes.capacity() == 0 {
            zone.bytes.reserve_exact(self.capacity * self.block_bytes);
        }
        zone.bytes.extend_from_slice(&self.batch[..length]);
        zone.named.extend_from_slice(&self.entries);
        self.appended += 1 + self.entries.len() as u64;
        self.sequence += 1;
        for i in 0..self.entries.len() {
            self.place(self.entries[i], first + i);
        }
    }

    fn empty_zones(&self) -> impl Iterator<Item = usize> + '_ {
        (0..self.zones.len()).filter(|&zone| self.zones[zone].bytes.is_empty())
    }

    fn lies_in(&self, block: u32, zone: usize) -> bool {
        self.places[block as usize].is_some_and(|place| place as usize / self.capacity == zone)
    }

    /// The blocks that lie in a zone, in ascending order. Its list of blocks is empty then.
    fn take_live(&mut self, zone: usize) -> Vec<u32> {
        let mut blocks = std::mem::take(&mut self.zones[zone].named);
        blocks.retain(|&block| self.lies_in(block, zone));
        blocks.sort_unstable();
        blocks.dedup();
        blocks
    }

    /// Appends a Move of these blocks of a zone.
    fn carry(&mut self, blocks: &[u32], from: usize, to: usize) {
        for (i, &block) in blocks.iter().enumerate() {
            let place = self.places[block as usize].unwrap() as usize % self.capacity * self.block_bytes;
            let data = &self.zones[from].bytes[place..place + self.block_bytes];
            self.batch[(1 + i) * self.block_bytes..][..self.block_bytes].copy_from_slice(data);
        }
        self.entries.clear();
        self.entries.extend_from_slice(blocks);
        self.append(to, MOVE, from);
    }

    /// Moves the live blocks of the zone with the fewest to the one that is empty, and empties it.
    fn clean(&mut self) {
        let to = self.empty_zones().next().unwrap();
        let others = (0..self.zones.len()).filter(|&zone| zone != to);
        let victim = others.min_by_key(|&zone| self.zones[zone].live).unwrap();
        let mut blocks = self.take_live(victim);
        for some in blocks.chunks(self.most) {
            self.carry(some, victim, to);
        }
        if blocks.is_empty() {
            self.carry(&[], victim, to);
        }
        self.moved += blocks.len() as u64;
        self.cleans += 1;
        blocks.clear();
        self.zones[victim].named = blocks;
        self.zones[victim].bytes.clear();
        self.next = Some(to);
    }

    /// A zone with room for a batch of the host.
    fn room(&mut self) -> usize {
        if let Some(zone) = self.host.filter(|&zone| self.written(zone) + 2 <= self.capacity) {
            return zone;
        }
        if self.next.is_none() && self.empty_zones().nth(1).is_none() {
            self.clean();
        }
        let zone = self.next.take().or_else(|| self.empty_zones().next()).unwrap();
        self.host = Some(zone);
        zone
    }

    fn fill(&mut self, mut first: u32, count: u32, byte: u8) {
        let end = first + count;
        while first < end {
            let zone = self.room();
            let free = self.capacity - self.written(zone) - 1;
            let some = free.min(self.most).min((end - first) as usize);
            self.batch[self.block_bytes..][..some * self.block_bytes].fill(byte);
            self.entries.clear();
            self.entries.extend(first..first + some as u32);
            self.append(zone, HOST, 0);
            first += some as u32;
        }
    }

    /// Writes blocks, of which no two are the same.
    fn list(&mut self, mut blocks: &[u32], byte: u8) {
        while !blocks.is_empty() {
            let zone = self.room();
            let free = self.capacity - self.written(zone) - 1;
            let (some, rest) = blocks.split_at(free.min(self.most).min(blocks.len()));
            self.batch[self.block_bytes..][..some.len() * self.block_bytes].fill(byte);
            self.entries.clear();
            self.entries.extend_from_slice(some);
            self.append(zone, HOST, 0);
            blocks = rest;
        }
    }

    /// Does what a line says.
    fn answer(&mut self, line: &str) {
        let words: Vec<&str> = line.split_whitespace().collect();
        let byte_of = |word| u8::from_str_radix(word, 16).unwrap();
        match words[..] {
            ["fill", first, count, byte] => self.fill(first.parse().unwrap(), count.parse().unwrap(), byte_of(byte)),
            ["list", byte, ref blocks @ ..] => {
                let blocks: Vec<u32> = blocks.iter().map(|word| word.parse().unwrap()).collect();
                self.list(&blocks, byte_of(byte));
            }
            _ => panic!("a line that is no fill and no list: {line}"),
        }
    }
}

fn main() -> io::Result<()> {
    let words: Vec<usize> = std::env::args().skip(1).map(|word| word.parse().unwrap()).collect();
    let [zones, capacity, block_bytes, most, blocks] = words[..] else {
        panic!("usage: plain ZONES CAPACITY BLOCK_BYTES BATCH BLOCKS");
    };
    let mut disk = Disk::new(zones, capacity, block_bytes, most, blocks);
    let mut replies = BufWriter::new(io::stdout().lock());
    let mut lines = io::stdin().lock();
    let mut line = String::new();
    while lines.read_line(&mut line)? > 0 {
        disk.answer(&line);
        replies.write_all(b"ok\n")?;
        line.clear();
    }
    replies.flush()?;
    eprintln!(
        "all blocks {}\nmoved blocks {}\ncleans {}",
        disk.appended, disk.moved, disk.cleans
    );
    Ok(())
}
