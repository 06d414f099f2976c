//! A plain program that mounts the drive in an image by the rules of zonedisk: it reads the headers of all batches,
//! finds the half clean zones, each the lowest of its moment, and then the newest record of each block. It sends no
//! commands, knows no faults, repairs no torn zone, saves nothing, and nothing of it is proved.
//!
//! usage: plain_mount IMAGE
//!
//! It says the seconds that this took, without the reading of the image, and how many zones were half clean. Its time
//! may be quadratic where records of emptied zones stand between others of their block; the images of `bench/run`
//! have no such records.

use std::collections::BTreeSet;
use std::time::Instant;

const MOVE: u16 = 2;
const TRIM: u64 = 1 << 63;

/// What the headers of a zone say.
#[derive(Default)]
struct Zone {
    entries: Vec<u32>,
    /// The first batch, of a zone that has one.
    first: Option<u64>,
    /// The zone that all batches are Moves from.
    source: Option<u32>,
    size: Option<u32>,
}

/// What one entry says of its block: where its data is in the image, or that it is trimmed.
#[derive(Clone, Copy)]
struct Record {
    block: u32,
    zone: u32,
    sequence: u64,
    data: Option<u32>,
}

struct Image {
    bytes: Vec<u8>,
    block: usize,
    /// Where the blocks of each zone begin, and how many there are.
    zones: Vec<(usize, usize)>,
}

fn number(bytes: &[u8], at: usize) -> u32 {
    u32::from_le_bytes(bytes[at..at + 4].try_into().unwrap())
}

fn long(bytes: &[u8], at: usize) -> u64 {
    u64::from_le_bytes(bytes[at..at + 8].try_into().unwrap())
}

fn read_image(path: &str) -> Image {
    let bytes = std::fs::read(path).unwrap();
    let (block, count) = (number(&bytes, 8) as usize, number(&bytes, 12));
    let mut zones = Vec::new();
    let mut at = 64;
    for _ in 0..count {
        let written = number(&bytes, at + 4) as usize;
        zones.push((at + 8, written));
        at += 8 + written * block;
    }
    Image { bytes, block, zones }
}

/// Calls `take` with each record of a zone, and gives what its headers say.
fn scan(image: &Image, zone: u32, mut take: impl FnMut(Record)) -> Zone {
    let (start, written) = image.zones[zone as usize];
    let mut found = Zone::default();
    let mut offset = 0;
    while offset < written {
        let head = &image.bytes[start + offset * image.block..][..image.block];
        if &head[..8] != b"ZLOGBAT1" {
            break;
        }
        let (sequence, source, size) = (long(head, 16), number(head, 24), number(head, 28));
        let moved = u16::from_le_bytes([head[10], head[11]]) == MOVE;
        if found.first.is_none() {
            found.first = Some(sequence);
            found.source = moved.then_some(source);
        }
        found.source = found.source.filter(|old| moved && *old == source);
        found.size = found.size.max(Some(size));
        offset += 1;
        for entry in 0..number(head, 12) as usize {
            let word = long(head, 32 + 8 * entry);
            let block = (word & !TRIM) as u32;
            let data = (word < TRIM).then_some(offset as u32);
            offset += data.is_some() as usize;
            found.entries.push(block);
            take(Record { block, zone, sequence, data });
        }
    }
    found
}

fn is_moved(zones: &[Zone], zone: u32) -> bool {
    let own = &zones[zone as usize];
    own.source.is_some_and(|source| source != zone && zones[source as usize].first.is_some_and(|old| Some(old) < own.first))
}

/// The records of the blocks that zones of Moves name, by block and sequence.
struct Table {
    records: Vec<Record>,
    /// Where the records of each block begin.
    starts: Vec<u32>,
    is_gone: Vec<bool>,
}

impl Table {
    fn new(image: &Image, zones: &[Zone], size: usize) -> Table {
        let mut held = vec![false; size];
        for zone in (0..zones.len() as u32).filter(|zone| is_moved(zones, *zone)) {
            zones[zone as usize].entries.iter().for_each(|block| held[*block as usize] = true);
        }
        let mut records = Vec::new();
        for zone in 0..zones.len() as u32 {
            scan(image, zone, |record| {
                if held[record.block as usize] {
                    records.push(record);
                }
            });
        }
        records.sort_unstable_by_key(|record| (record.block, record.sequence));
        let starts = (0..=size as u32).map(|block| records.partition_point(|r| r.block < block) as u32).collect();
        let is_gone = vec![false; records.len()];
        Table { records, starts, is_gone }
    }

    fn range(&self, block: u32) -> std::ops::Range<usize> {
        self.starts[block as usize] as usize..self.starts[block as usize + 1] as usize
    }

    /// The newest record of a block, of those outside a zone if one is given.
    fn newest(&self, block: u32, outside: Option<u32>) -> Option<Record> {
        let mut others = self.range(block).rev().filter(|at| !self.is_gone[*at]).map(|at| self.records[at]);
        others.find(|record| Some(record.zone) != outside)
    }

    fn forget(&mut self, zone: u32, blocks: &BTreeSet<u32>) {
        for block in blocks {
            for at in self.range(*block) {
                self.is_gone[at] |= self.records[at].zone == zone;
            }
        }
    }
}

/// Whether two records show the same data.
fn show_same(image: &Image, a: Option<Record>, b: Option<Record>) -> bool {
    let zeros = vec![0; image.block];
    let shown = |record: Option<Record>| match record {
        Some(Record { zone, data: Some(offset), .. }) => {
            &image.bytes[image.zones[zone as usize].0 + offset as usize * image.block..][..image.block]
        }
        _ => &zeros[..],
    };
    a.is_some_and(|a| a.data.is_none()) && b.is_none_or(|b| b.data.is_none()) || shown(a) == shown(b)
}

/// Whether nothing is lost with a zone.
fn is_spare(image: &Image, zones: &[Zone], table: &Table, zone: u32, blocks: &BTreeSet<u32>) -> bool {
    let size = zones[zone as usize].size;
    let others = zones.iter().enumerate().filter(|(number, _)| *number != zone as usize);
    if others.map(|(_, other)| other.size).max().flatten() < size {
        return false;
    }
    blocks.iter().all(|block| {
        let newest = table.newest(*block, None);
        newest.is_none_or(|n| n.zone != zone) || show_same(image, newest, table.newest(*block, Some(zone)))
    })
}

/// Empties the half clean zones, the lowest first, and says how many there were.
fn clear(image: &Image, zones: &mut [Zone], table: &mut Table) -> usize {
    let mut waiting: BTreeSet<u32> = (0..zones.len() as u32).filter(|zone| is_moved(zones, *zone)).collect();
    let mut count = 0;
    while let Some(zone) = waiting.pop_first() {
        let blocks: BTreeSet<u32> = zones[zone as usize].entries.iter().copied().collect();
        if !is_moved(zones, zone) || !is_spare(image, zones, table, zone, &blocks) {
            continue;
        }
        table.forget(zone, &blocks);
        zones[zone as usize] = Zone::default();
        waiting.extend(blocks.iter().filter_map(|block| table.newest(*block, None)).map(|record| record.zone));
        count += 1;
    }
    count
}

/// Where the newest record of each block is.
fn places(image: &Image, zones: &[Zone], size: usize) -> Vec<Option<Record>> {
    let mut places: Vec<Option<Record>> = vec![None; size];
    for zone in (0..zones.len() as u32).filter(|zone| zones[*zone as usize].first.is_some()) {
        scan(image, zone, |record| {
            let place = &mut places[record.block as usize];
            if place.is_none_or(|old| old.sequence < record.sequence) {
                *place = Some(record);
            }
        });
    }
    places
}

fn main() {
    let image = read_image(&std::env::args().nth(1).expect("usage: plain_mount IMAGE"));
    let start = Instant::now();
    let mut zones: Vec<Zone> = (0..image.zones.len() as u32).map(|zone| scan(&image, zone, |_| ())).collect();
    let size = zones.iter().filter_map(|zone| zone.size).max().unwrap_or(0) as usize;
    let mut table = Table::new(&image, &zones, size);
    let count = clear(&image, &mut zones, &mut table);
    let placed = places(&image, &zones, size).iter().flatten().count();
    println!("{} {count} {placed}", start.elapsed().as_secs_f64());
}
