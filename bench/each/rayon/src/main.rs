//! The queries of the program beside it by rayon, whose pool is made before the clock starts, or by plain loops with 0 workers.
//! Usage: each scan|group|build|probe|find WORKERS ROWS RUNS.
use rayon::prelude::*;
use rayon::ThreadPoolBuilder;
use std::env;
use std::sync::atomic::{AtomicU64, Ordering};
use std::time::Instant;

#[derive(Clone, Copy)]
struct Row {
    key: u32,
    amount: u32,
}

const KEYS: usize = 1_000_000;
const SLOTS: u64 = 4_194_304;

fn rows(count: usize) -> Vec<Row> {
    let mut word = 1u32;
    let mut next = || {
        word ^= word << 13;
        word ^= word >> 17;
        word ^= word << 5;
        Row { key: word >> 8, amount: word & 255 }
    };
    (0..count).map(|_| next()).collect()
}

struct Table {
    slots: Vec<AtomicU64>,
}

fn slot_of(key: u32) -> u64 {
    (u64::from(key).wrapping_mul(0x9E37_79B9_7F4A_7C15) >> 40) & (SLOTS - 1)
}

impl Table {
    fn new() -> Table {
        Table { slots: (0..SLOTS).map(|_| AtomicU64::new(0)).collect() }
    }

    fn put(&self, key: u32) {
        let word = u64::from(key) + 1;
        let mut slot = slot_of(key);
        loop {
            match self.slots[slot as usize].compare_exchange(0, word, Ordering::SeqCst, Ordering::SeqCst) {
                Ok(_) => return,
                Err(there) if there == word => return,
                Err(_) => slot = (slot + 1) & (SLOTS - 1),
            }
        }
    }

    fn has(&self, key: u32) -> bool {
        let word = u64::from(key) + 1;
        let mut slot = slot_of(key);
        loop {
            match self.slots[slot as usize].load(Ordering::SeqCst) {
                0 => return false,
                there if there == word => return true,
                _ => slot = (slot + 1) & (SLOTS - 1),
            }
        }
    }
}

fn amount(row: &Row) -> u64 {
    if row.key % 7 == 3 { u64::from(row.amount) } else { 0 }
}

fn counted(mut counts: [u64; 64], row: &Row) -> [u64; 64] {
    counts[(row.key % 64) as usize] += 1;
    counts
}

fn added(mut left: [u64; 64], right: [u64; 64]) -> [u64; 64] {
    for (count, more) in left.iter_mut().zip(right) {
        *count += more;
    }
    left
}

fn is_sought(row: &Row) -> bool {
    row.key % 1_000 == 999 && row.amount % 10 == 7 && row.key > 16_777_000
}

fn answer(query: &str, alone: bool, rows: &[Row], keys: &[Row], table: &Table) -> u64 {
    match (query, alone) {
        ("scan", true) => rows.iter().map(amount).sum(),
        ("scan", false) => rows.par_iter().map(amount).sum(),
        ("group", true) => rows.iter().fold([0; 64], counted)[3],
        ("group", false) => rows.par_iter().fold(|| [0; 64], counted).reduce(|| [0; 64], added)[3],
        ("build", true) => {
            keys.iter().for_each(|row| table.put(row.key));
            0
        }
        ("build", false) => {
            keys.par_iter().for_each(|row| table.put(row.key));
            0
        }
        ("probe", true) => rows.iter().filter(|row| table.has(row.key)).count() as u64,
        ("probe", false) => rows.par_iter().filter(|row| table.has(row.key)).count() as u64,
        ("find", true) => rows.iter().position(is_sought).map_or(u64::MAX, |place| place as u64),
        ("find", false) => rows.par_iter().position_first(is_sought).map_or(u64::MAX, |place| place as u64),
        _ => panic!("no such query"),
    }
}

fn main() {
    let words: Vec<String> = env::args().collect();
    let [_, query, workers, count, runs] = &words[..] else { panic!("usage: each QUERY WORKERS ROWS RUNS") };
    let workers: usize = workers.parse().unwrap();
    let rows = rows(count.parse().unwrap());
    let keys = &rows[..rows.len().min(KEYS)];
    let pool = ThreadPoolBuilder::new().num_threads(workers.max(1)).build().unwrap();
    let (mut times, mut given) = (Vec::new(), 0);
    for _ in 0..runs.parse().unwrap() {
        let table = Table::new();
        if query == "probe" {
            keys.iter().for_each(|row| table.put(row.key));
        }
        let start = Instant::now();
        given = if workers == 0 {
            answer(query, true, &rows, keys, &table)
        } else {
            pool.install(|| answer(query, false, &rows, keys, &table))
        };
        times.push(start.elapsed().as_nanos());
    }
    times.sort_unstable();
    println!("{} {} {given}", times[0], times[times.len() / 2]);
}
