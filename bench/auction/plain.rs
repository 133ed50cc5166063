//! Auctions of the shapes of `bench/auction/run` by a plain program with sorted sets, without proofs.
//!
//!     plain JOBS PROCESSES CELLS ZONES SMALL
//!
//! prints the nanoseconds that a job takes, the best of five auctions, and a hash of the placements.
use std::collections::{BTreeMap, BTreeSet, HashMap};
use std::time::Instant;

struct Shape {
    jobs: u32,
    processes: u32,
    cells: u32,
    zones: u32,
    small: bool,
}

#[derive(Clone, Copy)]
struct Job {
    process: u32,
    index: u32,
    memory: u32,
    disk: u32,
}

#[derive(Clone, Copy)]
struct Amounts {
    memory: u32,
    disk: u32,
    containers: u32,
}

#[derive(Clone, Copy)]
struct Cell {
    zone: u32,
    totals: Amounts,
    free: Amounts,
}

fn share(total: u32, free: u32) -> u32 {
    if total == 0 { 0 } else { (1000 * u64::from(total - free) / u64::from(total)) as u32 }
}

impl Cell {
    fn load(&self) -> u32 {
        share(self.totals.memory, self.free.memory)
            + share(self.totals.disk, self.free.disk)
            + share(self.totals.containers, self.free.containers)
    }

    fn fits(&self, job: &Job) -> bool {
        job.memory <= self.free.memory && job.disk <= self.free.disk && self.free.containers > 0
    }
}

// What a process has: on each cell, and in each zone.
#[derive(Default)]
struct Spread {
    on_cells: BTreeMap<u32, u64>,
    in_zones: HashMap<u32, u64>,
}

struct Auction {
    cells: Vec<Cell>,
    // The cells of each zone by load.
    zones: Vec<BTreeSet<(u32, u32)>>,
    spread: HashMap<u32, Spread>,
}

impl Auction {
    fn new(cells: &[Cell], zones: u32) -> Auction {
        let mut sets = vec![BTreeSet::new(); zones as usize];
        for (number, cell) in cells.iter().enumerate() {
            sets[cell.zone as usize].insert((cell.load(), number as u32));
        }
        Auction { cells: cells.to_vec(), zones: sets, spread: HashMap::new() }
    }

    // The best cell: of each zone the first that fits and has none of the process, and those that have some.
    fn best(&self, job: &Job, spread: &Spread) -> Option<u32> {
        let mut best: Option<(u64, u64, u32, u32)> = None;
        for (zone, set) in self.zones.iter().enumerate() {
            let count = spread.in_zones.get(&(zone as u32)).copied().unwrap_or(0);
            if best.is_some_and(|found| found.0 < count) {
                continue;
            }
            let first = set.iter().find(|(_, at)| {
                self.cells[*at as usize].fits(job) && !spread.on_cells.contains_key(at)
            });
            if let Some((load, at)) = first {
                let score = (count, 0, *load, *at);
                best = Some(best.map_or(score, |found| found.min(score)));
            }
        }
        for (at, held) in &spread.on_cells {
            let cell = &self.cells[*at as usize];
            if cell.fits(job) {
                let score = (spread.in_zones[&cell.zone], *held, cell.load(), *at);
                best = Some(best.map_or(score, |found| found.min(score)));
            }
        }
        best.map(|found| found.3)
    }

    fn place(&mut self, job: &Job) -> Option<u32> {
        let mut spread = self.spread.remove(&job.process).unwrap_or_default();
        let found = self.best(job, &spread);
        if let Some(at) = found {
            let cell = &mut self.cells[at as usize];
            let set = &mut self.zones[cell.zone as usize];
            set.remove(&(cell.load(), at));
            cell.free.memory -= job.memory;
            cell.free.disk -= job.disk;
            cell.free.containers -= 1;
            set.insert((cell.load(), at));
            *spread.on_cells.entry(at).or_insert(0) += 1;
            *spread.in_zones.entry(cell.zone).or_insert(0) += 1;
        }
        self.spread.insert(job.process, spread);
        found
    }
}

fn jobs(shape: &Shape) -> Vec<Job> {
    (0..shape.jobs)
        .map(|number| Job {
            process: number % shape.processes,
            index: number / shape.processes,
            memory: 32 * (1 + number % 8),
            disk: 64,
        })
        .collect()
}

fn cells(shape: &Shape) -> Vec<Cell> {
    let per_cell = shape.jobs / shape.cells;
    (0..shape.cells)
        .map(|number| {
            let small = shape.small && number % 2 == 0;
            let totals = Amounts {
                memory: if small { 16 } else { per_cell * 656 },
                disk: per_cell * 1312,
                containers: per_cell * 5,
            };
            Cell { zone: number % shape.zones, totals, free: totals }
        })
        .collect()
}

fn run(jobs: &[Job], cells: &[Cell], zones: u32) -> Vec<Option<u32>> {
    let mut sorted = jobs.to_vec();
    let class = |job: &Job| if job.index == 0 { 0 } else { 2 };
    sorted.sort_unstable_by_key(|job| (class(job), std::cmp::Reverse(job.memory), job.process, job.index));
    let mut auction = Auction::new(cells, zones);
    sorted.iter().map(|job| auction.place(job)).collect()
}

// The same number as that of the program that it stands beside.
fn mix(hash: u64, bytes: &[u8]) -> u64 {
    bytes.iter().fold(hash, |hash, byte| (hash ^ u64::from(*byte)).wrapping_mul(1_099_511_628_211))
}

fn main() {
    let words: Vec<u32> = std::env::args().skip(1).map(|word| word.parse().expect("a number")).collect();
    let &[jobs_wanted, processes, cells_wanted, zones, small] = words.as_slice() else {
        panic!("plain JOBS PROCESSES CELLS ZONES SMALL");
    };
    let shape = Shape { jobs: jobs_wanted, processes, cells: cells_wanted, zones, small: small != 0 };
    let (jobs, cells) = (jobs(&shape), cells(&shape));
    let mut best = u128::MAX;
    let mut hash = 0u64;
    for _ in 0..5 {
        let start = Instant::now();
        let placed = run(&jobs, &cells, shape.zones);
        best = best.min(start.elapsed().as_nanos());
        hash = placed.iter().flatten().fold(0, |hash, at| mix(hash, format!("c{at:04}").as_bytes()));
    }
    println!("{} {hash}", best / u128::from(shape.jobs));
}
