//! The baseline of the opening: a plain opener of a board's area, as one would write it without proofs.
//!
//!     opener make FRAMES FILE     writes an area with that many legal frames
//!     opener open FILE            reads it, does its commands one after another, and prints the counts
//!
//! It knows the kinds of command that `make` writes: desire, make, claim, start, crash and join. Of these it
//! tests all that the step tests.
use std::collections::hash_map::{Entry, HashMap};
use std::fs;

const HEADER: &[u8] = b"\x01DIEGOBBS\x00\x02\x00\x00\x00\x00\x00\x00\x00\x01\x00\x00\x00\x1c";
const HEAD: usize = 28;
const PROCESSES: u32 = 5_000;
const INSTANCES: u32 = 10;

#[derive(Clone, Copy, PartialEq)]
struct Instance {
    epoch: u64,
    number: u32,
}

#[derive(Clone, PartialEq)]
enum State {
    Unclaimed,
    Claimed(Instance),
    Running(Instance),
    Crashed,
}

struct Actual {
    state: State,
    cell: String,
    count: u32,
    since: u32,
    error: bool,
    domain: String,
}

struct Desired {
    domain: String,
    instances: u32,
    memory: u32,
    disk: u32,
    tag: Option<String>,
    route: Option<String>,
    port: u16,
}

struct Cell {
    zone: String,
    tag: Option<String>,
    totals: [u32; 3],
    epoch: u64,
    until: u64,
}

#[derive(Default)]
struct Board {
    desired: HashMap<String, Desired>,
    actual: HashMap<(String, u32), Actual>,
    cells: HashMap<String, Cell>,
    wanted: u32,
    next: u64,
}

struct Reader<'a> {
    bytes: &'a [u8],
}

impl Reader<'_> {
    fn take(&mut self, n: usize) -> Option<&[u8]> {
        if self.bytes.len() < n {
            return None;
        }
        let (front, rest) = self.bytes.split_at(n);
        self.bytes = rest;
        Some(front)
    }
    fn u8(&mut self) -> Option<u8> {
        Some(self.take(1)?[0])
    }
    fn u16(&mut self) -> Option<u16> {
        Some(u16::from_be_bytes(self.take(2)?.try_into().ok()?))
    }
    fn u32(&mut self) -> Option<u32> {
        Some(u32::from_be_bytes(self.take(4)?.try_into().ok()?))
    }
    fn u64(&mut self) -> Option<u64> {
        Some(u64::from_be_bytes(self.take(8)?.try_into().ok()?))
    }
    fn text(&mut self, len: u8) -> Option<String> {
        let bytes = self.take(usize::from(len))?;
        let allowed = |b: &u8| b.is_ascii_alphanumeric() || b"._-".contains(b);
        if len > 80 || !bytes.iter().all(allowed) {
            return None;
        }
        String::from_utf8(bytes.to_vec()).ok()
    }
    fn name(&mut self) -> Option<String> {
        match self.u8()? {
            0 => None,
            len => self.text(len),
        }
    }
    fn optional(&mut self) -> Option<Option<String>> {
        match self.u8()? {
            0 => Some(None),
            len => Some(Some(self.text(len)?)),
        }
    }
    fn instance(&mut self) -> Option<Instance> {
        Some(Instance {
            epoch: self.u64()?,
            number: self.u32()?,
        })
    }
}

impl Board {
    /// Does a command, and tells whether it is a legal one.
    fn follow(&mut self, payload: &[u8]) -> Option<()> {
        let mut r = Reader { bytes: payload };
        let kind = r.u8()?;
        let now = r.u32()?;
        match kind {
            1 => self.desire(&mut r)?,
            4 => self.make(&mut r, now)?,
            5 | 6 => self.place(&mut r, now, kind == 6)?,
            7 => self.crash(&mut r, now)?,
            22 => self.join(&mut r, now)?,
            _ => return None,
        }
        if !r.bytes.is_empty() || self.next >= 1 << 40 {
            return None;
        }
        self.next += 1;
        Some(())
    }

    fn desire(&mut self, r: &mut Reader) -> Option<()> {
        let process = r.name()?;
        let row = Desired {
            domain: r.name()?,
            instances: r.u32()?,
            memory: r.u32()?,
            disk: r.u32()?,
            tag: r.optional()?,
            route: r.optional()?,
            port: r.u16()?,
        };
        if self.desired.len() >= 5_000
            || row.instances > 1_000
            || self.wanted + row.instances > 50_000
        {
            return None;
        }
        match self.desired.entry(process) {
            Entry::Occupied(_) => return None,
            Entry::Vacant(place) => {
                self.wanted += row.instances;
                place.insert(row);
            }
        }
        Some(())
    }

    fn key(r: &mut Reader) -> Option<(String, u32)> {
        Some((r.name()?, r.u32()?))
    }

    fn make(&mut self, r: &mut Reader, now: u32) -> Option<()> {
        let key = Board::key(r)?;
        let desired = self.desired.get(&key.0)?;
        if desired.instances <= key.1 || self.actual.len() >= 100_000 {
            return None;
        }
        let domain = desired.domain.clone();
        match self.actual.entry(key) {
            Entry::Occupied(_) => return None,
            Entry::Vacant(place) => {
                place.insert(Actual {
                    state: State::Unclaimed,
                    cell: String::new(),
                    count: 0,
                    since: now,
                    error: false,
                    domain,
                });
            }
        }
        Some(())
    }

    fn place(&mut self, r: &mut Reader, now: u32, start: bool) -> Option<()> {
        let key = Board::key(r)?;
        let instance = r.instance()?;
        let cell = r.name()?;
        let row = self.actual.get_mut(&key)?;
        if self.cells.get(&cell)?.epoch != instance.epoch {
            return None;
        }
        row.state = match row.state {
            State::Unclaimed if start => State::Running(instance),
            State::Unclaimed => State::Claimed(instance),
            State::Claimed(_) if start => State::Running(instance),
            _ => return None,
        };
        row.cell = cell;
        row.since = now;
        row.error = false;
        Some(())
    }

    fn crash(&mut self, r: &mut Reader, now: u32) -> Option<()> {
        let key = Board::key(r)?;
        let instance = r.instance()?;
        let row = self.actual.get_mut(&key)?;
        if row.state != State::Running(instance) {
            return None;
        }
        row.count = if now.saturating_sub(row.since) >= 300 {
            1
        } else {
            row.count.saturating_add(1)
        };
        row.state = if row.count <= 3 {
            State::Unclaimed
        } else {
            State::Crashed
        };
        row.since = now;
        Some(())
    }

    fn join(&mut self, r: &mut Reader, now: u32) -> Option<()> {
        let name = r.name()?;
        let cell = Cell {
            zone: r.name()?,
            tag: r.optional()?,
            totals: [r.u32()?, r.u32()?, r.u32()?],
            epoch: self.next,
            until: u64::from(now) + u64::from(r.u32()?),
        };
        if self.cells.len() >= 1_000 && !self.cells.contains_key(&name) {
            return None;
        }
        self.cells.insert(name, cell);
        Some(())
    }
}

fn open(file: &str) {
    let area = fs::read(file).expect("the file is read");
    assert!(area[0] != 0 && area[1..23] == HEADER[1..], "the area is a board's");
    let mut board = Board::default();
    let mut at = HEADER.len() + HEAD;
    let mut frames = 0u64;
    while area[at] != 0 {
        let len = usize::from(u16::from_be_bytes([area[at + 1], area[at + 2]]));
        let payload = &area[at + 3..at + 3 + len];
        board.follow(payload).expect("the command is legal");
        at += 3 + len;
        frames += 1;
    }
    // Read each field of a row, so that none of them is left out.
    let used: u64 = board.desired.values().map(|d| {
        u64::from(d.memory) + u64::from(d.disk) + u64::from(d.port) + d.domain.len() as u64
            + d.tag.iter().chain(&d.route).map(|t| t.len() as u64).sum::<u64>()
    }).sum::<u64>()
        + board.actual.values().map(|a| u64::from(a.since) + u64::from(a.error) + a.cell.len() as u64 + a.domain.len() as u64).sum::<u64>()
        + board.cells.values().map(|c| c.until + c.zone.len() as u64 + c.tag.iter().len() as u64 + u64::from(c.totals[0])).sum::<u64>();
    println!("{frames} frames, {} desired, {} actual, next {}, sum {used}", board.desired.len(), board.actual.len(), board.next);
}

struct Writer {
    area: Vec<u8>,
}

impl Writer {
    fn frame(&mut self, kind: u8, now: u32, fields: &[&[u8]]) {
        let len: usize = 5 + fields.iter().map(|f| f.len()).sum::<usize>();
        self.area.push(1);
        self.area.extend((len as u16).to_be_bytes());
        self.area.push(kind);
        self.area.extend(now.to_be_bytes());
        for field in fields {
            self.area.extend(*field);
        }
    }
}

fn name(text: &str) -> Vec<u8> {
    let mut bytes = vec![text.len() as u8];
    bytes.extend(text.as_bytes());
    bytes
}

fn process(n: u32) -> Vec<u8> {
    name(&format!("11111111-2222-3333-4444-555555555555-66666666-7777-8888-9999-{n:012}"))
}

fn make(frames: u64, file: &str) {
    let mut out = Writer { area: HEADER.to_vec() };
    out.area.extend([0; HEAD]);
    let number = |n: u32| n.to_be_bytes();
    let cell = name("cell-1");
    let mut left = frames;
    let mut emit = |kind: u8, now: u32, fields: &[&[u8]]| {
        if left > 0 {
            left -= 1;
            out.frame(kind, now, fields);
        }
        left > 0
    };
    emit(22, 0, &[&cell, &name("z1"), &[0], &number(1 << 30), &number(1 << 30), &number(1 << 20), &number(1 << 30)]);
    for p in 0..PROCESSES {
        emit(1, 0, &[&process(p), &name("cf-apps"), &number(INSTANCES), &number(64), &number(128), &[0], &[0], &8080u16.to_be_bytes()]);
    }
    let mut given = 0;
    let mut cycle = 0;
    'cycles: loop {
        let now = cycle * 1_000;
        for p in 0..PROCESSES {
            let process = process(p);
            for index in 0..INSTANCES {
                given += 1;
                let index = number(index);
                let instance = [&0u64.to_be_bytes()[..], &number(given)].concat();
                let goes = (cycle > 0 || emit(4, now, &[&process, &index]))
                    && emit(5, now, &[&process, &index, &instance, &cell])
                    && emit(6, now, &[&process, &index, &instance, &cell])
                    && emit(7, now + 400, &[&process, &index, &instance]);
                if !goes {
                    break 'cycles;
                }
            }
        }
        cycle += 1;
    }
    out.area.push(0);
    fs::write(file, out.area).expect("the file is written");
}

fn main() {
    let words: Vec<String> = std::env::args().collect();
    match &words[1..] {
        [word, frames, file] if word == "make" => make(frames.parse().expect("a number"), file),
        [word, file] if word == "open" => open(file),
        _ => panic!("opener make FRAMES FILE, or opener open FILE"),
    }
}
