//! Records read and written by plain Rust: what `bench/records` measures `ckpt_codec` against. It judges what it reads by
//! the same rules, for records of one kind of end.

use std::collections::VecDeque;
use std::hint::black_box;
use std::time::Instant;

struct Process {
    number: u8,
    mode: u8,
    variables: Vec<i64>,
}

struct End {
    channel: u16,
    base: u64,
    items: VecDeque<i64>,
}

struct Record {
    node: u8,
    epoch: u64,
    highest: Vec<u64>,
    processes: Vec<Process>,
    ends: Vec<End>,
}

const MAX_COUNT: u64 = i64::MAX as u64;

struct Reader<'a>(&'a [u8]);

impl Reader<'_> {
    fn bytes<const N: usize>(&mut self) -> Option<[u8; N]> {
        let (front, rest) = self.0.split_first_chunk::<N>()?;
        self.0 = rest;
        Some(*front)
    }

    fn byte(&mut self) -> Option<u8> {
        self.bytes::<1>().map(|it| it[0])
    }

    fn count(&mut self) -> Option<u64> {
        self.bytes().map(u64::from_be_bytes).filter(|it| *it <= MAX_COUNT)
    }

    fn item(&mut self) -> Option<i64> {
        self.bytes().map(i64::from_be_bytes)
    }
}

fn read(bytes: &[u8]) -> Option<Record> {
    let mut from = Reader(bytes);
    (from.byte()? == 1).then_some(())?;
    let node = from.byte()?;
    let epoch = from.count()?;
    let nodes = from.byte().filter(|it| node < *it && *it <= 16)?;
    let highest = (0..nodes).map(|_| from.count()).collect::<Option<Vec<_>>>()?;
    (from.byte()? == 0).then_some(())?;
    let mut processes = Vec::new();
    for _ in 0..from.byte().filter(|it| *it <= 64)? {
        let number = from.byte().filter(|it| *it < 64)?;
        let mode = from.byte().filter(|it| *it == 0)?;
        let variables = from.byte().filter(|it| *it <= 64)?;
        let variables = (0..variables).map(|_| from.item()).collect::<Option<Vec<_>>>()?;
        processes.push(Process { number, mode, variables });
    }
    let mut ends = Vec::new();
    for _ in 0..u16::from_be_bytes(from.bytes()?) {
        let channel = u16::from_be_bytes(from.bytes()?);
        (channel < 256 && from.byte()? == 1).then_some(())?;
        let base = from.count()?;
        let count = u32::from_be_bytes(from.bytes()?);
        (count <= 65_536 && base + u64::from(count) <= MAX_COUNT).then_some(())?;
        let items = (0..count).map(|_| from.item()).collect::<Option<VecDeque<_>>>()?;
        ends.push(End { channel, base, items });
    }
    (from.byte()? == 0 && from.0.is_empty()).then_some(())?;
    Some(Record { node, epoch, highest, processes, ends })
}

fn length(record: &Record) -> usize {
    let variables: usize = record.processes.iter().map(|it| 3 + 8 * it.variables.len()).sum();
    let items: usize = record.ends.iter().map(|it| 15 + 8 * it.items.len()).sum();
    11 + 8 * record.highest.len() + 1 + 1 + variables + 2 + items + 1
}

fn write(record: &Record) -> Vec<u8> {
    let mut out = Vec::with_capacity(length(record));
    out.extend([1, record.node]);
    out.extend(record.epoch.to_be_bytes());
    out.push(record.highest.len() as u8);
    for entry in &record.highest {
        out.extend(entry.to_be_bytes());
    }
    out.extend([0, record.processes.len() as u8]);
    for process in &record.processes {
        out.extend([process.number, process.mode, process.variables.len() as u8]);
        for variable in &process.variables {
            out.extend(variable.to_be_bytes());
        }
    }
    out.extend((record.ends.len() as u16).to_be_bytes());
    for end in &record.ends {
        out.extend(end.channel.to_be_bytes());
        out.push(1);
        out.extend(end.base.to_be_bytes());
        out.extend((end.items.len() as u32).to_be_bytes());
        for item in &end.items {
            out.extend(item.to_be_bytes());
        }
    }
    out.push(0);
    out
}

fn measure(items: u32) -> Option<()> {
    let record = Record {
        node: 0,
        epoch: 0,
        highest: vec![0],
        processes: vec![Process { number: 0, mode: 0, variables: vec![0] }],
        ends: vec![End { channel: 0, base: 0, items: (0..i64::from(items)).collect() }],
    };
    let bytes = write(&record);
    let times = 4_000_000 / (items + 10);
    let start = Instant::now();
    for _ in 0..times {
        black_box(read(black_box(&bytes))?);
    }
    let nanos_read = start.elapsed().as_nanos() / u128::from(times);
    let start = Instant::now();
    for _ in 0..times {
        black_box(write(black_box(&record)));
    }
    let nanos_written = start.elapsed().as_nanos() / u128::from(times);
    println!("{items} {nanos_read} {nanos_written}");
    Some(())
}

fn main() {
    for items in [0, 1_000, 10_000, 57_344] {
        measure(items).expect("a record that was written is read");
    }
}
