//! Packets with a list written and read by plain Rust, and packets with an item sent and delivered: what `bench/packets`
//! measures `datagram` and `wire` against. It judges what it reads by the same rules.

use std::collections::VecDeque;
use std::hint::black_box;
use std::time::Instant;

const MAX_COUNT: u64 = i64::MAX as u64;

struct Need {
    channel: u16,
    count: u64,
}

struct Took {
    from: u8,
    to: u8,
    number: u64,
    channel: u16,
    count: u64,
    needs: Vec<Need>,
}

struct Reader<'a>(&'a [u8]);

impl Reader<'_> {
    fn bytes<const N: usize>(&mut self) -> Option<[u8; N]> {
        let (front, rest) = self.0.split_first_chunk::<N>()?;
        self.0 = rest;
        Some(*front)
    }

    fn channel(&mut self) -> Option<u16> {
        self.bytes().map(u16::from_be_bytes).filter(|it| *it <= 255)
    }

    fn positive(&mut self) -> Option<u64> {
        self.bytes().map(u64::from_be_bytes).filter(|it| (1..=MAX_COUNT).contains(it))
    }
}

fn read(bytes: &[u8]) -> Option<Took> {
    let mut rest = Reader(bytes);
    let [kind, from, to] = rest.bytes()?;
    (kind == 5 && from < 16 && to < 16 && from != to).then_some(())?;
    let (number, channel, count) = (rest.positive()?, rest.channel()?, rest.positive()?);
    let mut needs: Vec<Need> = Vec::new();
    for _ in 0..rest.bytes().map(u16::from_be_bytes).filter(|it| *it <= 256)? {
        let need = Need { channel: rest.channel()?, count: rest.positive()? };
        if needs.last().is_some_and(|before| before.channel >= need.channel) {
            return None;
        }
        needs.push(need);
    }
    rest.0.is_empty().then_some(Took { from, to, number, channel, count, needs })
}

fn write(took: &Took) -> Vec<u8> {
    let mut out = Vec::with_capacity(23 + 10 * took.needs.len());
    out.extend([5, took.from, took.to]);
    out.extend(took.number.to_be_bytes());
    out.extend(took.channel.to_be_bytes());
    out.extend(took.count.to_be_bytes());
    out.extend((took.needs.len() as u16).to_be_bytes());
    for need in &took.needs {
        out.extend(need.channel.to_be_bytes());
        out.extend(need.count.to_be_bytes());
    }
    out
}

struct Item {
    from: u8,
    to: u8,
    channel: u16,
    position: u64,
    item: i64,
}

struct Sending {
    from: u8,
    to: u8,
    bytes: Vec<u8>,
}

fn write_item(data: &Item) -> Vec<u8> {
    let mut out = Vec::with_capacity(21);
    out.extend([1, data.from, data.to]);
    out.extend(data.channel.to_be_bytes());
    out.extend(data.position.to_be_bytes());
    out.extend(data.item.to_be_bytes());
    out
}

fn read_item(bytes: &[u8]) -> Option<Item> {
    let mut rest = Reader(bytes);
    let [kind, from, to] = rest.bytes()?;
    (kind == 1 && from < 16 && to < 16 && from != to).then_some(())?;
    let channel = rest.channel()?;
    let position = rest.bytes().map(u64::from_be_bytes).filter(|it| *it <= MAX_COUNT)?;
    let item = rest.bytes().map(i64::from_be_bytes)?;
    rest.0.is_empty().then_some(Item { from, to, channel, position, item })
}

struct Flight {
    bytes: Vec<u8>,
    due: u64,
}

#[derive(Default)]
struct Queue {
    flights: VecDeque<Flight>,
    counts: [u64; 16],
}

#[derive(Default)]
struct Wire([Queue; 16]);

impl Wire {
    fn send_all(&mut self, sendings: Vec<Sending>, round: u64) {
        for Sending { from, to, bytes } in sendings {
            let queue = &mut self.0[to as usize];
            queue.flights.push_back(Flight { bytes, due: round });
            queue.counts[from as usize] += 1;
        }
    }

    fn deliver(&mut self, to: u8, round: u64) -> Option<Item> {
        let flights = &mut self.0[to as usize].flights;
        let place = flights.iter().position(|it| it.due <= round)?;
        let item = read_item(black_box(&flights[place].bytes));
        flights.remove(place);
        item
    }
}

fn spell_all(item: &Item, count: usize) -> Vec<Sending> {
    (0..count).map(|_| Sending { from: item.from, to: item.to, bytes: write_item(black_box(item)) }).collect()
}

/// Nanoseconds an item, where so many are sent together.
fn time_items(wire: &mut Wire, together: usize) -> u128 {
    let item = Item { from: 0, to: 1, channel: 1, position: 1, item: 7 };
    let start = Instant::now();
    for _ in 0..256_000 / together {
        wire.send_all(spell_all(&item, together), 0);
        for _ in 0..together {
            black_box(wire.deliver(1, 0).expect("a packet that was sent is delivered"));
        }
    }
    start.elapsed().as_nanos() / 256_000
}

fn main() {
    for needs in [0, 4, 16, 64, 256u16] {
        let list = (0..needs).map(|channel| Need { channel, count: 1 }).collect();
        let took = Took { from: 0, to: 1, number: 1, channel: 1, count: 1, needs: list };
        let times = 1_000_000 / (u32::from(needs) + 4);
        let start = Instant::now();
        for _ in 0..times {
            let text = write(black_box(&took));
            black_box(read(black_box(&text)).expect("a packet that was written is read"));
        }
        println!("packet {needs} {}", start.elapsed().as_nanos() / u128::from(times));
    }
    for others in [10, 1_000, 100_000] {
        let mut wire = Wire::default();
        wire.send_all(spell_all(&Item { from: 0, to: 2, channel: 1, position: 1, item: 7 }, others), 0);
        println!("alone {others} {}", time_items(&mut wire, 1));
        println!("together {others} {}", time_items(&mut wire, 64));
    }
}
