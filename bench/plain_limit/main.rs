// The networks of bench/peers that don't compute, by turns on one thread, written by hand: what the rules of this runtime demand, and no more. So it
// is a mark for any program that obeys these rules: how near to it one comes is what its own making costs. Written for the comparison alone.
//
// usage: plain_limit chain COUNT INPUTS | pass COUNT INPUTS | fan COUNT INPUTS | ring COUNT ITEMS     (with COUNTS in the environment it prints to
//        standard error what the run came to)
//
// It follows these rules, which docs/FORMATS.md has:
// - Turns: the nodes take turns, one event each. It is the first that is due of these: a packet comes, an item leaves, a job, a decision, a
//   start, a send, or the turn passes. Before each turn it is looked at whether the run is over. Who rests is passed over.
// - Rounds: 64 jobs a node, one start, one send (and one more behind an image that was held), 64 positions of a channel. A round is over once
//   each node has let a turn pass. Whose turn it is to start goes round with the rounds.
// - Jobs: 64 items of a channel and 64 places at most.
// - Packets: all kinds but `Undone`. Each is bytes in flight; when it comes, its bytes are read, and all its numbers and names tested. Both ends
//   of a channel have their windows of 64. An item is sent in each round until it is acknowledged, and an inbox has 1,024 items at most.
// - Logs: an item is retained until it has left, or the receiver's permanent image has received it. A channel has room for 4,096 items at first,
//   and all have more where the world stands still for want of it.
// - Checkpoints: questions, answers, the decision, and who has confirmed it, with up to eight decisions unsettled. A start writes the image as
//   bytes into the slot without a role, framed to whole sectors, and puts a header, which is an area and the gate. Any other change puts a header.
// - Releases: an item leaves alone, in an event of its own, and only where the permanent image covers it.
// - Texts: the inputs are read from their bytes, and the report is printed.
//
// Checkpoints come as often as with `kahnrun --plain`: rounds, and device calls of each node, are the same. `bench/peers --counts` compares them.
//
// It leaves out:
// - crashes, recovery and going back. So no epoch rises, no record is read, and memory has of an image its counts alone;
// - faults of disks, outlets and the network, and what scripts count;
// - refusals: a record that is too large, a number past 2^63 - 1, want of memory;
// - texts of networks and their checks, and any network but these. Here a node has one process, which gets from one channel and is Rust;
// - whatever a rule doesn't demand: copies of images and of a job's items, values for events and answers, and what hands back or takes back;
// - proofs.

mod disk;
mod limits;
mod log;
mod network;
mod node;
mod packet;
mod process;
mod record;
mod world;

use network::Network;
use std::io::Write;
use world::World;

// The items of the one line of a text of inputs.
fn items_of(file: &str) -> Vec<i64> {
    let text = std::fs::read(file).expect("the inputs");
    let colon = text.iter().position(|byte| *byte == b':').expect("an input's line");
    let mut items = Vec::new();
    let mut rest = &text[colon + 1..];
    while let [b' ', behind @ ..] = rest {
        rest = behind;
        if let Some((item, behind)) = number_in(rest) {
            items.push(item);
            rest = behind;
        }
    }
    if !matches!(rest, [] | [b'\n'] | [b'\r', b'\n']) {
        refuse();
    }
    items
}

fn refuse() -> ! {
    eprintln!("the inputs have a line that is none");
    std::process::exit(2)
}

// The number at the front of bytes, and what stands behind it; none where no number begins there.
fn number_in(bytes: &[u8]) -> Option<(i64, &[u8])> {
    let (negative, digits) = match bytes {
        [b'-', digits @ ..] => (true, digits),
        digits => (false, digits),
    };
    let mut value: i64 = 0;
    let mut count = 0;
    for digit in digits.iter().take_while(|byte| byte.is_ascii_digit()) {
        let digit = (digit - b'0') as i64;
        let more = value.checked_mul(10).and_then(|value| if negative { value.checked_sub(digit) } else { value.checked_add(digit) });
        value = more.unwrap_or_else(|| refuse());
        count += 1;
    }
    if count == 0 {
        if negative {
            refuse();
        }
        return None;
    }
    Some((value, &digits[count..]))
}

// Puts a space and an item in decimal.
fn put_item(out: &mut Vec<u8>, item: i64) {
    let mut digits = [0; 21];
    let mut place = digits.len();
    let mut rest = item.unsigned_abs();
    loop {
        place -= 1;
        digits[place] = b'0' + (rest % 10) as u8;
        rest /= 10;
        if rest == 0 {
            break;
        }
    }
    if item < 0 {
        place -= 1;
        digits[place] = b'-';
    }
    place -= 1;
    digits[place] = b' ';
    out.extend_from_slice(&digits[place..]);
}

fn report(world: &World, complete: bool, items: Option<usize>) -> Vec<u8> {
    let mut out = Vec::new();
    for (name, stream) in world.outlets() {
        out.extend_from_slice(name.as_bytes());
        out.push(b':');
        let count = items.unwrap_or(stream.len()).min(stream.len());
        stream[..count].iter().for_each(|item| put_item(&mut out, *item));
        out.push(b'\n');
    }
    out.extend_from_slice(if complete { b"complete\n" } else { b"partial\n" });
    out
}

// What the run came to, for whoever compares it with the product's.
fn print_counts(world: &World) {
    eprintln!("rounds {}", world.round + 1);
    for (number, node) in world.nodes.iter().enumerate() {
        let counts = &node.counts;
        eprintln!(
            "node {number}: {} device calls, {} checkpoints begun, {} decided, {} images taken, {} jobs, {} packets heard",
            node.disk.calls, counts.starts, counts.decisions, counts.images, counts.jobs, counts.packets
        );
    }
}

// The network that these words name, its inputs, and how many items are enough.
fn asked(words: &[String]) -> (Network, Vec<i64>, Option<usize>) {
    let [_, name, count, last, ..] = words else {
        eprintln!("usage: plain_limit chain COUNT INPUTS | pass COUNT INPUTS | fan COUNT INPUTS | ring COUNT ITEMS");
        std::process::exit(2)
    };
    let count = count.parse().expect("a count");
    match name.as_str() {
        "chain" => (network::chain(count), items_of(last), None),
        "pass" => (network::pass(count), items_of(last), None),
        "fan" => (network::fan(count), items_of(last), None),
        _ => (network::ring(count), Vec::new(), Some(last.parse().expect("a count of items"))),
    }
}

fn main() {
    let words: Vec<String> = std::env::args().collect();
    let (network, inputs, items) = asked(&words);
    let mut world = World::new(network, inputs);
    world.run(items);
    let complete = items.is_none() && world.is_complete();
    std::io::stdout().write_all(&report(&world, complete, items)).expect("output");
    if std::env::var_os("COUNTS").is_some() {
        print_counts(&world);
    }
    std::process::exit(if complete { 0 } else { 3 });
}
