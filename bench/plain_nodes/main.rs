// The networks of `bench/nodes` as a plain program: a thread for each process, and a bounded channel between two of them. Written for the
// comparison alone.
//
// usage: plain_nodes chain COUNT INPUTS | pass COUNT INPUTS | fan COUNT INPUTS | ring COUNT ITEMS | apart COUNT INPUTS | line COUNT INPUTS
//        | alone apart COUNT INPUTS | alone line COUNT INPUTS
//        (`apart` and `line` compute long for each item: side by side, each on an input of its own, and one behind the other. `alone` does the same
//        work on one thread, without channels)

use std::io::Write;
use std::sync::mpsc::{Receiver, SyncSender, sync_channel};
use std::thread;

const BOUND: usize = 64;

// The items of each line, whatever its input is called.
fn lines_of(file: &str) -> Vec<Vec<i64>> {
    let text = std::fs::read_to_string(file).expect("the inputs");
    let items = |line: &str| {
        let (_, items) = line.split_once(':').expect("an input's line");
        items.split_whitespace().map(|word| word.parse().expect("an item")).collect()
    };
    text.lines().map(items).collect()
}

fn items_of(file: &str) -> Vec<i64> {
    lines_of(file).pop().expect("one input")
}

fn feed(items: Vec<i64>) -> Receiver<i64> {
    let (to, from) = sync_channel(BOUND);
    thread::spawn(move || {
        for item in items {
            if to.send(item).is_err() {
                return;
            }
        }
    });
    from
}

fn sums(from: Receiver<i64>, to: SyncSender<i64>) {
    let mut sum: i64 = 0;
    for item in from {
        sum = sum.wrapping_add(item);
        if to.send(sum).is_err() {
            return;
        }
    }
}

// What a process that computes makes of an item.
fn computed(item: i64) -> i64 {
    let mut sum: i64 = 0;
    for _ in 0..1000 {
        for _ in 0..100 {
            sum = std::hint::black_box(sum.wrapping_add(item.wrapping_mul(item)).wrapping_add(1));
        }
    }
    sum
}

fn computes(from: Receiver<i64>, to: SyncSender<i64>) {
    for item in from {
        if to.send(computed(item)).is_err() {
            return;
        }
    }
}

fn write_stream(name: &str, stream: &[i64]) {
    let mut out = std::io::BufWriter::new(std::io::stdout().lock());
    write!(out, "{name}:").expect("output");
    for item in stream {
        write!(out, " {item}").expect("output");
    }
    writeln!(out).expect("output");
}

// So many processes in a row, each of which puts the running sum of what it gets.
fn chain(count: usize, items: Vec<i64>) {
    let mut from = feed(items);
    for _ in 0..count {
        let (to, next) = sync_channel(BOUND);
        let before = std::mem::replace(&mut from, next);
        thread::spawn(move || sums(before, to));
    }
    write_stream("o", &from.into_iter().collect::<Vec<i64>>());
}

// So many processes in a row: the last one puts the running sum of what it gets, and the others pass on what comes.
fn pass(count: usize, items: Vec<i64>) {
    let mut from = feed(items);
    for place in 0..count {
        let (to, next) = sync_channel(BOUND);
        let before = std::mem::replace(&mut from, next);
        if place + 1 == count {
            thread::spawn(move || sums(before, to));
        } else {
            thread::spawn(move || before.into_iter().all(|item| to.send(item).is_ok()));
        }
    }
    write_stream("o", &from.into_iter().collect::<Vec<i64>>());
}

// A process that deals what comes in to so many others, each of which puts the running sum of what it gets.
fn fan(count: usize, items: Vec<i64>) {
    let from = feed(items);
    let mut deals = Vec::new();
    let mut ends = Vec::new();
    for _ in 0..count {
        let (deal, dealt) = sync_channel(BOUND);
        let (to, end) = sync_channel::<i64>(BOUND);
        thread::spawn(move || sums(dealt, to));
        deals.push(deal);
        ends.push(thread::spawn(move || end.into_iter().collect::<Vec<i64>>()));
    }
    thread::spawn(move || {
        for (place, item) in from.into_iter().enumerate() {
            if deals[place % count].send(item).is_err() {
                return;
            }
        }
    });
    for (place, end) in ends.into_iter().enumerate() {
        write_stream(&format!("o{place}"), &end.join().expect("a thread"));
    }
}

// A number goes round between so many processes, one higher each time; the first puts it out as well.
fn ring(count: usize, items: usize) {
    let (first, mut from) = sync_channel(BOUND);
    first.send(0).expect("the ring");
    for _ in 1..count {
        let (to, next) = sync_channel(BOUND);
        let before = std::mem::replace(&mut from, next);
        thread::spawn(move || {
            for item in before {
                if to.send(item).is_err() {
                    return;
                }
            }
        });
    }
    let mut stream = Vec::new();
    for item in from {
        stream.push(item);
        if stream.len() == items || first.send(item + 1).is_err() {
            break;
        }
    }
    write_stream("o", &stream);
}

// So many processes that compute, each on an input of its own.
fn apart(count: usize, inputs: Vec<Vec<i64>>) {
    let work = |items: Vec<i64>| {
        let (to, end) = sync_channel(BOUND);
        let from = feed(items);
        thread::spawn(move || computes(from, to));
        thread::spawn(move || end.into_iter().collect::<Vec<i64>>())
    };
    let ends: Vec<_> = inputs.into_iter().take(count).map(work).collect();
    for (place, end) in ends.into_iter().enumerate() {
        write_stream(&format!("o{place}"), &end.join().expect("a thread"));
    }
}

// So many processes that compute, each on what the one before it puts.
fn line(count: usize, items: Vec<i64>) {
    let mut from = feed(items);
    for _ in 0..count {
        let (to, next) = sync_channel(BOUND);
        let before = std::mem::replace(&mut from, next);
        thread::spawn(move || computes(before, to));
    }
    write_stream("o", &from.into_iter().collect::<Vec<i64>>());
}

// What `apart` and `line` compute, on this thread.
fn alone(words: &[String]) {
    let count: usize = words[1].parse().expect("a count");
    let inputs = lines_of(&words[2]);
    if words[0] == "apart" {
        for (place, items) in inputs.into_iter().take(count).enumerate() {
            write_stream(&format!("o{place}"), &items.into_iter().map(computed).collect::<Vec<i64>>());
        }
        return;
    }
    let through = |item: i64| (0..count).fold(item, |item, _| computed(item));
    write_stream("o", &inputs[0].iter().map(|item| through(*item)).collect::<Vec<i64>>());
}

fn main() {
    let words: Vec<String> = std::env::args().collect();
    if words[1] == "alone" {
        return alone(&words[2..]);
    }
    let count: usize = words[2].parse().expect("a count");
    match words[1].as_str() {
        "chain" => chain(count, items_of(&words[3])),
        "pass" => pass(count, items_of(&words[3])),
        "fan" => fan(count, items_of(&words[3])),
        "apart" => apart(count, lines_of(&words[3])),
        "line" => line(count, items_of(&words[3])),
        _ => ring(count, words[3].parse().expect("a count of items")),
    }
}
