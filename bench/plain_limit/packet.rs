// Packets as bytes, and what is in flight to a node.

use crate::limits::{CHANNELS, GREATEST, NODES};

// No packet of these networks is longer: a node gets from one channel, so that an image has at most one need.
const LONGEST: usize = 33;

/// How many items of a channel an image received.
#[derive(Clone, Copy)]
pub struct Need {
    pub channel: u16,
    pub count: u64,
}

/// What a node says to another one.
#[derive(Clone, Copy)]
pub enum Said {
    Data { channel: u16, position: u64, item: i64 },
    Ack { channel: u16, epoch: u64, next: u64 },
    Kept { channel: u16, count: u64 },
    Ask { number: u64, channel: u16, count: u64 },
    Took { number: u64, channel: u16, count: u64, need: Option<Need> },
    Covered { number: u64, channel: u16, count: u64 },
    Refused { number: u64, channel: u16, reason: u8 },
    Query { number: u64 },
    Commit { number: u64 },
    Ended { number: u64 },
    Settled { number: u64 },
}

pub struct Packet {
    pub from: u8,
    pub said: Said,
}

// The bytes of a packet, behind one that tells how many there are.
struct Spelled {
    bytes: [u8; 1 + LONGEST],
    end: usize,
}

impl Spelled {
    fn new(kind: u8, from: u8, to: u8) -> Spelled {
        let mut bytes = [0; 1 + LONGEST];
        bytes[1..4].copy_from_slice(&[kind, from, to]);
        Spelled { bytes, end: 4 }
    }

    fn byte(mut self, value: u8) -> Spelled {
        self.bytes[self.end] = value;
        self.end += 1;
        self
    }

    fn short(mut self, value: u16) -> Spelled {
        self.bytes[self.end..self.end + 2].copy_from_slice(&value.to_be_bytes());
        self.end += 2;
        self
    }

    fn long(mut self, value: u64) -> Spelled {
        self.bytes[self.end..self.end + 8].copy_from_slice(&value.to_be_bytes());
        self.end += 8;
        self
    }

    fn need(self, need: Option<Need>) -> Spelled {
        match need {
            Some(need) => self.short(1).short(need.channel).long(need.count),
            None => self.short(0),
        }
    }
}

fn spelled(from: u8, to: u8, said: Said) -> Spelled {
    let begun = |kind| Spelled::new(kind, from, to);
    match said {
        Said::Data { channel, position, item } => begun(1).short(channel).long(position).long(item as u64),
        Said::Ack { channel, epoch, next } => begun(2).short(channel).long(epoch).long(next),
        Said::Kept { channel, count } => begun(3).short(channel).long(count),
        Said::Ask { number, channel, count } => begun(4).long(number).short(channel).long(count),
        Said::Took { number, channel, count, need } => begun(5).long(number).short(channel).long(count).need(need),
        Said::Covered { number, channel, count } => begun(6).long(number).short(channel).long(count),
        Said::Refused { number, channel, reason } => begun(7).long(number).short(channel).byte(reason),
        Said::Query { number } => begun(8).long(number),
        Said::Commit { number } => begun(9).long(number),
        Said::Ended { number } => begun(10).long(number),
        Said::Settled { number } => begun(11).long(number),
    }
}

// The bytes of a packet that weren't read yet.
struct Unread<'a>(&'a [u8]);

impl<'a> Unread<'a> {
    fn next<const COUNT: usize>(&mut self) -> Option<[u8; COUNT]> {
        let (next, rest) = self.0.split_first_chunk()?;
        self.0 = rest;
        Some(*next)
    }

    fn channel(&mut self) -> Option<u16> {
        let channel = u16::from_be_bytes(self.next()?);
        (channel < CHANNELS).then_some(channel)
    }

    fn count(&mut self) -> Option<u64> {
        let count = u64::from_be_bytes(self.next()?);
        (count <= GREATEST).then_some(count)
    }

    // A count that begins with 1.
    fn positive(&mut self) -> Option<u64> {
        self.count().filter(|count| *count > 0)
    }

    fn item(&mut self) -> Option<i64> {
        Some(i64::from_be_bytes(self.next()?))
    }

    fn reason(&mut self) -> Option<u8> {
        let [reason] = self.next()?;
        (1..=4).contains(&reason).then_some(reason)
    }

    fn need(&mut self) -> Option<Option<Need>> {
        match u16::from_be_bytes(self.next()?) {
            0 => Some(None),
            1 => Some(Some(Need { channel: self.channel()?, count: self.positive()? })),
            _ => None,
        }
    }
}

// The packet of these bytes for this node, if they are one.
fn read(bytes: &[u8], home: u8) -> Option<Packet> {
    let mut rest = Unread(bytes);
    let [kind, from, to] = rest.next()?;
    if from >= NODES || from == to || to != home {
        return None;
    }
    let said = match kind {
        1 => Said::Data { channel: rest.channel()?, position: rest.count()?, item: rest.item()? },
        2 => Said::Ack { channel: rest.channel()?, epoch: rest.count()?, next: rest.count()? },
        3 => Said::Kept { channel: rest.channel()?, count: rest.count()? },
        4 => Said::Ask { number: rest.positive()?, channel: rest.channel()?, count: rest.positive()? },
        5 => Said::Took { number: rest.positive()?, channel: rest.channel()?, count: rest.positive()?, need: rest.need()? },
        6 => Said::Covered { number: rest.positive()?, channel: rest.channel()?, count: rest.positive()? },
        7 => Said::Refused { number: rest.positive()?, channel: rest.channel()?, reason: rest.reason()? },
        8 => Said::Query { number: rest.positive()? },
        9 => Said::Commit { number: rest.positive()? },
        10 => Said::Ended { number: rest.positive()? },
        11 => Said::Settled { number: rest.positive()? },
        _ => return None,
    };
    rest.0.is_empty().then_some(Packet { from, said })
}

/// The packets in flight to a node, in the order in which they were sent. Each is due in the round in which it is sent, so that the first one is
/// the first that is due.
#[derive(Default)]
pub struct Queue {
    bytes: Vec<u8>,
    taken: usize,
}

impl Queue {
    pub fn is_empty(&self) -> bool {
        self.bytes.len() == self.taken
    }

    pub fn push(&mut self, from: u8, to: u8, said: Said) {
        let Spelled { mut bytes, end } = spelled(from, to, said);
        bytes[0] = (end - 1) as u8;
        self.bytes.extend_from_slice(&bytes[..end]);
    }

    /// Takes the first one, which is there, and reads it. None where its bytes are no packet for this node.
    pub fn take(&mut self, home: u8) -> Option<Packet> {
        let first = self.taken + 1;
        let end = first + self.bytes[self.taken] as usize;
        let packet = read(&self.bytes[first..end], home);
        self.taken = end;
        if self.is_empty() {
            self.bytes.clear();
            self.taken = 0;
        }
        packet
    }
}
