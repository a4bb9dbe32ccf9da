// What a node keeps over a crash, as bytes: images in slots, and a header that names them.

use crate::disk::Pen;
use crate::node::Way;
use crate::process::Process;

const VERSION: u8 = 2;
// The roles of a channel's ends.
const RECEIVES: u8 = 0;
const SENDS: u8 = 1;

/// A checkpoint: who began it, and its number there.
#[derive(Clone, Copy, PartialEq)]
pub struct Instance {
    pub initiator: u8,
    pub number: u64,
}

/// A checkpoint of this number is decided, and these nodes, a bit each, haven't confirmed it yet.
pub struct Decision {
    pub number: u64,
    pub nodes: u16,
}

pub fn each_node(nodes: u16) -> impl Iterator<Item = u8> {
    (0..16).filter(move |node| nodes >> node & 1 == 1)
}

/// Where the process of a node and its ends of channels stand now.
pub struct Image<'a> {
    pub node: u8,
    pub process: &'a Process,
    pub source: u16,
    pub received: u64,
    pub ways: &'a [Way],
}

impl Image<'_> {
    fn put_process(&self, pen: &mut Pen) {
        pen.byte(1);
        pen.byte(self.node);
        pen.byte(self.process.begun as u8);
        if self.process.begun {
            pen.word(self.process.site);
            pen.byte(0);
        }
        let (variables, count) = self.process.variables();
        pen.byte(count as u8);
        pen.items(&variables[..count]);
    }

    fn put_source(&self, pen: &mut Pen) {
        pen.short(self.source);
        pen.byte(RECEIVES);
        pen.long(self.received);
    }

    fn put_ways(ways: &[Way], pen: &mut Pen) {
        for way in ways {
            pen.short(way.channel);
            pen.byte(SENDS);
            pen.long(way.log.base);
            pen.word(way.log.len() as u32);
            pen.items(way.log.retained());
        }
    }

    /// The ends stand in the order of their channels.
    pub fn put(&self, pen: &mut Pen) {
        self.put_process(pen);
        pen.short(1 + self.ways.len() as u16);
        let before = self.ways.iter().take_while(|way| way.channel < self.source).count();
        Image::put_ways(&self.ways[..before], pen);
        self.put_source(pen);
        Image::put_ways(&self.ways[before..], pen);
    }
}

/// A record but for its images.
pub struct Header<'a> {
    pub node: u8,
    pub highest: &'a [u64],
    pub decisions: &'a [Decision],
    pub slot: usize,
    pub tentative: Option<Instance>,
}

impl Header<'_> {
    fn put_decisions(&self, pen: &mut Pen) {
        pen.byte(self.decisions.len() as u8);
        for decision in self.decisions {
            pen.long(decision.number);
            pen.byte(decision.nodes.count_ones() as u8);
            each_node(decision.nodes).for_each(|node| pen.byte(node));
        }
    }

    /// The epoch is 0, since no node crashes.
    pub fn put(&self, pen: &mut Pen) {
        pen.byte(VERSION);
        pen.byte(self.node);
        pen.long(0);
        pen.byte(self.highest.len() as u8);
        self.highest.iter().for_each(|number| pen.long(*number));
        self.put_decisions(pen);
        pen.byte(self.slot as u8);
        pen.byte(self.tentative.is_some() as u8);
        if let Some(held) = self.tentative {
            pen.byte(held.initiator);
            pen.long(held.number);
        }
    }
}
