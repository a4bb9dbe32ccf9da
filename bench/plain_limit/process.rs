// The processes of these networks. Each gets from one channel, and puts on the ways of its node, which stand in the order of their channels.

use crate::limits::{MOST_JOB_ITEMS, NODES};
use crate::log::Log;
use crate::node::Way;

#[derive(Clone, Copy, PartialEq)]
pub enum Kind {
    /// Puts the running sum of what it gets.
    Sum,
    /// Puts what it gets.
    Pass,
    /// Deals what it gets to its ways, one after another.
    Deal,
    /// Begins a ring: puts 0 on its second way, and of each item that it gets the same on its first way, and one more on its second.
    First,
}

/// What a process does next.
pub enum Next {
    Begin,
    Get,
    /// It puts on the way of this place.
    Put(usize),
}

/// Where a process stands. A site is a get or a put, counted as they stand in its text.
pub struct Process {
    pub kind: Kind,
    pub begun: bool,
    pub site: u32,
    sum: i64,
    value: i64,
}

impl Process {
    pub fn new(kind: Kind) -> Process {
        Process { kind, begun: false, site: 0, sum: 0, value: 0 }
    }

    /// Its variables, in the order of their declarations.
    pub fn variables(&self) -> ([i64; 2], usize) {
        match self.kind {
            Kind::Sum => ([self.sum, self.value], 2),
            Kind::Pass | Kind::Deal | Kind::First => ([self.value, 0], 1),
        }
    }

    pub fn next(&self) -> Next {
        match (self.begun, self.kind, self.site) {
            (false, _, _) => Next::Begin,
            (true, Kind::Sum | Kind::Pass, 0) => Next::Get,
            (true, Kind::Sum | Kind::Pass, _) => Next::Put(0),
            (true, Kind::Deal, site) if site % 2 == 0 => Next::Get,
            (true, Kind::Deal, site) => Next::Put(site as usize / 2),
            (true, Kind::First, 1) => Next::Get,
            (true, Kind::First, 2) => Next::Put(0),
            (true, Kind::First, _) => Next::Put(1),
        }
    }

    // What it puts of an item that it gets.
    fn answer(&mut self, item: i64) -> i64 {
        self.value = item;
        match self.kind {
            Kind::Sum => {
                self.sum = self.sum.wrapping_add(item);
                self.sum
            }
            _ => item,
        }
    }

    // What it is about to put.
    fn answered(&self) -> i64 {
        match self.kind {
            Kind::Sum => self.sum,
            _ => self.value,
        }
    }

    // A turn of a process that puts one item for each that it gets. Where there is no room it gets one more, and stands before its put.
    fn answer_each(&mut self, items: &[i64], log: &mut Log, mut room: usize) -> usize {
        if self.site == 1 {
            if room == 0 {
                return 0;
            }
            log.items.push(self.answered());
            room -= 1;
            self.site = 0;
        }
        let whole = items.len().min(room);
        log.items.extend(items[..whole].iter().map(|item| self.answer(*item)));
        if whole == items.len() {
            return whole;
        }
        self.answer(items[whole]);
        self.site = 1;
        whole + 1
    }

    fn deal(&mut self, items: &[i64], ways: &mut [Way], share: usize) -> usize {
        let mut ends = [0; NODES as usize];
        for (end, way) in ends.iter_mut().zip(ways.iter()) {
            *end = way.log.len() + places(share, &way.log);
        }
        let mut items = items.iter();
        let all = items.len();
        loop {
            let place = self.site as usize / 2;
            if self.site % 2 == 0 {
                let Some(item) = items.next() else {
                    return all;
                };
                self.value = *item;
                self.site += 1;
            }
            let log = &mut ways[place].log;
            if log.len() == ends[place] {
                return all - items.len();
            }
            log.items.push(self.value);
            self.site = if place + 1 == ways.len() { 0 } else { self.site + 1 };
        }
    }

    fn begin_ring(&mut self, items: &[i64], ways: &mut [Way], share: usize) -> usize {
        let mut rooms = [places(share, &ways[0].log), places(share, &ways[1].log)];
        let mut got = 0;
        loop {
            let (place, item, site) = match self.site {
                0 => (1, 0, 1),
                1 => {
                    let Some(item) = items.get(got) else {
                        return got;
                    };
                    self.value = *item;
                    self.site = 2;
                    got += 1;
                    continue;
                }
                2 => (0, self.value, 3),
                _ => (1, self.value.wrapping_add(1), 1),
            };
            if rooms[place] == 0 {
                return got;
            }
            rooms[place] -= 1;
            ways[place].log.items.push(item);
            self.site = site;
        }
    }

    /// As many of its acts as these items and the room of a job allow, where each log has places up to this share. Gives how many items it got.
    pub fn turn(&mut self, items: &[i64], ways: &mut [Way], share: usize) -> usize {
        self.begun = true;
        match self.kind {
            Kind::Sum | Kind::Pass => {
                let log = &mut ways[0].log;
                let room = places(share, log);
                self.answer_each(items, log, room)
            }
            Kind::Deal => self.deal(items, ways, share),
            Kind::First => self.begin_ring(items, ways, share),
        }
    }
}

/// The places that a log has for a job.
pub fn places(share: usize, log: &Log) -> usize {
    share.saturating_sub(log.len()).min(MOST_JOB_ITEMS)
}
