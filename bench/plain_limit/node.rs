// A node: its process, its ends of channels, its record, and what it does and says.

use crate::disk::Disk;
use crate::limits::{LARGEST_ROOM, MOST_JOB_ITEMS, MOST_JOBS, MOST_UNSETTLED, WINDOW};
use crate::log::{Inbox, Log};
use crate::network::Network;
use crate::packet::{Need, Packet, Queue, Said};
use crate::process::{Kind, Next, Process, places};
use crate::record::{Decision, Header, Image, Instance, each_node};

// Why a node takes no part in a checkpoint.
const BUSY: u8 = 1;
const BEHIND: u8 = 2;

/// How a channel on which a node puts goes on.
pub struct Way {
    pub channel: u16,
    /// The node that gets from it: none where it goes outside.
    pub to: Option<u8>,
    pub log: Log,
    // Up to here the receiver has acknowledged.
    acknowledged: u64,
    // How many items the permanent image has put, and the one that is held.
    kept: u64,
    held: u64,
    /// What has left.
    pub outlet: Vec<i64>,
}

// The question whether so many items of a channel are put for good, and whether its answer is missing.
struct Question {
    channel: u16,
    count: u64,
    is_open: bool,
}

/// What a node has done in this round.
#[derive(Default)]
struct Turns {
    granted: u8,
    started: bool,
    sent: bool,
    // It held an image when it sent.
    sent_holding: bool,
    idled: bool,
}

/// What was done since the beginning.
#[derive(Default)]
pub struct Counts {
    pub jobs: u64,
    pub starts: u64,
    pub images: u64,
    pub decisions: u64,
    pub packets: u64,
}

pub struct Node {
    number: u8,
    process: Process,
    source: u16,
    // The node that puts on it: none where it comes from outside.
    from: Option<u8>,
    received: u64,
    kept: u64,
    held: u64,
    inbox: Inbox,
    pub ways: Vec<Way>,
    // The place of the way that goes outside.
    outlet: Option<usize>,
    highest: Vec<u64>,
    decisions: Vec<Decision>,
    tentative: Option<Instance>,
    // The slot of the permanent image.
    slot: usize,
    pub disk: Disk,
    // The number of the checkpoint for which answers are collected, what was asked, channels ascending, and who takes part, a bit each.
    live: Option<u64>,
    questions: Vec<Question>,
    takers: u16,
    turns: Turns,
    pub counts: Counts,
}

// The items that a job of a node would have, which has received so many.
fn at_hand<'a>(from: Option<u8>, received: u64, inbox: &'a Inbox, inputs: &'a [i64]) -> &'a [i64] {
    let items = match from {
        None => &inputs[received as usize..],
        Some(_) => inbox.log.retained(),
    };
    &items[..items.len().min(MOST_JOB_ITEMS)]
}

impl Node {
    pub fn new(network: &Network, number: u8) -> Node {
        let (kind, source) = network.processes[number as usize];
        let way = |channel: u16| Way {
            channel,
            to: network.consumers[channel as usize],
            log: Log::default(),
            acknowledged: 0,
            kept: 0,
            held: 0,
            outlet: Vec::new(),
        };
        let ways: Vec<Way> = network.channels_from(number).map(way).collect();
        let mut node = Node {
            number,
            process: Process::new(kind),
            source,
            from: network.producers[source as usize],
            received: 0,
            kept: 0,
            held: 0,
            inbox: Inbox::new(),
            outlet: ways.iter().position(|way| way.to.is_none()),
            ways,
            highest: vec![0; network.processes.len()],
            decisions: Vec::new(),
            tentative: None,
            slot: 0,
            disk: Disk::new(),
            live: None,
            questions: Vec::new(),
            takers: 0,
            turns: Turns::default(),
            counts: Counts::default(),
        };
        node.format();
        node
    }

    // The opening record. No device call is counted up to here.
    fn format(&mut self) {
        self.fill(self.slot);
        self.put_header();
        self.disk.calls = 0;
    }

    // ---- the record

    fn fill(&mut self, slot: usize) {
        let image = Image {
            node: self.number,
            process: &self.process,
            source: self.source,
            received: self.received,
            ways: &self.ways,
        };
        self.disk.fill(slot, |pen| image.put(pen));
    }

    fn put_header(&mut self) {
        let header = Header {
            node: self.number,
            highest: &self.highest,
            decisions: &self.decisions,
            slot: self.slot,
            tentative: self.tentative,
        };
        self.disk.put(|pen| header.put(pen));
    }

    // What it has now becomes its tentative image, of this checkpoint. Of the images memory needs the counts alone.
    fn take_image(&mut self, initiator: u8, number: u64) {
        self.held = self.received;
        for way in &mut self.ways {
            way.held = way.log.end();
        }
        self.fill(1 - self.slot);
        self.highest[initiator as usize] = number;
        self.tentative = Some(Instance { initiator, number });
        self.put_header();
        self.counts.images += 1;
    }

    // The image that is held becomes the permanent one, in one put.
    fn keep_image(&mut self) {
        self.kept = self.held;
        for way in &mut self.ways {
            way.kept = way.held;
        }
        self.slot = 1 - self.slot;
        self.tentative = None;
        self.put_header();
    }

    fn drop_image(&mut self) {
        self.tentative = None;
        self.put_header();
    }

    fn holds(&self, initiator: u8, number: u64) -> bool {
        self.tentative == Some(Instance { initiator, number })
    }

    // What an image that received so many needs of the node that puts there.
    fn need(&self, received: u64) -> Option<Need> {
        (self.from.is_some() && self.kept < received).then_some(Need { channel: self.source, count: received })
    }

    // ---- what is next

    fn share(&self, room: usize) -> usize {
        room.min(LARGEST_ROOM / self.ways.len())
    }

    fn is_ready(&self, inputs: &[i64], room: usize) -> bool {
        match self.process.next() {
            Next::Begin => true,
            Next::Get => !at_hand(self.from, self.received, &self.inbox, inputs).is_empty(),
            Next::Put(place) => places(self.share(room), &self.ways[place].log) > 0,
        }
    }

    /// Whether the permanent image covers an item that hasn't left.
    pub fn may_release(&self) -> bool {
        match self.outlet {
            Some(place) => {
                let way = &self.ways[place];
                (way.outlet.len() as u64) < way.kept
            }
            None => false,
        }
    }

    pub fn may_grant(&self, inputs: &[i64], room: usize) -> bool {
        self.turns.granted < MOST_JOBS && self.tentative.is_none() && self.is_ready(inputs, room)
    }

    pub fn may_decide(&self) -> bool {
        match self.live {
            Some(number) => self.holds(self.number, number) && !self.questions.iter().any(|question| question.is_open),
            None => false,
        }
    }

    fn has_more(&self) -> bool {
        self.received > self.kept || self.ways.iter().any(|way| way.log.end() > way.kept)
    }

    /// Whether it begins a checkpoint where it is its turn to begin one.
    pub fn may_start(&self) -> bool {
        !self.turns.started && self.tentative.is_none() && self.decisions.len() < MOST_UNSETTLED && self.has_more()
    }

    pub fn may_send(&self) -> bool {
        !self.turns.sent || (self.turns.sent_holding && self.tentative.is_none())
    }

    // ---- what it does

    /// Lets one item leave.
    pub fn release(&mut self) {
        if let Some(place) = self.outlet {
            let way = &mut self.ways[place];
            way.outlet.push(way.log.retained()[0]);
            way.log.let_go(1);
        }
    }

    /// A job is granted and comes back at once: so its items are read where they lie, and what is put goes where it will lie.
    pub fn run_job(&mut self, inputs: &[i64], room: usize) {
        let share = self.share(room);
        let items = at_hand(self.from, self.received, &self.inbox, inputs);
        let got = self.process.turn(items, &mut self.ways, share);
        self.received += got as u64;
        if self.from.is_some() {
            self.inbox.got(got);
        }
        self.turns.granted += 1;
        self.counts.jobs += 1;
    }

    // Adds the question that a need makes. A channel is asked of once, and none of its own.
    fn ask(&mut self, network: &Network, need: Need, queues: &mut [Queue]) {
        let Some(to) = network.producers[need.channel as usize] else {
            return;
        };
        if to == self.number || self.questions.iter().any(|question| question.channel == need.channel) {
            return;
        }
        let place = self.questions.iter().take_while(|question| question.channel < need.channel).count();
        self.questions.insert(place, Question { channel: need.channel, count: need.count, is_open: true });
        if let Some(number) = self.live {
            self.say(queues, to, Said::Ask { number, channel: need.channel, count: need.count });
        }
    }

    /// Begins a checkpoint.
    pub fn start(&mut self, network: &Network, queues: &mut [Queue]) {
        let number = self.highest[self.number as usize] + 1;
        self.take_image(self.number, number);
        self.live = Some(number);
        self.questions.clear();
        self.takers = 0;
        if let Some(need) = self.need(self.received) {
            self.ask(network, need, queues);
        }
        self.turns.started = true;
        self.counts.starts += 1;
    }

    /// Decides the checkpoint for which no answer is missing.
    pub fn decide(&mut self, queues: &mut [Queue]) {
        let Some(number) = self.live.take() else {
            return;
        };
        if self.takers != 0 {
            self.decisions.push(Decision { number, nodes: self.takers });
        }
        self.keep_image();
        for node in each_node(self.takers) {
            self.say(queues, node, Said::Commit { number });
        }
        self.counts.decisions += 1;
    }

    fn say(&self, queues: &mut [Queue], to: u8, said: Said) {
        queues[to as usize].push(self.number, to, said);
    }

    // Says again what wasn't answered of checkpoints.
    fn tell_again(&self, network: &Network, queues: &mut [Queue]) {
        if let Some(number) = self.live {
            for question in self.questions.iter().filter(|question| question.is_open) {
                if let Some(to) = network.producers[question.channel as usize] {
                    self.say(queues, to, Said::Ask { number, channel: question.channel, count: question.count });
                }
            }
        }
        for decision in &self.decisions {
            for node in each_node(decision.nodes) {
                self.say(queues, node, Said::Commit { number: decision.number });
            }
        }
        if let Some(held) = self.tentative.filter(|held| held.initiator != self.number) {
            self.say(queues, held.initiator, Said::Query { number: held.number });
        }
    }

    fn send_items(&self, queues: &mut [Queue]) {
        for way in &self.ways {
            let Some(to) = way.to else {
                continue;
            };
            let first = way.acknowledged.max(way.log.base);
            let rest = way.log.retained().get((first - way.log.base) as usize..).unwrap_or(&[]);
            for (position, item) in (first..).zip(&rest[..rest.len().min(WINDOW as usize)]) {
                self.say(queues, to, Said::Data { channel: way.channel, position, item: *item });
            }
        }
    }

    /// Sends what is for the others in this round.
    pub fn send(&mut self, network: &Network, queues: &mut [Queue]) {
        if let Some(to) = self.from {
            self.say(queues, to, Said::Ack { channel: self.source, epoch: 0, next: self.inbox.next() });
            self.say(queues, to, Said::Kept { channel: self.source, count: self.kept });
        }
        self.tell_again(network, queues);
        if self.tentative.is_none() {
            self.send_items(queues);
        }
        self.turns.sent = true;
        self.turns.sent_holding = self.tentative.is_some();
    }

    /// Lets its turn pass. Answers whether it hadn't in this round.
    pub fn idle(&mut self) -> bool {
        !std::mem::replace(&mut self.turns.idled, true)
    }

    pub fn begin_round(&mut self) {
        self.turns = Turns::default();
    }

    // ---- what it hears

    // Whether a packet names what is there: a channel that runs from the sender to this node, or the other way, or from one of both to another.
    fn is_right(&self, network: &Network, from: u8, said: Said) -> bool {
        let runs = |channel: u16, from: u8, to: u8| {
            network.producer(channel) == Some(from) && network.consumer(channel) == Some(to)
        };
        let goes_from = |channel: u16, from: u8| {
            network.producer(channel) == Some(from) && network.consumer(channel).is_some_and(|to| to != from)
        };
        let comes_to = |channel: u16, to: u8| {
            network.consumer(channel) == Some(to) && network.producer(channel).is_some_and(|from| from != to)
        };
        (from as usize) < self.highest.len()
            && match said {
                Said::Data { channel, .. } => runs(channel, from, self.number),
                Said::Ack { channel, .. } | Said::Kept { channel, .. } => runs(channel, self.number, from),
                Said::Ask { channel, .. } => goes_from(channel, self.number),
                Said::Took { channel, need, .. } => {
                    goes_from(channel, from) && need.is_none_or(|need| comes_to(need.channel, from))
                }
                Said::Covered { channel, .. } | Said::Refused { channel, .. } => goes_from(channel, from),
                Said::Query { .. } | Said::Commit { .. } | Said::Ended { .. } | Said::Settled { .. } => true,
            }
    }

    fn way_of(&self, channel: u16) -> &Way {
        self.ways.iter().find(|way| way.channel == channel).expect("a channel on which the node puts")
    }

    // It is asked whether so many items of a channel are put for good.
    fn hear_ask(&mut self, from: u8, number: u64, channel: u16, count: u64, queues: &mut [Queue]) {
        let holds = self.holds(from, number);
        if number <= self.highest[from as usize] && !holds {
            return;
        }
        let way = self.way_of(channel);
        let said = if count <= way.kept {
            Said::Covered { number, channel, count }
        } else if holds && count <= way.held {
            Said::Took { number, channel, count, need: self.need(self.held) }
        } else if holds {
            Said::Refused { number, channel, reason: BEHIND }
        } else if self.tentative.is_some() {
            Said::Refused { number, channel, reason: BUSY }
        } else if way.log.end() < count {
            Said::Refused { number, channel, reason: BEHIND }
        } else {
            let need = self.need(self.received);
            self.take_image(from, number);
            Said::Took { number, channel, count, need }
        };
        self.say(queues, from, said);
    }

    // A node takes part of which a channel was asked. Where it needs more of this node than its own image has put, the checkpoint is given up.
    fn hear_took(&mut self, network: &Network, from: u8, channel: u16, need: Option<Need>, queues: &mut [Queue]) {
        let Some(place) = self.questions.iter().position(|question| question.channel == channel) else {
            return;
        };
        let own = need.filter(|need| network.producer(need.channel) == Some(self.number));
        if own.is_some_and(|need| need.count > self.way_of(need.channel).held) {
            self.give_up();
            return;
        }
        self.questions[place].is_open = false;
        self.takers |= 1 << from;
        if let Some(need) = need {
            self.ask(network, need, queues);
        }
    }

    fn give_up(&mut self) {
        self.live = None;
        self.drop_image();
    }

    fn hear_covered(&mut self, channel: u16) {
        if let Some(question) = self.questions.iter_mut().find(|question| question.channel == channel) {
            question.is_open = false;
        }
    }

    // The verdict on a checkpoint of its own, for a node that holds its image.
    fn hear_query(&self, from: u8, number: u64, queues: &mut [Queue]) {
        if self.decisions.iter().any(|decision| decision.number == number) {
            self.say(queues, from, Said::Commit { number });
        } else if self.live != Some(number) && number <= self.highest[self.number as usize] {
            self.say(queues, from, Said::Ended { number });
        }
    }

    fn hear_commit(&mut self, from: u8, number: u64, queues: &mut [Queue]) {
        if self.holds(from, number) {
            self.keep_image();
        }
        if number <= self.highest[from as usize] {
            self.say(queues, from, Said::Settled { number });
        }
    }

    // A node has done what a decision says. With the last one the decision goes.
    fn hear_settled(&mut self, from: u8, number: u64) {
        let named = |decision: &Decision| decision.number == number && decision.nodes >> from & 1 == 1;
        let Some(place) = self.decisions.iter().position(named) else {
            return;
        };
        self.decisions[place].nodes &= !(1 << from);
        if self.decisions[place].nodes == 0 {
            self.decisions.remove(place);
        }
        self.put_header();
    }

    // Whether answers are collected for its checkpoint of this number, whose image it holds.
    fn collects(&self, number: u64) -> bool {
        self.live == Some(number) && self.holds(self.number, number)
    }

    /// A packet comes to it.
    pub fn hear(&mut self, network: &Network, packet: Packet, queues: &mut [Queue]) {
        let Packet { from, said } = packet;
        self.counts.packets += 1;
        if !self.is_right(network, from, said) {
            return;
        }
        match said {
            Said::Data { position, item, .. } => self.inbox.take(position, item),
            Said::Ack { channel, epoch, next } => {
                let way = &mut self.ways[network.places[channel as usize]];
                if epoch == 0 && next > way.acknowledged {
                    way.acknowledged = next;
                }
            }
            Said::Kept { channel, count } => self.ways[network.places[channel as usize]].log.let_go_before(count),
            Said::Ask { number, channel, count } => self.hear_ask(from, number, channel, count, queues),
            Said::Took { number, channel, need, .. } if self.collects(number) => {
                self.hear_took(network, from, channel, need, queues);
            }
            Said::Covered { number, channel, .. } if self.live == Some(number) => self.hear_covered(channel),
            Said::Refused { number, .. } if self.collects(number) => self.give_up(),
            Said::Query { number } => self.hear_query(from, number, queues),
            Said::Commit { number } => self.hear_commit(from, number, queues),
            Said::Ended { number } if self.holds(from, number) => self.drop_image(),
            Said::Settled { number } => self.hear_settled(from, number),
            Said::Took { .. } | Said::Covered { .. } | Said::Refused { .. } | Said::Ended { .. } => {}
        }
    }

    // ---- where the run stands

    /// How many items it has put on a channel by now.
    pub fn put_on(&self, channel: u16) -> u64 {
        self.way_of(channel).log.end()
    }

    fn have_all_left(&self) -> bool {
        self.ways.iter().all(|way| way.to.is_some() || way.outlet.len() as u64 == way.log.end())
    }

    /// Whether nothing is left to do here, where so many items were put on its source by now.
    pub fn is_quiet(&self, put: u64) -> bool {
        matches!(self.process.next(), Next::Get) && self.received == put && self.have_all_left()
    }

    /// The channel from which it gets, and the node that puts there.
    pub fn source(&self) -> (u16, Option<u8>) {
        (self.source, self.from)
    }

    /// Up to which position the permanent image has received.
    pub fn kept(&self) -> u64 {
        self.kept
    }

    // Whether nothing more comes to its inbox.
    fn has_come(&self, put: u64) -> bool {
        self.from.is_none() || self.inbox.next() == put || (self.inbox.is_full() && self.inbox.next() < put)
    }

    /// Whether nothing happens here any more while channels have this room, where so many items were put on its source, and so many of each way
    /// are kept for good where it goes.
    pub fn is_still(&self, inputs: &[i64], room: usize, put: u64, kept: impl Fn(&Way) -> u64) -> bool {
        let has_let_go = |way: &Way| way.to.is_none() || kept(way) <= way.log.base;
        !self.has_more()
            && self.tentative.is_none()
            && self.decisions.is_empty()
            && self.have_all_left()
            && self.has_come(put)
            && self.ways.iter().all(has_let_go)
            && !self.is_ready(inputs, room)
    }

    /// Whether it waits for room that a channel could have.
    pub fn wants_room(&self, inputs: &[i64]) -> bool {
        self.is_ready(inputs, LARGEST_ROOM)
    }
}

/// The kinds of processes, by node, and the channels from which they get.
pub type Processes = Vec<(Kind, u16)>;
