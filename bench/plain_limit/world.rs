// The world: nodes that take turns, what is in flight between them, and rounds.

use crate::limits::{FIRST_ROOM, LARGEST_ROOM};
use crate::network::Network;
use crate::node::Node;
use crate::packet::Queue;

// After so many rounds a run is over.
const MOST_ROUNDS: u64 = 1_000_000;

pub struct World {
    network: Network,
    inputs: Vec<i64>,
    pub nodes: Vec<Node>,
    queues: Vec<Queue>,
    pub round: u64,
    // How many nodes have let a turn pass in this round.
    idled: usize,
    room: usize,
    // The nodes at which nothing has happened since they let a turn pass but that packets may be in flight to them.
    resting: Vec<bool>,
    // A node at which something was left to do when it was last asked.
    busy: usize,
}

impl World {
    pub fn new(network: Network, inputs: Vec<i64>) -> World {
        let count = network.processes.len();
        World {
            nodes: (0..count as u8).map(|node| Node::new(&network, node)).collect(),
            network,
            inputs,
            queues: (0..count).map(|_| Queue::default()).collect(),
            round: 0,
            idled: 0,
            room: FIRST_ROOM,
            resting: vec![false; count],
            busy: 0,
        }
    }

    // How many items were put by now on the channel from which a node gets.
    fn put_for(&self, node: &Node) -> u64 {
        match node.source() {
            (channel, Some(from)) => self.nodes[from as usize].put_on(channel),
            (_, None) => self.inputs.len() as u64,
        }
    }

    fn is_quiet(&self, node: usize) -> bool {
        let node = &self.nodes[node];
        node.is_quiet(self.put_for(node))
    }

    // Whether nothing is left to do. The node at which something was left before is asked first.
    pub fn is_complete(&mut self) -> bool {
        if !self.is_quiet(self.busy) {
            return false;
        }
        match (0..self.nodes.len()).find(|node| !self.is_quiet(*node)) {
            Some(node) => {
                self.busy = node;
                false
            }
            None => true,
        }
    }

    /// What has left, by outputs as they are declared.
    pub fn outlets(&self) -> impl Iterator<Item = (&str, &[i64])> {
        self.network.outputs.iter().map(|(name, channel)| {
            let from = self.network.producers[*channel as usize].expect("an output is put on") as usize;
            let place = self.network.places[*channel as usize];
            (name.as_str(), self.nodes[from].ways[place].outlet.as_slice())
        })
    }

    // Whether each output has the items that are asked for.
    fn has_items(&self, items: Option<usize>) -> bool {
        items.is_some_and(|items| self.outlets().all(|(_, stream)| stream.len() >= items))
    }

    fn is_over(&mut self, items: Option<usize>) -> bool {
        self.is_complete() || self.round >= MOST_ROUNDS || self.has_items(items)
    }

    fn is_still(&self, node: &Node) -> bool {
        node.is_still(&self.inputs, self.room, self.put_for(node), |way| match way.to {
            Some(to) => self.nodes[to as usize].kept(),
            None => 0,
        })
    }

    // Where all stand still for want of room alone, all channels have twice the room.
    fn give_room(&mut self) {
        let stands_still = self.nodes.iter().all(|node| self.is_still(node));
        if stands_still && self.nodes.iter().any(|node| node.wants_room(&self.inputs)) {
            self.room = (2 * self.room).min(LARGEST_ROOM);
        }
    }

    fn wake_all(&mut self) {
        self.resting.fill(false);
    }

    fn end_round(&mut self) {
        self.round += 1;
        self.idled = 0;
        self.nodes.iter_mut().for_each(Node::begin_round);
        self.wake_all();
        self.give_room();
    }

    fn idle(&mut self, number: usize) {
        self.idled += self.nodes[number].idle() as usize;
        self.resting[number] = true;
        if self.idled == self.nodes.len() {
            self.end_round();
        }
    }

    // The event that is next for a node.
    fn take_event(&mut self, number: usize) {
        let node = &mut self.nodes[number];
        self.resting[number] = false;
        if !self.queues[number].is_empty() {
            if let Some(packet) = self.queues[number].take(number as u8) {
                node.hear(&self.network, packet, &mut self.queues);
            }
        } else if node.may_release() {
            node.release();
        } else if node.may_grant(&self.inputs, self.room) {
            node.run_job(&self.inputs, self.room);
            self.wake_all();
        } else if node.may_decide() {
            node.decide(&mut self.queues);
        } else if self.round % self.resting.len() as u64 == number as u64 && node.may_start() {
            node.start(&self.network, &mut self.queues);
        } else if node.may_send() {
            node.send(&self.network, &mut self.queues);
        } else {
            self.idle(number);
        }
    }

    /// Takes turns, the nodes one after another, until nothing is left to do, the rounds are over, or each output has so many items. A node that
    /// rests, and to which no packet is in flight, would let its turn pass once more: that changes nothing while others are busy.
    pub fn run(&mut self, items: Option<usize>) {
        let mut number = 0;
        while !self.is_over(items) {
            while self.resting[number] && self.queues[number].is_empty() {
                number = self.after(number);
            }
            self.take_event(number);
            number = self.after(number);
        }
    }

    fn after(&self, number: usize) -> usize {
        if number + 1 == self.nodes.len() { 0 } else { number + 1 }
    }
}
