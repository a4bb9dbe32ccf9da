// The networks: who puts on each channel and who gets from it, by number. Channels are numbered as bench/peers declares them.

use crate::node::Processes;
use crate::process::Kind;

pub struct Network {
    pub processes: Processes,
    /// Nodes by channel: none is outside.
    pub producers: Vec<Option<u8>>,
    pub consumers: Vec<Option<u8>>,
    /// The place of each channel among the ways of its producer.
    pub places: Vec<usize>,
    /// The outputs' names and channels, as they are declared.
    pub outputs: Vec<(String, u16)>,
}

impl Network {
    // Of these channels, each with its producer and its consumer.
    fn of(processes: Processes, channels: &[(Option<u8>, Option<u8>)], outputs: Vec<(String, u16)>) -> Network {
        let place = |channel: usize| channels[..channel].iter().filter(|other| other.0 == channels[channel].0).count();
        Network {
            processes,
            producers: channels.iter().map(|channel| channel.0).collect(),
            consumers: channels.iter().map(|channel| channel.1).collect(),
            places: (0..channels.len()).map(place).collect(),
            outputs,
        }
    }

    pub fn producer(&self, channel: u16) -> Option<u8> {
        *self.producers.get(channel as usize)?
    }

    pub fn consumer(&self, channel: u16) -> Option<u8> {
        *self.consumers.get(channel as usize)?
    }

    /// The channels on which a node puts, ascending.
    pub fn channels_from(&self, node: u8) -> impl Iterator<Item = u16> {
        (0..self.producers.len() as u16).filter(move |channel| self.producer(*channel) == Some(node))
    }
}

fn one_output(channel: u16) -> Vec<(String, u16)> {
    vec![("o".to_string(), channel)]
}

/// So many running sums in a row: channel 0 is the input, 1 the output, and those between the nodes follow.
pub fn chain(count: u8) -> Network {
    let last = count - 1;
    let source = |node: u8| if node == 0 { 0 } else { 1 + node as u16 };
    let mut channels = vec![(None, Some(0)), (Some(last), None)];
    channels.extend((0..last).map(|node| (Some(node), Some(node + 1))));
    Network::of((0..count).map(|node| (Kind::Sum, source(node))).collect(), &channels, one_output(1))
}

/// So many processes in a row, of which the last one adds up: channel n goes to node n, and the last one outside.
pub fn pass(count: u8) -> Network {
    let last = count - 1;
    let kind = |node: u8| if node == last { Kind::Sum } else { Kind::Pass };
    let mut channels = vec![(None, Some(0))];
    channels.extend((0..last).map(|node| (Some(node), Some(node + 1))));
    channels.push((Some(last), None));
    Network::of((0..count).map(|node| (kind(node), node as u16)).collect(), &channels, one_output(count as u16))
}

/// Node 0 deals to so many running sums: behind the input stands for each of these the channel to it, and its output.
pub fn fan(count: u8) -> Network {
    let mut processes = vec![(Kind::Deal, 0)];
    let mut channels = vec![(None, Some(0))];
    let mut outputs = Vec::new();
    for node in 1..=count {
        let source = channels.len() as u16;
        channels.extend([(Some(0), Some(node)), (Some(node), None)]);
        processes.push((Kind::Sum, source));
        outputs.push((format!("o{}", node - 1), source + 1));
    }
    Network::of(processes, &channels, outputs)
}

/// A ring: channel 0 is the output of node 0, and channel 1 + n goes from node n to the next one.
pub fn ring(count: u8) -> Network {
    let after = |node: u8| if node + 1 == count { 0 } else { node + 1 };
    let kind = |node: u8| if node == 0 { (Kind::First, count as u16) } else { (Kind::Pass, node as u16) };
    let mut channels = vec![(Some(0), None)];
    channels.extend((0..count).map(|node| (Some(node), Some(after(node)))));
    Network::of((0..count).map(kind).collect(), &channels, one_output(0))
}
