// The numbers of the rules.

/// The most items of a channel in a job, and the most places of room.
pub const MOST_JOB_ITEMS: usize = 64;
/// The most jobs of a node in a round.
pub const MOST_JOBS: u8 = 64;
/// The most items of an inbox.
pub const MOST_WAITING: usize = 1_024;
/// How many positions of a channel between nodes may be under way.
pub const WINDOW: u64 = 64;
/// How many decisions of a node's own may be unsettled while it begins a checkpoint.
pub const MOST_UNSETTLED: usize = 8;
/// How many items a channel retains at first.
pub const FIRST_ROOM: usize = 4_096;
/// How many items all channels of a node retain at most.
pub const LARGEST_ROOM: usize = 57_344;
/// Counts and positions of a packet are no greater.
pub const GREATEST: u64 = i64::MAX as u64;
/// Numbers of nodes and of channels are below these.
pub const NODES: u8 = 16;
pub const CHANNELS: u16 = 256;
