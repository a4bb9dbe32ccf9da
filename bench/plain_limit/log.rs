// What is retained of a channel, and what came of one from another node.

use crate::limits::{FIRST_ROOM, MOST_WAITING, WINDOW};

// The items of a channel from a position on, the base. What is gone still lies in front until it is worth a move.
#[derive(Default)]
pub struct Log {
    pub base: u64,
    pub items: Vec<i64>,
    gone: usize,
}

impl Log {
    pub fn retained(&self) -> &[i64] {
        &self.items[self.gone..]
    }

    pub fn len(&self) -> usize {
        self.items.len() - self.gone
    }

    pub fn end(&self) -> u64 {
        self.base + self.len() as u64
    }

    pub fn let_go(&mut self, count: usize) {
        self.base += count as u64;
        self.gone += count;
        if self.gone == self.items.len() {
            self.items.clear();
            self.gone = 0;
        } else if self.gone >= FIRST_ROOM {
            self.items.drain(..self.gone);
            self.gone = 0;
        }
    }

    // Nobody asks again for what stands before this position.
    pub fn let_go_before(&mut self, position: u64) {
        if position > self.base && position <= self.end() {
            self.let_go((position - self.base) as usize);
        }
    }
}

// What came of a channel and wasn't got yet, and the window of the positions behind it.
pub struct Inbox {
    pub log: Log,
    // The bit k is set where the item of the k-th position behind the log is held, which overtook others.
    held: u64,
    // These items, each at its position modulo the window.
    ahead: [i64; WINDOW as usize],
}

impl Inbox {
    pub fn new() -> Inbox {
        Inbox { log: Log::default(), held: 0, ahead: [0; WINDOW as usize] }
    }

    // The position that is taken next.
    pub fn next(&self) -> u64 {
        self.log.end()
    }

    pub fn is_full(&self) -> bool {
        self.log.len() >= MOST_WAITING
    }

    // An item came. It is dropped where there is no place for it, where it came before, and past the window.
    pub fn take(&mut self, position: u64, item: i64) {
        let next = self.next();
        if self.is_full() || position < next || position - next >= WINDOW {
            return;
        }
        let behind = position - next;
        if self.held >> behind & 1 == 1 {
            return;
        }
        if behind > 0 {
            self.held |= 1 << behind;
            self.ahead[(position % WINDOW) as usize] = item;
            return;
        }
        self.log.items.push(item);
        self.held >>= 1;
        self.take_held();
    }

    // What is held without a gap goes to the log, as far as there are places.
    fn take_held(&mut self) {
        while self.held & 1 == 1 && !self.is_full() {
            let place = (self.next() % WINDOW) as usize;
            self.log.items.push(self.ahead[place]);
            self.held >>= 1;
        }
    }

    // A process got so many.
    pub fn got(&mut self, count: usize) {
        self.log.let_go(count);
        self.take_held();
    }
}
