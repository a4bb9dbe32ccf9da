// A node's disk: sectors in memory, with a gate, a header in one of two areas, and an image in each of two slots.

const SECTOR: usize = 512;
const SECTORS: usize = 4_101;
const HEADER_SECTORS: usize = 3;
const SLOT_SECTORS: usize = (SECTORS - HEADER_SECTORS) / 2;
// The length that stands in front of a value.
const LENGTH: usize = 8;

pub struct Disk {
    bytes: Vec<u8>,
    // The area that the gate names.
    area: usize,
    /// Writes and syncs since the world was made.
    pub calls: u64,
}

/// What is spelled where it is to lie, the most significant byte first.
pub struct Pen<'a> {
    bytes: &'a mut [u8],
    at: usize,
}

impl Pen<'_> {
    fn put<const COUNT: usize>(&mut self, bytes: [u8; COUNT]) {
        self.bytes[self.at..self.at + COUNT].copy_from_slice(&bytes);
        self.at += COUNT;
    }

    pub fn byte(&mut self, value: u8) {
        self.put([value]);
    }

    pub fn short(&mut self, value: u16) {
        self.put(value.to_be_bytes());
    }

    pub fn word(&mut self, value: u32) {
        self.put(value.to_be_bytes());
    }

    pub fn long(&mut self, value: u64) {
        self.put(value.to_be_bytes());
    }

    pub fn items(&mut self, items: &[i64]) {
        let end = self.at + 8 * items.len();
        for (place, item) in self.bytes[self.at..end].chunks_exact_mut(8).zip(items) {
            place.copy_from_slice(&item.to_be_bytes());
        }
        self.at = end;
    }
}

impl Disk {
    /// It isn't formatted, and no area counts as named.
    pub fn new() -> Disk {
        Disk { bytes: vec![0; SECTOR * SECTORS], area: 1, calls: 0 }
    }

    // Writes whole sectors from this one on, and syncs: a length, what is spelled, and zeros. In memory nothing is in doubt, so that a sync only
    // counts.
    fn write(&mut self, first: usize, most: usize, spell: impl FnOnce(&mut Pen)) {
        let room = &mut self.bytes[SECTOR * first..SECTOR * (first + most)];
        let mut pen = Pen { bytes: room, at: LENGTH };
        spell(&mut pen);
        let end = pen.at;
        room[..LENGTH].copy_from_slice(&((end - LENGTH) as u64).to_be_bytes());
        room[end..end.next_multiple_of(SECTOR)].fill(0);
        self.calls += 2;
    }

    /// Fills a slot: an image is written, of which no header speaks yet.
    pub fn fill(&mut self, slot: usize, spell: impl FnOnce(&mut Pen)) {
        self.write(HEADER_SECTORS + slot * SLOT_SECTORS, SLOT_SECTORS, spell);
    }

    /// Puts a header: it is written into the area that the gate doesn't name, and then the gate names that one.
    pub fn put(&mut self, spell: impl FnOnce(&mut Pen)) {
        self.area = 1 - self.area;
        self.write(1 + self.area, 1, spell);
        let gate = &mut self.bytes[..SECTOR];
        gate.fill(0);
        gate[0] = self.area as u8;
        self.calls += 2;
    }
}
