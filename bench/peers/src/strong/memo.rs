//! The memo: an open table from keys to their newest cells.

/// How many slots a memo begins with.
const FIRST: usize = 64;

/// A part of a key's hash, and one more than its newest cell. A slot of zeros is free.
type Slot = (u32, u32);

const FREE: Slot = (0, 0);

/// Marks the cell of a key that was cleared.
const CLEARED: u32 = 1 << 31;

/// What the memo has for a key: the cell that is held, or the newest one that was cleared, if any; and the place of its slot.
pub enum Found {
    Held { place: usize, cell: u32 },
    Absent { place: usize, cleared: Option<u32> },
}

/// At most half of the slots are in use.
pub struct Memo {
    slots: Vec<Slot>,
    used: usize,
    /// Cells below it are cleared.
    first_held: u32,
}

impl Memo {
    pub fn new() -> Memo {
        Memo { slots: vec![FREE; FIRST], used: 0, first_held: 0 }
    }

    /// Finds a key by its hash, and by whether a cell is of it.
    #[inline(always)]
    pub fn find(&self, hash: u64, is_of_key: impl Fn(u32) -> bool) -> Found {
        let tag = tag_of(hash);
        let mut place = self.place(tag);
        loop {
            let slot = self.slots[place];
            if slot == FREE {
                return Found::Absent { place, cleared: None };
            }
            let cell = (slot.1 & !CLEARED) - 1;
            if slot.0 == tag && is_of_key(cell) {
                let is_cleared = slot.1 & CLEARED != 0 || cell < self.first_held;
                if is_cleared {
                    return Found::Absent { place, cleared: Some(cell) };
                }
                return Found::Held { place, cell };
            }
            place = self.place(place as u32 + 1);
        }
    }

    /// Holds a cell for the key that was found in a place.
    #[inline(always)]
    pub fn put(&mut self, place: usize, hash: u64, cell: u32) {
        let before = std::mem::replace(&mut self.slots[place], (tag_of(hash), cell + 1));
        self.used += usize::from(before == FREE);
        if 2 * self.used > self.slots.len() {
            self.grow();
        }
    }

    pub fn clear(&mut self, place: usize) {
        self.slots[place].1 |= CLEARED;
    }

    /// Clears all cells, of which there are so many.
    pub fn clear_all(&mut self, cells: u32) {
        self.first_held = cells;
    }

    /// The place of a number.
    fn place(&self, number: u32) -> usize {
        number as usize & (self.slots.len() - 1)
    }

    #[cold]
    fn grow(&mut self) {
        let size = 2 * self.slots.len();
        let old = std::mem::replace(&mut self.slots, vec![FREE; size]);
        for slot in old.into_iter().filter(|&slot| slot != FREE) {
            let mut place = self.place(slot.0);
            while self.slots[place] != FREE {
                place = self.place(place as u32 + 1);
            }
            self.slots[place] = slot;
        }
    }
}

fn tag_of(hash: u64) -> u32 {
    (hash >> 32) as u32
}
