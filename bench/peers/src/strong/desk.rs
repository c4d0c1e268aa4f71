//! The loader of one thread: the memo, the cells, and the batches.

pub use crate::desk::{DeskFault, End, Limits, LoadReply, LARGEST_LIMIT};

use super::memo::{Found, Memo};
use super::value::Key;
use std::collections::{HashMap, HashSet};
use std::iter;

/// No cell, or no batch.
const NONE: u32 = u32::MAX;

/// What was begun for a key.
struct Cell {
    key: Key,
    /// The newest batch that the key is a member of.
    batch: u32,
    /// The next cell of the cell's batch.
    next: u32,
}

/// The cells that are fetched together, as a chain.
pub struct Batch {
    first: u32,
    last: u32,
    len: u32,
    pub end: Option<End>,
}

impl Batch {
    /// How many keys it has.
    pub fn len(&self) -> usize {
        self.len as usize
    }
}

/// A batch that was sent.
pub struct Job {
    pub batch: u32,
    pub keys: Vec<Key>,
}

/// A place of the memo for a new cell, and the newest batch that its key is a member of.
struct Room {
    place: usize,
    batch: u32,
}

pub struct Desk {
    limits: Limits,
    memo: Memo,
    cells: Vec<Cell>,
    pub batches: Vec<Batch>,
    /// How many of the batches were sent.
    pub sent: u32,
    /// The newest batch of each table, where each batch is of one table.
    newest: HashMap<String, u32>,
}

impl Desk {
    pub fn new(limits: Limits) -> Desk {
        Desk { limits, memo: Memo::new(), cells: Vec::new(), batches: Vec::new(), sent: 0, newest: HashMap::new() }
    }

    #[inline(always)]
    pub fn load(&mut self, key: &Key) -> Result<LoadReply, DeskFault> {
        let room = match self.find(key) {
            Found::Held { cell, .. } => return Ok(LoadReply::Hit(cell)),
            Found::Absent { place, cleared } => self.room(place, cleared)?,
        };
        let batch = self.join(key, room.batch);
        let cell = self.begin(key, Room { batch, ..room });
        self.chain(batch, cell);
        Ok(LoadReply::Fresh { cell, batch })
    }

    /// Loads keys in order, all or none.
    pub fn load_many(&mut self, keys: &[Key]) -> Result<Vec<LoadReply>, DeskFault> {
        self.check_many(keys)?;
        keys.iter().map(|key| self.load(key)).collect()
    }

    /// Whether there is room for all of the keys.
    pub fn check_many(&self, keys: &[Key]) -> Result<(), DeskFault> {
        let room = self.limits.cells - self.cells.len();
        if keys.len() > room && self.count_new(keys) > room {
            return Err(DeskFault::CellsFull(self.limits.cells));
        }
        Ok(())
    }

    /// Begins a cell for a key in no batch, unless the key is held.
    pub fn prime(&mut self, key: &Key) -> Result<Option<u32>, DeskFault> {
        match self.find(key) {
            Found::Held { .. } => Ok(None),
            Found::Absent { place, cleared } => {
                let room = self.room(place, cleared)?;
                Ok(Some(self.begin(key, room)))
            }
        }
    }

    pub fn clear(&mut self, key: &Key) {
        if let Found::Held { place, .. } = self.find(key) {
            self.memo.clear(place);
        }
    }

    pub fn clear_all(&mut self) {
        self.memo.clear_all(self.count_cells());
    }

    /// Sends what was begun.
    pub fn dispatch(&mut self) -> Vec<Job> {
        let first = std::mem::replace(&mut self.sent, self.batches.len() as u32);
        (first..self.sent).map(|batch| Job { batch, keys: self.keys(batch) }).collect()
    }

    /// Ends a batch that was sent. Where it failed the memo forgets its keys.
    pub fn end(&mut self, number: u32, end: End) -> Result<(), DeskFault> {
        let batch = self.batches.get_mut(number as usize).ok_or(DeskFault::NoBatch)?;
        if number >= self.sent {
            return Err(DeskFault::NotSent);
        }
        if batch.end.is_some() {
            return Err(DeskFault::SettledBefore);
        }
        batch.end = Some(end);
        if end == End::Failed {
            self.forget(number);
        }
        Ok(())
    }

    /// The cells of a batch.
    pub fn members(&self, batch: u32) -> impl Iterator<Item = u32> + '_ {
        let some = |cell| (cell != NONE).then_some(cell);
        iter::successors(some(self.batches[batch as usize].first), move |&cell| some(self.cells[cell as usize].next))
    }

    /// The keys of a batch.
    pub fn keys(&self, batch: u32) -> Vec<Key> {
        let mut keys = Vec::with_capacity(self.batches[batch as usize].len());
        keys.extend(self.members(batch).map(|cell| self.key(cell).clone()));
        keys
    }

    pub fn count_cells(&self) -> u32 {
        self.cells.len() as u32
    }

    pub fn key(&self, cell: u32) -> &Key {
        &self.cells[cell as usize].key
    }

    /// The reply to the load that began a cell.
    pub fn fresh(&self, cell: u32) -> LoadReply {
        LoadReply::Fresh { cell, batch: self.cells[cell as usize].batch }
    }

    #[inline(always)]
    fn find(&self, key: &Key) -> Found {
        self.memo.find(key.hash(), |cell| self.key(cell) == key)
    }

    /// How many of the keys aren't held, each counted once.
    fn count_new(&self, keys: &[Key]) -> usize {
        let new = keys.iter().filter(|key| !matches!(self.find(key), Found::Held { .. }));
        new.collect::<HashSet<_>>().len()
    }

    /// The room for a key that isn't held, whose newest cell was cleared.
    #[inline(always)]
    fn room(&self, place: usize, cleared: Option<u32>) -> Result<Room, DeskFault> {
        if self.cells.len() == self.limits.cells {
            return Err(DeskFault::CellsFull(self.limits.cells));
        }
        Ok(Room { place, batch: cleared.map_or(NONE, |cell| self.cells[cell as usize].batch) })
    }

    /// Begins a cell, which is held for the key.
    #[inline(always)]
    fn begin(&mut self, key: &Key, room: Room) -> u32 {
        let cell = self.count_cells();
        self.cells.push(Cell { key: key.clone(), batch: room.batch, next: NONE });
        self.memo.put(room.place, key.hash(), cell);
        cell
    }

    /// The newest batch that may take a key that is a member of the batch `before`, or else a new one.
    #[inline(always)]
    fn join(&mut self, key: &Key, before: u32) -> u32 {
        let (newest, most) = self.newest(key);
        let may_take = newest != NONE && newest >= self.sent && newest != before;
        if may_take && self.batches[newest as usize].len() < most {
            return newest;
        }
        let number = self.batches.len() as u32;
        self.batches.push(Batch { first: NONE, last: NONE, len: 0, end: None });
        if self.limits.tables.is_some() {
            self.newest.insert(key.table().to_owned(), number);
        }
        number
    }

    /// The newest batch that keys of the key's table go into, and the most keys that it may have.
    #[inline(always)]
    fn newest(&self, key: &Key) -> (u32, usize) {
        match &self.limits.tables {
            None => ((self.batches.len() as u32).wrapping_sub(1), self.limits.batch),
            Some(own) => {
                let newest = self.newest.get(key.table()).copied().unwrap_or(NONE);
                (newest, own.get(key.table()).copied().unwrap_or(self.limits.batch))
            }
        }
    }

    /// Makes a cell the last one of its batch.
    #[inline(always)]
    fn chain(&mut self, batch: u32, cell: u32) {
        let batch = &mut self.batches[batch as usize];
        batch.len += 1;
        match std::mem::replace(&mut batch.last, cell) {
            NONE => batch.first = cell,
            last => self.cells[last as usize].next = cell,
        }
    }

    /// Clears the keys that the batch's cells are held for.
    fn forget(&mut self, batch: u32) {
        let members: Vec<u32> = self.members(batch).collect();
        for member in members {
            if let Found::Held { place, cell } = self.find(self.key(member)) {
                if cell == member {
                    self.memo.clear(place);
                }
            }
        }
    }
}
