//! The proved library, whose calls are made one at a time: `&mut` sees to that. Its foreign calls are the only unsafe ones of the crate:
//! each gets a handle that no other call has, and slices with their own lengths.

use crate::error::Refusal;
use crate::history::{Call, Entry, Event, Reply};
use crate::loader::Key;
use std::ffi::c_void;
use std::ptr;

/// The handle, as the library has it.
#[repr(C)]
pub(crate) struct Serial {
    is_open: bool,
    held: *mut c_void,
}

// SAFETY: what the handle keeps may cross threads, as the library's own handle says (`Held: Send` in crates/dl_loader_c), and no other
// handle has it. It isn't `Sync`: the lock of a loader sees to it that one call is made at a time.
unsafe impl Send for Serial {}

#[repr(C)]
pub(crate) struct Opening {
    pub(crate) max_batch: u32,
    pub(crate) max_cells: u32,
    pub(crate) max_calls: u32,
    pub(crate) callers: u32,
    pub(crate) seed: [u64; 2],
}

#[repr(C)]
struct TableLimit {
    name_len: u32,
    limit: u32,
}

#[repr(C)]
struct KeyLengths {
    table: u32,
    id: u32,
}

#[repr(C)]
struct Loaded {
    code: u32,
    cell: u32,
    batch: u32,
}

/// The members of a batch: their keys, and their cells.
pub(crate) type Members = Vec<(Key, u32)>;

/// The answer to a load.
#[repr(C)]
#[derive(Clone, Copy, Default)]
pub(crate) struct Given {
    code: u32,
    pub(crate) cell: u32,
    batch: u32,
    pub(crate) ticket: usize,
}

#[repr(C)]
struct Dispatched {
    code: u32,
    first: u32,
    count: usize,
}

#[repr(C)]
struct KeyTexts {
    table_len: usize,
    id_len: usize,
    table: [u8; 64],
    id: [u8; 256],
}

#[repr(C)]
struct RawEvent {
    code: u32,
    caller: u32,
    call: u32,
    batch: u32,
    keys: usize,
    batches: usize,
}

#[repr(C)]
struct RawEntry {
    code: u32,
    kind: u32,
    at: u32,
    cell: u32,
}

extern "C" {
    fn dl_serial_open(serial: &mut Serial, opening: &Opening) -> u32;
    fn dl_serial_open_by_table(
        serial: &mut Serial,
        opening: &Opening,
        names: *const u8,
        names_len: usize,
        tables: *const TableLimit,
        tables_len: usize,
    ) -> u32;
    fn dl_serial_load(
        serial: &mut Serial,
        caller: u32,
        table: *const u8,
        table_len: usize,
        id: *const u8,
        id_len: usize,
    ) -> Given;
    fn dl_serial_load_many(
        serial: &mut Serial,
        caller: u32,
        texts: *const u8,
        texts_len: usize,
        lengths: *const KeyLengths,
        lengths_len: usize,
        answers: *mut Given,
        answers_len: usize,
    ) -> u32;
    fn dl_serial_prime(
        serial: &mut Serial,
        caller: u32,
        table: *const u8,
        table_len: usize,
        id: *const u8,
        id_len: usize,
    ) -> Loaded;
    fn dl_serial_clear(
        serial: &mut Serial,
        caller: u32,
        table: *const u8,
        table_len: usize,
        id: *const u8,
        id_len: usize,
    ) -> u32;
    fn dl_serial_clear_all(serial: &mut Serial, caller: u32) -> u32;
    fn dl_serial_dispatch(serial: &mut Serial, caller: u32) -> Dispatched;
    fn dl_serial_settle(serial: &mut Serial, caller: u32, batch: u32) -> u32;
    fn dl_serial_fail(serial: &mut Serial, caller: u32, batch: u32) -> u32;
    fn dl_serial_member(serial: &mut Serial, batch: u32, index: u32, texts: &mut KeyTexts) -> Loaded;
    fn dl_serial_saw(serial: &mut Serial, caller: u32, ticket: usize) -> u32;
    fn dl_serial_stop(serial: &mut Serial) -> u32;
    fn dl_serial_close(serial: &mut Serial) -> u32;
    fn dl_serial_event(serial: &mut Serial, at: u32) -> RawEvent;
    fn dl_serial_event_key(serial: &mut Serial, at: u32, index: usize, texts: &mut KeyTexts) -> Loaded;
    fn dl_serial_entry(serial: &mut Serial, caller: u32, index: usize) -> RawEntry;
    fn dl_serial_free(serial: &mut Serial) -> u32;
}

const DONE: u32 = 0;
const HIT: u32 = 0;
const FRESH: u32 = 1;
const NO_MEMBER: u32 = 11;
const NO_EVENT: u32 = 23;

/// A code that is neither `DONE` nor `FRESH`, or that the call never answers, as a refusal.
fn refusal_of(code: u32) -> Refusal {
    match code {
        2 => Refusal::OutOfMemory,
        3 => Refusal::CellsFull,
        7 | 14 | 15 => Refusal::BadKey,
        8 | 16 => Refusal::BadLimit,
        17 => Refusal::DuplicateTable,
        18 => Refusal::BadCallers,
        20 => Refusal::Stopped,
        21 => Refusal::LogFull,
        22 => Refusal::Unsettled,
        _ => Refusal::Bug(code),
    }
}

/// Whether a call is made.
fn done(code: u32) -> Result<(), Refusal> {
    match code {
        DONE => Ok(()),
        _ => Err(refusal_of(code)),
    }
}

/// Whether a cell begins with a call that is made.
fn is_fresh(code: u32) -> Result<bool, Refusal> {
    match code {
        HIT => Ok(false),
        FRESH => Ok(true),
        _ => Err(refusal_of(code)),
    }
}

/// What a list has at a place whose code is this. The list ends by the code `end`.
fn listed<T>(code: u32, end: u32, item: impl FnOnce() -> Result<T, Refusal>) -> Option<Result<T, Refusal>> {
    match code {
        DONE => Some(item()),
        _ if code == end => None,
        _ => Some(Err(Refusal::Bug(code))),
    }
}

impl KeyTexts {
    fn new() -> KeyTexts {
        KeyTexts { table_len: 0, id_len: 0, table: [0; 64], id: [0; 256] }
    }

    fn key(&self) -> Key {
        let text = |bytes: &[u8]| String::from_utf8_lossy(bytes).into_owned();
        Key { table: text(&self.table[..self.table_len]), id: text(&self.id[..self.id_len]) }
    }
}

impl Serial {
    fn closed() -> Serial {
        Serial { is_open: false, held: ptr::null_mut() }
    }

    pub(crate) fn open(opening: &Opening) -> Result<Serial, Refusal> {
        let mut serial = Serial::closed();
        // SAFETY: the handle is closed and new.
        done(unsafe { dl_serial_open(&mut serial, opening) })?;
        Ok(serial)
    }

    pub(crate) fn open_by_table(opening: &Opening, tables: &[(&str, u32)]) -> Result<Serial, Refusal> {
        let names: String = tables.iter().map(|(name, _)| *name).collect();
        let limits: Vec<TableLimit> = tables
            .iter()
            .map(|&(name, limit)| Ok(TableLimit { name_len: length(name)?, limit }))
            .collect::<Result<_, Refusal>>()?;
        let mut serial = Serial::closed();
        // SAFETY: the handle is closed and new, and both slices live for the call.
        done(unsafe {
            dl_serial_open_by_table(&mut serial, opening, names.as_ptr(), names.len(), limits.as_ptr(), limits.len())
        })?;
        Ok(serial)
    }

    pub(crate) fn load(&mut self, caller: u32, table: &str, id: &str) -> Result<Given, Refusal> {
        // SAFETY: nobody else has the handle now, and both texts live for the call.
        let given = unsafe { dl_serial_load(self, caller, table.as_ptr(), table.len(), id.as_ptr(), id.len()) };
        is_fresh(given.code)?;
        Ok(given)
    }

    pub(crate) fn load_many(&mut self, caller: u32, keys: &[(&str, &str)]) -> Result<Vec<Given>, Refusal> {
        let texts: String = keys.iter().flat_map(|&(table, id)| [table, id]).collect();
        let lengths: Vec<KeyLengths> = keys
            .iter()
            .map(|(table, id)| Ok(KeyLengths { table: length(table)?, id: length(id)? }))
            .collect::<Result<_, Refusal>>()?;
        let mut given = vec![Given::default(); keys.len()];
        // SAFETY: nobody else has the handle now, and the three slices live for the call; it writes to `given`, which is ours.
        done(unsafe {
            dl_serial_load_many(
                self,
                caller,
                texts.as_ptr(),
                texts.len(),
                lengths.as_ptr(),
                lengths.len(),
                given.as_mut_ptr(),
                given.len(),
            )
        })?;
        Ok(given)
    }

    /// The cell that was begun, if the key wasn't held.
    pub(crate) fn prime(&mut self, caller: u32, table: &str, id: &str) -> Result<Option<u32>, Refusal> {
        // SAFETY: nobody else has the handle now, and both texts live for the call.
        let loaded = unsafe { dl_serial_prime(self, caller, table.as_ptr(), table.len(), id.as_ptr(), id.len()) };
        Ok(is_fresh(loaded.code)?.then_some(loaded.cell))
    }

    pub(crate) fn clear(&mut self, caller: u32, table: &str, id: &str) -> Result<(), Refusal> {
        // SAFETY: nobody else has the handle now, and both texts live for the call.
        done(unsafe { dl_serial_clear(self, caller, table.as_ptr(), table.len(), id.as_ptr(), id.len()) })
    }

    pub(crate) fn clear_all(&mut self, caller: u32) -> Result<(), Refusal> {
        // SAFETY: nobody else has the handle now.
        done(unsafe { dl_serial_clear_all(self, caller) })
    }

    /// The batches that were sent, each with its members.
    pub(crate) fn dispatch(&mut self, caller: u32) -> Result<Vec<(u32, Members)>, Refusal> {
        // SAFETY: nobody else has the handle now.
        let sent = unsafe { dl_serial_dispatch(self, caller) };
        done(sent.code)?;
        (sent.first..).take(sent.count).map(|batch| Ok((batch, self.members(batch)?))).collect()
    }

    fn members(&mut self, batch: u32) -> Result<Members, Refusal> {
        let mut texts = KeyTexts::new();
        (0..)
            .map_while(|index| {
                // SAFETY: nobody else has the handle now, and `texts` is ours.
                let loaded = unsafe { dl_serial_member(self, batch, index, &mut texts) };
                listed(loaded.code, NO_MEMBER, || Ok((texts.key(), loaded.cell)))
            })
            .collect()
    }

    pub(crate) fn settle(&mut self, caller: u32, batch: u32) -> Result<(), Refusal> {
        // SAFETY: nobody else has the handle now.
        done(unsafe { dl_serial_settle(self, caller, batch) })
    }

    pub(crate) fn fail(&mut self, caller: u32, batch: u32) -> Result<(), Refusal> {
        // SAFETY: nobody else has the handle now.
        done(unsafe { dl_serial_fail(self, caller, batch) })
    }

    pub(crate) fn saw(&mut self, caller: u32, ticket: usize) -> Result<(), Refusal> {
        // SAFETY: nobody else has the handle now.
        done(unsafe { dl_serial_saw(self, caller, ticket) })
    }

    pub(crate) fn stop(&mut self) {
        // SAFETY: nobody else has the handle now.
        unsafe { dl_serial_stop(self) };
    }

    /// Closes the loader of so many callers: the events, and the entries of each caller.
    pub(crate) fn close(&mut self, callers: u32) -> Result<(Vec<Event>, Vec<Vec<Entry>>), Refusal> {
        // SAFETY: nobody else has the handle now.
        done(unsafe { dl_serial_close(self) })?;
        let entries = (0..callers).map(|caller| self.entries(caller)).collect::<Result<_, _>>()?;
        Ok((self.events()?, entries))
    }

    /// The events of a closed loader.
    fn events(&mut self) -> Result<Vec<Event>, Refusal> {
        (0..)
            .map_while(|at| {
                // SAFETY: nobody else has the handle now.
                let raw = unsafe { dl_serial_event(self, at) };
                listed(raw.code, NO_EVENT, || {
                    let call = call_of(&raw, self.replies(at, &raw)?)?;
                    Ok(Event { caller: raw.caller, call })
                })
            })
            .collect()
    }

    /// The keys of an event, each with what was answered to it.
    fn replies(&mut self, at: u32, raw: &RawEvent) -> Result<Vec<(Key, Reply)>, Refusal> {
        let mut texts = KeyTexts::new();
        (0..raw.keys)
            .map(|index| {
                // SAFETY: nobody else has the handle now, and `texts` is ours.
                let Loaded { code, cell, batch } = unsafe { dl_serial_event_key(self, at, index, &mut texts) };
                let reply = if is_fresh(code)? { Reply::Fresh { cell, batch } } else { Reply::Hit(cell) };
                Ok((texts.key(), reply))
            })
            .collect()
    }

    /// The entries of a caller of a closed loader.
    fn entries(&mut self, caller: u32) -> Result<Vec<Entry>, Refusal> {
        (0..)
            .map_while(|index| {
                // SAFETY: nobody else has the handle now.
                let raw = unsafe { dl_serial_entry(self, caller, index) };
                listed(raw.code, NO_EVENT, || match raw.kind {
                    0 => Ok(Entry::Call { at: raw.at }),
                    1 => Ok(Entry::Saw { cell: raw.cell, at: raw.at }),
                    kind => Err(Refusal::Bug(kind)),
                })
            })
            .collect()
    }
}

impl Drop for Serial {
    fn drop(&mut self) {
        // SAFETY: nobody else has the handle, and nobody has it from now on.
        unsafe { dl_serial_free(self) };
    }
}

/// The length of a text of a key, or of the name of a table.
fn length(text: &str) -> Result<u32, Refusal> {
    text.len().try_into().map_err(|_| Refusal::BadKey)
}

/// A call of the history, whose keys have these replies.
fn call_of(raw: &RawEvent, mut replies: Vec<(Key, Reply)>) -> Result<Call, Refusal> {
    let one = if raw.keys == 1 { replies.pop() } else { None };
    Ok(match (raw.call, one) {
        (0, Some((key, reply))) => Call::Load(key, reply),
        (1, one) => Call::LoadMany(replies.into_iter().chain(one).collect()),
        (2, Some((key, Reply::Fresh { cell, .. }))) => Call::Prime(key, Some(cell)),
        (2, Some((key, Reply::Hit(_)))) => Call::Prime(key, None),
        (3, Some((key, _))) => Call::Clear(key),
        (4, _) => Call::ClearAll,
        (5, _) => Call::Dispatch(raw.batch..raw.batch + raw.batches as u32),
        (6, _) => Call::Settle(raw.batch),
        (7, _) => Call::Fail(raw.batch),
        (call, _) => return Err(Refusal::Bug(call)),
    })
}
