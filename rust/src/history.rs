//! What the close of a loader gives.

use crate::cells::Cells;
use crate::loader::{Key, Opened, Outcome};
use std::fmt;
use std::fmt::Write;
use std::ops::Range;

/// The history of a closed loader, which a loader of one thread could have had.
#[derive(Debug)]
pub struct History<V, E> {
    pub(crate) opened: Opened,
    pub(crate) events: Vec<Event>,
    pub(crate) entries: Vec<Vec<Entry>>,
    pub(crate) cells: Cells<Outcome<V, E>>,
}

impl<V, E> History<V, E> {
    /// The calls of all callers, in one order.
    pub fn events(&self) -> &[Event] {
        &self.events
    }

    /// What a caller called and read, in its order, by its number. There is none of a caller that there isn't.
    pub fn entries(&self, caller: u32) -> &[Entry] {
        self.entries.get(caller as usize).map_or(&[], Vec::as_slice)
    }

    /// The outcome of a cell, if there is such a cell.
    pub fn outcome(&self, cell: u32) -> Option<&Outcome<V, E>> {
        self.cells.get(cell)
    }

    /// What `plans --history` draws: two lines of JSON, with the calls and what each was answered.
    pub fn to_json(&self) -> String {
        let Opened { limits, tables } = &self.opened;
        let version = 1 + tables.iter().len();
        let own = tables.iter().map(|tables| {
            format!("\"tableLimits\":{},", listed(tables, |(name, limit)| format!("[{},{limit}]", text(name))))
        });
        format!(
            "{{\"script\":{version},\"maxBatchSize\":{},\"maxCells\":{},\"maxCalls\":{},{}\"calls\":{}}}\n{}\n",
            limits.max_batch,
            limits.max_cells,
            limits.max_calls,
            own.collect::<String>(),
            listed(&self.events, |event| event.call.to_json()),
            listed(&self.events, |event| listed(&[&[event.caller], &*event.call.numbers()].concat(), u32::to_string)),
        )
    }
}

/// A line for each call, by its place.
impl<V, E> fmt::Display for History<V, E> {
    fn fmt(&self, f: &mut fmt::Formatter<'_>) -> fmt::Result {
        self.events.iter().enumerate().try_for_each(|(at, event)| writeln!(f, "{at} {event}"))
    }
}

/// A list of JSON.
fn listed<T>(items: &[T], written: impl Fn(&T) -> String) -> String {
    format!("[{}]", items.iter().map(written).collect::<Vec<_>>().join(","))
}

/// Items with a comma and a space between them.
fn joined<T>(items: &[T], written: impl Fn(&T) -> String) -> String {
    items.iter().map(written).collect::<Vec<_>>().join(", ")
}

/// A text of JSON.
fn text(text: &str) -> String {
    let mut written = String::from('"');
    for letter in text.chars() {
        match letter {
            '"' | '\\' => written.extend(['\\', letter]),
            '\0'..='\x1f' => write!(written, "\\u{:04x}", u32::from(letter)).expect("a String takes all"),
            _ => written.push(letter),
        }
    }
    written + "\""
}

impl Key {
    fn to_json(&self) -> String {
        format!("[{},{}]", text(&self.table), text(&self.id))
    }
}

/// A call of a caller, by the caller's number.
#[derive(Clone, Debug, PartialEq, Eq)]
pub struct Event {
    /// The caller.
    pub caller: u32,
    /// What it called, and what it was answered.
    pub call: Call,
}

impl fmt::Display for Event {
    fn fmt(&self, f: &mut fmt::Formatter<'_>) -> fmt::Result {
        write!(f, "caller {} {}", self.caller, self.call)
    }
}

impl Event {
    /// How many keys it puts into batches, to be fetched: a load puts one if the loader doesn't hold the key, and a load of several keys
    /// may put several. A prime puts none.
    pub fn fresh_loads(&self) -> usize {
        match &self.call {
            Call::Load(_, reply) => reply.is_fresh().into(),
            Call::LoadMany(loads) => loads.iter().filter(|(_, reply)| reply.is_fresh()).count(),
            _ => 0,
        }
    }
}

/// A call with its reply.
#[derive(Clone, Debug, PartialEq, Eq)]
pub enum Call {
    /// A load of a key.
    Load(Key, Reply),
    /// Loads of several keys as one call.
    LoadMany(Vec<(Key, Reply)>),
    /// A prime of a key, with the new cell unless the key was held.
    Prime(Key, Option<u32>),
    /// A clear of a key.
    Clear(Key),
    /// A clear of all keys.
    ClearAll,
    /// A dispatch, with the batches that it sent.
    Dispatch(Range<u32>),
    /// The end of a batch with an outcome for each key.
    Settle(u32),
    /// The end of a batch that failed.
    Fail(u32),
}

impl fmt::Display for Call {
    fn fmt(&self, f: &mut fmt::Formatter<'_>) -> fmt::Result {
        match self {
            Call::Load(key, reply) => write!(f, "load {key}: {reply}"),
            Call::LoadMany(loads) => {
                write!(f, "loadMany [{}]", joined(loads, |(key, _)| key.to_string()))?;
                write!(f, ": [{}]", joined(loads, |(_, reply)| reply.to_string()))
            }
            Call::Prime(key, Some(cell)) => write!(f, "prime {key}: primed {cell}"),
            Call::Prime(key, None) => write!(f, "prime {key}: kept"),
            Call::Clear(key) => write!(f, "clear {key}: done"),
            Call::ClearAll => f.write_str("clearAll: done"),
            Call::Dispatch(batches) => {
                let sent: Vec<u32> = batches.clone().collect();
                write!(f, "dispatch: sent [{}]", joined(&sent, |batch| format!("batch {batch}")))
            }
            Call::Settle(batch) => write!(f, "settle batch {batch}: done"),
            Call::Fail(batch) => write!(f, "fail batch {batch}: done"),
        }
    }
}

impl Call {
    /// The call of a script.
    fn to_json(&self) -> String {
        let (name, argument) = match self {
            Call::Load(key, _) => ("load", key.to_json()),
            Call::LoadMany(loads) => ("loadMany", listed(loads, |(key, _)| key.to_json())),
            Call::Prime(key, _) => ("prime", key.to_json()),
            Call::Clear(key) => ("clear", key.to_json()),
            Call::ClearAll => ("clearAll", "true".into()),
            Call::Dispatch(_) => ("dispatch", "true".into()),
            Call::Settle(batch) => ("settle", batch.to_string()),
            Call::Fail(batch) => ("fail", batch.to_string()),
        };
        format!("{{\"{name}\":{argument}}}")
    }

    /// What was answered: for each key whether a cell begins with it, the cell and the batch; or the batches that were sent.
    fn numbers(&self) -> Vec<u32> {
        match self {
            Call::Load(_, reply) => reply.numbers().to_vec(),
            Call::LoadMany(loads) => loads.iter().flat_map(|(_, reply)| reply.numbers()).collect(),
            Call::Prime(_, cell) => vec![cell.is_some().into(), cell.unwrap_or(0), 0],
            Call::Dispatch(batches) => batches.clone().collect(),
            Call::Clear(_) | Call::ClearAll | Call::Settle(_) | Call::Fail(_) => Vec::new(),
        }
    }
}

/// What a load is answered.
#[derive(Clone, Copy, Debug, PartialEq, Eq)]
pub enum Reply {
    /// The key is held with this cell.
    Hit(u32),
    /// A new cell.
    Fresh {
        /// The cell.
        cell: u32,
        /// The batch that fetches it.
        batch: u32,
    },
}

impl fmt::Display for Reply {
    fn fmt(&self, f: &mut fmt::Formatter<'_>) -> fmt::Result {
        match self {
            Reply::Hit(cell) => write!(f, "hit {cell}"),
            Reply::Fresh { cell, batch } => write!(f, "fresh {cell} in batch {batch}"),
        }
    }
}

impl Reply {
    fn is_fresh(self) -> bool {
        matches!(self, Reply::Fresh { .. })
    }

    fn numbers(self) -> [u32; 3] {
        match self {
            Reply::Hit(cell) => [0, cell, 0],
            Reply::Fresh { cell, batch } => [1, cell, batch],
        }
    }
}

/// What a caller did.
#[derive(Clone, Copy, Debug, PartialEq, Eq)]
pub enum Entry {
    /// It made the call at this place of the history.
    Call {
        /// The place.
        at: u32,
    },
    /// It read the outcome of a cell.
    Saw {
        /// The cell.
        cell: u32,
        /// The place of the event that ended the cell.
        at: u32,
    },
}
