//! The loader that threads share: a desk under a lock, cells that are set once, and the history of all calls.

use crate::desk::{Batch, Desk, DeskFault, End, Job, Limits, LoadReply};
use crate::value::{BatchAnswer, Key, Outcome, Source};
use std::sync::{Arc, Condvar, Mutex, MutexGuard, OnceLock};

/// A call with its arguments.
#[derive(Debug)]
pub enum Call {
    Load(Key),
    LoadMany(Vec<Key>),
    Prime(Key, Outcome),
    Clear(Key),
    ClearAll,
    Dispatch,
    Settle { batch: u32, outcomes: Vec<Outcome> },
    Fail { batch: u32, fault: Arc<str> },
}

/// The reply to a call.
#[derive(Debug)]
pub enum Reply {
    Loaded(LoadReply),
    Many(Vec<LoadReply>),
    Primed(u32),
    Kept,
    Done,
    Sent(Vec<Job>),
}

/// A call, by whom, and its reply.
#[derive(Debug)]
pub struct Event {
    pub caller: u32,
    pub call: Call,
    pub reply: Reply,
}

/// Why a call is refused.
#[derive(Clone, Copy, Debug, PartialEq, Eq)]
pub enum CallFault {
    Stopped,
    LogFull,
    Desk(DeskFault),
}

impl From<DeskFault> for CallFault {
    fn from(fault: DeskFault) -> CallFault {
        CallFault::Desk(fault)
    }
}

/// An outcome, and the place of the event that gave it.
struct Ending {
    at: u32,
    outcome: Outcome,
}

type Cell = Arc<OnceLock<Ending>>;

/// What a caller did: it made the event at a place, or saw the outcome of a cell, given by the event at a place.
#[derive(Clone, Copy, Debug)]
pub enum Entry {
    Call { at: u32 },
    Saw { cell: u32, at: u32 },
}

/// A caller, and what it did.
pub struct Pass {
    caller: u32,
    entries: Vec<Entry>,
}

/// A load whose outcome can be read.
pub struct Ticket {
    pub reply: LoadReply,
    cell: Cell,
    is_seen: bool,
}

impl Ticket {
    /// The outcome, once there is one.
    pub fn look(&self) -> Option<&Outcome> {
        self.cell.get().map(|ending| &ending.outcome)
    }
}

impl Pass {
    /// Notes that the ticket's outcome was read, the first time.
    pub fn saw(&mut self, ticket: &mut Ticket) {
        if let (false, Some(ending)) = (ticket.is_seen, ticket.cell.get()) {
            ticket.is_seen = true;
            self.entries.push(Entry::Saw { cell: ticket.reply.cell(), at: ending.at });
        }
    }
}

/// What the lock guards.
struct Book {
    desk: Desk,
    most_events: usize,
    cells: Vec<Cell>,
    events: Vec<Event>,
    is_stopped: bool,
}

impl Book {
    /// The ticket of a load, whose cell may be new.
    fn ticket(&mut self, reply: LoadReply) -> Ticket {
        let number = reply.cell() as usize;
        if number == self.cells.len() {
            self.cells.push(Cell::default());
        }
        Ticket { reply, cell: Arc::clone(&self.cells[number]), is_seen: false }
    }
}

pub struct Loader {
    book: Mutex<Book>,
    shown: Condvar,
}

impl Loader {
    /// A loader and the passes of its callers.
    pub fn start(limits: Limits, callers: u32) -> (Loader, Vec<Pass>) {
        let most_events = limits.calls;
        let desk = Desk::new(limits);
        let book = Book { desk, most_events, cells: Vec::new(), events: Vec::new(), is_stopped: false };
        let passes = (0..callers).map(|caller| Pass { caller, entries: Vec::new() });
        (Loader { book: Mutex::new(book), shown: Condvar::new() }, passes.collect())
    }

    pub fn load(&self, pass: &mut Pass, key: &Key) -> Result<Ticket, CallFault> {
        self.event(pass, |book| {
            let reply = book.desk.load(key)?;
            Ok((Call::Load(key.clone()), Reply::Loaded(reply), book.ticket(reply)))
        })
    }

    /// Loads keys in order, all or none.
    pub fn load_many(&self, pass: &mut Pass, keys: &[Key]) -> Result<Vec<Ticket>, CallFault> {
        self.event(pass, |book| {
            let replies = book.desk.load_many(keys)?;
            let tickets = replies.iter().map(|&reply| book.ticket(reply)).collect();
            Ok((Call::LoadMany(keys.to_vec()), Reply::Many(replies), tickets))
        })
    }

    /// Gives a key this outcome, unless it is held.
    pub fn prime(&self, pass: &mut Pass, key: &Key, outcome: Outcome) -> Result<(), CallFault> {
        self.event(pass, |book| {
            let reply = match book.desk.prime(key)? {
                None => Reply::Kept,
                Some(cell) => {
                    let ending = Ending { at: book.events.len() as u32, outcome: outcome.clone() };
                    book.cells.push(Arc::new(OnceLock::from(ending)));
                    Reply::Primed(cell)
                }
            };
            Ok((Call::Prime(key.clone(), outcome), reply, ()))
        })
    }

    pub fn clear(&self, pass: &mut Pass, key: &Key) -> Result<(), CallFault> {
        self.event(pass, |book| {
            book.desk.clear(key);
            Ok((Call::Clear(key.clone()), Reply::Done, ()))
        })
    }

    pub fn clear_all(&self, pass: &mut Pass) -> Result<(), CallFault> {
        self.event(pass, |book| {
            book.desk.clear_all();
            Ok((Call::ClearAll, Reply::Done, ()))
        })
    }

    /// Sends what was begun.
    pub fn dispatch(&self, pass: &mut Pass) -> Result<Vec<Job>, CallFault> {
        self.event(pass, |book| {
            let jobs = book.desk.dispatch();
            Ok((Call::Dispatch, Reply::Sent(jobs.clone()), jobs))
        })
    }

    /// Ends a batch by a source's answer to its keys.
    pub fn end(&self, pass: &mut Pass, batch: u32, answer: BatchAnswer) -> Result<(), CallFault> {
        self.event(pass, |book| {
            let at = book.events.len() as u32;
            let end = if answer.is_ok() { End::Settled } else { End::Failed };
            let cells = book.desk.end(batch, end)?.iter().map(|&cell| &book.cells[cell as usize]);
            let call = match answer {
                Ok(outcomes) => {
                    for (cell, outcome) in cells.zip(&outcomes) {
                        let _ = cell.set(Ending { at, outcome: outcome.clone() });
                    }
                    Call::Settle { batch, outcomes }
                }
                Err(fault) => {
                    for cell in cells {
                        let _ = cell.set(Ending { at, outcome: Outcome::BatchFailed(fault.clone()) });
                    }
                    Call::Fail { batch, fault }
                }
            };
            Ok((call, Reply::Done, ()))
        })?;
        self.shown.notify_all();
        Ok(())
    }

    /// Fetches the keys of each job, and ends its batch.
    pub fn end_jobs(&self, pass: &mut Pass, source: &impl Source, jobs: Vec<Job>) -> Result<(), CallFault> {
        jobs.into_iter().try_for_each(|job| self.end(pass, job.batch, source.fetch(&job.keys)))
    }

    /// Waits for a ticket's outcome, which is then seen.
    pub fn wait<'a>(&self, pass: &mut Pass, ticket: &'a mut Ticket) -> Result<&'a Outcome, CallFault> {
        if ticket.look().is_none() {
            let waits = |book: &mut Book| !book.is_stopped && ticket.look().is_none();
            drop(self.shown.wait_while(self.lock(), waits).unwrap());
        }
        pass.saw(ticket);
        ticket.look().ok_or(CallFault::Stopped)
    }

    /// From now on each call is refused.
    pub fn stop(&self) {
        self.lock().is_stopped = true;
        self.shown.notify_all();
    }

    pub fn close(self, passes: Vec<Pass>) -> History {
        let book = self.book.into_inner().unwrap();
        let entries = passes.into_iter().map(|pass| pass.entries).collect();
        History { events: book.events, cells: book.cells, batches: book.desk.into_batches(), entries }
    }

    fn lock(&self) -> MutexGuard<'_, Book> {
        self.book.lock().unwrap()
    }

    /// Makes a call under the lock, and notes it.
    fn event<T>(
        &self,
        pass: &mut Pass,
        make: impl FnOnce(&mut Book) -> Result<(Call, Reply, T), CallFault>,
    ) -> Result<T, CallFault> {
        let mut book = self.lock();
        if book.is_stopped {
            return Err(CallFault::Stopped);
        }
        if book.events.len() == book.most_events {
            return Err(CallFault::LogFull);
        }
        let (call, reply, answer) = make(&mut book)?;
        pass.entries.push(Entry::Call { at: book.events.len() as u32 });
        book.events.push(Event { caller: pass.caller, call, reply });
        Ok(answer)
    }
}

/// All that was done on a loader.
pub struct History {
    pub events: Vec<Event>,
    cells: Vec<Cell>,
    pub batches: Vec<Batch>,
    /// What each caller did.
    pub entries: Vec<Vec<Entry>>,
}

impl History {
    /// How many keys each batch has, and how it ended.
    pub fn batches(&self) -> impl Iterator<Item = (usize, Option<End>)> + '_ {
        self.batches.iter().map(|batch| (batch.keys.len(), batch.end))
    }

    /// How many outcomes a caller read.
    pub fn count_seen(&self, caller: usize) -> usize {
        self.entries[caller].iter().filter(|entry| matches!(entry, Entry::Saw { .. })).count()
    }

    /// All that it shows: the events, what each caller did, and the outcomes.
    pub fn told(&self) -> String {
        let outcomes = self.cells.iter().map(|cell| cell.get().map(|ending| &ending.outcome));
        format!("{:#?}\n{:?}\n{:?}", self.events, self.entries, outcomes.collect::<Vec<_>>())
    }
}
