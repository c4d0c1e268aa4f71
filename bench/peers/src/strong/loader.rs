//! The loader that threads share: a desk under a lock, outcomes, and the history of all calls.

pub use crate::loader::CallFault;

use super::desk::{Desk, End, Job, Limits, LoadReply};
use super::outcomes::{Outcomes, Slot};
use super::value::{BatchAnswer, Key, Outcome, Source};
use crate::loader::{Call, Entry, Event, Reply};
use std::ops::Range;
use std::sync::{Arc, Condvar, Mutex, MutexGuard};

/// Which call it is, and what its number is of.
#[derive(Clone, Copy)]
enum Kind {
    /// A load: the cell.
    Hit,
    Fresh,
    /// A load of many keys: the place of its list.
    Many,
    /// A `prime` that begins a cell: the cell.
    Primed,
    /// A call that begins no cell: the place of its key.
    Kept,
    Clear,
    /// Nothing.
    ClearAll,
    /// The place of the list of batches.
    Dispatch,
    /// The batch.
    Settle,
    Fail,
}

/// A call, by whom, and its reply.
struct Note {
    of: u32,
    caller: u16,
    kind: Kind,
}

/// A load of a list.
enum Loaded {
    Hit(u32),
    Fresh(u32),
}

/// That a caller read the outcome of a cell, given by the event at a place, after so many calls of its own.
struct Saw {
    cell: u32,
    at: u32,
    after: u32,
}

/// A caller, how many calls it made, and what it saw.
pub struct Pass {
    caller: u16,
    calls: u32,
    saws: Vec<Saw>,
}

/// A load whose outcome can be read.
pub struct Ticket<'a> {
    pub reply: LoadReply,
    slot: &'a Slot,
    is_seen: bool,
}

impl<'a> Ticket<'a> {
    /// The outcome, once there is one.
    pub fn look(&self) -> Option<&'a Outcome> {
        self.slot.look().map(|(_, outcome)| outcome)
    }
}

impl Pass {
    /// Notes that the ticket's outcome was read, the first time.
    pub fn saw(&mut self, ticket: &mut Ticket) {
        if let (false, Some((at, _))) = (ticket.is_seen, ticket.slot.look()) {
            ticket.is_seen = true;
            self.saws.push(Saw { cell: ticket.reply.cell(), at, after: self.calls });
        }
    }

    /// What the caller did, by the notes of all calls.
    fn entries(&self, notes: &[Note]) -> Vec<Entry> {
        let saws = self.saws.iter().map(|saw| (saw.after, Entry::Saw { cell: saw.cell, at: saw.at }));
        let places = notes.iter().zip(0..).filter(|(note, _)| note.caller == self.caller);
        let calls = (0..).zip(places).map(|(before, (_, at))| (before, Entry::Call { at }));
        let mut entries: Vec<_> = saws.chain(calls).collect();
        entries.sort_by_key(|&(before, _)| before);
        entries.into_iter().map(|(_, entry)| entry).collect()
    }
}

/// What the lock guards.
struct Book {
    desk: Desk,
    most_notes: usize,
    notes: Vec<Note>,
    /// The loads of each `load_many`, one list after the other.
    loaded: Vec<Loaded>,
    /// Where each of these lists ends.
    lists: Vec<u32>,
    /// The batches of each dispatch.
    sent: Vec<Range<u32>>,
    /// The keys of calls that begin no cell, and the outcomes that weren't taken.
    apart: Vec<(Key, Option<Outcome>)>,
    is_stopped: bool,
    /// How many callers wait.
    waiting: usize,
}

impl Book {
    fn note(&mut self, pass: &mut Pass, kind: Kind, of: u32) {
        pass.calls += 1;
        self.notes.push(Note { of, caller: pass.caller, kind });
    }

    /// Notes a call that begins no cell.
    fn note_apart(&mut self, pass: &mut Pass, kind: Kind, key: &Key, outcome: Option<Outcome>) {
        let place = self.apart.len() as u32;
        self.apart.push((key.clone(), outcome));
        self.note(pass, kind, place);
    }
}

pub struct Loader {
    book: Mutex<Book>,
    outcomes: Outcomes,
    shown: Condvar,
}

impl Loader {
    /// A loader and the passes of its callers.
    pub fn start(limits: Limits, callers: u32) -> (Loader, Vec<Pass>) {
        let book = Book {
            most_notes: limits.calls,
            desk: Desk::new(limits),
            notes: Vec::new(),
            loaded: Vec::new(),
            lists: Vec::new(),
            sent: Vec::new(),
            apart: Vec::new(),
            is_stopped: false,
            waiting: 0,
        };
        let passes = (0..callers).map(|caller| Pass { caller: caller as u16, calls: 0, saws: Vec::new() });
        let loader = Loader { book: Mutex::new(book), outcomes: Outcomes::default(), shown: Condvar::new() };
        (loader, passes.collect())
    }

    #[inline]
    pub fn load(&self, pass: &mut Pass, key: &Key) -> Result<Ticket<'_>, CallFault> {
        let mut book = self.admitted()?;
        let reply = book.desk.load(key)?;
        let kind = if let LoadReply::Hit(_) = reply { Kind::Hit } else { Kind::Fresh };
        book.note(pass, kind, reply.cell());
        Ok(self.ticket(reply))
    }

    /// Loads keys in order, all or none.
    pub fn load_many(&self, pass: &mut Pass, keys: &[Key]) -> Result<Vec<Ticket<'_>>, CallFault> {
        let mut tickets = Vec::with_capacity(keys.len());
        let mut book = self.admitted()?;
        book.desk.check_many(keys)?;
        let Book { desk, loaded, .. } = &mut *book;
        loaded.reserve(keys.len());
        for key in keys {
            let reply = desk.load(key)?;
            loaded.push(match reply {
                LoadReply::Hit(cell) => Loaded::Hit(cell),
                LoadReply::Fresh { cell, .. } => Loaded::Fresh(cell),
            });
            tickets.push(self.ticket(reply));
        }
        let (list, end) = (book.lists.len() as u32, book.loaded.len() as u32);
        book.lists.push(end);
        book.note(pass, Kind::Many, list);
        Ok(tickets)
    }

    /// Gives a key this outcome, unless it is held.
    pub fn prime(&self, pass: &mut Pass, key: &Key, outcome: Outcome) -> Result<(), CallFault> {
        let mut book = self.admitted()?;
        let at = book.notes.len() as u32;
        match book.desk.prime(key)? {
            Some(cell) => {
                self.outcomes.slot(cell).set(at, outcome);
                book.note(pass, Kind::Primed, cell);
            }
            None => book.note_apart(pass, Kind::Kept, key, Some(outcome)),
        }
        Ok(())
    }

    pub fn clear(&self, pass: &mut Pass, key: &Key) -> Result<(), CallFault> {
        let mut book = self.admitted()?;
        book.desk.clear(key);
        book.note_apart(pass, Kind::Clear, key, None);
        Ok(())
    }

    pub fn clear_all(&self, pass: &mut Pass) -> Result<(), CallFault> {
        let mut book = self.admitted()?;
        book.desk.clear_all();
        book.note(pass, Kind::ClearAll, 0);
        Ok(())
    }

    /// Sends what was begun.
    pub fn dispatch(&self, pass: &mut Pass) -> Result<Vec<Job>, CallFault> {
        let mut book = self.admitted()?;
        let (list, first) = (book.sent.len() as u32, book.desk.sent);
        let jobs = book.desk.dispatch();
        let end = book.desk.sent;
        book.sent.push(first..end);
        book.note(pass, Kind::Dispatch, list);
        Ok(jobs)
    }

    /// Ends a batch by a source's answer to its keys.
    pub fn end(&self, pass: &mut Pass, batch: u32, answer: BatchAnswer) -> Result<(), CallFault> {
        let mut book = self.admitted()?;
        let at = book.notes.len() as u32;
        let end = if answer.is_ok() { End::Settled } else { End::Failed };
        book.desk.end(batch, end)?;
        let slots = book.desk.members(batch).map(|cell| self.outcomes.slot(cell));
        let kind = match answer {
            Ok(outcomes) => {
                slots.zip(outcomes).for_each(|(slot, outcome)| slot.set(at, outcome));
                Kind::Settle
            }
            Err(fault) => {
                slots.for_each(|slot| slot.set(at, Outcome::BatchFailed(fault.clone())));
                Kind::Fail
            }
        };
        book.note(pass, kind, batch);
        if book.waiting > 0 {
            self.shown.notify_all();
        }
        Ok(())
    }

    /// Fetches the keys of each job, and ends its batch.
    pub fn end_jobs(&self, pass: &mut Pass, source: &impl Source, jobs: Vec<Job>) -> Result<(), CallFault> {
        jobs.into_iter().try_for_each(|job| self.end(pass, job.batch, source.fetch(&job.keys)))
    }

    /// Waits for a ticket's outcome, which is then seen.
    pub fn wait<'a>(&self, pass: &mut Pass, ticket: &mut Ticket<'a>) -> Result<&'a Outcome, CallFault> {
        if ticket.look().is_none() {
            self.wait_until_shown(ticket);
        }
        pass.saw(ticket);
        ticket.look().ok_or(CallFault::Stopped)
    }

    /// From now on each call is refused.
    pub fn stop(&self) {
        self.lock().is_stopped = true;
        self.shown.notify_all();
    }

    pub fn close(self, passes: Vec<Pass>) -> History {
        History { book: self.book.into_inner().unwrap(), outcomes: self.outcomes, passes }
    }

    fn lock(&self) -> MutexGuard<'_, Book> {
        self.book.lock().unwrap()
    }

    /// The book, for a call more.
    #[inline(always)]
    fn admitted(&self) -> Result<MutexGuard<'_, Book>, CallFault> {
        let book = self.lock();
        if book.is_stopped {
            return Err(CallFault::Stopped);
        }
        if book.notes.len() == book.most_notes {
            return Err(CallFault::LogFull);
        }
        Ok(book)
    }

    #[inline(always)]
    fn ticket(&self, reply: LoadReply) -> Ticket<'_> {
        Ticket { reply, slot: self.outcomes.slot(reply.cell()), is_seen: false }
    }

    #[cold]
    fn wait_until_shown(&self, ticket: &Ticket) {
        let mut book = self.lock();
        book.waiting += 1;
        while !book.is_stopped && ticket.look().is_none() {
            book = self.shown.wait(book).unwrap();
        }
        book.waiting -= 1;
    }
}

/// All that was done on a loader.
pub struct History {
    book: Book,
    outcomes: Outcomes,
    passes: Vec<Pass>,
}

impl History {
    /// How many keys each batch has, and how it ended.
    pub fn batches(&self) -> impl Iterator<Item = (usize, Option<End>)> + '_ {
        self.book.desk.batches.iter().map(|batch| (batch.len(), batch.end))
    }

    /// How many outcomes a caller read.
    pub fn count_seen(&self, caller: usize) -> usize {
        self.passes[caller].saws.len()
    }

    /// All that it shows: the events, what each caller did, and the outcomes.
    pub fn told(&self) -> String {
        let outcomes = (0..self.book.desk.count_cells()).map(|cell| self.outcome(cell));
        format!("{:#?}\n{:?}\n{:?}", self.events(), self.entries(), outcomes.collect::<Vec<_>>())
    }

    /// All calls with their replies, in order.
    fn events(&self) -> Vec<Event> {
        let event = |note: &Note| {
            let (call, reply) = self.made(note);
            Event { caller: u32::from(note.caller), call, reply }
        };
        self.book.notes.iter().map(event).collect()
    }

    /// What each caller did.
    fn entries(&self) -> Vec<Vec<Entry>> {
        self.passes.iter().map(|pass| pass.entries(&self.book.notes)).collect()
    }

    /// The outcome of a cell, where it has one.
    fn outcome(&self, cell: u32) -> Option<&Outcome> {
        self.outcomes.slot(cell).look().map(|(_, outcome)| outcome)
    }

    /// The call of a note, and its reply.
    fn made(&self, note: &Note) -> (Call, Reply) {
        let (book, of) = (&self.book, note.of as usize);
        let key = || told_key(book.desk.key(note.of));
        let apart = || told_key(&book.apart[of].0);
        match note.kind {
            Kind::Hit => (Call::Load(key()), Reply::Loaded(LoadReply::Hit(note.of))),
            Kind::Fresh => (Call::Load(key()), Reply::Loaded(book.desk.fresh(note.of))),
            Kind::Many => self.told_many(of),
            Kind::Primed => (Call::Prime(key(), self.given(note.of)), Reply::Primed(note.of)),
            Kind::Kept => (Call::Prime(apart(), book.apart[of].1.clone().expect("an outcome")), Reply::Kept),
            Kind::Clear => (Call::Clear(apart()), Reply::Done),
            Kind::ClearAll => (Call::ClearAll, Reply::Done),
            Kind::Dispatch => {
                (Call::Dispatch, Reply::Sent(book.sent[of].clone().map(|batch| self.told_job(batch)).collect()))
            }
            Kind::Settle => (Call::Settle { batch: note.of, outcomes: self.outcomes_of(note.of) }, Reply::Done),
            Kind::Fail => (Call::Fail { batch: note.of, fault: self.fault_of(note.of) }, Reply::Done),
        }
    }

    /// The load of a list.
    fn told_many(&self, list: usize) -> (Call, Reply) {
        let first = list.checked_sub(1).map_or(0, |before| self.book.lists[before]);
        let loaded = &self.book.loaded[first as usize..self.book.lists[list] as usize];
        let desk = &self.book.desk;
        let replies = loaded.iter().map(|loaded| match *loaded {
            Loaded::Hit(cell) => LoadReply::Hit(cell),
            Loaded::Fresh(cell) => desk.fresh(cell),
        });
        let keys = replies.clone().map(|reply| told_key(desk.key(reply.cell()))).collect();
        (Call::LoadMany(keys), Reply::Many(replies.collect()))
    }

    fn told_job(&self, batch: u32) -> crate::desk::Job {
        let keys = self.book.desk.members(batch).map(|cell| told_key(self.book.desk.key(cell)));
        crate::desk::Job { batch, keys: keys.collect() }
    }

    fn outcomes_of(&self, batch: u32) -> Vec<Outcome> {
        self.book.desk.members(batch).map(|cell| self.given(cell)).collect()
    }

    /// Why a batch failed.
    fn fault_of(&self, batch: u32) -> Arc<str> {
        match self.outcomes_of(batch).pop() {
            Some(Outcome::BatchFailed(fault)) => fault,
            _ => unreachable!("a batch that failed"),
        }
    }

    /// The outcome that a cell was given.
    fn given(&self, cell: u32) -> Outcome {
        self.outcome(cell).expect("a cell with an outcome").clone()
    }
}

/// A key as the other peer has it.
fn told_key(key: &Key) -> crate::value::Key {
    crate::value::Key::new(key.table(), key.id()).expect("the texts of a key")
}
