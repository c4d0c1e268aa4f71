//! The loader: the proved library behind a lock, with a place for each outcome.

use crate::cells::Cells;
use crate::error::{CloseError, Failure, Refusal};
use crate::history::History;
use crate::job::{Job, Jobs};
use crate::serial::{Given, Opening, Serial};
use std::array;
use std::collections::hash_map::RandomState;
use std::fmt;
use std::hash::{BuildHasher, Hasher};
use std::sync::atomic::{AtomicU64, Ordering};
use std::sync::{Condvar, Mutex, MutexGuard, PoisonError};
use std::time::{Duration, Instant};

/// Threads that wait for cell n wait at condition n modulo this, so that an end wakes few others.
const CONDITIONS: usize = 64;

/// A key: a table of 1 to 64 bytes, and an id of 1 to 256 bytes.
#[derive(Clone, Debug, PartialEq, Eq, Hash, PartialOrd, Ord)]
pub struct Key {
    /// The table.
    pub table: String,
    /// The id in it.
    pub id: String,
}

/// Its table, a stroke and its id.
impl fmt::Display for Key {
    fn fmt(&self, f: &mut fmt::Formatter<'_>) -> fmt::Result {
        write!(f, "{}/{}", self.table, self.id)
    }
}

/// What you get for a key: a value of your type `V`, or why there is none, with an error of your type `E`.
pub type Outcome<V, E> = Result<V, Failure<E>>;

/// The limits of a loader, each 1 to 65,536. The default has the most of each.
///
/// A *cell* is the place of one outcome. Cells have numbers from 0 on, in the order in which they begin.
#[derive(Clone, Copy, Debug, PartialEq, Eq)]
pub struct Limits {
    /// The most keys of a batch.
    pub max_batch: u32,
    /// The most cells: each load of a key that the loader doesn't hold begins one, and so does each prime of such a key.
    pub max_cells: u32,
    /// The most calls of the history. Each dispatch and each end of a batch is a call too; a wait, a look and a stop aren't.
    pub max_calls: u32,
}

impl Default for Limits {
    fn default() -> Limits {
        Limits { max_batch: 65_536, max_cells: 65_536, max_calls: 65_536 }
    }
}

/// A caller of a loader: you give one to each thread or task, which makes its calls with it. The history has each caller's calls in the
/// caller's order, so a call borrows it by `&mut`.
///
/// A loader has 1 to 32 callers, from its open on. If you drop one, you can't get it again.
#[derive(Debug)]
pub struct Caller {
    loader: u64,
    number: u32,
}

impl Caller {
    /// Its number in the history, from 0 on.
    pub fn number(&self) -> u32 {
        self.number
    }
}

/// What a load gives: it shows the outcome of its key once there is one. Only the caller that loaded it may wait for it, and any thread
/// may look at it.
#[derive(Debug)]
pub struct Ticket {
    loader: u64,
    caller: u32,
    cell: u32,
    number: usize,
}

impl Ticket {
    /// The number of the cell whose outcome it shows. Tickets of one key have the same cell, until the loader forgets the key.
    pub fn cell(&self) -> u32 {
        self.cell
    }
}

/// What a loader was opened with: its limits and, if each batch is of one table, those of tables.
#[derive(Debug)]
pub(crate) struct Opened {
    pub(crate) limits: Limits,
    pub(crate) tables: Option<Vec<(String, u32)>>,
}

/// What is behind the lock.
struct Locked {
    serial: Serial,
    is_stopped: bool,
}

/// A loader that threads share by reference or in an `Arc`. Make one for each request: it gives no cell back before it is closed.
///
/// `V` is the type of a value, and `E` that of an error: one of a key alone, by [`Job::settle`], or one of a whole batch, by [`Job::fail`].
pub struct Loader<V, E> {
    /// By this it knows its callers and tickets.
    id: u64,
    callers: u32,
    opened: Opened,
    locked: Mutex<Locked>,
    ended: Box<[Condvar]>,
    cells: Cells<Outcome<V, E>>,
}

impl<V, E> Loader<V, E> {
    /// Opens a loader with so many callers, 1 to 32: as many as you have threads or tasks. It never gets another one.
    ///
    /// # Errors
    ///
    /// - [`Refusal::BadLimit`]: a limit isn't 1 to 65,536.
    /// - [`Refusal::BadCallers`]: it would have no caller, or more than 32.
    /// - [`Refusal::OutOfMemory`]: there is no memory.
    pub fn open(limits: Limits, callers: u32) -> Result<(Loader<V, E>, Vec<Caller>), Refusal> {
        let serial = Serial::open(&opening(limits, callers))?;
        Ok(Loader::over(serial, Opened { limits, tables: None }, callers))
    }

    /// Opens a loader of which each batch is of one table. Each of these tables has a limit of its own: the most keys of its batches.
    ///
    /// # Errors
    ///
    /// Those of [`Loader::open`], and:
    ///
    /// - [`Refusal::BadLimit`]: the limit of a table isn't 1 to 65,536.
    /// - [`Refusal::BadKey`]: the name of a table is empty, or has more than 64 bytes.
    /// - [`Refusal::DuplicateTable`]: a table has two limits.
    pub fn open_by_table(
        limits: Limits,
        callers: u32,
        tables: &[(&str, u32)],
    ) -> Result<(Loader<V, E>, Vec<Caller>), Refusal> {
        let serial = Serial::open_by_table(&opening(limits, callers), tables)?;
        let tables = tables.iter().map(|(name, limit)| (name.to_string(), *limit)).collect();
        Ok(Loader::over(serial, Opened { limits, tables: Some(tables) }, callers))
    }

    fn over(serial: Serial, opened: Opened, callers: u32) -> (Loader<V, E>, Vec<Caller>) {
        static OPENED: AtomicU64 = AtomicU64::new(0);
        let id = OPENED.fetch_add(1, Ordering::Relaxed);
        let loader = Loader {
            id,
            callers,
            locked: Mutex::new(Locked { serial, is_stopped: false }),
            ended: (0..CONDITIONS).map(|_| Condvar::new()).collect(),
            cells: Cells::new(opened.limits.max_cells),
            opened,
        };
        (loader, (0..callers).map(|number| Caller { loader: id, number }).collect())
    }

    /// Loads a key: if the loader doesn't hold it yet, the key joins a batch, which the next dispatch of any caller sends. The loader
    /// holds a key from a load or a prime on, until a clear or the fail of its batch.
    ///
    /// # Errors
    ///
    /// - [`Refusal::OtherLoader`]: the caller is of another loader.
    /// - [`Refusal::BadKey`]: the table isn't 1 to 64 bytes long, or the id isn't 1 to 256.
    /// - [`Refusal::CellsFull`]: the key needs a cell, and the loader has as many as its limit says.
    /// - [`Refusal::LogFull`]: the history has as many calls as its limit says.
    /// - [`Refusal::Stopped`]: the loader is stopped.
    /// - [`Refusal::OutOfMemory`]: there is no memory.
    pub fn load(&self, caller: &mut Caller, table: &str, id: &str) -> Result<Ticket, Refusal> {
        let given = self.call(caller, |serial, number| serial.load(number, table, id))?;
        Ok(self.ticket(caller, given))
    }

    /// Loads keys, each a table and an id, in their order as one call: all or none. Ticket n is of key n. You may load no keys: that is a
    /// call of the history too.
    ///
    /// # Errors
    ///
    /// A refused call loads no key.
    ///
    /// - [`Refusal::OtherLoader`]: the caller is of another loader.
    /// - [`Refusal::BadKey`]: a table isn't 1 to 64 bytes long, or an id isn't 1 to 256.
    /// - [`Refusal::CellsFull`]: the keys need more cells than the limit leaves.
    /// - [`Refusal::LogFull`]: the history has as many calls as its limit says.
    /// - [`Refusal::Stopped`]: the loader is stopped.
    /// - [`Refusal::OutOfMemory`]: there is no memory.
    pub fn load_many(&self, caller: &mut Caller, keys: &[(&str, &str)]) -> Result<Vec<Ticket>, Refusal> {
        let given = self.call(caller, |serial, number| serial.load_many(number, keys))?;
        Ok(given.into_iter().map(|given| self.ticket(caller, given)).collect())
    }

    /// Holds a value, or an error of the key, for a key, so that nobody fetches it. If the key is held already, you get your outcome back.
    ///
    /// # Errors
    ///
    /// A refused call drops your outcome: clone it before if you need it then.
    ///
    /// - [`Refusal::OtherLoader`]: the caller is of another loader.
    /// - [`Refusal::BadKey`]: the table isn't 1 to 64 bytes long, or the id isn't 1 to 256.
    /// - [`Refusal::CellsFull`]: the key needs a cell, and the loader has as many as its limit says.
    /// - [`Refusal::LogFull`]: the history has as many calls as its limit says.
    /// - [`Refusal::Stopped`]: the loader is stopped.
    /// - [`Refusal::OutOfMemory`]: there is no memory.
    pub fn prime(
        &self,
        caller: &mut Caller,
        table: &str,
        id: &str,
        outcome: Result<V, E>,
    ) -> Result<Option<Result<V, E>>, Refusal> {
        self.check(caller.loader)?;
        let mut locked = self.lock();
        match locked.serial.prime(caller.number, table, id)? {
            Some(cell) => {
                self.show(cell, outcome.map_err(Failure::of_key));
                Ok(None)
            }
            None => Ok(Some(outcome)),
        }
    }

    /// Forgets a key, so that its next load is fetched again. Tickets that you have show what they showed.
    ///
    /// # Errors
    ///
    /// - [`Refusal::OtherLoader`]: the caller is of another loader.
    /// - [`Refusal::BadKey`]: the table isn't 1 to 64 bytes long, or the id isn't 1 to 256.
    /// - [`Refusal::LogFull`]: the history has as many calls as its limit says.
    /// - [`Refusal::Stopped`]: the loader is stopped.
    /// - [`Refusal::OutOfMemory`]: there is no memory.
    pub fn clear(&self, caller: &mut Caller, table: &str, id: &str) -> Result<(), Refusal> {
        self.call(caller, |serial, number| serial.clear(number, table, id))
    }

    /// Forgets all keys.
    ///
    /// # Errors
    ///
    /// - [`Refusal::OtherLoader`]: the caller is of another loader.
    /// - [`Refusal::LogFull`]: the history has as many calls as its limit says.
    /// - [`Refusal::Stopped`]: the loader is stopped.
    /// - [`Refusal::OutOfMemory`]: there is no memory.
    pub fn clear_all(&self, caller: &mut Caller) -> Result<(), Refusal> {
        self.call(caller, |serial, number| serial.clear_all(number))
    }

    /// Sends all that is collected, by whichever callers. You fetch the jobs, and settle or fail each; nobody else gets them. If there is
    /// nothing to send, you get no job, and the history has the call.
    ///
    /// # Errors
    ///
    /// - [`Refusal::OtherLoader`]: the caller is of another loader.
    /// - [`Refusal::LogFull`]: the history has as many calls as its limit says.
    /// - [`Refusal::Stopped`]: the loader is stopped.
    /// - [`Refusal::OutOfMemory`]: there is no memory.
    pub fn dispatch(&self, caller: &mut Caller) -> Result<Jobs<'_, V, E>, Refusal> {
        let sent = self.call(caller, Serial::dispatch)?;
        // A job that is dropped locks, so jobs are made without the lock.
        let jobs = sent.into_iter().map(|(batch, members)| Job::new(self, caller.number, batch, members));
        Ok(Jobs(jobs.collect::<Vec<_>>().into_iter()))
    }

    /// The outcome that a ticket shows, if there is one. Any thread may look: it takes no lock, and the history doesn't note it. A ticket
    /// of another loader shows none.
    pub fn look(&self, ticket: &Ticket) -> Option<&Outcome<V, E>> {
        self.check(ticket.loader).ok()?;
        self.cells.get(ticket.cell)
    }

    /// Waits for the outcome of a ticket of this caller, and notes in the history that the caller read it. You get `None` if the
    /// loader is stopped before the batch ends. It waits for ever if nobody dispatches.
    ///
    /// # Errors
    ///
    /// - [`Refusal::OtherLoader`]: the caller or the ticket is of another loader.
    /// - [`Refusal::OtherCaller`]: the ticket is of another caller of this loader.
    /// - [`Refusal::OutOfMemory`]: there is no memory for the note.
    pub fn wait(&self, caller: &mut Caller, ticket: &Ticket) -> Result<Option<&Outcome<V, E>>, Refusal> {
        self.wait_until(caller, ticket, None)
    }

    /// The same for so long at most. You get `None` too once that has passed.
    ///
    /// # Errors
    ///
    /// - [`Refusal::OtherLoader`]: the caller or the ticket is of another loader.
    /// - [`Refusal::OtherCaller`]: the ticket is of another caller of this loader.
    /// - [`Refusal::OutOfMemory`]: there is no memory for the note.
    pub fn wait_timeout(
        &self,
        caller: &mut Caller,
        ticket: &Ticket,
        most: Duration,
    ) -> Result<Option<&Outcome<V, E>>, Refusal> {
        self.wait_until(caller, ticket, Instant::now().checked_add(most))
    }

    /// Stops the loader: from then on calls are refused, and a wait for what has no outcome ends with `None`. Any thread may stop it.
    /// A loader that is stopped before each batch has ended has no history: drop it.
    pub fn stop(&self) {
        let mut locked = self.lock();
        locked.serial.stop();
        locked.is_stopped = true;
        self.ended.iter().for_each(Condvar::notify_all);
    }

    /// Closes the loader, and gives you its history. It doesn't wait: it is refused if a batch has not ended. A job borrows the loader,
    /// so all jobs are gone by then: if you have ended some and keep the rest, `drop(jobs)` first.
    ///
    /// # Errors
    ///
    /// The error has the loader as it was: [`CloseError::into_inner`].
    ///
    /// - [`Refusal::Unsettled`]: a batch has not ended. Dispatch, and settle or fail each job; or, if the loader is stopped, drop it.
    /// - [`Refusal::OutOfMemory`]: there is no memory.
    pub fn close(self) -> Result<History<V, E>, CloseError<V, E>> {
        let closed = self.lock().serial.close(self.callers);
        match closed {
            Ok((events, entries)) => {
                let Loader { opened, cells, .. } = self;
                Ok(History { opened, events, entries, cells })
            }
            Err(refusal) => Err(CloseError { refusal, loader: Box::new(self) }),
        }
    }

    /// Ends a batch, and shows its cells.
    pub(crate) fn end(
        &self,
        caller: u32,
        batch: u32,
        is_settled: bool,
        outcomes: impl Iterator<Item = (u32, Outcome<V, E>)>,
    ) -> Result<(), Refusal> {
        let mut touched = [false; CONDITIONS];
        let mut locked = self.lock();
        if is_settled {
            locked.serial.settle(caller, batch)?;
        } else {
            locked.serial.fail(caller, batch)?;
        }
        for (cell, outcome) in outcomes {
            self.show(cell, outcome);
            touched[cell as usize % CONDITIONS] = true;
        }
        drop(locked);
        let conditions = self.ended.iter().zip(touched).filter(|(_, touched)| *touched);
        conditions.for_each(|(condition, _)| condition.notify_all());
        Ok(())
    }

    /// Gives a cell its outcome, under the lock. It has none: a cell ends once.
    fn show(&self, cell: u32, outcome: Outcome<V, E>) {
        let is_shown = self.cells.set(cell, outcome).is_ok();
        debug_assert!(is_shown, "a cell ends once");
    }

    fn wait_until(
        &self,
        caller: &mut Caller,
        ticket: &Ticket,
        deadline: Option<Instant>,
    ) -> Result<Option<&Outcome<V, E>>, Refusal> {
        self.check(caller.loader)?;
        self.check(ticket.loader)?;
        if ticket.caller != caller.number {
            return Err(Refusal::OtherCaller);
        }
        let condition = &self.ended[ticket.cell as usize % CONDITIONS];
        let mut locked = self.lock();
        while self.look(ticket).is_none() && !locked.is_stopped {
            let left = deadline.map(|deadline| deadline.saturating_duration_since(Instant::now()));
            locked = match left {
                None => condition.wait(locked).unwrap_or_else(PoisonError::into_inner),
                Some(Duration::ZERO) => return Ok(None),
                Some(left) => condition.wait_timeout(locked, left).unwrap_or_else(PoisonError::into_inner).0,
            };
        }
        let Some(outcome) = self.look(ticket) else { return Ok(None) };
        locked.serial.saw(ticket.caller, ticket.number)?;
        Ok(Some(outcome))
    }

    /// Makes a call of a caller under the lock.
    fn call<T>(
        &self,
        caller: &mut Caller,
        make: impl FnOnce(&mut Serial, u32) -> Result<T, Refusal>,
    ) -> Result<T, Refusal> {
        self.check(caller.loader)?;
        make(&mut self.lock().serial, caller.number)
    }

    fn check(&self, id: u64) -> Result<(), Refusal> {
        if id == self.id {
            Ok(())
        } else {
            Err(Refusal::OtherLoader)
        }
    }

    fn ticket(&self, caller: &Caller, given: Given) -> Ticket {
        Ticket { loader: self.id, caller: caller.number, cell: given.cell, number: given.ticket }
    }

    /// The lock. No code of yours runs under it, so what it guards is whole also after a panic.
    fn lock(&self) -> MutexGuard<'_, Locked> {
        self.locked.lock().unwrap_or_else(PoisonError::into_inner)
    }
}

impl<V, E> fmt::Debug for Loader<V, E> {
    fn fmt(&self, f: &mut fmt::Formatter<'_>) -> fmt::Result {
        f.debug_struct("Loader").field("opened", &self.opened).field("callers", &self.callers).finish_non_exhaustive()
    }
}

/// An opening, with a random seed for the hashes of keys.
fn opening(limits: Limits, callers: u32) -> Opening {
    let Limits { max_batch, max_cells, max_calls } = limits;
    let seed = array::from_fn(|_| RandomState::new().build_hasher().finish());
    Opening { max_batch, max_cells, max_calls, callers, seed }
}
