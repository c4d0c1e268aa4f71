//! A batch that was sent.

use crate::error::{Failure, Refusal};
use crate::loader::{Key, Loader};
use crate::serial::Members;
use std::fmt;
use std::mem;
use std::sync::Arc;
use std::vec;

/// A batch that was sent. Whoever has the job fetches its keys by one statement, and then settles or fails it, on any thread.
///
/// If you drop a job, its batch fails, so that nobody waits for it for ever. If the history is full or the loader is stopped, no batch
/// can fail any more: then the drop stops the loader, each wait for the batch gives `None`, and [`Loader::close`] is refused from then on.
#[must_use = "a job that is dropped fails its batch"]
pub struct Job<'l, V, E> {
    loader: &'l Loader<V, E>,
    caller: u32,
    batch: u32,
    keys: Vec<Key>,
    cells: Vec<u32>,
}

impl<'l, V, E> Job<'l, V, E> {
    pub(crate) fn new(loader: &'l Loader<V, E>, caller: u32, batch: u32, members: Members) -> Job<'l, V, E> {
        let (keys, cells) = members.into_iter().unzip();
        Job { loader, caller, batch, keys, cells }
    }

    /// The number of the batch.
    pub fn batch(&self) -> u32 {
        self.batch
    }

    /// The keys to fetch, in the order of their loads, each once.
    pub fn keys(&self) -> &[Key] {
        &self.keys
    }

    /// Ends the batch: outcome n is the value of key n, or an error of that key alone.
    ///
    /// # Errors
    ///
    /// A refused call drops the outcomes and the job.
    ///
    /// - [`Refusal::BadLengths`]: there are more or fewer outcomes than keys. The batch fails, and the history has a fail.
    /// - [`Refusal::LogFull`]: the history has as many calls as its limit says. This stops the loader.
    /// - [`Refusal::Stopped`]: the loader is stopped.
    /// - [`Refusal::OutOfMemory`]: there is no memory. The batch fails, or if there is no memory for that, the loader stops.
    pub fn settle(mut self, outcomes: Vec<Result<V, E>>) -> Result<(), Refusal> {
        if outcomes.len() != self.keys.len() {
            return Err(Refusal::BadLengths);
        }
        let outcomes = outcomes.into_iter().map(|outcome| outcome.map_err(Failure::of_key));
        self.loader.end(self.caller, self.batch, true, self.cells.iter().copied().zip(outcomes))?;
        self.forget();
        Ok(())
    }

    /// Fails the batch with an error that all its keys have. The loader forgets them, so that a later load fetches them again.
    ///
    /// # Errors
    ///
    /// A refused call drops the error and the job.
    ///
    /// - [`Refusal::LogFull`]: the history has as many calls as its limit says. This stops the loader.
    /// - [`Refusal::Stopped`]: the loader is stopped.
    /// - [`Refusal::OutOfMemory`]: there is no memory. The batch fails as dropped, or if there is no memory for that, the loader stops.
    pub fn fail(mut self, error: E) -> Result<(), Refusal> {
        let error = Arc::new(error);
        let outcomes = self.cells.iter().map(|&cell| (cell, Err(Failure::Batch(Arc::clone(&error)))));
        self.loader.end(self.caller, self.batch, false, outcomes)?;
        self.forget();
        Ok(())
    }

    /// The batch has ended, so that the drop has nothing to end.
    fn forget(&mut self) {
        self.cells.clear();
    }
}

impl<V, E> fmt::Debug for Job<'_, V, E> {
    fn fmt(&self, f: &mut fmt::Formatter<'_>) -> fmt::Result {
        f.debug_struct("Job").field("batch", &self.batch).field("keys", &self.keys).finish_non_exhaustive()
    }
}

impl<V, E> Drop for Job<'_, V, E> {
    /// Fails the batch, or if that is refused stops the loader, by which waits end too.
    fn drop(&mut self) {
        let cells = mem::take(&mut self.cells);
        if !cells.is_empty() {
            let outcomes = cells.into_iter().map(|cell| (cell, Err(Failure::Dropped)));
            if self.loader.end(self.caller, self.batch, false, outcomes).is_err() {
                self.loader.stop();
            }
        }
    }
}

/// The jobs of the batches that [`Loader::dispatch`] sent, in order. You iterate over them, and fetch each.
#[must_use = "jobs that are dropped fail their batches"]
pub struct Jobs<'l, V, E>(pub(crate) vec::IntoIter<Job<'l, V, E>>);

impl<'l, V, E> Iterator for Jobs<'l, V, E> {
    type Item = Job<'l, V, E>;

    fn next(&mut self) -> Option<Job<'l, V, E>> {
        self.0.next()
    }

    fn size_hint(&self) -> (usize, Option<usize>) {
        self.0.size_hint()
    }
}

impl<V, E> ExactSizeIterator for Jobs<'_, V, E> {}

impl<V, E> fmt::Debug for Jobs<'_, V, E> {
    fn fmt(&self, f: &mut fmt::Formatter<'_>) -> fmt::Result {
        f.debug_tuple("Jobs").field(&self.0.as_slice()).finish()
    }
}
