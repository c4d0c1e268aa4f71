//! Why there is no value, and why a call is refused.

use crate::loader::Loader;
use std::error::Error;
use std::fmt;
use std::sync::Arc;

/// Why a key has no value. `E` is the type of your own errors, which you give to the loader. You may clone it for any `E`.
#[derive(Debug, PartialEq, Eq)]
pub enum Failure<E> {
    /// The key has this error. The loader keeps it like a value.
    Key(Arc<E>),
    /// The whole batch failed. The loader has forgotten its keys, so that a later load fetches them again.
    Batch(Arc<E>),
    /// The batch failed since its [`Job`](crate::Job) was dropped, or got another number of outcomes than it has keys. The loader has
    /// forgotten its keys here too.
    Dropped,
}

impl<E> Failure<E> {
    pub(crate) fn of_key(error: E) -> Failure<E> {
        Failure::Key(Arc::new(error))
    }
}

impl<E> Clone for Failure<E> {
    fn clone(&self) -> Failure<E> {
        match self {
            Failure::Key(error) => Failure::Key(Arc::clone(error)),
            Failure::Batch(error) => Failure::Batch(Arc::clone(error)),
            Failure::Dropped => Failure::Dropped,
        }
    }
}

impl<E: fmt::Display> fmt::Display for Failure<E> {
    fn fmt(&self, f: &mut fmt::Formatter<'_>) -> fmt::Result {
        match self {
            Failure::Key(error) => error.fmt(f),
            Failure::Batch(error) => write!(f, "the batch failed: {error}"),
            Failure::Dropped => f.write_str("the batch was dropped"),
        }
    }
}

/// Its text already has that of your error. So `source` skips your error, and gives your error's own source.
impl<E: Error + 'static> Error for Failure<E> {
    fn source(&self) -> Option<&(dyn Error + 'static)> {
        match self {
            Failure::Key(error) | Failure::Batch(error) => error.source(),
            Failure::Dropped => None,
        }
    }
}

/// Why a call is refused. A refused call leaves the loader and its history as they were, but for [`Job::settle`](crate::Job::settle) and
/// [`Job::fail`](crate::Job::fail): if one is refused, its job is dropped, so that the batch fails or, if it can't, the loader stops.
#[derive(Clone, Copy, Debug, PartialEq, Eq, Hash)]
#[non_exhaustive]
pub enum Refusal {
    /// There is no memory.
    OutOfMemory,
    /// The call would begin more cells than the limit.
    CellsFull,
    /// The history has as many calls as the limit says.
    LogFull,
    /// A table or an id is empty, or too long.
    BadKey,
    /// A limit is not 1 to 65,536, or a table's is not.
    BadLimit,
    /// A loader has 1 to 32 callers.
    BadCallers,
    /// A table has two limits.
    DuplicateTable,
    /// A batch has another number of keys than outcomes were given.
    BadLengths,
    /// The loader is stopped.
    Stopped,
    /// A batch has not ended.
    Unsettled,
    /// The caller or the ticket is of another loader.
    OtherLoader,
    /// The ticket is of another caller of this loader.
    OtherCaller,
    /// The library answered this number, which never comes in a run. Any call may say so: stop the loader then, and drop it.
    Bug(u32),
}

impl fmt::Display for Refusal {
    fn fmt(&self, f: &mut fmt::Formatter<'_>) -> fmt::Result {
        f.write_str(match self {
            Refusal::OutOfMemory => "there is no memory",
            Refusal::CellsFull => "the loader has as many cells as its limit says: make one for each request",
            Refusal::LogFull => "the loader has made as many calls as its limit says: make one for each request",
            Refusal::BadKey => "a table has 1 to 64 bytes, and an id 1 to 256",
            Refusal::BadLimit => "a limit is 1 to 65,536",
            Refusal::BadCallers => "a loader has 1 to 32 callers",
            Refusal::DuplicateTable => "a table has two limits",
            Refusal::BadLengths => "a batch is settled with an outcome for each key",
            Refusal::Stopped => "the loader is stopped",
            Refusal::Unsettled => {
                "a batch has not ended: drop the loader if it is stopped, since it has no history; or dispatch, and settle or fail each job"
            }
            Refusal::OtherLoader => "the caller or the ticket is of another loader",
            Refusal::OtherCaller => "the ticket is of another caller: wait with the caller that loaded it",
            Refusal::Bug(code) => return write!(f, "the library answered {code}, which is a bug of it"),
        })
    }
}

impl Error for Refusal {}

/// Why [`Loader::close`] is refused, with the loader as it was.
pub struct CloseError<V, E> {
    pub(crate) refusal: Refusal,
    pub(crate) loader: Box<Loader<V, E>>,
}

impl<V, E> CloseError<V, E> {
    /// Why the close is refused.
    pub fn refusal(&self) -> Refusal {
        self.refusal
    }

    /// The loader, so that you can end what is open and close it then.
    pub fn into_inner(self) -> Loader<V, E> {
        *self.loader
    }
}

impl<V, E> fmt::Debug for CloseError<V, E> {
    fn fmt(&self, f: &mut fmt::Formatter<'_>) -> fmt::Result {
        f.debug_struct("CloseError").field("refusal", &self.refusal).field("loader", &self.loader).finish()
    }
}

impl<V, E> fmt::Display for CloseError<V, E> {
    fn fmt(&self, f: &mut fmt::Formatter<'_>) -> fmt::Result {
        self.refusal.fmt(f)
    }
}

impl<V, E> Error for CloseError<V, E> {}
