//! A data loader that threads share. Callers load keys; the loader collects the keys into batches, each key once; whoever sends a batch
//! fetches it, and all who asked for its keys get the outcomes. What hits, which batch a key joins and what is forgotten is decided by a
//! proved library. When you close the loader, you get the history of its calls, which a loader of one thread could have had.
//!
//! Here three threads load two users each, and one statement fetches all:
//!
//! ```
//! use std::error::Error;
//! use std::io;
//! use std::sync::Barrier;
//! use std::thread;
//! use thrushscreen::{Call, Caller, Event, Limits, Loader, Refusal};
//!
//! /// Its values are names, and its errors those of a statement.
//! type Users = Loader<String, io::Error>;
//! type Failed = Box<dyn Error + Send + Sync>;
//!
//! /// What each thread does: it loads all that it can, meets the others, and waits for its outcomes.
//! fn names(users: &Users, caller: &mut Caller, loaded: &Barrier, ids: &[&str]) -> Result<Vec<String>, Failed> {
//!     let keys: Vec<_> = ids.iter().map(|&id| ("user", id)).collect();
//!     let tickets = users.load_many(caller, &keys);
//!     // All come here, even if their load is refused. Then one of them sends what all have loaded.
//!     if loaded.wait().is_leader() {
//!         if let Err(refusal) = fetch(users, caller) {
//!             users.stop(); // Now no thread waits for what was not sent.
//!             return Err(refusal.into());
//!         }
//!     }
//!     let mut names = Vec::new();
//!     for ticket in tickets? {
//!         let outcome = users.wait(caller, &ticket)?.ok_or("the loader is stopped")?;
//!         names.push(outcome.clone()?);
//!     }
//!     Ok(names)
//! }
//!
//! /// Sends all that is loaded, and fetches it.
//! fn fetch(users: &Users, caller: &mut Caller) -> Result<(), Refusal> {
//!     for job in users.dispatch(caller)? {
//!         // Here a statement fetches all keys of the batch. If it has an error, call `job.fail(error)?`.
//!         let names = job.keys().iter().map(|key| Ok(format!("the user {}", key.id))).collect();
//!         job.settle(names)?;
//!     }
//!     Ok(())
//! }
//!
//! fn main() -> Result<(), Failed> {
//!     let wanted = [["ada", "bob"], ["bob", "cy"], ["cy", "ada"]];
//!     let (users, callers) = Users::open(Limits::default(), 3)?;
//!     let loaded = Barrier::new(callers.len());
//!     thread::scope(|scope| {
//!         for (mut caller, ids) in callers.into_iter().zip(wanted) {
//!             let (users, loaded) = (&users, &loaded);
//!             scope.spawn(move || match names(users, &mut caller, loaded, &ids) {
//!                 Ok(names) => println!("{}", names.join(" and ")),
//!                 Err(error) => eprintln!("{error}"),
//!             });
//!         }
//!     });
//!     let history = users.close()?;
//!     let keys: usize = history.events().iter().map(Event::fresh_loads).sum();
//!     let statements = history.events().iter().filter(|event| matches!(event.call, Call::Settle(_))).count();
//!     assert_eq!((keys, statements), (3, 1));
//!     Ok(())
//! }
//! ```
//!
//! All threads load before one of them dispatches. If each dispatches right after its own load, each may send a batch of its own, so that
//! you make up to as many statements as there are threads.
//!
//! In a `Loader<V, E>`, `V` is the type of your values, and `E` that of your errors, of a key or of a whole batch. The outcome of a key is
//! in a *cell*: a load or a prime of a key that the loader doesn't hold begins one.
//!
//! # In a server
//!
//! In a server such as axum, make a loader for each request, with a [`Caller`] for each task that loads. All tasks load, then one
//! dispatches, and fetches the jobs with the connection that it has. A [`wait`](Loader::wait) blocks its thread, so a task hands it to a
//! thread that may block, with its caller and its tickets, and gets the caller back:
//!
//! ```ignore
//! let loader = Arc::new(loader);
//! let tickets = loader.load_many(&mut caller, &[("user", "ada"), ("user", "bob")])?;
//! for job in loader.dispatch(&mut caller)? {
//!     let names = fetch(&mut connection, job.keys()).await;
//!     job.settle(names)?;
//! }
//! let shared = Arc::clone(&loader);
//! let waits = tokio::task::spawn_blocking(move || {
//!     let outcomes: Result<Vec<Option<Outcome<_, _>>>, Refusal> =
//!         tickets.iter().map(|ticket| Ok(shared.wait(&mut caller, ticket)?.cloned())).collect();
//!     (caller, outcomes)
//! });
//! let (caller, outcomes) = waits.await?;
//! ```
//!
//! Or else the task polls [`Loader::look`], which notes no read: once that shows an outcome, `wait` returns at once and notes it. To close
//! the loader, take it out of the `Arc` by `Arc::into_inner`, once no task has it any more.
//!
//! A loader has 1 to 32 callers. You get them all at the open, and can't get one again. If a task is aborted:
//!
//! - between its load and a dispatch, its caller goes with it, and its keys are still collected. Another caller's dispatch sends them, and
//!   until then [`Loader::close`] is refused. So keep a caller outside of tasks that may be aborted; or else stop the loader, and drop it.
//! - between its dispatch and the end of its jobs, the jobs are dropped, and so they fail, and nobody waits for them.
//! - while a thread waits for it, that thread waits on, until the batch ends or you stop the loader.

mod cells;
mod error;
mod history;
mod job;
mod loader;
#[allow(unsafe_code)]
mod serial;

pub use error::{CloseError, Failure, Refusal};
pub use history::{Call, Entry, Event, History, Reply};
pub use job::{Job, Jobs};
pub use loader::{Caller, Key, Limits, Loader, Outcome, Ticket};
