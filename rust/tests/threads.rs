//! Threads that share a loader, and whether its history is one of a loader of one thread.

use std::collections::HashMap;
use std::sync::{Barrier, Mutex};
use std::thread;
use thrushscreen::{Call, Caller, Event, Failure, History, Job, Jobs, Key, Limits, Loader, Reply, Ticket};

type Numbers = Loader<u64, String>;

const THREADS: u32 = 4;
const LIMITS: Limits = Limits { max_batch: 3, max_cells: 4_096, max_calls: 16_384 };

fn is_shared<T: Send + Sync>() {}

#[test]
fn loaders_and_jobs_go_to_other_threads() {
    is_shared::<Numbers>();
    is_shared::<Caller>();
    is_shared::<Ticket>();
    is_shared::<Job<'static, u64, String>>();
    is_shared::<Jobs<'static, u64, String>>();
    is_shared::<History<u64, String>>();
}

/// Numbers that are drawn, by a seed.
struct Draws(u64);

impl Draws {
    fn below(&mut self, most: u64) -> u64 {
        self.0 = self.0.wrapping_mul(6_364_136_223_846_793_005).wrapping_add(1_442_695_040_888_963_407);
        (self.0 >> 33) % most
    }
}

/// Ends each job: it settles it with what its ids spell, or fails it, or drops it.
fn end(jobs: Jobs<'_, u64, String>, draws: &mut Draws) {
    for job in jobs {
        match draws.below(6) {
            0 => job.fail("down".into()).unwrap(),
            1 => drop(job),
            _ => {
                let values = job.keys().iter().map(|key| Ok(key.id.parse().unwrap())).collect();
                job.settle(values).unwrap();
            }
        }
    }
}

/// Makes calls that are drawn. Each outcome that it reads is that of its key.
fn make_calls(loader: &Numbers, caller: &mut Caller, mut draws: Draws) {
    for _ in 0..60 {
        let id = draws.below(8);
        let text = id.to_string();
        match draws.below(8) {
            0 => loader.clear(caller, "n", &text).unwrap(),
            1 if draws.below(4) == 0 => loader.clear_all(caller).unwrap(),
            2 => drop(loader.prime(caller, "n", &text, Ok(id)).unwrap()),
            _ => {
                let ticket = loader.load(caller, "n", &text).unwrap();
                if loader.look(&ticket).is_none() {
                    end(loader.dispatch(caller).unwrap(), &mut draws);
                }
                match loader.wait(caller, &ticket).unwrap().expect("nobody stops the loader") {
                    Ok(value) => assert_eq!(*value, id),
                    Err(failure) => assert!(!matches!(failure, Failure::Key(_))),
                }
            }
        }
    }
}

/// Whether each reply is that of a loader of one thread, which has a map of what it holds.
fn check(history: &History<u64, String>) {
    let (mut held, mut cells, mut sent) = (HashMap::<Key, u32>::new(), 0, 0);
    let mut batches: Vec<Vec<(Key, u32)>> = Vec::new();
    let mut ended = Vec::new();
    for event in history.events() {
        match &event.call {
            Call::Load(key, Reply::Hit(cell)) => assert_eq!(held.get(key), Some(cell)),
            Call::Load(key, Reply::Fresh { cell, batch }) => {
                assert_eq!((held.insert(key.clone(), *cell), *cell), (None, cells));
                cells += 1;
                let last = batches.last().filter(|last| last.len() < 3 && last.iter().all(|(other, _)| other != key));
                if last.is_none() || batches.len() == sent {
                    batches.push(Vec::new());
                }
                assert_eq!(*batch as usize, batches.len() - 1);
                batches.last_mut().unwrap().push((key.clone(), *cell));
            }
            Call::Prime(key, None) => assert!(held.contains_key(key)),
            Call::Prime(key, Some(cell)) => {
                assert_eq!((held.insert(key.clone(), *cell), *cell), (None, cells));
                cells += 1;
            }
            Call::Clear(key) => drop(held.remove(key)),
            Call::ClearAll => held.clear(),
            Call::Dispatch(range) => {
                assert_eq!(range.len(), batches.len() - sent);
                assert!(range.is_empty() || range.start as usize == sent);
                sent = batches.len();
            }
            Call::Settle(batch) | Call::Fail(batch) => {
                assert!((*batch as usize) < sent && !ended.contains(batch));
                ended.push(*batch);
                if matches!(event.call, Call::Fail(_)) {
                    let members = &batches[*batch as usize];
                    held.retain(|key, cell| !members.contains(&(key.clone(), *cell)));
                }
            }
            Call::LoadMany(_) => unreachable!("no thread makes one"),
        }
    }
    assert_eq!(ended.len(), batches.len());
}

#[test]
fn the_history_of_threads_is_one_of_a_loader_of_one_thread() {
    for seed in 0..40 {
        let (loader, callers) = Numbers::open(LIMITS, THREADS).unwrap();
        thread::scope(|scope| {
            for mut caller in callers {
                let loader = &loader;
                let draws = Draws(seed * 31 + u64::from(caller.number()));
                scope.spawn(move || {
                    make_calls(loader, &mut caller, draws);
                    end(loader.dispatch(&mut caller).unwrap(), &mut Draws(seed));
                });
            }
        });
        check(&loader.close().unwrap());
    }
}

#[test]
fn a_thread_that_waits_is_woken_by_an_end_and_by_a_stop() {
    let (loader, mut callers) = Numbers::open(LIMITS, 3).unwrap();
    let mut sender = callers.remove(0);
    let [first, second] = ["1", "2"].map(|id| loader.load(&mut sender, "n", id).unwrap());
    let seen = Mutex::new(Vec::new());
    thread::scope(|scope| {
        for (mut caller, cell) in callers.into_iter().zip([first.cell(), second.cell()]) {
            let (loader, seen) = (&loader, &seen);
            scope.spawn(move || {
                let ticket = loader.load(&mut caller, "n", &(cell + 1).to_string()).unwrap();
                let value = loader.wait(&mut caller, &ticket).unwrap().map(|outcome| *outcome.as_ref().unwrap());
                seen.lock().unwrap().push(value);
            });
        }
        settle_all(&loader, &mut sender);
        while seen.lock().unwrap().len() < 2 {
            thread::yield_now();
        }
        let late = loader.load(&mut sender, "n", "3").unwrap();
        let loader = &loader;
        let waits = scope.spawn(move || loader.wait(&mut sender, &late).unwrap().is_none());
        loader.stop();
        assert!(waits.join().unwrap());
    });
    seen.lock().unwrap().sort_unstable();
    assert_eq!(*seen.lock().unwrap(), [Some(1), Some(2)]);
}

#[test]
fn threads_that_load_before_one_dispatches_need_one_statement() {
    const ALL: u32 = 32;
    let (loader, callers) = Numbers::open(Limits::default(), ALL).unwrap();
    let loaded = Barrier::new(callers.len());
    thread::scope(|scope| {
        for mut caller in callers {
            let (loader, loaded) = (&loader, &loaded);
            scope.spawn(move || {
                let ids = [0, 1, 2].map(|more| u64::from((caller.number() + more) % ALL));
                let tickets = ids.map(|id| loader.load(&mut caller, "n", &id.to_string()).unwrap());
                if loaded.wait().is_leader() {
                    settle_all(loader, &mut caller);
                }
                for (ticket, id) in tickets.iter().zip(ids) {
                    assert_eq!(loader.wait(&mut caller, ticket), Ok(Some(&Ok(id))));
                }
            });
        }
    });
    let history = loader.close().unwrap();
    assert_eq!(history.events().iter().map(Event::fresh_loads).sum::<usize>(), ALL as usize);
    assert_eq!(history.events().iter().filter(|event| matches!(event.call, Call::Settle(_))).count(), 1);
}

/// Sends, and settles each job with what its ids spell.
fn settle_all(loader: &Numbers, sender: &mut Caller) {
    for job in loader.dispatch(sender).unwrap() {
        let values = job.keys().iter().map(|key| Ok(key.id.parse().unwrap())).collect();
        job.settle(values).unwrap();
    }
}
