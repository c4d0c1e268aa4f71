//! Each call of a loader, by one thread.

use std::error::Error;
use std::fmt;
use std::sync::Arc;
use std::time::Duration;
use thrushscreen::{
    Call, Caller, CloseError, Entry, Event, Failure, Job, Key, Limits, Loader, Outcome, Refusal, Reply,
};

type Texts = Loader<String, String>;

const LIMITS: Limits = Limits { max_batch: 2, max_cells: 8, max_calls: 64 };

fn opened() -> (Texts, Caller) {
    let (loader, mut callers) = Loader::open(LIMITS, 1).unwrap();
    (loader, callers.remove(0))
}

fn key(table: &str, id: &str) -> Key {
    Key { table: table.into(), id: id.into() }
}

fn value(text: &str) -> Outcome<String, String> {
    Ok(text.into())
}

/// An error of the key alone.
fn gone() -> Outcome<String, String> {
    Err(Failure::Key(Arc::new("gone".into())))
}

/// The jobs of what is collected.
fn sent<'l>(loader: &'l Texts, caller: &mut Caller) -> Vec<Job<'l, String, String>> {
    loader.dispatch(caller).unwrap().collect()
}

/// Sends what is collected, and settles each batch with the ids.
fn fetch(loader: &Texts, caller: &mut Caller) -> Vec<Vec<String>> {
    let mut batches = Vec::new();
    for job in loader.dispatch(caller).unwrap() {
        let ids: Vec<String> = job.keys().iter().map(|key| key.id.clone()).collect();
        job.settle(ids.iter().cloned().map(Ok).collect()).unwrap();
        batches.push(ids);
    }
    batches
}

#[test]
fn loads_are_batched_and_a_key_is_fetched_once() {
    let (loader, mut caller) = opened();
    let tickets: Vec<_> = ["a", "b", "a", "c"].map(|id| loader.load(&mut caller, "user", id).unwrap()).into();
    assert_eq!(tickets.iter().map(|ticket| ticket.cell()).collect::<Vec<_>>(), [0, 1, 0, 2]);
    assert_eq!(loader.look(&tickets[0]), None);
    assert_eq!(fetch(&loader, &mut caller), [vec!["a", "b"], vec!["c"]]);
    assert_eq!(fetch(&loader, &mut caller), Vec::<Vec<String>>::new());
    for (ticket, id) in tickets.iter().zip(["a", "b", "a", "c"]) {
        assert_eq!(loader.look(ticket), Some(&value(id)));
        assert_eq!(loader.wait(&mut caller, ticket), Ok(Some(&value(id))));
    }
}

#[test]
fn several_keys_are_loaded_as_one() {
    let (loader, mut caller) = opened();
    let tickets = loader.load_many(&mut caller, &[("user", "a"), ("order", "7"), ("user", "a")]).unwrap();
    assert_eq!(tickets.iter().map(|ticket| ticket.cell()).collect::<Vec<_>>(), [0, 1, 0]);
    assert!(loader.load_many(&mut caller, &[]).unwrap().is_empty());
    let full: Vec<String> = (0..8).map(|id| id.to_string()).collect();
    let keys: Vec<_> = full.iter().map(|id| ("user", id.as_str())).collect();
    assert_eq!(loader.load_many(&mut caller, &keys).unwrap_err(), Refusal::CellsFull);
    assert_eq!(loader.load(&mut caller, "user", "0").unwrap().cell(), 2);
    assert_eq!(loader.prime(&mut caller, "user", "p", Ok("pat".into())), Ok(None));
    assert_eq!(fetch(&loader, &mut caller), [["a", "7"].as_slice(), ["0"].as_slice()]);
    let history = loader.close().unwrap();
    assert_eq!(history.events().iter().map(Event::fresh_loads).filter(|&keys| keys > 0).collect::<Vec<_>>(), [2, 1]);
}

#[test]
fn a_primed_key_is_held_and_a_cleared_one_is_not() {
    let (loader, mut caller) = opened();
    assert_eq!(loader.prime(&mut caller, "user", "a", Ok("ada".into())), Ok(None));
    assert_eq!(loader.prime(&mut caller, "user", "a", Ok("eve".into())), Ok(Some(Ok("eve".into()))));
    assert_eq!(loader.prime(&mut caller, "user", "b", Err("gone".into())), Ok(None));
    let (a, b) = (loader.load(&mut caller, "user", "a").unwrap(), loader.load(&mut caller, "user", "b").unwrap());
    assert_eq!(loader.look(&a), Some(&value("ada")));
    assert_eq!(loader.look(&b), Some(&gone()));
    loader.clear(&mut caller, "user", "a").unwrap();
    assert_eq!(loader.load(&mut caller, "user", "a").unwrap().cell(), 2);
    loader.clear_all(&mut caller).unwrap();
    assert_eq!(loader.load(&mut caller, "user", "b").unwrap().cell(), 3);
    assert_eq!(loader.look(&a), Some(&value("ada")));
}

#[test]
fn an_error_of_a_key_is_kept_and_one_of_a_batch_is_not() {
    let (loader, mut caller) = opened();
    let [a, b, c] = ["a", "b", "c"].map(|id| loader.load(&mut caller, "user", id).unwrap());
    let mut jobs = sent(&loader, &mut caller);
    jobs.remove(0).settle(vec![Ok("ada".into()), Err("gone".into())]).unwrap();
    jobs.remove(0).fail("down".into()).unwrap();
    assert_eq!(loader.look(&a), Some(&value("ada")));
    assert_eq!(loader.look(&b), Some(&gone()));
    assert_eq!(loader.wait(&mut caller, &c), Ok(Some(&Err(Failure::Batch(Arc::new("down".into()))))));
    assert_eq!(loader.load(&mut caller, "user", "b").unwrap().cell(), 1);
    assert_eq!(loader.load(&mut caller, "user", "c").unwrap().cell(), 3);
}

#[test]
fn a_job_that_is_dropped_fails() {
    let (loader, mut caller) = opened();
    let [a, b, c] = ["a", "b", "c"].map(|id| loader.load(&mut caller, "user", id).unwrap());
    let mut jobs = sent(&loader, &mut caller);
    assert_eq!((jobs[1].batch(), jobs[1].keys()), (1, [key("user", "c")].as_slice()));
    assert_eq!(jobs.remove(0).settle(vec![Ok("ada".into())]), Err(Refusal::BadLengths));
    assert_eq!([&a, &b].map(|ticket| loader.look(ticket)), [Some(&Err(Failure::Dropped)); 2]);
    drop(jobs);
    assert_eq!(loader.wait(&mut caller, &c), Ok(Some(&Err(Failure::Dropped))));
    let events = loader.close().unwrap().events().to_vec();
    assert_eq!([&events[4].call, &events[5].call], [&Call::Fail(0), &Call::Fail(1)]);
}

#[test]
fn a_job_that_can_not_be_failed_stops_the_loader() {
    let (loader, mut callers) = Texts::open(Limits { max_calls: 2, ..LIMITS }, 1).unwrap();
    let caller = &mut callers[0];
    let ticket = loader.load(caller, "user", "a").unwrap();
    let mut jobs = sent(&loader, caller);
    assert_eq!(loader.clear_all(caller), Err(Refusal::LogFull));
    assert_eq!(jobs.remove(0).settle(vec![Ok("a".into())]), Err(Refusal::LogFull));
    assert_eq!(loader.wait(caller, &ticket), Ok(None));
    assert_eq!(loader.clear_all(caller), Err(Refusal::Stopped));
    drop(jobs);
    assert_eq!(loader.close().unwrap_err().refusal(), Refusal::Unsettled);
}

#[test]
fn what_a_caller_left_is_sent_by_another() {
    let (loader, mut callers) = Texts::open(LIMITS, 2).unwrap();
    loader.load(&mut callers.remove(0), "user", "a").unwrap();
    let refused = loader.close().unwrap_err();
    assert_eq!(refused.to_string(), Refusal::Unsettled.to_string());
    let boxed: Box<dyn Error + Send + Sync> = Box::new(refused);
    let loader = boxed.downcast::<CloseError<String, String>>().unwrap().into_inner();
    drop(loader.dispatch(&mut callers[0]).unwrap());
    loader.close().unwrap();
}

#[test]
fn a_wait_ends_by_its_time_or_by_a_stop() {
    let (loader, mut caller) = opened();
    let ticket = loader.load(&mut caller, "user", "a").unwrap();
    assert_eq!(loader.wait_timeout(&mut caller, &ticket, Duration::ZERO), Ok(None));
    assert_eq!(loader.wait_timeout(&mut caller, &ticket, Duration::from_millis(20)), Ok(None));
    loader.stop();
    assert_eq!(loader.wait(&mut caller, &ticket), Ok(None));
    assert_eq!(loader.wait_timeout(&mut caller, &ticket, Duration::MAX), Ok(None));
    assert_eq!(loader.load(&mut caller, "user", "a").unwrap_err(), Refusal::Stopped);
    let refused = loader.close().unwrap_err();
    assert_eq!((refused.refusal(), refused.into_inner().look(&ticket)), (Refusal::Unsettled, None));
}

#[test]
fn limits_keys_and_callers_are_checked() {
    for limits in
        [Limits { max_batch: 0, ..LIMITS }, Limits { max_cells: 65_537, ..LIMITS }, Limits { max_calls: 0, ..LIMITS }]
    {
        assert_eq!(Texts::open(limits, 1).err(), Some(Refusal::BadLimit));
    }
    assert_eq!(Texts::open(LIMITS, 0).err(), Some(Refusal::BadCallers));
    assert_eq!(Texts::open(LIMITS, 33).err(), Some(Refusal::BadCallers));
    assert_eq!(Texts::open(Limits::default(), 32).unwrap().1.len(), 32);
    let (loader, mut caller) = opened();
    for (table, id) in [("", "a"), ("t", ""), (&"t".repeat(65), "a"), ("t", &"i".repeat(257))] {
        assert_eq!(loader.load(&mut caller, table, id).unwrap_err(), Refusal::BadKey);
        assert_eq!(loader.load_many(&mut caller, &[("t", "a"), (table, id)]).unwrap_err(), Refusal::BadKey);
    }
    assert_eq!(loader.load(&mut caller, &"t".repeat(64), &"i".repeat(256)).unwrap().cell(), 0);
}

#[test]
fn a_batch_may_be_of_one_table() {
    for (tables, refusal) in [
        ([("s", 0), ("t", 1)], Refusal::BadLimit),
        ([("s", 1), ("s", 2)], Refusal::DuplicateTable),
        ([("", 1), ("s", 2)], Refusal::BadKey),
    ] {
        assert_eq!(Texts::open_by_table(LIMITS, 1, &tables).err(), Some(refusal));
    }
    let (loader, mut callers) = Texts::open_by_table(LIMITS, 1, &[("s", 1)]).unwrap();
    let caller = &mut callers[0];
    loader.load_many(caller, &[("t", "a"), ("s", "x"), ("t", "b"), ("s", "y")]).unwrap();
    assert_eq!(fetch(&loader, caller), [["a", "b"].as_slice(), ["x"].as_slice(), ["y"].as_slice()]);
}

#[test]
fn what_is_of_another_loader_is_refused() {
    let ((loader, mut callers), (other, mut stranger)) = (Texts::open(LIMITS, 2).unwrap(), opened());
    let (mut second, mut caller) = (callers.remove(1), callers.remove(0));
    let ticket = loader.load(&mut caller, "user", "a").unwrap();
    assert_eq!(loader.load(&mut stranger, "user", "a").unwrap_err(), Refusal::OtherLoader);
    assert_eq!(other.wait(&mut stranger, &ticket), Err(Refusal::OtherLoader));
    assert_eq!(loader.wait(&mut stranger, &ticket), Err(Refusal::OtherLoader));
    assert_eq!(loader.prime(&mut stranger, "user", "b", Ok("b".into())), Err(Refusal::OtherLoader));
    assert_eq!(other.look(&ticket), None);
    assert_eq!(loader.wait(&mut caller, &other.load(&mut stranger, "user", "a").unwrap()), Err(Refusal::OtherLoader));
    assert_eq!(loader.wait(&mut second, &ticket), Err(Refusal::OtherCaller));
}

#[test]
fn the_close_gives_the_history() {
    let (loader, mut callers) = Texts::open(Limits { max_batch: 1, ..LIMITS }, 2).unwrap();
    let [first, second] = callers.as_mut_slice() else { panic!("two callers") };
    assert_eq!((first.number(), second.number()), (0, 1));
    loader.load(first, "user", "a").unwrap();
    let tickets = loader.load_many(second, &[("user", "b"), ("user", "a")]).unwrap();
    loader.prime(first, "user", "c", Ok("cy".into())).unwrap();
    loader.prime(first, "user", "c", Ok("eve".into())).unwrap();
    loader.clear(second, "user", "a").unwrap();
    loader.clear_all(first).unwrap();
    let mut jobs = sent(&loader, second);
    jobs.remove(0).settle(vec![Ok("ada".into())]).unwrap();
    assert_eq!(loader.wait(second, &tickets[1]), Ok(Some(&value("ada"))));
    jobs.remove(0).fail("down".into()).unwrap();
    drop(jobs);
    let history = loader.close().unwrap();
    let [a, b, c] = ["a", "b", "c"].map(|id| key("user", id));
    let calls = [
        (0, Call::Load(a.clone(), Reply::Fresh { cell: 0, batch: 0 })),
        (1, Call::LoadMany(vec![(b, Reply::Fresh { cell: 1, batch: 1 }), (a.clone(), Reply::Hit(0))])),
        (0, Call::Prime(c.clone(), Some(2))),
        (0, Call::Prime(c, None)),
        (1, Call::Clear(a)),
        (0, Call::ClearAll),
        (1, Call::Dispatch(0..2)),
        (1, Call::Settle(0)),
        (1, Call::Fail(1)),
    ];
    assert_eq!(history.events().iter().map(|event| (event.caller, event.call.clone())).collect::<Vec<_>>(), calls);
    assert_eq!(history.entries(0), [0, 2, 3, 5].map(|at| Entry::Call { at }));
    let saw = Entry::Saw { cell: 0, at: 7 };
    let [load, clear, dispatch, settle, fail] = [1, 4, 6, 7, 8].map(|at| Entry::Call { at });
    assert_eq!(history.entries(1), [load, clear, dispatch, settle, saw, fail]);
    assert!(history.entries(2).is_empty());
    assert_eq!(history.outcome(0), Some(&value("ada")));
    assert_eq!(history.outcome(1), Some(&Err(Failure::Batch(Arc::new("down".into())))));
    assert_eq!((history.outcome(2), history.outcome(3)), (Some(&value("cy")), None));
    let lines = concat!(
        r#"{"script":1,"maxBatchSize":1,"maxCells":8,"maxCalls":64,"calls":[{"load":["user","a"]},"#,
        r#"{"loadMany":[["user","b"],["user","a"]]},{"prime":["user","c"]},{"prime":["user","c"]},{"clear":["user","a"]},"#,
        r#"{"clearAll":true},{"dispatch":true},{"settle":0},{"fail":1}]}"#,
        "\n[[0,1,0,0],[1,1,1,1,0,0,0],[0,1,2,0],[0,0,0,0],[1],[0],[1,0,1],[1],[1]]\n"
    );
    assert_eq!(history.to_json(), lines);
    let printed = [
        "0 caller 0 load user/a: fresh 0 in batch 0",
        "1 caller 1 loadMany [user/b, user/a]: [fresh 1 in batch 1, hit 0]",
        "2 caller 0 prime user/c: primed 2",
        "3 caller 0 prime user/c: kept",
        "4 caller 1 clear user/a: done",
        "5 caller 0 clearAll: done",
        "6 caller 1 dispatch: sent [batch 0, batch 1]",
        "7 caller 1 settle batch 0: done",
        "8 caller 1 fail batch 1: done",
    ];
    assert_eq!(history.to_string().lines().collect::<Vec<_>>(), printed);
    let cells = r#"cells: {0: Ok("ada"), 1: Err(Batch("down")), 2: Ok("cy")} }"#;
    assert!(format!("{history:?}").ends_with(cells), "{history:?}");
}

#[test]
fn a_history_by_table_is_written_with_the_limits_of_tables() {
    let (loader, mut callers) = Texts::open_by_table(LIMITS, 1, &[("a\"b", 1)]).unwrap();
    loader.clear(&mut callers[0], "\\", "\u{1f}\u{e9}").unwrap();
    let lines = concat!(
        r#"{"script":2,"maxBatchSize":2,"maxCells":8,"maxCalls":64,"tableLimits":[["a\"b",1]],"#,
        r#""calls":[{"clear":["\\","\u001fé"]}]}"#,
        "\n[[0]]\n"
    );
    assert_eq!(loader.close().unwrap().to_json(), lines);
}

#[test]
fn each_refusal_and_failure_says_what_it_is() {
    assert_eq!(Refusal::Stopped.to_string(), "the loader is stopped");
    assert_eq!(Failure::Key(Arc::new("gone")).to_string(), "gone");
    assert_eq!(Failure::Batch(Arc::new("down")).to_string(), "the batch failed: down");
    assert_eq!(Failure::<String>::Dropped.to_string(), "the batch was dropped");
}

/// An error that can't be cloned, with its cause.
#[derive(Debug)]
struct Down(fmt::Error);

impl fmt::Display for Down {
    fn fmt(&self, f: &mut fmt::Formatter<'_>) -> fmt::Result {
        f.write_str("down")
    }
}

impl Error for Down {
    fn source(&self) -> Option<&(dyn Error + 'static)> {
        Some(&self.0)
    }
}

#[test]
fn a_failure_is_cloned_and_says_each_error_once() {
    let down = Arc::new(Down(fmt::Error));
    for failure in [Failure::Key(Arc::clone(&down)), Failure::Batch(down)] {
        assert_eq!(failure.clone().source().unwrap().to_string(), fmt::Error.to_string());
    }
    assert!(Failure::<Down>::Dropped.clone().source().is_none());
}

#[test]
fn loaders_and_jobs_are_shown_without_their_values() {
    struct Hidden;
    let (loader, mut callers) = Loader::<Hidden, Hidden>::open(LIMITS, 1).unwrap();
    loader.load_many(&mut callers[0], &[("user", "a"), ("user", "b"), ("user", "c")]).unwrap();
    let jobs = loader.dispatch(&mut callers[0]).unwrap();
    assert_eq!(jobs.len(), 2);
    assert!(format!("{jobs:?}").starts_with("Jobs([Job { batch: 0, keys: [Key { table: \"user\", id: \"a\" }"));
    drop(jobs);
    assert!(format!("{loader:?}").starts_with("Loader { opened: Opened { limits: Limits { max_batch: 2,"));
    assert!(loader.close().unwrap().outcome(0).is_some());
}
