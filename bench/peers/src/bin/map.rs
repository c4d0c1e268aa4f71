//! What many write by hand: a mutex around a map from keys to cells, and lists of the keys that wait. It keeps no history, and its words
//! are those of `loader.c`.

use std::collections::hash_map::{Entry, HashMap};
use std::process::ExitCode;
use std::sync::{Mutex, PoisonError};

const CALLERS: usize = 4;
const MAX_BATCH: usize = 64;

type Key = (String, String);

#[derive(Default)]
struct Book {
    cells: HashMap<Key, usize>,
    batches: Vec<Vec<Key>>,
}

#[derive(Default)]
struct Loader(Mutex<Book>);

impl Loader {
    /// Whether the load is fresh: nobody loaded the key before.
    fn load(&self, key: Key) -> bool {
        let mut held = self.0.lock().unwrap_or_else(PoisonError::into_inner);
        let Book { cells, batches } = &mut *held;
        let next = cells.len();
        let Entry::Vacant(place) = cells.entry(key) else {
            return false;
        };
        let key = place.key().clone();
        place.insert(next);
        match batches.last_mut() {
            Some(batch) if batch.len() < MAX_BATCH => batch.push(key),
            _ => batches.push(vec![key]),
        }
        true
    }

    /// How many of these loads are fresh.
    fn load_each(&self, count: usize) -> usize {
        (0..count).filter(|number| self.load(("user".to_owned(), format!("{number:05}")))).count()
    }
}

fn main() -> ExitCode {
    let words: Vec<String> = std::env::args().skip(1).collect();
    let count = words.first().and_then(|word| word.parse().ok()).unwrap_or(0);
    let word = words.get(1).map_or("", String::as_str);
    let loader = Loader::default();
    let is_right = if word == "threads" {
        std::thread::scope(|scope| {
            let threads: Vec<_> = (0..CALLERS).map(|_| scope.spawn(|| loader.load_each(count))).collect();
            threads.into_iter().filter_map(|thread| thread.join().ok()).sum::<usize>() == count
        })
    } else {
        loader.load_each(count) == count && (word != "hits" || loader.load_each(count) == 0)
    };
    ExitCode::from(u8::from(!is_right))
}
