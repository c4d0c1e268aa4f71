//! Keys that have their hash and most often their texts in place, and sources of such keys.

pub use crate::value::{BatchAnswer, Outcome};

use crate::value::{is_id, is_table};
use std::hash::{BuildHasher, Hash, Hasher, RandomState};
use std::sync::{Arc, OnceLock};

/// The most bytes of texts that a key has in place.
const SHORT: usize = 21;

/// A table and an id in it, as one text.
#[derive(Clone, PartialEq, Eq)]
enum Text {
    /// After the text come zeros.
    Short {
        table_len: u8,
        len: u8,
        bytes: [u8; SHORT],
    },
    Long {
        table_len: u8,
        text: Arc<str>,
    },
}

/// A key, and its hash under seeds of the process.
#[derive(Clone, PartialEq, Eq)]
pub struct Key {
    hash: u64,
    text: Text,
}

impl Key {
    /// The key of a table and an id, unless one is empty or too long.
    #[inline]
    pub fn new(table: &str, id: &str) -> Option<Key> {
        if !is_table(table) || !is_id(id) {
            return None;
        }
        let (table_len, len) = (table.len() as u8, table.len() + id.len());
        if len > SHORT {
            return Some(Key::long(table_len, [table, id].concat().into()));
        }
        let mut bytes = [0; SHORT];
        bytes[..table.len()].copy_from_slice(table.as_bytes());
        bytes[table.len()..len].copy_from_slice(id.as_bytes());
        let len = len as u8;
        Some(Key { hash: Seeds::get().short(table_len, len, &bytes), text: Text::Short { table_len, len, bytes } })
    }

    #[cold]
    fn long(table_len: u8, text: Arc<str>) -> Key {
        Key { hash: Seeds::get().long.hash_one((table_len, &text)), text: Text::Long { table_len, text } }
    }

    pub fn hash(&self) -> u64 {
        self.hash
    }

    pub fn table(&self) -> &str {
        let (text, table_len) = self.text();
        &text[..table_len]
    }

    pub fn id(&self) -> &str {
        let (text, table_len) = self.text();
        &text[table_len..]
    }

    /// Both texts, and how many bytes the first has.
    fn text(&self) -> (&str, usize) {
        match &self.text {
            Text::Short { table_len, len, bytes } => {
                (std::str::from_utf8(&bytes[..usize::from(*len)]).expect("two texts"), usize::from(*table_len))
            }
            Text::Long { table_len, text } => (text, usize::from(*table_len)),
        }
    }
}

impl Hash for Key {
    fn hash<H: Hasher>(&self, state: &mut H) {
        state.write_u64(self.hash);
    }
}

/// What fetches batches.
pub trait Source: Sync {
    fn fetch(&self, keys: &[Key]) -> BatchAnswer;
}

/// What hashes of keys are made with: drawn once for each process.
struct Seeds {
    words: [u64; 3],
    long: RandomState,
}

impl Seeds {
    fn get() -> &'static Seeds {
        static SEEDS: OnceLock<Seeds> = OnceLock::new();
        SEEDS.get_or_init(|| {
            let long = RandomState::new();
            Seeds { words: [1, 2, 3].map(|number: u64| long.hash_one(number)), long }
        })
    }

    /// The hash of a text in place: three words of it, the last of which overlaps the second, folded by two products.
    fn short(&self, table_len: u8, len: u8, bytes: &[u8; SHORT]) -> u64 {
        let [first, second, third] = self.words;
        let lens = u64::from(table_len) << 8 | u64::from(len);
        let both = folded(first ^ word(bytes, 0), second ^ word(bytes, 8));
        folded(both ^ lens, third ^ word(bytes, SHORT - 8))
    }
}

/// The eight bytes from a place on.
fn word(bytes: &[u8; SHORT], place: usize) -> u64 {
    u64::from_le_bytes(bytes[place..place + 8].try_into().expect("eight bytes"))
}

/// Both halves of a product in one.
fn folded(one: u64, other: u64) -> u64 {
    let product = u128::from(one) * u128::from(other);
    product as u64 ^ (product >> 64) as u64
}
