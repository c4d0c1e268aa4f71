//! Plays histories that are drawn, by both peers, and compares what they show: `histories SEED COUNT`. The last line counts them.

use peers::desk::Limits;
use std::process::ExitCode;

mod fair {
    use peers as peer;
    include!("../player.rs");
}

mod strong {
    use peers::strong as peer;
    include!("../player.rs");
}

/// How many callers a loader has, and how many calls are tried.
const CALLERS: u32 = 3;
const CALLS: u32 = 60;

/// Numbers that follow from a seed.
#[derive(Clone)]
struct Draw(u64);

impl Draw {
    fn below(&mut self, end: u32) -> u32 {
        self.0 = self.0.wrapping_add(0x9e37_79b9_7f4a_7c15);
        let mixed = (self.0 ^ self.0 >> 30).wrapping_mul(0xbf58_476d_1ce4_e5b9);
        let mixed = (mixed ^ mixed >> 27).wrapping_mul(0x94d0_49bb_1331_11eb);
        ((mixed >> 32) * u64::from(end) >> 32) as u32
    }

    /// Limits that are small, so that each is met.
    fn limits(&mut self) -> Limits {
        let own = [("a".to_owned(), 1), ("b".to_owned(), 3)].into();
        Limits {
            batch: 1 + self.below(4) as usize,
            cells: 1 + self.below(2 * CALLS) as usize,
            calls: 1 + self.below(2 * CALLS) as usize,
            tables: (self.below(3) == 0).then_some(own),
        }
    }
}

fn main() -> ExitCode {
    let words: Vec<u64> = std::env::args().skip(1).filter_map(|word| word.parse().ok()).collect();
    let [seed, count] = words[..] else {
        eprintln!("usage: histories SEED COUNT");
        return ExitCode::FAILURE;
    };
    for number in 0..count {
        let draw = Draw(seed << 32 | number);
        let (one, other) = (fair::played(draw.clone()), strong::played(draw));
        if one != other {
            println!("seed {seed}, history {number}:\n{one}\n---- and by the strong peer\n{other}");
            return ExitCode::FAILURE;
        }
    }
    println!("{count} histories alike");
    ExitCode::SUCCESS
}
