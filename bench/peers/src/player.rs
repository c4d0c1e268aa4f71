// Plays a history that is drawn. A program includes it once for each peer, and says by `use .. as peer` which one plays.

use super::{Draw, CALLERS, CALLS};
use peer::loader::Loader;
use peer::value::{BatchAnswer, Key, Outcome};
use std::fmt::Write;
use std::sync::Arc;

/// What is refused, what each ticket shows, and the history.
pub fn played(mut draw: Draw) -> String {
    let (loader, mut passes) = Loader::start(draw.limits(), CALLERS);
    let (mut told, mut tickets, mut sizes) = (String::new(), Vec::new(), Vec::new());
    for number in 0..CALLS {
        let pass = &mut passes[draw.below(CALLERS) as usize];
        let made = match draw.below(32) {
            0..=9 => loader.load(pass, &key(&mut draw)).map(|ticket| tickets.push(ticket)),
            10..=15 => loader.load_many(pass, &keys(&mut draw)).map(|more| tickets.extend(more)),
            16 | 17 => loader.prime(pass, &key(&mut draw), outcome(&mut draw)),
            18 | 19 => loader.clear(pass, &key(&mut draw)),
            20 => loader.clear_all(pass),
            21..=24 => loader.dispatch(pass).map(|jobs| sizes.extend(jobs.iter().map(|job| job.keys.len()))),
            25..=29 => {
                let batch = draw.below(sizes.len() as u32 + 2);
                let keys = sizes.get(batch as usize).copied().unwrap_or(0);
                loader.end(pass, batch, answer(&mut draw, keys))
            }
            _ => Ok(tickets.iter_mut().for_each(|ticket| pass.saw(ticket))),
        };
        if let Err(fault) = made {
            writeln!(told, "{number} {fault:?}").expect("a text takes what is written");
        }
    }
    let shown: Vec<_> = tickets.iter().map(|ticket| (ticket.reply, ticket.look())).collect();
    writeln!(told, "{shown:?}").expect("a text takes what is written");
    drop(tickets);
    told + &loader.close(passes).told()
}

/// One of twelve keys, a third of which are too long to be kept in place.
fn key(draw: &mut Draw) -> Key {
    let id = ["1", "22", "an id as long as this", "ü"][draw.below(4) as usize];
    Key::new(["a", "b", "c"][draw.below(3) as usize], id).expect("short texts")
}

fn keys(draw: &mut Draw) -> Vec<Key> {
    (0..draw.below(6)).map(|_| key(draw)).collect()
}

fn outcome(draw: &mut Draw) -> Outcome {
    let number = draw.below(1_000);
    match draw.below(2) {
        0 => Outcome::Value(Arc::new(number.into())),
        _ => Outcome::KeyError(number.to_string().into()),
    }
}

/// The answer to so many keys.
fn answer(draw: &mut Draw, keys: usize) -> BatchAnswer {
    if draw.below(4) == 0 {
        return Err(draw.below(1_000).to_string().into());
    }
    Ok((0..keys).map(|_| outcome(draw)).collect())
}
