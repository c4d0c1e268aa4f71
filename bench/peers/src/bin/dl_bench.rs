//! The workloads of the project's stopwatch, with the same words and the same counts. docs/contributing/performance.md says what each does.

use peers as peer;
use peers::document::read_tables;
use peers::serve::{self, Step};
use peers::term::{evaluate_inline, Term};
use std::time::{Duration, Instant};

include!("../workloads.rs");

const USAGE: &str =
    "usage: dl_bench loads|many|rounds|tables|loader N B, hits|clears|terms N, threads|hot N C, inline P N, serve P W N, or gather P D W L";

/// The parts of a term of which there are several, and the rounds of one that is the only one.
const PARTS: u32 = 16;
const ROUNDS: u32 = 16;

fn tables(counts: &mut Counts, keys: u32, batch: usize) {
    let rows: Vec<_> = (0..keys).map(|number| format!("[\"{number}\",{number}]")).collect();
    let text = format!("[{{\"name\":\"users\",\"rows\":[{}]}}]", rows.join(","));
    let tables = read_tables(serde_json::from_str(&text).expect("a tree")).expect("tables");
    for part in keys_of(keys).chunks(batch) {
        counts.outcomes += tables.fetch(part).map_or(0, |outcomes| outcomes.len());
    }
}

// ---- terms

/// How many terms there are, and each one's parts and rounds.
#[derive(Clone, Copy)]
struct Terms {
    count: u32,
    parts: u32,
    rounds: u32,
}

impl Terms {
    fn term(self, number: u32) -> Term {
        let field: Arc<str> = "next".into();
        let first = number * self.parts;
        Term::All((first..first + self.parts).map(|part| self.part(part, &field)).collect())
    }

    /// A load, and then as many of the key that the row's field names.
    fn part(self, number: u32, field: &Arc<str>) -> Term {
        let table = |round: u32| itoa::Buffer::new().format(number * self.rounds + round).to_owned();
        let first = Term::Load(Key::new(&table(0), "1").expect("a short id"));
        (1..self.rounds).fold(first, |part, round| Term::Follow {
            part: Box::new(part),
            field: field.clone(),
            table: table(round).into(),
        })
    }
}

fn row() -> Alike {
    Alike(Arc::new(serde_json::from_str(r#"{"next":"1"}"#).expect("a row")))
}

fn evaluated(counts: &mut Counts, terms: Terms) -> Result<(), CallFault> {
    let source = row();
    let (loader, mut passes) = Loader::start(Limits::of_batch(BATCH), 1);
    for number in 0..terms.count {
        let (answer, _rounds) = evaluate_inline(&loader, &mut passes[0], &source, terms.term(number))?;
        answer.expect("a term with a value");
    }
    counts.history(&loader.close(passes));
    Ok(())
}

fn served(counts: &mut Counts, terms: Terms, workers: u32) {
    let plans = (0..terms.count).map(|number| vec![Step::Eval(terms.term(number))]).collect();
    let report = serve::serve(&row(), Limits::of_batch(BATCH), workers, plans);
    counts.history(&report.expect("a report").history);
}

// ---- plans over a source that takes time

/// A source that takes time, and then answers every key `null`.
struct Slow(Duration);

impl Source for Slow {
    fn fetch(&self, keys: &[Key]) -> BatchAnswer {
        thread::sleep(self.0);
        Alike(Arc::new(Value::Null)).fetch(keys)
    }
}

/// Serves plans that each make this many loads one after another. Each plan dispatches right after each of its loads: there is no rule.
fn gathered(counts: &mut Counts, plans: u32, loads: u32, workers: u32, micros: u32) {
    let load = |number: u32| Step::Eval(Term::Load(Key::new("users", &number.to_string()).expect("a short id")));
    let plan_of = |plan: u32| (plan * loads..(plan + 1) * loads).map(load).collect();
    let plans = (0..plans).map(plan_of).collect();
    let source = Slow(Duration::from_micros(micros.into()));
    let begins = Instant::now();
    let report = serve::serve(&source, Limits::of_batch(BATCH), workers, plans).expect("a report");
    counts.micros = Some(begins.elapsed().as_micros());
    counts.history(&report.history);
}

/// Runs the workload that words ask for.
fn run(counts: &mut Counts, words: &[&str]) -> Option<()> {
    let many_rounds = |count, rounds| Terms { count, parts: PARTS, rounds };
    match *words {
        ["tables", n, b] => tables(counts, size(n)?, size(b)? as usize),
        ["terms", n] => evaluated(counts, Terms { count: 1, parts: size(n)?, rounds: ROUNDS }).expect("room"),
        ["inline", p, n] => evaluated(counts, many_rounds(size(p)?, size(n)?)).expect("room"),
        ["serve", p, w, n] => served(counts, many_rounds(size(p)?, size(n)?), size(w)?),
        ["gather", p, d, w, l] => gathered(counts, size(p)?, size(d)?, size(w)?, size(l)?),
        _ => return run_of_both(counts, words),
    }
    Some(())
}

fn main() -> ExitCode {
    run_words(run, USAGE)
}
