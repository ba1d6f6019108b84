// [9.14] Real threads: the rounds of a plan's outermost `par`s are dealt out to four threads, which step in whatever order the system gives
// them, one whole `set` at a time ([9.12]); what follows a `par` waits for all of them ([9.13]), and what stands outside every `par` is done
// by one thread. The whole store and the writes at the end are those of the library's forward run. A thread takes the rounds of a `par`
// inside its own round at random. A `lanes` is dealt out as a `par` is ([18.10]). The plans are those of the examples, those of the bench with
// shorter arrays, and random ones.
//
//   threads COUNT
use std::sync::atomic::{AtomicUsize, Ordering};
use std::sync::{Barrier, Mutex};

#[allow(dead_code)]
mod entries;
mod made;
#[allow(dead_code)]
mod plans;
#[allow(dead_code)]
mod reference;
#[allow(dead_code)]
mod stepper;

use plans::Numbers;
use stepper::{Layout, Unfolded, Work};

const THREADS: usize = 4;
const TIMES: u64 = 5;
const WRITES: u64 = 100_000;

// The longest array that a plan of the bench has here; it is a width too.
const LENGTH: usize = 8;

// The plans of examples/, each with the words text that it is in, if that is not the built-in words.
fn examples() -> Vec<(Option<Vec<u8>>, Vec<u8>)> {
    let mut files: Vec<_> = std::fs::read_dir("examples").unwrap().map(|entry| entry.unwrap().path()).collect();
    files.sort();
    let named = |file: &std::path::PathBuf, end: &str| file.to_str().unwrap().ends_with(end);
    let read = |file: &str| std::fs::read(file).unwrap();
    let words = |file| named(file, ".german.plan").then(|| read("examples/german.words"));
    files.iter().filter(|file| named(file, ".plan")).map(|file| (words(file), read(file.to_str().unwrap()))).collect()
}

const BENCH: [&str; 7] = [
    include_str!("../bench/dot.plan"),
    include_str!("../bench/sums.plan"),
    include_str!("../bench/maps.plan"),
    include_str!("../bench/maps_in_vectors.plan"),
    include_str!("../bench/regrouped.plan"),
    include_str!("../bench/matrix.plan"),
    include_str!("../bench/shares.plan"),
];

// What a step is made on, whole: the store, the writes made, and the thread that made the last one.
struct Held {
    store: Vec<i32>,
    writes: u64,
    last: usize,
}

// What was seen in all runs.
#[derive(Default)]
struct Seen {
    rounds: u64,
    // Those of a `lanes` among them.
    lanes: u64,
    steps: u64,
    // The steps that another thread made than the one before, in one visit of a `par`.
    changes: u64,
}

struct Run<'a> {
    loops: &'a Unfolded,
    held: Mutex<Held>,
    seed: u64,
    seen: Seen,
}

impl Run<'_> {
    // Makes a step; says whether another thread made the one before.
    fn make(&self, step: usize, thread: usize) -> bool {
        let held = &mut *self.held.lock().unwrap();
        self.loops.steps[step].make(&mut held.store);
        held.writes += 1;
        std::mem::replace(&mut held.last, thread) != thread
    }

    // A thread's part of a visit: rounds, as long as there are any. How many of its steps came behind another thread's.
    fn take_rounds(&self, thread: usize, rounds: &[Work], next: &AtomicUsize) -> u64 {
        let mut changes = 0;
        loop {
            let round = next.fetch_add(1, Ordering::Relaxed);
            let Some(work) = rounds.get(round) else { return changes };
            let (mut left, mut numbers) = (work.clone(), Numbers::new(self.seed ^ round as u64));
            while !left.ended() {
                let step = left.take(&mut |count| numbers.below(count as u64) as usize);
                changes += self.make(step, thread) as u64;
                std::thread::yield_now();
            }
        }
    }

    // A visit of an outermost `par`; the threads begin together.
    fn visit(&mut self, rounds: &[Work], word: &str) {
        self.held.get_mut().unwrap().last = THREADS;
        let (run, next, begin) = (&*self, AtomicUsize::new(0), Barrier::new(THREADS));
        let part = &|thread| {
            begin.wait();
            run.take_rounds(thread, rounds, &next)
        };
        let changes: u64 = std::thread::scope(|scope| {
            let threads: Vec<_> = (0..THREADS).map(|thread| scope.spawn(move || part(thread))).collect();
            threads.into_iter().map(|thread| thread.join().unwrap()).sum()
        });
        self.seen.rounds += rounds.len() as u64;
        self.seen.lanes += if word == "lanes" { rounds.len() as u64 } else { 0 };
        // No thread of this visit stepped before its first step.
        self.seen.changes += changes - 1;
    }

    fn work(&mut self, work: &Work) {
        match work {
            Work::Done => {}
            Work::Step(step) => drop(self.make(*step, THREADS)),
            Work::Sequence(parts) => parts.iter().rev().for_each(|part| self.work(part)),
            Work::Beside(rounds, word) => self.visit(rounds, word),
        }
    }
}

// A plan of the bench, no array or group of which is longer than LENGTH, and no vector wider.
fn shorter(plan: &str) -> String {
    let row = |row: &str| match row.split_once(',') {
        Some((word @ ("arr" | "split" | "asvec"), number)) => format!("{word},{}\n", number.parse::<usize>().unwrap().min(LENGTH)),
        _ => format!("{row}\n"),
    };
    plan.lines().map(row).collect()
}

// Runs a plan several times, each on another store, and tells whether it has lanes. Nothing is done with a plan that has one mixing alone, or
// too many writes.
fn run(words: Option<&[u8]>, plan: &[u8], seen: &mut Seen) -> Option<bool> {
    let made = made::made(words, plan, WRITES)?;
    let loops = made.unfold(Layout::Own);
    if loops.work.count().1 == 1 {
        return None;
    }
    for seed in 0..TIMES {
        let store = made.store(&mut Numbers::new(seed));
        let held = Mutex::new(Held { store: store.clone(), writes: 0, last: THREADS });
        let mut run = Run { loops: &loops, held, seed, seen: std::mem::take(seen) };
        run.work(&loops.work);
        let held = run.held.into_inner().unwrap();
        assert_eq!((held.store, held.writes), (made.forward(&store), made.writes), "of\n{}", String::from_utf8_lossy(plan));
        *seen = run.seen;
        seen.steps += made.writes;
    }
    Some(made.has_lanes())
}

fn main() {
    let count: u64 = std::env::args().nth(1).unwrap().parse().unwrap();
    let (mut plans, mut seen) = (0, Seen::default());
    for (words, plan) in examples() {
        run(words.as_deref(), &plan, &mut seen).unwrap();
        plans += 1;
    }
    for plan in BENCH {
        assert!(run(None, shorter(plan).as_bytes(), &mut seen).is_some(), "{plan}");
        plans += 1;
    }
    let (mut seed, last, mut with) = (0, plans + count, plans::Share::of_lanes());
    while plans < last {
        if let Some(lanes) = run(None, &plans::plan(seed), &mut seen) {
            with.add(lanes);
            plans += 1;
        }
        seed += 1;
    }
    let Seen { rounds, lanes, steps, changes } = seen;
    assert!(changes > 0, "no thread stepped behind another");
    assert!(lanes > 0, "no round of a `lanes` was dealt");
    println!(
        "{plans} plans, {} of the random ones with lanes, {TIMES} times each, {rounds} rounds dealt to {THREADS} threads, {lanes} of them of a \
         `lanes`: {steps} steps, {changes} behind a step of another thread, leave the whole store and the writes of the library's forward run",
        with.count()
    );
}
