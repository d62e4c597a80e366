//! A run over all sections, on two threads. What a part of it does depends on the seed and the part
//! alone, so that a run is the same on any machine.

use crate::exhaustive::{Strings, GROUPS, RUNS};
use crate::judge::{Bench, KEPT};
use crate::random::Random;
use crate::sections::{self, Amount, SECTIONS};
use crate::tally::Tally;
use std::sync::atomic::{AtomicUsize, Ordering};
use std::sync::mpsc;
use std::thread;
use std::time::{Duration, Instant};

const THREADS: usize = 2;
/// The most differences of a section that are printed.
const FEW: usize = 4;
/// The cases of a part.
const PART: u64 = 4096;

/// A part of a section: random cases, or the short inputs between two indexes.
#[derive(Clone, Copy)]
struct Part {
    section: usize,
    number: u64,
    work: Work,
}

#[derive(Clone, Copy)]
enum Work {
    Random(u64),
    Strings {
        run: usize,
        from: u64,
        to: u64,
        stride: u64,
    },
}

/// What came of a section.
#[derive(Default, Clone)]
struct Outcome {
    cases: u64,
    skipped: u64,
    differing: u64,
    printed: usize,
}

/// The short inputs, group by group, and how many they are: all of a group, or so many apart that the
/// short inputs are half of the cases at most.
fn short(cases: u64, seed: u64, parts: &mut Vec<Part>) -> u64 {
    let mut left = cases / 2;
    for group in GROUPS {
        let all: u64 = RUNS[group.clone()].iter().map(Strings::count).sum();
        if left > 0 {
            let stride = all.div_ceil(left);
            group.for_each(|run| strings(run, seed % stride, stride, parts));
            left -= all / stride;
        }
    }
    cases / 2 - left
}

/// The parts of a run, from an index on, so many apart.
fn strings(run: usize, mut from: u64, stride: u64, parts: &mut Vec<Part>) {
    let (count, mut number) = (RUNS[run].count(), 0);
    while from < count {
        let to = (from + PART * stride).min(count);
        let work = Work::Strings {
            run,
            from,
            to,
            stride,
        };
        parts.push(Part {
            section: SECTIONS.len(),
            number,
            work,
        });
        (from, number) = (from + PART * stride, number + 1);
    }
}

/// All parts of a run; without a judge only those that need none.
fn plan(cases: u64, seed: u64) -> Vec<Part> {
    let mut parts = Vec::new();
    let strings = if oracle::LIVE {
        short(cases, seed, &mut parts)
    } else {
        0
    };
    let random = cases.saturating_sub(strings);
    for (section, spec) in SECTIONS.iter().enumerate() {
        if spec.judged && !oracle::LIVE {
            continue;
        }
        let Amount::Share(share) = spec.amount else {
            parts.push(Part {
                section,
                number: 0,
                work: Work::Random(0),
            });
            continue;
        };
        let mut left = random * share / 1000;
        let mut number = 0;
        while left > 0 {
            parts.push(Part {
                section,
                number,
                work: Work::Random(left.min(PART)),
            });
            (left, number) = (left.saturating_sub(PART), number + 1);
        }
    }
    parts
}

fn work(part: Part, seed: u64) -> Bench {
    let mut bench = Bench::default();
    match part.work {
        Work::Random(cases) => {
            let mut random = Random::new(seed, part.section as u64, part.number);
            (SECTIONS[part.section].run)(&mut bench, &mut random, cases);
        }
        Work::Strings {
            run,
            from,
            to,
            stride,
        } => sections::strings(&mut bench, run, from, to, stride),
    }
    bench
}

/// Runs the parts and gives their benches in order; says now and then how far it is.
fn run_parts(parts: &[Part], seed: u64) -> Vec<Bench> {
    let (next, begun) = (AtomicUsize::new(0), Instant::now());
    let (sender, receiver) = mpsc::channel();
    let mut benches: Vec<Option<Bench>> = parts.iter().map(|_| None).collect();
    thread::scope(|scope| {
        for _ in 0..THREADS {
            let (sender, next) = (sender.clone(), &next);
            scope.spawn(move || loop {
                let index = next.fetch_add(1, Ordering::Relaxed);
                let Some(part) = parts.get(index) else { break };
                let _ = sender.send((index, work(*part, seed)));
            });
        }
        drop(sender);
        let (mut done, mut cases, mut spoken) = (0, 0, Instant::now());
        while let Ok((index, bench)) = receiver.recv() {
            (done, cases) = (done + 1, cases + bench.cases);
            benches[index] = Some(bench);
            if spoken.elapsed() > Duration::from_secs(5) {
                let seconds = begun.elapsed().as_secs();
                eprintln!(
                    "{cases} cases, {done} of {} parts, {seconds} s",
                    parts.len()
                );
                spoken = Instant::now();
            }
        }
    });
    benches
        .into_iter()
        .map(|bench| bench.expect("each part was done"))
        .collect()
}

fn section_name(section: usize) -> &'static str {
    SECTIONS
        .get(section)
        .map_or("short inputs", |section| section.name)
}

/// Runs `cases` cases, about; whether nothing differed.
pub fn fuzz(cases: u64, seed: u64) -> bool {
    let begun = Instant::now();
    if !oracle::LIVE {
        println!("no judge: {} is missing", oracle::MISSING);
        let skipped = SECTIONS
            .iter()
            .filter(|section| section.judged)
            .map(|section| section.name);
        let skipped: Vec<&str> = skipped.chain(["short inputs"]).collect();
        println!("skipped: {}", skipped.join(", "));
    }
    let parts = plan(cases, seed);
    let benches = run_parts(&parts, seed);
    let mut outcomes = vec![Outcome::default(); SECTIONS.len() + 1];
    let (mut refusals, mut printed) = (Tally::default(), 0);
    for (part, bench) in parts.iter().zip(&benches) {
        let outcome = &mut outcomes[part.section];
        outcome.cases += bench.cases;
        outcome.skipped += bench.skipped;
        outcome.differing += bench.differing;
        refusals.join(&bench.refusals);
        // A few of each section, so that one of them does not hide the others.
        let few = FEW.saturating_sub(outcome.printed).min(KEPT - printed);
        for difference in bench.differences.iter().take(few) {
            println!("{}: {difference}", section_name(part.section));
            (outcome.printed, printed) = (outcome.printed + 1, printed + 1);
        }
    }
    if oracle::LIVE {
        println!("refusals {}", refusals.text());
    }
    summary(&outcomes, seed, begun.elapsed());
    outcomes.iter().all(|outcome| outcome.differing == 0)
}

/// One line: the cases of each section, those too large to be judged, and what differed.
fn summary(outcomes: &[Outcome], seed: u64, elapsed: Duration) {
    let mut texts = Vec::new();
    for (section, outcome) in outcomes
        .iter()
        .enumerate()
        .filter(|(_, outcome)| outcome.cases > 0)
    {
        let skipped = match outcome.skipped {
            0 => String::new(),
            count => format!(" ({count} too large)"),
        };
        texts.push(format!(
            "{} {}{skipped}",
            section_name(section),
            outcome.cases
        ));
    }
    let sum = |count: fn(&Outcome) -> u64| outcomes.iter().map(count).sum::<u64>();
    let (cases, differing) = (
        sum(|outcome| outcome.cases),
        sum(|outcome| outcome.differing),
    );
    let seconds = elapsed.as_secs_f64();
    println!(
        "{cases} cases, seed {seed}, {seconds:.1} s: {}; {differing} differences",
        texts.join(", ")
    );
}
