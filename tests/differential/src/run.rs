//! A run of a group: its seed, its rounds, the calls that it saw, and the end at a difference.

use std::collections::{BTreeMap, BTreeSet};
use std::env;
use std::process::exit;
use std::time::{Duration, Instant};

use reference::prng::Prng;
use reference::Set;

use crate::buffer::Checked;
use crate::order;

/// In a short run one set in so many is taken.
const SHORT: u64 = 8;

/// The seed of a run that names none.
const SEED: u64 = 0x6769_6F70_6861_6E74;

/// A call that was made, to be judged.
pub struct Made<'a> {
    pub call: &'static str,
    pub set: Set,
    /// The number that the library answered.
    pub number: u32,
    /// The number that the reference implementation answered.
    pub wanted: u32,
    pub inputs: &'a [&'a dyn Checked],
    pub outputs: &'a [&'a dyn Checked],
    pub work: Option<&'a dyn Checked>,
}

/// What the loops of a call go by in an accepted set.
#[derive(Clone, Copy, PartialEq, Eq, PartialOrd, Ord)]
pub struct Shape {
    pub l: u32,
    pub n: u32,
    pub qlen: usize,
    pub edition: u32,
}

impl Shape {
    fn of(set: Set) -> Self {
        Shape {
            l: set.l,
            n: set.n,
            qlen: set.qlen(),
            edition: set.edition,
        }
    }
}

pub struct Run {
    pub prng: Prng,
    seed: u64,
    trace: bool,
    short: bool,
    sets: u64,
    calls: u64,
    /// The numbers that each call answered, with the accepted sets that it did so for.
    seen: BTreeMap<(&'static str, u32), BTreeSet<Shape>>,
}

impl Run {
    pub fn new(seed: u64) -> Self {
        Run {
            prng: Prng::new(seed),
            seed,
            trace: false,
            short: false,
            sets: 0,
            calls: 0,
            seen: BTreeMap::new(),
        }
    }

    /// Whether the next set is to be left out, as most are in a short run (`--short`).
    pub fn skips(&mut self) -> bool {
        self.sets += 1;
        self.short && !self.sets.is_multiple_of(SHORT)
    }

    /// Whether most sets are left out.
    pub fn is_short(&self) -> bool {
        self.short
    }

    /// Whether a call gave this number for such an accepted set.
    pub fn gave(&self, call: &'static str, number: u32, such: impl Fn(&Shape) -> bool) -> bool {
        let shapes = self.seen.get(&(call, number));
        shapes.is_some_and(|shapes| shapes.iter().any(such))
    }

    /// Says what is about to be called, where the run was asked to (`--trace`): the last line before
    /// a crash.
    pub fn announce(&self, call: &str, set: Set) {
        if self.trace {
            eprintln!("{call} {}", show_set(set));
        }
    }

    /// Judges a call: the number, the outputs, the work words, the inputs and every guard.
    pub fn judge(&mut self, made: Made) {
        self.calls += 1;
        let shapes = self.seen.entry((made.call, made.number)).or_default();
        if !order::OF_SET.contains(&made.number) {
            shapes.insert(Shape::of(made.set));
        }
        if let Some(difference) = first_difference(&made) {
            eprintln!("DIFFERENT: {difference}");
            eprintln!("  {} {}", made.call, show_set(made.set));
            let work = made.work.iter();
            for buffer in made.inputs.iter().chain(made.outputs).chain(work) {
                eprintln!("  {}", buffer.show());
            }
            self.stop();
        }
    }

    /// Ends the run if a fact that doesn't need the reference implementation fails.
    pub fn expect(&self, fact: bool, set: Set, words: &str) {
        if !fact {
            eprintln!("NOT SO: {words}");
            eprintln!("  {}", show_set(set));
            self.stop();
        }
    }

    fn stop(&self) -> ! {
        eprintln!("  to meet it again: --seed {:#x}", self.seed);
        exit(1)
    }
}

fn first_difference(made: &Made) -> Option<String> {
    let Made { number, wanted, .. } = *made;
    if number != wanted {
        return Some(format!("answered {number}, the reference {wanted}"));
    }
    for buffer in made.inputs {
        if let Some(difference) = buffer.difference() {
            return Some(format!("an input changed: {difference}"));
        }
    }
    for buffer in made.outputs.iter().chain(made.work.iter()) {
        if let Some(difference) = buffer.difference() {
            return Some(format!("after answer {number}: {difference}"));
        }
    }
    // 01's rules on refusals, without the reference implementation.
    for output in made.outputs {
        if number != 0 && !output.is_old() {
            return Some(format!("{} changed at refusal {number}", output.name()));
        }
    }
    let work = made.work?;
    match order::leaves_work(number) {
        true if !work.is_old() => Some(format!("work words changed at refusal {number}")),
        false if !work.is_zero() => Some(format!("work words not zero after answer {number}")),
        _ => None,
    }
}

pub fn show_set(set: Set) -> String {
    format!(
        "l {} q {} n {} dx {} dr {} mlen {} edition {}",
        set.l, set.q, set.n, set.dx, set.dr, set.mlen, set.edition
    )
}

struct Arguments {
    seed: u64,
    /// At least this long; one round where it is `None`.
    time: Option<Duration>,
    trace: bool,
    short: bool,
}

fn arguments(group: &str) -> Arguments {
    let mut found = Arguments {
        seed: SEED,
        time: None,
        trace: false,
        short: false,
    };
    let mut words = env::args().skip(1);
    while let Some(word) = words.next() {
        let mut value = || {
            words
                .next()
                .unwrap_or_else(|| usage(group, &format!("{word} needs a number")))
        };
        match word.as_str() {
            "--seed" => {
                let text = value();
                let seed = match text.strip_prefix("0x") {
                    Some(digits) => u64::from_str_radix(digits, 16),
                    None => text.parse(),
                };
                found.seed = seed.unwrap_or_else(|_| usage(group, "the seed isn't a number"));
            }
            "--minutes" => {
                let minutes: Option<f64> = value().parse().ok().filter(|m| (0.0..1e6).contains(m));
                let minutes =
                    minutes.unwrap_or_else(|| usage(group, "the minutes aren't a number"));
                found.time = Some(Duration::from_secs_f64(60.0 * minutes));
            }
            "--trace" => found.trace = true,
            "--short" => found.short = true,
            other => usage(group, &format!("{other} isn't known")),
        }
    }
    found
}

fn usage(group: &str, problem: &str) -> ! {
    eprintln!("{group}: {problem}\nusage: {group} [--seed S] [--minutes M] [--trace] [--short]");
    exit(2)
}

/// Every call gave each number that is listed for it, so that no test is empty; each that isn't a refusal of the set in
/// both editions.
fn complete(run: &Run, numbers: &[(&'static str, &[u32])]) {
    for &(call, list) in numbers {
        for number in list {
            let Some(shapes) = run.seen.get(&(call, *number)) else {
                eprintln!("NOT SEEN: {call} never answered {number}");
                run.stop();
            };
            let editions: BTreeSet<u32> = shapes.iter().map(|shape| shape.edition).collect();
            if !run.is_short() && !order::OF_SET.contains(number) && editions.len() < 2 {
                eprintln!("NOT SEEN: {call} answered {number} in one edition alone");
                run.stop();
            }
        }
    }
}

/// Runs a group: one round, or rounds with the following seeds until the time is up. Every call has to have given each
/// number that is listed for it, in a whole round in both editions.
pub fn run_group(
    group: &'static str,
    numbers: &[(&'static str, &[u32])],
    mut round: impl FnMut(&mut Run),
) {
    let arguments = arguments(group);
    let start = Instant::now();
    let mut rounds = 0u64;
    let mut calls = 0;
    loop {
        let mut run = Run::new(arguments.seed.wrapping_add(rounds));
        run.trace = arguments.trace;
        run.short = arguments.short;
        round(&mut run);
        complete(&run, numbers);
        calls += run.calls;
        rounds += 1;
        if arguments.time.is_none_or(|time| start.elapsed() >= time) {
            break;
        }
    }
    let (seed, time) = (arguments.seed, start.elapsed().as_secs_f64());
    println!("{group}: {calls} calls alike, {rounds} rounds from seed {seed:#x}, {time:.1} s");
}
