//! Times the C call: the library's, the tuned implementation's in Rust, and the C program's, turn and
//! turn about in one run, and prints a table in Markdown.
//!
//!     bench [rounds]
//!
//! A row is a method and a kind of list, with 16, 64 and 256 tests on 64 curves: the mean time of the
//! C program for a job, and those of the others as ratios to it. Of each job the fastest of all rounds
//! counts, so that other work on the machine does not. Lists of fewer tests come in more different
//! jobs, so that no list is learnt by heart by the processor.
//!
//! Two more tables have the stages of the call, each timed by itself, of the library and of the C
//! program. Another one has lists carried out by looks and commits: the library's time for planning a
//! list at once, and that for making a state and for a look and a commit of each step as ratios, to
//! planning and to the same by the tuned implementation. The last one has every drive size: the library's
//! time for all load counts together, and its ratios to 64 single plans of the library and to the tuned
//! implementation.

use differential::fast;
use differential::generate;
use differential::random::Random;
use differential::tuned;
use std::hint::black_box;
use std::time::Instant;

#[cfg(feature = "product")]
use differential::product;

const METHODS: [usize; 3] = [0, 1, 3];
const TESTS: [usize; 3] = [16, 64, 256];
/// Tests of all jobs of a row together.
const ALL_TESTS: usize = 16 * 256;
const CURVES: usize = 64;
const PLAN: usize = 5_121;

type Call = fn(&[u8], &mut [u8]) -> u64;

/// Places, and the least and most curves that a test wants.
#[derive(Clone, Copy)]
struct Kind {
    name: &'static str,
    places: usize,
    low: usize,
    high: usize,
}

fn kinds() -> Vec<Kind> {
    let mut kinds = Vec::new();
    for (name, places, low, high) in [
        ("few", 8, 1, 3),
        ("many", 8, 6, 8),
        ("few", 32, 2, 8),
        ("many", 32, 24, 32),
    ] {
        kinds.push(Kind {
            name,
            places,
            low,
            high,
        });
    }
    for places in [8, 16, 32] {
        for (name, low, high) in [
            ("full", places, places),
            ("half", places / 2, places / 2),
            ("mixed", 1, places),
        ] {
            kinds.push(Kind {
                name,
                places,
                low,
                high,
            });
        }
    }
    kinds
}

impl Kind {
    fn wants(&self) -> String {
        if self.low == self.high {
            format!("{} ({})", self.name, self.low)
        } else {
            format!("{} ({}-{})", self.name, self.low, self.high)
        }
    }

    /// The same lists for every method.
    fn jobs(&self, method: usize, tests: usize) -> Vec<Vec<u8>> {
        let seed = ((self.places * 100 + self.low) * 100 + self.high) * 1_000 + tests;
        let mut random = Random::new(seed as u64);
        (0..ALL_TESTS / tests)
            .map(|_| {
                let wants = (0..tests)
                    .map(|_| {
                        let number = random.between(self.low, self.high);
                        generate::random_set(&mut random, CURVES, number)
                    })
                    .collect();
                generate::job_bytes(&generate::Job {
                    places: self.places,
                    booked: 0,
                    curves: CURVES,
                    method,
                    wants,
                })
            })
            .collect()
    }
}

/// All calls answer the same.
fn agree(calls: &[(&str, Call)], job: &[u8]) {
    let mut plan = vec![0x5a; PLAN];
    let answer = calls[0].1(job, &mut plan);
    assert!(answer < 65_536, "refused");
    for (name, call) in &calls[1..] {
        let mut other = vec![0x5a; PLAN];
        assert_eq!(call(job, &mut other), answer, "{name}");
        assert_eq!(other, plan, "{name}");
    }
}

/// The time of one call, in nanoseconds.
fn time(call: Call, job: &[u8], plan: &mut [u8]) -> u64 {
    let start = Instant::now();
    let answer = call(black_box(job), black_box(plan));
    let spent = start.elapsed().as_nanos() as u64;
    black_box(answer);
    spent
}

fn no_call(_: &[u8], _: &mut [u8]) -> u64 {
    0
}

/// What the clock itself takes, in nanoseconds.
fn clock_time() -> u64 {
    (0..1_000)
        .map(|_| time(no_call, &[], &mut []))
        .min()
        .unwrap()
}

/// The mean time of a job for each call, in nanoseconds.
fn measure(calls: &[(&str, Call)], jobs: &[Vec<u8>], rounds: usize, clock: u64) -> Vec<f64> {
    let mut plan = vec![0; PLAN];
    let mut least = vec![vec![u64::MAX; jobs.len()]; calls.len()];
    for round in 0..rounds {
        for (j, job) in jobs.iter().enumerate() {
            for turn in 0..calls.len() {
                let c = (round + turn) % calls.len();
                let spent = time(calls[c].1, job, &mut plan);
                least[c][j] = least[c][j].min(spent.saturating_sub(clock));
            }
        }
    }
    least
        .iter()
        .map(|times| times.iter().sum::<u64>() as f64 / jobs.len() as f64)
        .collect()
}

/// The stages of a job, in nanoseconds: the fastest of all rounds. With method 0 but for the orders.
#[cfg(feature = "product")]
#[derive(Clone, Copy)]
struct Stages {
    call: u64,
    read: u64,
    /// By each of the methods.
    orders: [u64; 3],
    /// The library's planning; of the C program, planning and writing.
    plan: u64,
}

#[cfg(feature = "product")]
const UNTIMED: Stages = Stages {
    call: u64::MAX,
    read: u64::MAX,
    orders: [u64::MAX; 3],
    plan: u64::MAX,
};

/// Notes the time of a stage, where it is less than before.
#[cfg(feature = "product")]
fn note<T>(least: &mut u64, clock: u64, stage: impl FnOnce() -> T) {
    let start = Instant::now();
    black_box(stage());
    let spent = start.elapsed().as_nanos() as u64;
    *least = (*least).min(spent.saturating_sub(clock));
}

#[cfg(feature = "product")]
fn time_library(kind: &Kind, jobs: &[&[u8]; 3], clock: u64, least: &mut Stages) {
    let (mut wants, mut order) = ([0u64; 256], [0u16; 256]);
    let (mut drops, mut loads, mut end) = ([0u64; 256], [0u64; 256], 0);
    let mut plan = [0u8; PLAN];
    note(&mut least.call, clock, || {
        product::call(black_box(jobs[0]), &mut plan)
    });
    let mut tests = 0;
    note(&mut least.read, clock, || {
        tests = product::read_job(black_box(jobs[0]), &mut wants).tests;
    });
    let wants = &wants[..tests];
    // As listed last.
    for m in [1, 2, 0] {
        let method = METHODS[m];
        note(&mut least.orders[m], clock, || {
            product::order_tests(kind.places, 0, CURVES, method, black_box(wants), &mut order)
        });
    }
    note(&mut least.plan, clock, || {
        product::plan_order(
            kind.places,
            0,
            CURVES,
            wants,
            0,
            black_box(&order[..tests]),
            &mut drops,
            &mut loads,
            &mut end,
        )
    });
}

#[cfg(feature = "product")]
fn time_c_program(jobs: &[&[u8]; 3], clock: u64, least: &mut Stages) {
    let mut plan = [0u8; PLAN];
    let mut stages = fast::Stages::new();
    note(&mut least.call, clock, || {
        fast::call(black_box(jobs[0]), &mut plan)
    });
    for m in [1, 2, 0] {
        note(&mut least.read, clock, || stages.read(black_box(jobs[m])));
        note(&mut least.orders[m], clock, || stages.order());
    }
    note(&mut least.plan, clock, || stages.steps());
}

/// The table of the stages: a row for each kind of list, with so many tests.
#[cfg(feature = "product")]
fn print_stages(tests: usize, rounds: usize, clock: u64) {
    println!(
        "\n| places | wants | reading | planning | writing | C: reading | planning and writing \
         | ordering 0 | 1 | 3 | C: ordering 1 | 3 |\n|---|---|{}",
        "---|".repeat(10)
    );
    for kind in kinds() {
        let lists = METHODS.map(|method| kind.jobs(method, tests));
        let count = lists[0].len();
        let mut least = vec![[UNTIMED; 2]; count];
        for _ in 0..rounds {
            for (j, least) in least.iter_mut().enumerate() {
                let jobs = [0, 1, 2].map(|m| lists[m][j].as_slice());
                time_library(&kind, &jobs, clock, &mut least[0]);
                time_c_program(&jobs, clock, &mut least[1]);
            }
        }
        let mean = |value: &dyn Fn(&[Stages; 2]) -> u64| {
            let sum: u64 = least.iter().map(value).sum();
            format!("{:.2}", sum as f64 / count as f64 / 1_000.0)
        };
        let cells = [
            mean(&|s| s[0].read),
            mean(&|s| s[0].plan),
            // what is left of the call
            mean(&|s| {
                let known = s[0].read + s[0].orders[0] + s[0].plan;
                s[0].call.saturating_sub(known)
            }),
            mean(&|s| s[1].read),
            mean(&|s| s[1].plan),
            mean(&|s| s[0].orders[0]),
            mean(&|s| s[0].orders[1]),
            mean(&|s| s[0].orders[2]),
            mean(&|s| s[1].orders[1]),
            mean(&|s| s[1].orders[2]),
        ];
        println!(
            "| {} | {} | {} |",
            kind.places,
            kind.wants(),
            cells.join(" | ")
        );
    }
}

/// The sets of a plan.
#[cfg(feature = "product")]
#[derive(Debug, PartialEq)]
struct Sets {
    drops: [u64; 256],
    loads: [u64; 256],
    end: u64,
}

#[cfg(feature = "product")]
impl Sets {
    const EMPTY: Sets = Sets {
        drops: [0; 256],
        loads: [0; 256],
        end: 0,
    };

    fn note(&mut self, tests: usize, position: usize, drops: u64, loads: u64) {
        if position < tests {
            self.drops[position] = drops;
            self.loads[position] = loads;
        } else {
            self.end = drops;
        }
    }
}

/// A list planned at once.
#[cfg(feature = "product")]
fn planned(places: usize, wants: &[u64], order: &[u16], sets: &mut Sets) {
    product::plan_order(
        places,
        0,
        CURVES,
        wants,
        0,
        order,
        &mut sets.drops,
        &mut sets.loads,
        &mut sets.end,
    );
}

/// A list looked at and committed step by step.
#[cfg(feature = "product")]
fn committed(places: usize, wants: &[u64], order: &[u16], sets: &mut Sets) {
    let mut state = product::State::default();
    product::make_state(places, 0, CURVES, wants, 0, order, &mut state);
    for position in 0..order.len() + 2 {
        if product::look(black_box(&state)).answer == 0 {
            break;
        }
        let step = product::commit(&mut state, position);
        sets.note(order.len(), position, step.drops, step.loads);
    }
}

/// The same by the tuned implementation.
#[cfg(feature = "product")]
fn committed_tuned(places: usize, wants: &[u64], order: &[u16], sets: &mut Sets) {
    let mut state = tuned::State::new(places as u32, wants, order);
    for position in 0..order.len() + 2 {
        if black_box(black_box(&state).look()).is_none() {
            break;
        }
        if let Some((drops, loads)) = state.commit(position) {
            sets.note(order.len(), position, drops, loads);
        }
    }
}

/// The lists of a kind, and their order.
#[cfg(feature = "product")]
fn lists_of(kind: &Kind, tests: usize) -> (Vec<Vec<u64>>, Vec<u16>) {
    let jobs = kind.jobs(0, tests);
    let mut lists = vec![vec![0; tests]; jobs.len()];
    for (job, wants) in jobs.iter().zip(&mut lists) {
        assert_eq!(product::read_job(job, wants).tests, tests);
    }
    (lists, (0..tests as u16).collect())
}

/// Planning, and looks and commits of the library and of the tuned implementation: the mean time of a
/// list, in nanoseconds.
#[cfg(feature = "product")]
fn measure_looks(kind: &Kind, tests: usize, rounds: usize, clock: u64) -> [f64; 3] {
    let (lists, order) = lists_of(kind, tests);
    let ways = [planned, committed, committed_tuned];
    for wants in &lists {
        let [first, second, third] = ways.map(|way| {
            let mut sets = Sets::EMPTY;
            way(kind.places, wants, &order, &mut sets);
            sets
        });
        assert_eq!(second, first);
        assert_eq!(third, first);
    }
    let mut least = vec![[u64::MAX; 3]; lists.len()];
    let mut sets = Sets::EMPTY;
    for round in 0..rounds {
        for (wants, least) in lists.iter().zip(&mut least) {
            for turn in 0..ways.len() {
                let w = (round + turn) % ways.len();
                note(&mut least[w], clock, || {
                    ways[w](kind.places, black_box(wants), &order, &mut sets)
                });
            }
        }
    }
    [0, 1, 2].map(|w| least.iter().map(|times| times[w]).sum::<u64>() as f64 / lists.len() as f64)
}

/// The table of looks and commits: a row for each kind of list.
#[cfg(feature = "product")]
fn print_looks(rounds: usize, clock: u64) {
    println!(
        "\n| places | wants | planning, µs, {0} tests | {1} | {2} | looks and commits / planning, \
         {0} tests | {1} | {2} | looks and commits / tuned, {0} tests | {1} | {2} |\n|---|---|{3}",
        TESTS[0],
        TESTS[1],
        TESTS[2],
        "---|".repeat(9)
    );
    for kind in kinds() {
        let mut cells = vec![Vec::new(); 3];
        for tests in TESTS {
            let [plan, library, tuned] = measure_looks(&kind, tests, rounds, clock);
            cells[0].push(format!("{:.2}", plan / 1_000.0));
            cells[1].push(format!("{:.2}", library / plan));
            cells[2].push(format!("{:.2}", library / tuned));
        }
        println!(
            "| {} | {} | {} |",
            kind.places,
            kind.wants(),
            cells.concat().join(" | ")
        );
    }
}

/// The load counts of all drive sizes.
#[cfg(feature = "product")]
type Counts = [u16; 64];

#[cfg(feature = "product")]
fn sizes_together(wants: &[u64], order: &[u16], counts: &mut Counts) {
    product::all_sizes(CURVES, wants, order, counts);
}

/// The same by single plans, those among them that are refused.
#[cfg(feature = "product")]
fn sizes_one_by_one(wants: &[u64], order: &[u16], counts: &mut Counts) {
    let mut sets = Sets::EMPTY;
    for (places, count) in (1..).zip(counts) {
        let answer = product::plan_order(
            places,
            0,
            CURVES,
            wants,
            0,
            order,
            &mut sets.drops,
            &mut sets.loads,
            &mut sets.end,
        );
        *count = match answer >> 48 {
            0 => answer as u16,
            _ => u16::MAX,
        };
    }
    black_box(sets);
}

#[cfg(feature = "product")]
fn sizes_tuned(wants: &[u64], order: &[u16], counts: &mut Counts) {
    *counts = tuned::all_sizes(wants, order);
}

/// All sizes together, by single plans, and by the tuned implementation: the mean time of a list, in
/// nanoseconds.
#[cfg(feature = "product")]
fn measure_sizes(kind: &Kind, tests: usize, rounds: usize, clock: u64) -> [f64; 3] {
    let (lists, order) = lists_of(kind, tests);
    let ways = [sizes_together, sizes_one_by_one, sizes_tuned];
    let mut counts = [0; 64];
    for wants in &lists {
        let [first, second, third] = ways.map(|way| {
            way(wants, &order, &mut counts);
            counts
        });
        assert_eq!(second, first);
        assert_eq!(third, first);
    }
    let mut least = vec![[u64::MAX; 3]; lists.len()];
    for round in 0..rounds {
        for (wants, least) in lists.iter().zip(&mut least) {
            for turn in 0..ways.len() {
                let w = (round + turn) % ways.len();
                note(&mut least[w], clock, || {
                    ways[w](black_box(wants), &order, &mut counts);
                    black_box(counts)
                });
            }
        }
    }
    [0, 1, 2].map(|w| least.iter().map(|times| times[w]).sum::<u64>() as f64 / lists.len() as f64)
}

/// The table of every drive size: a row for each kind of list.
#[cfg(feature = "product")]
fn print_sizes(rounds: usize, clock: u64) {
    println!(
        "\nEvery drive size\n\n| places | wants | all sizes, µs, {0} tests | {1} | {2} \
         | all sizes / 64 single plans, {0} tests | {1} | {2} | all sizes / tuned, {0} tests | {1} \
         | {2} |\n|---|---|{3}",
        TESTS[0],
        TESTS[1],
        TESTS[2],
        "---|".repeat(9)
    );
    for kind in kinds() {
        let mut cells = vec![Vec::new(); 3];
        for tests in TESTS {
            let [together, one_by_one, tuned] = measure_sizes(&kind, tests, rounds, clock);
            cells[0].push(format!("{:.2}", together / 1_000.0));
            cells[1].push(format!("{:.2}", together / one_by_one));
            cells[2].push(format!("{:.2}", together / tuned));
        }
        println!(
            "| {} | {} | {} |",
            kind.places,
            kind.wants(),
            cells.concat().join(" | ")
        );
    }
}

/// The processor's name, where the system tells it.
fn processor() -> String {
    let text = std::fs::read_to_string("/proc/cpuinfo").unwrap_or_default();
    let line = text.lines().find(|line| line.starts_with("model name"));
    match line.and_then(|line| line.split_once(": ")) {
        Some((_, name)) => name.to_string(),
        None => "some processor".to_string(),
    }
}

/// The largest ratio of a call in the rows of a method, and where it stands.
#[derive(Clone, Default)]
struct Worst {
    ratio: f64,
    place: String,
}

fn main() {
    let rounds: usize = match std::env::args().nth(1) {
        Some(text) => text.parse().expect("rounds: a number"),
        None => 100,
    };
    // The first is the one that the others are divided by.
    #[allow(unused_mut)]
    let mut calls: Vec<(&str, Call)> = vec![("C program", fast::call), ("tuned", tuned::call)];
    #[cfg(feature = "product")]
    calls.insert(1, ("library", product::call));

    println!(
        "{}; {CURVES} curves; of each job the fastest of {rounds} calls, mean of {} jobs with {} tests\n",
        processor(),
        TESTS.map(|tests| (ALL_TESTS / tests).to_string()).join(", "),
        TESTS.map(|tests| tests.to_string()).join(", "),
    );
    print!("| method | places | wants |");
    for (c, (name, _)) in calls.iter().enumerate() {
        let what = if c == 0 {
            format!("{name}, µs")
        } else {
            format!("{name} / {}", calls[0].0)
        };
        print!(
            " {what}, {} tests | {} | {} |",
            TESTS[0], TESTS[1], TESTS[2]
        );
    }
    print!("\n|---|---|---|");
    println!("{}", "---|".repeat(calls.len() * TESTS.len()));

    let clock = clock_time();
    let mut worst = vec![vec![Worst::default(); calls.len()]; METHODS.len()];
    for (method, worst) in METHODS.into_iter().zip(&mut worst) {
        for kind in kinds() {
            let mut cells = vec![Vec::new(); calls.len()];
            for tests in TESTS {
                let jobs = kind.jobs(method, tests);
                for job in &jobs {
                    agree(&calls, job);
                }
                let times = measure(&calls, &jobs, rounds, clock);
                cells[0].push(format!("{:.1}", times[0] / 1_000.0));
                for c in 1..calls.len() {
                    let ratio = times[c] / times[0];
                    cells[c].push(format!("{ratio:.2}"));
                    if ratio > worst[c].ratio {
                        let place =
                            format!("{} places, {}, {tests} tests", kind.places, kind.wants());
                        worst[c] = Worst { ratio, place };
                    }
                }
            }
            println!(
                "| {method} | {} | {} | {} |",
                kind.places,
                kind.wants(),
                cells.concat().join(" | ")
            );
        }
    }

    print!("\n| method |");
    for (name, _) in &calls[1..] {
        print!(" {name}, worst ratio | in |");
    }
    println!("\n|---|{}", "---|---|".repeat(calls.len() - 1));
    for (method, worst) in METHODS.into_iter().zip(&worst) {
        print!("| {method} |");
        for worst in &worst[1..] {
            print!(" {:.2} | {} |", worst.ratio, worst.place);
        }
        println!();
    }

    #[cfg(feature = "product")]
    {
        for tests in [256, 16] {
            print_stages(tests, rounds, clock);
        }
        print_looks(rounds, clock);
        print_sizes(rounds, clock);
    }
}
