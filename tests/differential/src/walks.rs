//! States (wish 7): lists to make them of, walks through made ones to their end and beyond, and numbers
//! that are taken as a state though they were not made; and what is told of these.

use crate::generate::{
    self, all_curves, any_number, any_set, one_of, permutation, random_set, some_of, spoil_order,
    spoil_tests, Case, Job, Size, WILD, WILD_BOOKED,
};
use crate::holding;
use crate::parts;
use crate::random::Random;
use crate::reference::Answer;
use crate::states::{Any, Made, Shown, ENTRIES};
use std::fmt;

// ---------------------------------------------------------------------------------------------
// Lists

/// What a state is made of.
#[derive(Clone, Debug)]
pub struct List {
    pub places: usize,
    pub booked: usize,
    pub curves: usize,
    pub wants: Vec<u64>,
    pub held: u64,
    pub order: Vec<u16>,
}

impl List {
    pub fn made(&self) -> Answer<Made> {
        let (places, booked, curves) = (self.places, self.booked, self.curves);
        Made::new(places, booked, curves, &self.wants, self.held, &self.order)
    }

    fn into_case(self) -> Case {
        Case::MakeState {
            places: self.places,
            booked: self.booked,
            curves: self.curves,
            wants: self.wants,
            held: self.held,
            order: self.order,
        }
    }
}

/// What a case of making a state hands over.
pub fn list_of(case: &Case) -> Option<List> {
    match case {
        Case::MakeState {
            places,
            booked,
            curves,
            wants,
            held,
            order,
        } => Some(List {
            places: *places,
            booked: *booked,
            curves: *curves,
            wants: wants.clone(),
            held: *held,
            order: order.clone(),
        }),
        _ => None,
    }
}

/// Making a state of what a case of planning hands over.
pub fn instead_of_planning(case: Case) -> Case {
    match case {
        Case::PlanOrder {
            places,
            booked,
            curves,
            wants,
            held,
            order,
            ..
        } => Case::MakeState {
            places,
            booked,
            curves,
            wants,
            held,
            order,
        },
        other => panic!("this is no planning: {}", other.describe()),
    }
}

/// A list that is planned, and its state. At times it has no tests, or only tests that want nothing, or is on
/// the bounds.
pub fn sound(random: &mut Random, size: Size) -> (List, Made) {
    let size = match random.below(32) {
        0 => Size::Edge,
        _ => size,
    };
    loop {
        let mut job = generate::job(random, size);
        match random.below(24) {
            0 | 1 => job.wants.clear(),
            2 | 3 => job.wants.fill(0),
            4..=9 if job.wants.len() == 256 => drop(job.wants.pop()),
            _ => {}
        }
        let held = match random.below(5) {
            0 | 1 => 0,
            _ => holding::own(random, &job),
        };
        let order = permutation(random, job.wants.len());
        let Job {
            places,
            booked,
            curves,
            wants,
            ..
        } = job;
        let list = List {
            places,
            booked,
            curves,
            wants,
            held,
            order,
        };
        if let Ok(made) = list.made() {
            return (list, made);
        }
    }
}

/// What can be faulty in what a state is made of, in the sequence of the papers; 10 with its figure.
pub const FAULTS: [&str; 9] = [
    "10:0", "10:1", "10:2", "10:4+t", "10:260", "13", "14", "8", "7",
];

fn outside(number: usize) -> bool {
    !(1..=64).contains(&number)
}

fn each_once(tests: usize, order: &[u16]) -> bool {
    let mut named: Vec<usize> = order.iter().map(|&test| test as usize).collect();
    named.sort();
    named.into_iter().eq(0..tests)
}

/// All that is faulty, each whatever the other numbers are, so that the first is answered.
pub fn faults(list: &List) -> Vec<&'static str> {
    let own = all_curves(list.curves);
    let capacity = list.places.saturating_sub(list.booked);
    let wider = |want: &u64| want.count_ones() as usize > capacity;
    let faulty = [
        outside(list.places),
        outside(list.curves),
        list.wants.len() > 256,
        list.wants.iter().any(|want| want & !own != 0),
        list.booked > 63,
        list.booked >= list.places,
        list.held & !own != 0,
        !each_once(list.wants.len(), &list.order),
        list.wants.iter().any(wider),
    ];
    let named = FAULTS.iter().zip(faulty).filter(|(_, faulty)| *faulty);
    named.map(|(name, _)| *name).collect()
}

/// One of these faults, if the list allows it.
fn spoil(random: &mut Random, list: &mut List, fault: &str) {
    let tests = list.wants.len();
    let curves = list.curves.min(64);
    let lacking = !all_curves(curves);
    match fault {
        "10:0" => list.places = random.pick(&WILD),
        "10:1" => list.curves = random.pick(&WILD),
        "10:2" => {
            spoil_tests(random, &mut list.wants);
            if random.chance(1, 2) {
                list.order = permutation(random, list.wants.len());
            }
        }
        "10:260" => list.booked = random.pick(&WILD_BOOKED),
        "13" => {
            let places = list.places;
            list.booked = random.pick(&[places, places.saturating_add(1), places.max(63)]);
        }
        "14" => list.held |= one_of(random, lacking) | some_of(random, lacking),
        "8" => {
            while each_once(tests, &list.order) {
                spoil_order(random, &mut list.order, tests);
            }
        }
        _ if tests == 0 => {}
        "10:4+t" => list.wants[random.below(tests)] |= one_of(random, lacking),
        _ => {
            let capacity = list.places.saturating_sub(list.booked);
            let (test, lower) = (random.below(tests), random.below(tests));
            if capacity < curves {
                let number = random.between(capacity + 1, curves);
                list.wants[test] = random_set(random, curves, number);
                // A lower one may fit the places, but not those less booked.
                if lower < test {
                    let most = list.places.clamp(capacity + 1, curves);
                    let number = random.between(capacity + 1, most);
                    list.wants[lower] = random_set(random, curves, number);
                }
            }
        }
    }
}

/// A sound list, or one with up to three faults.
pub fn make_case(random: &mut Random, size: Size) -> Case {
    let (mut list, _) = sound(random, size);
    for _ in 0..random.pick(&[0, 0, 1, 1, 2, 2, 2, 3]) {
        // The last is seldom the first.
        let fault = match random.below(12) {
            at @ 0..=8 => FAULTS[at],
            _ => "7",
        };
        spoil(random, &mut list, fault);
    }
    list.into_case()
}

/// What is told of a list with more tests than a state has.
pub const TOO_MANY: [&str; 2] = ["257-tests:refused", "258-tests-and-more:refused"];

/// What is told of a state that was made.
pub const MADE: [&str; 14] = [
    "0-tests",
    "1-test",
    "255-tests",
    "256-tests",
    "done-at-once",
    "end-step-alone",
    "step-first",
    "other-order-of-wants",
    "booked",
    "capacity-1",
    "capacity-64",
    "holding",
    "above-capacity",
    "all-64-held",
];

pub fn made_kinds(list: &List, answer: &Answer<Made>) -> Vec<&'static str> {
    let mut kinds = Vec::new();
    let mut note = |told: bool, name: &'static str| {
        if told {
            kinds.push(name);
        }
    };
    let tests = list.wants.len();
    let Ok(made) = answer else {
        note(tests == 257, "257-tests:refused");
        note(tests > 257, "258-tests-and-more:refused");
        return kinds;
    };
    note(tests == 0, "0-tests");
    note(tests == 1, "1-test");
    note(tests == 255, "255-tests");
    note(tests == 256, "256-tests");
    match made.look() {
        Shown::Done => note(true, "done-at-once"),
        Shown::End { .. } => note(true, "end-step-alone"),
        Shown::Step { .. } => note(true, "step-first"),
    }
    let in_order = list.order.iter().map(|&test| list.wants[test as usize]);
    note(
        !in_order.eq(list.wants.iter().copied()),
        "other-order-of-wants",
    );
    note(list.booked > 0, "booked");
    note(made.capacity() == 1, "capacity-1");
    note(made.capacity() == 64, "capacity-64");
    note(list.held != 0, "holding");
    let held = parts::size(list.held) as usize;
    note(held > made.capacity(), "above-capacity");
    note(held == 64, "all-64-held");
    kinds
}

/// One fault alone, or the one that is answered and each other.
pub fn fault_names() -> Vec<&'static str> {
    let mut names: Vec<&'static str> = Vec::new();
    for (at, first) in FAULTS.iter().enumerate() {
        // As many are never below places that are in range.
        if *first != "10:260" {
            names.push(format!("{first}-alone").leak());
        }
        for other in &FAULTS[at + 1..] {
            names.push(format!("{first}+{other}").leak());
        }
    }
    names
}

/// The names among these of what is faulty.
pub fn fault_kinds(list: &List, names: &[&'static str]) -> Vec<&'static str> {
    let faults = faults(list);
    let told: Vec<String> = match faults.split_first() {
        None => vec![],
        Some((first, [])) => vec![format!("{first}-alone")],
        Some((first, others)) => {
            let two = others.iter().map(|other| format!("{first}+{other}"));
            two.collect()
        }
    };
    let known = |name: &String| {
        let known = names.iter().find(|known| *known == name);
        *known.unwrap_or_else(|| panic!("{name} is unforeseen"))
    };
    told.iter().map(known).collect()
}

// ---------------------------------------------------------------------------------------------
// Walks

/// One move of a walk.
#[derive(Clone, Copy, Debug, PartialEq, Eq)]
pub enum Move {
    Look,
    /// Of this position.
    Commit(usize),
    /// The state's numbers are copied, and the walk goes on with the copy.
    Copy,
}

impl fmt::Display for Move {
    fn fmt(&self, out: &mut fmt::Formatter) -> fmt::Result {
        match self {
            Move::Look => write!(out, "look"),
            Move::Commit(position) => write!(out, "commit({position})"),
            Move::Copy => write!(out, "copy"),
        }
    }
}

/// A position around the next one: one less or more, the first, the end step's, one behind it, with the same
/// low bits, or any.
fn position(random: &mut Random, next: usize, tests: usize) -> usize {
    match random.below(12) {
        0 | 1 => next.wrapping_sub(1),
        2 | 3 => next.wrapping_add(1),
        4 => 0,
        5 => tests,
        6 => tests.wrapping_add(1),
        7 => usize::MAX,
        8 => random.pick(&[1 << 16, 1 << 32, 1 << 48, 1 << 63, usize::MAX - 1]),
        9 => next ^ random.pick(&[1 << 8, 1 << 16, 1 << 32, 1 << 48, 1 << 63]),
        10 => random.below(tests.min(ENTRIES) + 3),
        _ => any_number(random),
    }
}

fn wrong_position(random: &mut Random, next: usize, tests: usize) -> usize {
    loop {
        let position = position(random, next, tests);
        if position != next {
            return position;
        }
    }
}

/// All steps in turn, with looks, wrong commits and copies between, and some moves beyond done.
fn moves(random: &mut Random, tests: usize, steps: usize) -> Vec<Move> {
    let mut moves = Vec::new();
    // At most so many between two right commits.
    let most = random.pick(&[0, 1, 2, 4]);
    let look_before_each = random.chance(1, 2);
    for next in 0..steps {
        for _ in 0..random.between(0, most) {
            moves.push(match random.below(16) {
                0 => Move::Copy,
                1..=7 => Move::Look,
                _ => Move::Commit(wrong_position(random, next, tests)),
            });
        }
        if look_before_each {
            moves.push(Move::Look);
        }
        moves.push(Move::Commit(next));
    }
    moves.push(Move::Look);
    for _ in 0..random.between(2, 8) {
        moves.push(match random.below(8) {
            0 => Move::Copy,
            1 | 2 => Move::Look,
            3 | 4 => Move::Commit(steps),
            _ => Move::Commit(position(random, steps, tests)),
        });
    }
    moves
}

pub fn walk_case(random: &mut Random, size: Size) -> Case {
    let (list, made) = sound(random, size);
    let moves = moves(random, made.tests(), made.steps().len());
    Case::Walk { list, moves }
}

/// How a walk ends.
pub const ENDS: [&str; 4] = ["end-step", "no-end-step", "end-step-alone", "done-at-once"];

/// The moves of walks. A look is repeated where it follows another one of the same state.
pub const MOVES: [&str; 8] = [
    "looks",
    "looks-repeated",
    "looks-when-done",
    "right-commits",
    "right-commits-unlooked",
    "wrong-commits",
    "commits-when-done",
    "copies",
];

/// The steps that were committed.
pub const STEPS: [&str; 5] = [
    "drops-and-loads",
    "drops-alone",
    "loads-alone",
    "neither",
    "end-step",
];

/// The wrong positions of commits, beside the next one: an earlier step's, a later one's or the end step's
/// where there are so many tests, or that one with other high bits among them.
pub const WRONG: [&str; 11] = [
    "one-less",
    "one-more",
    "0",
    "tests",
    "tests+1",
    "earlier",
    "later",
    "huge",
    "max",
    "same-low-byte",
    "same-low-half",
];

/// The positions of commits after done, beside the number of steps committed, which is `next`.
pub const AFTER_DONE: [&str; 13] = [
    "next:behind-end-step",
    "next:no-end-step",
    "next:done-at-once",
    "one-less",
    "one-more",
    "0",
    "tests",
    "tests+1",
    "earlier",
    "huge",
    "max",
    "same-low-byte",
    "same-low-half",
];

/// Of a position that is not the next one.
fn wrong_kinds(position: usize, next: usize, tests: usize) -> Vec<&'static str> {
    let told = [
        (next > 0 && position == next - 1, "one-less"),
        (position != 0 && position - 1 == next, "one-more"),
        (position == 0, "0"),
        (position == tests, "tests"),
        (position != 0 && position - 1 == tests, "tests+1"),
        (position < next, "earlier"),
        (position > next && position <= tests, "later"),
        (
            position > u32::MAX as usize && position != usize::MAX,
            "huge",
        ),
        (position == usize::MAX, "max"),
        (position as u8 == next as u8, "same-low-byte"),
        (position as u32 == next as u32, "same-low-half"),
    ];
    let told = told.iter().filter(|(told, _)| *told && position != next);
    told.map(|(_, name)| *name).collect()
}

/// How a made state ends.
pub fn end_of(made: &Made) -> &'static str {
    match (made.tests(), made.steps().last()) {
        (0, None) => "done-at-once",
        (0, _) => "end-step-alone",
        (_, Some(Shown::End { .. })) => "end-step",
        _ => "no-end-step",
    }
}

/// What is told of a walk: its moves, the steps committed, the wrong positions and those after done.
#[derive(Clone, Debug, Default)]
pub struct Told {
    pub moves: Vec<&'static str>,
    pub steps: Vec<&'static str>,
    pub wrong: Vec<&'static str>,
    pub after_done: Vec<&'static str>,
}

/// Of a walk from this state, which is done behind it.
pub fn told(made: &Made, moves: &[Move]) -> Told {
    let mut made = made.clone();
    let mut told = Told::default();
    let mut looked = false;
    for &step in moves {
        let shown = made.look();
        let done = shown == Shown::Done;
        let (next, tests) = (made.committed(), made.tests());
        match step {
            Move::Copy => told.moves.push("copies"),
            Move::Look => {
                told.moves.push("looks");
                if looked {
                    told.moves.push("looks-repeated");
                }
                if done {
                    told.moves.push("looks-when-done");
                }
                looked = true;
            }
            Move::Commit(position) if done => {
                told.moves.push("commits-when-done");
                told.after_done.extend(wrong_kinds(position, next, tests));
                if position == next {
                    told.after_done.push(match end_of(&made) {
                        "no-end-step" => "next:no-end-step",
                        "done-at-once" => "next:done-at-once",
                        _ => "next:behind-end-step",
                    });
                }
            }
            Move::Commit(position) if position != next => {
                told.moves.push("wrong-commits");
                told.wrong.extend(wrong_kinds(position, next, tests));
            }
            Move::Commit(_) => {
                told.moves.push("right-commits");
                if !looked {
                    told.moves.push("right-commits-unlooked");
                }
                looked = false;
                told.steps.push(match shown {
                    Shown::Step { drops: 0, loads: 0 } => "neither",
                    Shown::Step { drops: 0, .. } => "loads-alone",
                    Shown::Step { loads: 0, .. } => "drops-alone",
                    Shown::Step { .. } => "drops-and-loads",
                    _ => "end-step",
                });
            }
        }
        if let Move::Commit(position) = step {
            let answer = made.commit(position);
            assert_eq!(answer.is_ok(), !done && position == next);
        }
    }
    assert_eq!(made.look(), Shown::Done, "a walk goes to its end");
    told
}

// ---------------------------------------------------------------------------------------------
// Numbers that were not made

/// A number of tests, at times more than 256.
fn any_tests(random: &mut Random) -> u64 {
    match random.below(10) {
        0 => random.pick(&[0, 0, 1, 2]),
        1 => random.pick(&[255, 256, 256]),
        2 | 3 => 257,
        4 => random.pick(&[258, 300, 511, 512, 1 << 16, 1 << 32, (1 << 32) + 3, 1 << 63]),
        5 => u64::MAX,
        6 => random.between(0, ENTRIES) as u64,
        _ => random.between(1, 12) as u64,
    }
}

/// A number of steps committed, around the tests, on the bounds, or any.
fn any_committed(random: &mut Random, tests: u64) -> u64 {
    let counted = tests.min(ENTRIES as u64);
    match random.below(12) {
        0 | 1 => counted,
        2 => counted + 1,
        3 => counted.saturating_sub(1),
        4 => random.pick(&[0, 255, 256, 257, 258]),
        5 => random.pick(&[tests, tests.wrapping_add(1), tests.saturating_sub(1)]),
        6 => u64::MAX,
        7 => {
            let low = random.below(counted as usize + 1) as u64;
            low | random.pick(&[1 << 8, 1 << 16, 1 << 32, 1 << 47, 1 << 48, 1 << 63])
        }
        _ => random.below(counted.max(1) as usize) as u64,
    }
}

fn any_capacity(random: &mut Random) -> u64 {
    match random.below(8) {
        0 => random.pick(&[0, 0, 1, 2]),
        1 => random.pick(&[63, 64, 65]),
        2 => random.pick(&[256, 1 << 32, (1 << 32) + 3, 1 << 63, u64::MAX]),
        3 | 4 => random.between(0, 70) as u64,
        _ => random.between(0, 12) as u64,
    }
}

/// Wants in all entries: any sets, or sets of a few of some curves, which are wanted again and again.
fn any_wants(random: &mut Random) -> Vec<u64> {
    match random.below(3) {
        0 => (0..ENTRIES).map(|_| any_set(random)).collect(),
        _ => {
            let curves = random.pick(&[3, 8, 24, 64]);
            let most = random.between(1, 8);
            let want = |random: &mut Random| {
                let number = random.between(0, most);
                random_set(random, curves, number)
            };
            (0..ENTRIES).map(|_| want(random)).collect()
        }
    }
}

/// The numbers of a made state on its way, of which one or two were changed.
fn nearly_made(random: &mut Random) -> Any {
    let size = random.pick(&[Size::Tiny, Size::Tiny, Size::Small]);
    let (_, mut made) = sound(random, size);
    for position in 0..random.between(0, made.steps().len()) {
        made.commit(position).expect("it is the next");
    }
    let mut state = Any::new(&made.numbers());
    for _ in 0..random.between(1, 2) {
        match random.below(9) {
            0 => state.capacity = any_capacity(random),
            1 => state.held = any_set(random),
            2 => state.held ^= 1 << random.below(64),
            3 => state.held = 0,
            4 => state.committed = any_committed(random, state.tests),
            5 => state.committed = state.committed.wrapping_sub(1),
            6 => state.tests = any_tests(random),
            7 => state.tests = state.tests.saturating_sub(1),
            _ => {
                let entry = match random.below(3) {
                    0 => random.below(ENTRIES),
                    _ => random.below(state.counted_tests() + 1).min(ENTRIES - 1),
                };
                state.wants[entry] = any_set(random);
            }
        }
    }
    state
}

/// Numbers that are taken as a state.
pub fn any_state(random: &mut Random) -> Any {
    if random.chance(1, 3) {
        return nearly_made(random);
    }
    let tests = any_tests(random);
    let wants = any_wants(random);
    let committed = any_committed(random, tests);
    let held = match random.below(4) {
        0 => random.pick(&[0, u64::MAX]),
        // Of what is wanted soon.
        1 => {
            let from = (committed as usize).min(ENTRIES - 1);
            let soon = &wants[from..(from + 6).min(ENTRIES)];
            soon.iter().fold(0, |all, want| all | want)
        }
        _ => any_set(random),
    };
    let mut state = Any {
        capacity: any_capacity(random),
        held,
        committed,
        tests,
        wants,
    };
    let counted = state.counted_tests();
    if random.chance(1, 2) {
        // Nothing behind the last.
        state.wants[counted..].fill(0);
    }
    if committed < counted as u64 && random.chance(2, 3) {
        // None has to go, some, all, or one more than can.
        let wanted = state.wants[committed as usize];
        let candidates = (held & !wanted).count_ones() as usize;
        let together = (held | wanted).count_ones() as usize;
        let go = random.between(0, candidates + 1);
        state.capacity = together.saturating_sub(go) as u64;
    }
    state
}

pub fn look_case(random: &mut Random) -> Case {
    let state = any_state(random).numbers();
    Case::Look { state }
}

/// One to four commits in turn, mostly right ones.
pub fn commit_case(random: &mut Random) -> Case {
    let state = any_state(random);
    let mut then = state.clone();
    let mut positions = Vec::new();
    for _ in 0..random.between(1, 4) {
        let (next, tests) = (then.committed as usize, then.tests as usize);
        let position = match random.below(8) {
            0..=4 => next,
            _ => position(random, next, tests),
        };
        positions.push(position);
        let _ = then.commit(position);
    }
    Case::Commit {
        state: state.numbers(),
        positions,
    }
}

/// What is told of such a state. Its tests; beside these (256 where there are more) the steps committed; its
/// capacity; what it holds; and of a step how many curves go, whether more would have to than can, whether
/// the test is too wide, whether a tie is decided, and whether wants behind the last test would decide
/// otherwise.
pub const STATES: [&str; 34] = [
    "tests:0",
    "tests:1-255",
    "tests:256",
    "tests:257",
    "tests:258-and-more",
    "tests:max",
    "above-256:below",
    "above-256:256",
    "above-256:257",
    "above-256:further",
    "committed:below",
    "committed:last-test",
    "committed:tests",
    "committed:one-above",
    "committed:further",
    "committed:2^48-and-more",
    "committed:max",
    "capacity:0",
    "capacity:1-64",
    "capacity:65-70",
    "capacity:71-and-more",
    "nothing-held",
    "all-64-held",
    "end-step",
    "done:nothing-held",
    "none-goes",
    "some-go",
    "all-go",
    "more-would-have-to",
    "none-could",
    "too-wide",
    "tied:never",
    "tied:later",
    "wants-behind-the-last",
];

pub fn state_kinds(state: &Any) -> Vec<&'static str> {
    let mut kinds = Vec::new();
    let mut note = |told: bool, name: &'static str| {
        if told {
            kinds.push(name);
        }
    };
    let (tests, committed) = (state.tests, state.committed);
    note(tests == 0, "tests:0");
    note((1..256).contains(&tests), "tests:1-255");
    note(tests == 256, "tests:256");
    note(tests == 257, "tests:257");
    note(tests > 257, "tests:258-and-more");
    note(tests == u64::MAX, "tests:max");
    if tests > 256 {
        note(committed < 256, "above-256:below");
        note(committed == 256, "above-256:256");
        note(committed == 257, "above-256:257");
        note(committed > 257 && committed <= tests, "above-256:further");
    }
    let counted = state.counted_tests() as u64;
    note(committed < counted, "committed:below");
    note(
        committed.checked_add(1) == Some(counted),
        "committed:last-test",
    );
    note(committed == counted, "committed:tests");
    note(committed == counted + 1, "committed:one-above");
    note(committed > counted + 1, "committed:further");
    note(committed >= 1 << 48, "committed:2^48-and-more");
    note(committed == u64::MAX, "committed:max");
    let capacity = state.capacity;
    note(capacity == 0, "capacity:0");
    note((1..=64).contains(&capacity), "capacity:1-64");
    note((65..=70).contains(&capacity), "capacity:65-70");
    note(capacity > 70, "capacity:71-and-more");
    note(state.held == 0, "nothing-held");
    note(state.held == u64::MAX, "all-64-held");
    let shown = state.look();
    note(matches!(shown, Shown::End { .. }), "end-step");
    let done = shown == Shown::Done;
    note(done && committed == counted, "done:nothing-held");
    let Shown::Step { drops, .. } = shown else {
        return kinds;
    };
    let next = committed as usize;
    let wanted = state.wants[next];
    let candidates = parts::without(state.held, wanted);
    let together = parts::size(parts::union(state.held, wanted));
    let excess = together.saturating_sub(capacity);
    let number = parts::size(candidates);
    note(drops == 0, "none-goes");
    note(drops != 0 && drops != candidates, "some-go");
    note(drops != 0 && drops == candidates, "all-go");
    note(number > 0 && excess > number, "more-would-have-to");
    note(number == 0 && excess > 0, "none-could");
    note(parts::size(wanted) > capacity, "too-wide");
    let next_use = |curve: &u32| {
        let behind = &state.wants[next + 1..counted as usize];
        behind.iter().position(|want| want >> curve & 1 == 1)
    };
    let curves = |set: u64| (0..64u32).filter(move |curve| set >> curve & 1 == 1);
    let stay: Vec<_> = curves(candidates & !drops).map(|k| next_use(&k)).collect();
    let tied: Vec<_> = curves(drops).map(|k| next_use(&k)).collect();
    let tied = tied.iter().find(|next| stay.contains(next));
    note(tied == Some(&None), "tied:never");
    note(matches!(tied, Some(Some(_))), "tied:later");
    let all = Any {
        tests: ENTRIES as u64,
        ..state.clone()
    };
    note(all.look() != shown, "wants-behind-the-last");
    kinds
}

/// The commits of states that were not made: right ones of a step and of the end step; the wrong positions;
/// all where the state is done, of the number of steps committed alone, and where that has more than 48 bits.
pub const COMMITS: [&str; 16] = [
    "step",
    "end-step",
    "one-less",
    "one-more",
    "0",
    "tests",
    "tests+1",
    "earlier",
    "later",
    "huge",
    "max",
    "same-low-byte",
    "same-low-half",
    "done",
    "done:next",
    "15:2^48-and-more",
];

pub fn commit_kinds(state: &Any, positions: &[usize]) -> Vec<&'static str> {
    let mut then = state.clone();
    let mut kinds = Vec::new();
    for &position in positions {
        let (next, tests) = (then.committed as usize, then.tests as usize);
        let done = then.look() == Shown::Done;
        match then.commit(position) {
            Ok(Shown::Step { .. }) => kinds.push("step"),
            Ok(_) => kinds.push("end-step"),
            Err(no) => {
                if done {
                    kinds.push("done");
                } else {
                    kinds.extend(wrong_kinds(position, next, tests));
                }
                if done && position == next {
                    kinds.push("done:next");
                }
                if no.figure >= 1 << 48 {
                    kinds.push("15:2^48-and-more");
                }
            }
        }
    }
    kinds
}
