//! Inputs for every function: random, on the bounds, damaged once and damaged twice.

use crate::booked;
use crate::degrees;
use crate::drives;
use crate::empty;
use crate::holding;
use crate::parts;
use crate::random::Random;
use crate::reference::{self, TieRule};
use crate::states::Any;
use crate::walks::{self, List, Move};
use crate::withdrawn::{self, old_or_new};
use std::fmt::Write;

/// One call with everything handed to it. Lengths are those of the lists and buffers lent.
#[derive(Clone, Debug)]
pub enum Case {
    ReadJob {
        job: Vec<u8>,
        wants_len: usize,
    },
    WriteJob {
        places: usize,
        booked: usize,
        curves: usize,
        method: usize,
        wants: Vec<u64>,
        out_len: usize,
    },
    OrderTests {
        places: usize,
        booked: usize,
        curves: usize,
        method: usize,
        wants: Vec<u64>,
        order_len: usize,
    },
    PlanOrder {
        places: usize,
        booked: usize,
        curves: usize,
        wants: Vec<u64>,
        /// What the drive holds at the start.
        held: u64,
        order: Vec<u16>,
        drops_len: usize,
        loads_len: usize,
    },
    CheckPlan {
        places: usize,
        booked: usize,
        curves: usize,
        wants: Vec<u64>,
        held: u64,
        order: Vec<u16>,
        drops: Vec<u64>,
        loads: Vec<u64>,
        end: u64,
    },
    WritePlan {
        places: usize,
        booked: usize,
        curves: usize,
        wants: Vec<u64>,
        held: u64,
        order: Vec<u16>,
        drops: Vec<u64>,
        loads: Vec<u64>,
        end: u64,
        out_len: usize,
    },
    ReadPlan {
        curves: usize,
        tests: usize,
        plan: Vec<u8>,
        /// How the plan's end was made, if on purpose.
        ending: Option<Ending>,
        order_len: usize,
        drops_len: usize,
        loads_len: usize,
    },
    /// Fetched at each position of a test, at the end step's, at two behind it, and at a further one.
    StepBytes {
        curves: usize,
        tests: usize,
        plan: Vec<u8>,
        ending: Option<Ending>,
        further: usize,
    },
    Call {
        job: Vec<u8>,
        plan_len: usize,
    },
    Sheet {
        job: Vec<u8>,
        out_len: usize,
    },
    Audit {
        job: Vec<u8>,
        plan: Vec<u8>,
        ending: Option<Ending>,
        out_len: usize,
    },
    Examine {
        places: usize,
        booked: usize,
        curves: usize,
        wants: Vec<u64>,
    },
    ExamineBy {
        places: usize,
        booked: usize,
        curves: usize,
        method: usize,
        wants: Vec<u64>,
    },
    ExamineCounts {
        curves: usize,
        tests: usize,
    },
    ExamineSizes {
        capacity: usize,
        wants: Vec<u64>,
    },
    ReadGroup {
        rest: Vec<u8>,
        at: usize,
        group: usize,
        curves: usize,
    },
    GroupMap {
        set: u64,
    },
    SetLen {
        set: u64,
    },
    PutSet {
        set: u64,
        out_len: usize,
    },
    Reverse {
        length: usize,
    },
    ListedOrder {
        tests: usize,
        order_len: usize,
    },
    PackageOrder {
        capacity: usize,
        wants: Vec<u64>,
        order_len: usize,
    },
    /// A function on one set, two sets, a set and a number, or a number.
    Sets {
        function: SetFunction,
        a: u64,
        b: u64,
        k: usize,
    },
    MakeState {
        places: usize,
        booked: usize,
        curves: usize,
        wants: Vec<u64>,
        held: u64,
        order: Vec<u16>,
    },
    /// Looked at twice; any numbers.
    Look {
        state: Vec<u64>,
    },
    /// Committed at these positions, one after the other, with a look before each; any numbers.
    Commit {
        state: Vec<u64>,
        positions: Vec<usize>,
    },
    /// A state is made, and goes to its end and beyond.
    Walk {
        list: List,
        moves: Vec<Move>,
    },
    /// Beside the single plans of all sizes. 64 counts are lent.
    AllSizes {
        curves: usize,
        wants: Vec<u64>,
        order: Vec<u16>,
    },
    /// For each of these wanted counts.
    FewestPlaces {
        curves: usize,
        wants: Vec<u64>,
        order: Vec<u16>,
        loads: Vec<usize>,
    },
    SizeTable {
        job: Vec<u8>,
        asked: usize,
        loads: usize,
        out_len: usize,
    },
}

#[derive(Clone, Copy, Debug, PartialEq, Eq)]
pub enum SetFunction {
    Size,
    Lowest,
    Union,
    Common,
    Without,
    Single,
    Has,
    WithoutLowest,
    Inside,
    Below,
}

const SET_FUNCTIONS: [SetFunction; 10] = [
    SetFunction::Size,
    SetFunction::Lowest,
    SetFunction::Union,
    SetFunction::Common,
    SetFunction::Without,
    SetFunction::Single,
    SetFunction::Has,
    SetFunction::WithoutLowest,
    SetFunction::Inside,
    SetFunction::Below,
];

/// The number of the first of them among all functions.
const FIRST_SET: usize = 22;

/// The number of planning. A state is made of the same numbers and lists.
pub(crate) const PLAN_ORDER: usize = 3;

/// The functions' names behind `curveplan_`, in the order of the variants above; `plan` is the C
/// host's own call, and `walk` is none: making a state, looks and commits, and planning beside them.
/// What tells a refusal's number and figure has no cases of its own: every refusal is answered, or
/// printed, through it, and each of them occurs.
pub const FUNCTIONS: [&str; 39] = [
    "read_job",
    "write_job",
    "order_tests",
    "plan_order",
    "check_plan",
    "write_plan",
    "read_plan",
    "step_bytes",
    "plan",
    "sheet",
    "audit",
    "examine",
    "examine_by",
    "examine_counts",
    "examine_sizes",
    "read_group",
    "group_map",
    "set_len",
    "put_set",
    "reverse",
    "listed_order",
    "package_order",
    "size",
    "lowest",
    "union",
    "common",
    "without",
    "single",
    "has",
    "without_lowest",
    "inside",
    "below",
    "make_state",
    "look",
    "commit",
    "walk",
    "all_sizes",
    "fewest_places",
    "size_table",
];

/// How often each function gets a case, of 1,200.
const SHARES: [usize; 39] = [
    106, 64, 96, 96, 88, 72, 86, 48, 96, 44, 50, // bytes, orders, plans and texts
    14, 14, 10, 14, // examinations
    20, 6, 6, 14, // sets in bytes
    2, 4, 10, // lists of tests
    4, 4, 4, 4, 4, 4, 4, 4, 4, 4, // sets
    36, 20, 24, 40, // states
    32, 20, 28, // all drive sizes
];

impl Case {
    pub fn function(&self) -> usize {
        match self {
            Case::ReadJob { .. } => 0,
            Case::WriteJob { .. } => 1,
            Case::OrderTests { .. } => 2,
            Case::PlanOrder { .. } => 3,
            Case::CheckPlan { .. } => 4,
            Case::WritePlan { .. } => 5,
            Case::ReadPlan { .. } => 6,
            Case::StepBytes { .. } => 7,
            Case::Call { .. } => 8,
            Case::Sheet { .. } => 9,
            Case::Audit { .. } => 10,
            Case::Examine { .. } => 11,
            Case::ExamineBy { .. } => 12,
            Case::ExamineCounts { .. } => 13,
            Case::ExamineSizes { .. } => 14,
            Case::ReadGroup { .. } => 15,
            Case::GroupMap { .. } => 16,
            Case::SetLen { .. } => 17,
            Case::PutSet { .. } => 18,
            Case::Reverse { .. } => 19,
            Case::ListedOrder { .. } => 20,
            Case::PackageOrder { .. } => 21,
            Case::Sets { function, .. } => FIRST_SET + *function as usize,
            Case::MakeState { .. } => 32,
            Case::Look { .. } => 33,
            Case::Commit { .. } => 34,
            Case::Walk { .. } => 35,
            Case::AllSizes { .. } => 36,
            Case::FewestPlaces { .. } => 37,
            Case::SizeTable { .. } => 38,
        }
    }

    /// The whole input: numbers decimal, bytes and list entries hexadecimal.
    pub fn describe(&self) -> String {
        let mut text = format!("function {}\n", FUNCTIONS[self.function()]);
        let mut number = |name: &str, value: usize| {
            let _ = writeln!(text, "  {name} = {value}");
        };
        match self {
            Case::ReadJob { wants_len, .. } => number("wants_len", *wants_len),
            Case::WriteJob {
                places,
                booked,
                curves,
                method,
                out_len,
                ..
            } => {
                number("places", *places);
                number("booked", *booked);
                number("curves", *curves);
                number("method", *method);
                number("out_len", *out_len);
            }
            Case::OrderTests {
                places,
                booked,
                curves,
                method,
                order_len,
                ..
            } => {
                number("places", *places);
                number("booked", *booked);
                number("curves", *curves);
                number("method", *method);
                number("order_len", *order_len);
            }
            Case::PlanOrder {
                places,
                booked,
                curves,
                drops_len,
                loads_len,
                ..
            } => {
                number("places", *places);
                number("booked", *booked);
                number("curves", *curves);
                number("drops_len", *drops_len);
                number("loads_len", *loads_len);
            }
            Case::CheckPlan {
                places,
                booked,
                curves,
                ..
            }
            | Case::MakeState {
                places,
                booked,
                curves,
                ..
            }
            | Case::Walk {
                list:
                    List {
                        places,
                        booked,
                        curves,
                        ..
                    },
                ..
            } => {
                number("places", *places);
                number("booked", *booked);
                number("curves", *curves);
            }
            Case::Look { state } | Case::Commit { state, .. } => {
                let state = Any::new(state);
                number("capacity", state.capacity as usize);
                number("committed", state.committed as usize);
                number("tests", state.tests as usize);
            }
            Case::WritePlan {
                places,
                booked,
                curves,
                out_len,
                ..
            } => {
                number("places", *places);
                number("booked", *booked);
                number("curves", *curves);
                number("out_len", *out_len);
            }
            Case::ReadPlan {
                curves,
                tests,
                order_len,
                drops_len,
                loads_len,
                ..
            } => {
                number("curves", *curves);
                number("tests", *tests);
                number("order_len", *order_len);
                number("drops_len", *drops_len);
                number("loads_len", *loads_len);
            }
            Case::StepBytes {
                curves,
                tests,
                further,
                ..
            } => {
                number("curves", *curves);
                number("tests", *tests);
                number("further", *further);
            }
            Case::Call { plan_len, .. } => number("plan_len", *plan_len),
            Case::Sheet { out_len, .. } | Case::Audit { out_len, .. } => {
                number("out_len", *out_len)
            }
            Case::Examine {
                places,
                booked,
                curves,
                ..
            } => {
                number("places", *places);
                number("booked", *booked);
                number("curves", *curves);
            }
            Case::ExamineBy {
                places,
                booked,
                curves,
                method,
                ..
            } => {
                number("places", *places);
                number("booked", *booked);
                number("curves", *curves);
                number("method", *method);
            }
            Case::ExamineCounts { curves, tests } => {
                number("curves", *curves);
                number("tests", *tests);
            }
            Case::ExamineSizes { capacity, .. } => number("capacity", *capacity),
            Case::ReadGroup {
                at, group, curves, ..
            } => {
                number("at", *at);
                number("group", *group);
                number("curves", *curves);
            }
            Case::GroupMap { .. } | Case::SetLen { .. } => {}
            Case::AllSizes { curves, .. } | Case::FewestPlaces { curves, .. } => {
                number("curves", *curves)
            }
            Case::SizeTable {
                asked,
                loads,
                out_len,
                ..
            } => {
                number("asked", *asked);
                number("loads", *loads);
                number("out_len", *out_len);
            }
            Case::PutSet { out_len, .. } => number("out_len", *out_len),
            Case::Reverse { length } => number("length", *length),
            Case::ListedOrder { tests, order_len } => {
                number("tests", *tests);
                number("order_len", *order_len);
            }
            Case::PackageOrder {
                capacity,
                order_len,
                ..
            } => {
                number("capacity", *capacity);
                number("order_len", *order_len);
            }
            Case::Sets { k, .. } => number("k", *k),
        }
        if let Case::ReadPlan { ending, .. }
        | Case::StepBytes { ending, .. }
        | Case::Audit { ending, .. } = self
        {
            let name = ending.map_or("any", Ending::name);
            let _ = writeln!(text, "  the plan's end = {name}");
        }
        let mut list = |name: &str, entries: Vec<String>| {
            let _ = writeln!(text, "  {name} ({}) = {}", entries.len(), entries.join(" "));
        };
        match self {
            Case::ReadJob { job, .. }
            | Case::Call { job, .. }
            | Case::Sheet { job, .. }
            | Case::SizeTable { job, .. } => list("job", hex_bytes(job)),
            Case::Audit { job, plan, .. } => {
                list("job", hex_bytes(job));
                list("plan", hex_bytes(plan));
            }
            Case::WriteJob { wants, .. }
            | Case::OrderTests { wants, .. }
            | Case::Examine { wants, .. }
            | Case::ExamineBy { wants, .. }
            | Case::ExamineSizes { wants, .. }
            | Case::PackageOrder { wants, .. } => list("wants", hex_sets(wants)),
            Case::ExamineCounts { .. } | Case::Reverse { .. } | Case::ListedOrder { .. } => {}
            Case::ReadGroup { rest, .. } => list("rest", hex_bytes(rest)),
            Case::GroupMap { set } | Case::SetLen { set } | Case::PutSet { set, .. } => {
                list("set", hex_sets(&[*set]))
            }
            Case::Sets { a, b, .. } => list("a, b", hex_sets(&[*a, *b])),
            Case::PlanOrder {
                wants, held, order, ..
            }
            | Case::MakeState {
                wants, held, order, ..
            } => {
                list("wants", hex_sets(wants));
                list("held", hex_sets(&[*held]));
                list("order", hex_order(order));
            }
            Case::AllSizes { wants, order, .. } | Case::FewestPlaces { wants, order, .. } => {
                list("wants", hex_sets(wants));
                list("order", hex_order(order));
            }
            Case::Walk { list: made, moves } => {
                list("wants", hex_sets(&made.wants));
                list("held", hex_sets(&[made.held]));
                list("order", hex_order(&made.order));
                list("moves", moves.iter().map(Move::to_string).collect());
            }
            Case::Look { state } | Case::Commit { state, .. } => {
                let state = Any::new(state);
                list("held", hex_sets(&[state.held]));
                list("wants", hex_sets(&state.wants));
            }
            Case::CheckPlan {
                wants,
                held,
                order,
                drops,
                loads,
                end,
                ..
            }
            | Case::WritePlan {
                wants,
                held,
                order,
                drops,
                loads,
                end,
                ..
            } => {
                list("wants", hex_sets(wants));
                list("held", hex_sets(&[*held]));
                list("order", hex_order(order));
                list("drops", hex_sets(drops));
                list("loads", hex_sets(loads));
                list("end", hex_sets(&[*end]));
            }
            Case::ReadPlan { plan, .. } | Case::StepBytes { plan, .. } => {
                list("plan", hex_bytes(plan))
            }
        }
        if let Case::Commit { positions, .. } = self {
            list(
                "positions",
                positions.iter().map(usize::to_string).collect(),
            );
        }
        if let Case::FewestPlaces { loads, .. } = self {
            list("loads", loads.iter().map(usize::to_string).collect());
        }
        text
    }
}

pub fn hex_bytes(list: &[u8]) -> Vec<String> {
    list.iter().map(|byte| format!("{byte:02x}")).collect()
}

pub fn hex_sets(list: &[u64]) -> Vec<String> {
    list.iter().map(|set| format!("{set:x}")).collect()
}

pub fn hex_order(list: &[u16]) -> Vec<String> {
    list.iter().map(|test| format!("{test:x}")).collect()
}

// ---------------------------------------------------------------------------------------------
// Jobs

/// Room for every sheet: the longest has as many bytes.
pub const SHEET: usize = 52_577;

/// The longest job that reads: map, six bytes of fields, and 256 records of map and eight groups.
pub const JOB: usize = 2_311;

/// The longest plan that reads: 256 steps of map, two sets of nine bytes and test, and an end step of
/// map and set.
pub const PLAN_READ: usize = 5_130;

/// The longest plan that passes from an empty drive, so the longest of the C call: the first step drops
/// nothing. From a holding the longest is one of those above.
pub const PLAN_MADE: usize = 5_121;

/// How large a case is.
#[derive(Clone, Copy, Debug, PartialEq, Eq)]
pub enum Size {
    /// Up to 8 tests, or none.
    Tiny,
    /// Up to 24 tests, or none.
    Small,
    /// Up to 80 tests.
    Medium,
    /// 200 to 256 tests, mostly 256.
    Full,
    /// On the bounds: 0, 1 or 256 tests, 1 or 64 curves, 1 or 64 places less booked.
    Edge,
}

fn large(size: Size) -> bool {
    matches!(size, Size::Full | Size::Edge)
}

pub fn size(random: &mut Random) -> Size {
    match random.below(1000) {
        0..=599 => Size::Tiny,
        600..=949 => Size::Small,
        950..=983 => Size::Medium,
        984..=991 => Size::Full,
        _ => Size::Edge,
    }
}

/// A job within the bounds (a test may still want more curves than places less booked), its method one
/// that may be handed over.
#[derive(Clone, Debug)]
pub struct Job {
    pub places: usize,
    pub booked: usize,
    pub curves: usize,
    pub method: usize,
    pub wants: Vec<u64>,
}

impl Job {
    pub fn capacity(&self) -> usize {
        reference::less_booked(self.places, self.booked)
    }

    /// The same with none booked.
    pub fn unbooked(&self) -> Job {
        Job {
            booked: 0,
            ..self.clone()
        }
    }
}

/// Places, and how many of them are booked, so that this many are left: often none are booked, else
/// one or two, any number, all that can be, or as many as make the places 8.
pub fn with_booked(random: &mut Random, capacity: usize) -> (usize, usize) {
    let most = 64 - capacity;
    let booked = match random.below(16) {
        0..=8 => 0,
        9 | 10 => 1,
        11 | 12 => 2,
        13 => random.between(0, most),
        14 => most,
        _ => 8usize.saturating_sub(capacity),
    };
    let booked = booked.min(most);
    (capacity + booked, booked)
}

/// All curves below this number.
pub fn all_curves(curves: usize) -> u64 {
    if curves >= 64 {
        u64::MAX
    } else {
        (1 << curves) - 1
    }
}

/// A set of `number` different curves below `curves`.
pub fn random_set(random: &mut Random, curves: usize, number: usize) -> u64 {
    let number = number.min(curves);
    if number > 40 {
        // Few are missing: choose those.
        return all_curves(curves) & !random_set(random, curves, curves - number);
    }
    let mut set = 0u64;
    while (set.count_ones() as usize) < number {
        set |= 1 << random.below(curves);
    }
    set
}

/// Some subset of a set.
pub(crate) fn some_of(random: &mut Random, set: u64) -> u64 {
    match random.below(4) {
        0 => 0,
        1 => set & random.word(),
        2 => set & random.word() & random.word(),
        _ => one_of(random, set),
    }
}

/// One curve of a set; none of the empty set.
pub(crate) fn one_of(random: &mut Random, set: u64) -> u64 {
    let ones: Vec<u64> = (0..64).filter(|k| set >> k & 1 == 1).collect();
    if ones.is_empty() {
        0
    } else {
        1 << random.pick(&ones)
    }
}

/// A set with curves in exactly so many groups of eight; there are as many.
fn in_groups(random: &mut Random, curves: usize, number: usize) -> u64 {
    let mut groups: Vec<usize> = (0..curves.div_ceil(8)).collect();
    random.shuffle(&mut groups);
    let mut set = 0;
    for &group in &groups[..number] {
        let of_group = all_curves(curves) & (0xff_u64 << (8 * group));
        set |= one_of(random, of_group) | (random.word() & of_group);
    }
    set
}

fn tests_of(random: &mut Random, size: Size) -> usize {
    match size {
        Size::Tiny => random.between(0, 8),
        Size::Small => random.between(0, 24),
        Size::Medium => random.between(25, 80),
        Size::Full => {
            if random.chance(3, 4) {
                256
            } else {
                random.between(200, 256)
            }
        }
        Size::Edge => random.pick(&[0, 1, 2, 255, 256, 256, 256]),
    }
}

pub fn job(random: &mut Random, size: Size) -> Job {
    let tests = tests_of(random, size);
    if size != Size::Edge && random.chance(1, 8) {
        let curves = if random.chance(1, 2) {
            random.between(4, 16)
        } else {
            random.between(17, 64)
        };
        return tied_job(random, tests, curves);
    }
    let (capacity, curves) = match size {
        Size::Tiny => match random.below(4) {
            0 => (random.between(1, 4), random.between(1, 6)),
            1 => (random.between(2, 6), random.between(4, 12)),
            2 => (random.between(1, 8), random.between(1, 20)),
            _ => (random.between(1, 64), random.between(1, 64)),
        },
        Size::Small | Size::Medium => match random.below(4) {
            0 => (random.between(1, 6), random.between(3, 12)),
            1 => (8, 64),
            2 => (random.between(2, 16), random.between(8, 64)),
            _ => (random.between(1, 64), random.between(1, 64)),
        },
        Size::Full => match random.below(4) {
            0 => (8, 64),
            1 => (32, 64),
            2 => (random.between(2, 12), random.between(8, 64)),
            _ => (random.between(1, 64), random.between(1, 64)),
        },
        Size::Edge => (
            random.pick(&[1, 2, 7, 8, 9, 63, 64, 64]),
            random.pick(&[1, 2, 8, 9, 63, 64, 64, 64]),
        ),
    };
    let method = method_of(random, tests);
    let wants = wants(random, tests, capacity, curves);
    let (places, booked) = with_booked(random, capacity);
    Job {
        places,
        booked,
        curves,
        method,
        wants,
    }
}

/// Method 1 twice as often as each other: half of its jobs in bytes have 2.
fn method_of(random: &mut Random, tests: usize) -> usize {
    let method = random.pick(&[0, 1, 1, 3]);
    if method == 3 && tests > 150 && !random.chance(1, 3) {
        // All pairs again for every join: a few of these are enough.
        return random.pick(&[0, 1, 1]);
    }
    method
}

/// A job with many ties among curves: they fall into a few blocks, a test wants one block, sometimes
/// two or a part of one, and the drive takes some blocks, but not all. So the curves of a block mostly
/// have the same next use, and only some of them have to go. The blocks take turns, or come as they
/// like. A block has neighbouring curves or curves from anywhere. There are at least 2 curves.
pub fn tied_job(random: &mut Random, tests: usize, curves: usize) -> Job {
    let mut numbers: Vec<usize> = (0..curves).collect();
    if random.chance(2, 3) {
        random.shuffle(&mut numbers);
    }
    let number = random.between(2, 5.min(curves));
    let mut blocks = vec![0u64; number];
    for (at, curve) in numbers.into_iter().enumerate() {
        blocks[at * number / curves] |= 1 << curve;
    }
    let widest = blocks.iter().map(|block| block.count_ones()).max();
    let widest = widest.expect("there are blocks") as usize;
    let capacity = random.between(widest, (curves - 1).max(widest));
    let in_turns = random.chance(1, 2);
    let mut wants = Vec::new();
    for test in 0..tests {
        let block = if in_turns {
            blocks[test % number]
        } else {
            random.pick(&blocks)
        };
        let two = block | random.pick(&blocks);
        wants.push(match random.below(12) {
            0 => block & (random.word() | random.word()),
            1 => one_of(random, block),
            2 if two.count_ones() as usize <= capacity => two,
            _ => block,
        });
    }
    let (places, booked) = with_booked(random, capacity);
    Job {
        places,
        booked,
        curves,
        method: method_of(random, tests),
        wants,
    }
}

/// A job for method 3: two families of wide tests with curves of their own and one curve that some
/// tests of both want. So each family becomes a package of several full ones, and the one curve
/// tells at the end which ends of the two are joined.
pub(crate) fn flipping_job(random: &mut Random) -> Job {
    let capacity = random.between(3, 6);
    let own = capacity + random.between(1, 3);
    let link = 2 * own;
    let mut wants = Vec::new();
    for family in 0..2 {
        for _ in 0..random.between(2, 6) {
            let number = random.between(2, capacity - 1);
            let mut set = random_set(random, own, number) << (own * family);
            if random.chance(1, 3) {
                set |= 1 << link;
            }
            wants.push(set);
        }
    }
    random.shuffle(&mut wants);
    let (places, booked) = with_booked(random, capacity);
    Job {
        places,
        booked,
        curves: link + 1,
        method: 3,
        wants,
    }
}

/// A job whose plan is the longest, in its listed order: 256 tests, each with `each` curves (up to 4)
/// of every group, none of them wanted by the test before. So each step but the first drops all that
/// is held. With 4 of each group its sheet is the longest too.
pub fn longest_job(random: &mut Random, each: usize) -> Job {
    let curves = random.between(56 + 2 * each, 64);
    let mut wants = Vec::new();
    let mut last = 0u64;
    for _ in 0..256 {
        let mut set = 0u64;
        for group in 0..8 {
            for _ in 0..each {
                let of_group = all_curves(curves) & (0xff_u64 << (8 * group));
                set |= one_of(random, of_group & !last & !set);
            }
        }
        wants.push(set);
        last = set;
    }
    let (places, booked) = with_booked(random, 8 * each);
    Job {
        places,
        booked,
        curves,
        method: 0,
        wants,
    }
}

pub fn wants(random: &mut Random, tests: usize, capacity: usize, curves: usize) -> Vec<u64> {
    let most = capacity.min(curves);
    let all = all_curves(curves);
    let mut list = Vec::new();
    match random.below(7) {
        // Any number of curves up to the capacity.
        0 => {
            for _ in 0..tests {
                let number = random.between(0, most);
                list.push(random_set(random, curves, number));
            }
        }
        // Few curves.
        1 => {
            for _ in 0..tests {
                let number = random.between(0, most.min(3));
                list.push(random_set(random, curves, number));
            }
        }
        // Nearly as many as the drive takes.
        2 => {
            for _ in 0..tests {
                let number = random.between(most.saturating_sub(2), most);
                list.push(random_set(random, curves, number));
            }
        }
        // Families: parts of a few sets.
        3 => {
            let families = random.between(1, 5);
            let base: Vec<u64> = (0..families)
                .map(|_| random_set(random, curves, most))
                .collect();
            for _ in 0..tests {
                let family = random.pick(&base);
                list.push(family & (random.word() | random.word()));
            }
        }
        // Runs of neighbouring curves.
        4 => {
            for _ in 0..tests {
                let number = random.between(0, most.min(6));
                let from = random.below(curves);
                let mut set = 0;
                for k in 0..number {
                    set |= 1u64 << ((from + k) % curves);
                }
                list.push(set);
            }
        }
        // The same few sets again and again: ties everywhere.
        5 => {
            let kinds = random.between(1, 4);
            let base: Vec<u64> = (0..kinds)
                .map(|_| {
                    let number = random.between(0, most);
                    random_set(random, curves, number)
                })
                .collect();
            for _ in 0..tests {
                list.push(random.pick(&base));
            }
        }
        // One or two curves each, and many without any.
        _ => {
            for _ in 0..tests {
                let number = random.pick(&[0, 0, 1, 1, 1, 2]).min(most);
                list.push(random_set(random, curves, number));
            }
        }
    }
    if tests > 0 && random.chance(1, 12) {
        // Perhaps wider than the capacity.
        let test = random.below(tests);
        let number = random.between(capacity.min(curves), curves);
        list[test] = random_set(random, curves, number);
    }
    if tests > 0 && random.chance(1, 40) {
        let test = random.below(tests);
        list[test] = all;
    }
    list
}

// ---------------------------------------------------------------------------------------------
// Bytes and their damage

/// The job's bytes, or the refusal.
pub(crate) fn job_written(job: &Job) -> reference::Answer<Vec<u8>> {
    let (places, booked, curves) = (job.places, job.booked, job.curves);
    reference::write_job(places, booked, curves, job.method, &job.wants, usize::MAX)
}

/// The job's bytes, whether or not its tests fit.
pub fn job_bytes(job: &Job) -> Vec<u8> {
    job_written(job).expect("a job within the bounds can be written")
}

/// Job bytes with any bit map and any field values, and records that may not fit them.
fn crafted_job(random: &mut Random) -> Vec<u8> {
    let mut map = random.below(32) as u8;
    if random.chance(1, 12) {
        map |= 1 << random.between(5, 7);
    }
    if random.chance(2, 3) {
        map |= 4;
    }
    let mut bytes = vec![map];
    let wild = random.chance(1, 3);
    let mut tests = 0;
    let mut curves = 64;
    let mut places = 8;
    if map & 1 == 1 {
        places = if wild {
            random.pick(&[0, 1, 7, 8, 9, 63, 64, 65, 255])
        } else {
            random.pick(&[1, 2, 3, 4, 16, 64])
        };
        bytes.push(places);
    }
    if map & 2 == 2 {
        let value = if wild {
            random.pick(&[0, 1, 8, 9, 63, 64, 65, 128, 255])
        } else {
            random.pick(&[1, 2, 5, 8, 9, 20, 63])
        };
        curves = value as usize;
        bytes.push(value);
    }
    if map & 4 == 4 {
        let value: u16 = if wild {
            random.pick(&[0, 1, 2, 255, 256, 257, 512, 65_535, 3])
        } else {
            random.pick(&[1, 1, 2, 2, 3, 4, 6])
        };
        tests = value as usize;
        bytes.extend(value.to_le_bytes());
    }
    if map & 8 == 8 {
        let value = if wild {
            random.pick(&[0, 1, 2, 3, 4, 255])
        } else {
            random.pick(&[1, 2, 3])
        };
        bytes.push(value);
    }
    if map & 16 == 16 {
        let value = if wild {
            random.pick(&[0, 1, 6, 7, 8, 9, 62, 63, 64, 65, 128, 255])
        } else {
            let below = places.saturating_sub(1).max(1);
            random.pick(&[1, 1, 1, below, below, places])
        };
        bytes.push(value);
    }
    for _ in 0..tests.min(300) {
        let record = if random.chance(1, 10) {
            random.byte() & random.byte() & random.byte()
        } else {
            random.pick(&[0, 1, 1, 1, 3])
        };
        bytes.push(record);
        for _ in 0..record.count_ones() {
            let byte = if random.chance(1, 12) {
                random.byte()
            } else {
                random.pick(&[1, 1, 1, 2, 3]) & all_curves(curves.clamp(1, 64)) as u8
            };
            bytes.push(byte);
        }
    }
    bytes
}

/// One fault (or, by luck, none) somewhere in the bytes.
pub fn damage(random: &mut Random, bytes: &mut Vec<u8>) {
    const BOUNDARY: [u8; 16] = [0, 1, 2, 3, 4, 6, 7, 8, 9, 15, 16, 63, 64, 65, 128, 255];
    // Near the front as often as anywhere.
    let somewhere = |random: &mut Random, length: usize| -> usize {
        if random.chance(1, 3) {
            random.below(length.min(8))
        } else {
            random.below(length)
        }
    };
    match random.below(9) {
        0 | 1 if !bytes.is_empty() => {
            let at = somewhere(random, bytes.len());
            bytes[at] ^= 1 << random.below(8);
        }
        2 | 3 if !bytes.is_empty() => {
            let at = somewhere(random, bytes.len());
            bytes[at] = random.pick(&BOUNDARY);
        }
        4 if !bytes.is_empty() => {
            let at = somewhere(random, bytes.len());
            bytes[at] = 0;
        }
        5 if !bytes.is_empty() => {
            let length = random.below(bytes.len());
            bytes.truncate(length);
        }
        6 if !bytes.is_empty() => {
            let at = somewhere(random, bytes.len());
            bytes.remove(at);
        }
        7 => {
            let at = random.below(bytes.len() + 1);
            let byte = random.pick(&BOUNDARY);
            bytes.insert(at, byte);
        }
        _ => {
            for _ in 0..random.between(1, 3) {
                let byte = if random.chance(1, 2) {
                    0
                } else {
                    random.byte()
                };
                bytes.push(byte);
            }
        }
    }
}

/// The bytes of a job.
fn any_job(random: &mut Random, size: Size) -> Vec<u8> {
    let job = job(random, size);
    old_or_new(random, &job)
}

/// Job bytes: sound, damaged once, damaged twice, crafted, or anything.
pub fn any_job_bytes(random: &mut Random, size: Size) -> Vec<u8> {
    match random.below(20) {
        0..=8 => any_job(random, size),
        9..=12 => {
            let mut bytes = any_job(random, size);
            damage(random, &mut bytes);
            bytes
        }
        13..=14 => {
            let mut bytes = any_job(random, size);
            damage(random, &mut bytes);
            damage(random, &mut bytes);
            bytes
        }
        15..=17 => crafted_job(random),
        18 => {
            let mut bytes = crafted_job(random);
            damage(random, &mut bytes);
            bytes
        }
        _ => {
            let length = random.below(24);
            let mut bytes: Vec<u8> = (0..length).map(|_| random.byte()).collect();
            if let Some(first) = bytes.first_mut() {
                *first &= 31;
            }
            bytes
        }
    }
}

// ---------------------------------------------------------------------------------------------
// Handed numbers, lists and lengths

/// The length of a lent list, around the number of entries needed.
pub(crate) fn lent(random: &mut Random, needed: usize) -> usize {
    match random.below(16) {
        0..=6 => needed,
        7..=9 => needed + random.between(1, 9),
        10 | 11 => needed.saturating_sub(1),
        12 => 0,
        13 => random.below(needed + 1),
        14 => needed + 256,
        _ => needed + 1,
    }
}

/// A length on the bound of what is needed.
pub(crate) fn around(random: &mut Random, needed: usize) -> usize {
    random.pick(&[needed, needed, needed - 1, needed + 1])
}

/// A length that always suffices.
pub(crate) fn enough(random: &mut Random, needed: usize) -> usize {
    needed + random.pick(&[0, 0, 1, 5, 40])
}

/// Numbers of places and of curves that are out of range.
pub(crate) const WILD: [usize; 12] = [
    0,
    0,
    65,
    65,
    66,
    100,
    127,
    128,
    255,
    256,
    1 << 32,
    usize::MAX,
];

/// Numbers that are no method's: 2 among them, and those whose low bytes are one's.
pub(crate) const WILD_METHODS: [usize; 16] = [
    2,
    2,
    2,
    2,
    4,
    5,
    255,
    256,
    257,
    259,
    1 << 16,
    (1 << 16) + 1,
    1 << 32,
    (1 << 32) + 3,
    1 << 63,
    usize::MAX,
];

/// Numbers of booked places that are out of range.
pub(crate) const WILD_BOOKED: [usize; 14] = [
    64,
    64,
    65,
    66,
    127,
    128,
    255,
    256,
    257,
    1 << 32,
    (1 << 32) + 1,
    1 << 63,
    usize::MAX,
    usize::MAX,
];

/// Booked places: of these, all, one fewer or one more; 63, any, none, or out of range.
pub(crate) fn any_booked(random: &mut Random, places: usize) -> usize {
    match random.below(12) {
        0..=2 => places,
        3 | 4 => places.saturating_sub(1),
        5 => places.saturating_add(1),
        6 => 63,
        7 => random.between(1, 63),
        8 => 0,
        _ => random.pick(&WILD_BOOKED),
    }
}

/// A curve the job lacks in the wants of a test, or any set at all.
pub(crate) fn spoil_wants(random: &mut Random, curves: usize, wants: &mut [u64]) {
    if !wants.is_empty() {
        let test = random.below(wants.len());
        let lacking = !all_curves(curves.clamp(1, 64));
        wants[test] = match random.below(3) {
            0 => random.word(),
            1 => wants[test] | some_of(random, lacking),
            _ => wants[test] | (lacking & lacking.wrapping_neg()),
        };
    }
}

/// More than 256 tests.
pub(crate) fn spoil_tests(random: &mut Random, wants: &mut Vec<u64>) {
    let tests = random.pick(&[257, 257, 258, 300, 512]);
    let set = wants.first().copied().unwrap_or(0);
    wants.resize(tests.max(wants.len()), set);
}

/// Faults in what is handed over (not in the lists of orders and plans).
fn spoil_numbers(random: &mut Random, job: &mut Job) {
    let faults = match random.below(16) {
        0..=11 => 0,
        12..=14 => 1,
        _ => 2,
    };
    for _ in 0..faults {
        match random.below(10) {
            0 => job.places = random.pick(&WILD),
            1 => job.curves = random.pick(&WILD),
            2 => job.method = random.pick(&WILD_METHODS),
            3 => spoil_tests(random, &mut job.wants),
            4 => job.wants.clear(),
            5 | 6 => job.booked = any_booked(random, job.places),
            _ => spoil_wants(random, job.curves, &mut job.wants),
        }
    }
}

/// An order of this many tests: as listed, reversed or shuffled.
pub fn permutation(random: &mut Random, tests: usize) -> Vec<u16> {
    let mut order: Vec<u16> = (0..tests as u16).collect();
    match random.below(4) {
        0 => {}
        1 => order.reverse(),
        _ => random.shuffle(&mut order),
    }
    order
}

pub(crate) fn spoil_order(random: &mut Random, order: &mut Vec<u16>, tests: usize) {
    let faults = match random.below(20) {
        0..=15 => 0,
        16..=18 => 1,
        _ => 2,
    };
    for _ in 0..faults {
        match random.below(6) {
            0 if !order.is_empty() => {
                let at = random.below(order.len());
                order[at] = random.pick(&[
                    tests as u16,
                    tests as u16 + 1,
                    255,
                    256,
                    257,
                    0x7fff,
                    0xff00,
                    u16::MAX,
                ]);
            }
            1 if !order.is_empty() => {
                let at = random.below(order.len());
                let other = random.below(order.len());
                order[at] = order[other];
            }
            2 if !order.is_empty() => {
                let length = random.below(order.len());
                order.truncate(length);
            }
            3 => {
                order.pop();
            }
            4 => order.push(random.below(tests + 2) as u16),
            _ => {
                for _ in 0..random.between(1, 4) {
                    order.push(random.word() as u16);
                }
            }
        }
    }
}

/// Drops, loads and end set of some plan that passes from a holding, if the tests fit: with early loads,
/// drops that were not needed, and curves that leave and come back in one step.
fn free_plan(
    random: &mut Random,
    job: &Job,
    held: u64,
    order: &[u16],
) -> (Vec<u64>, Vec<u64>, u64) {
    let all = all_curves(job.curves);
    let capacity = job.capacity() as u32;
    let mut held = held;
    let mut drops = Vec::new();
    let mut loads = Vec::new();
    for &test in order {
        let want = job.wants[test as usize];
        let mut drop = held & some_of(random, held);
        // Make room.
        loop {
            let left = held & !drop;
            if (left | want).count_ones() <= capacity || left & !want == 0 {
                break;
            }
            let candidates: Vec<u32> = (0..64).filter(|k| (left & !want) >> k & 1 == 1).collect();
            drop |= 1 << random.pick(&candidates);
        }
        let left = held & !drop;
        let mut load = want & !left;
        // Early ones.
        if random.chance(1, 3) {
            let spare = all & !(left | load);
            let extra = some_of(random, spare);
            for k in 0..64 {
                if extra >> k & 1 == 1 && (left | load).count_ones() < capacity {
                    load |= 1 << k;
                }
            }
        }
        held = left | load;
        drops.push(drop);
        loads.push(load);
    }
    (drops, loads, held)
}

pub(crate) fn spoil_plan(
    random: &mut Random,
    drops: &mut Vec<u64>,
    loads: &mut Vec<u64>,
    curves: usize,
) {
    let faults = match random.below(10) {
        0..=4 => 0,
        5..=7 => 1,
        _ => 2,
    };
    for _ in 0..faults {
        let list = if random.chance(1, 2) {
            &mut *drops
        } else {
            &mut *loads
        };
        match random.below(10) {
            0 => {
                list.pop();
            }
            1 => {
                let length = random.below(list.len() + 1);
                list.truncate(length);
            }
            2 => list.push(0),
            3 => {
                for _ in 0..random.between(1, 3) {
                    list.push(random.word());
                }
            }
            _ if list.is_empty() => {}
            4 => {
                let at = random.below(list.len());
                list[at] = 0;
            }
            5 => {
                let at = random.below(list.len());
                list[at] = random.word();
            }
            6 => {
                let at = random.below(list.len());
                let one = 1u64.checked_shl(curves as u32).unwrap_or(1 << 63);
                list[at] |= one;
            }
            7 => {
                let at = random.below(list.len());
                let other = random.below(list.len());
                list.swap(at, other);
            }
            8 => {
                let at = random.below(list.len());
                list[at] ^= 1 << random.below(64);
            }
            _ => {
                let at = random.below(list.len());
                list[at] ^= 1 << random.below(curves.clamp(1, 64));
            }
        }
    }
}

/// An end set other than this: none, all ones, with a foreign curve, one curve more or fewer, or any.
pub(crate) fn spoil_end(random: &mut Random, end: &mut u64, curves: usize) {
    let all = all_curves(curves);
    match random.below(8) {
        0 => *end = 0,
        1 => *end = u64::MAX,
        2 => *end |= one_of(random, !all),
        3 | 4 => *end |= one_of(random, all & !*end),
        5 | 6 => *end &= !one_of(random, *end),
        _ => *end = any_set(random),
    }
}

/// An order of a job, and drops, loads and end set for it.
#[derive(Clone, Debug)]
pub struct SomePlan {
    pub order: Vec<u16>,
    pub drops: Vec<u64>,
    pub loads: Vec<u64>,
    pub end: u64,
}

impl SomePlan {
    pub(crate) fn bytes(&self) -> Vec<u8> {
        reference::plan_bytes(&self.order, &self.drops, &self.loads, self.end)
    }

    /// The bytes of the first steps alone.
    fn first_bytes(&self, steps: usize) -> Vec<u8> {
        let (drops, loads) = (&self.drops[..steps], &self.loads[..steps]);
        reference::plan_bytes(&self.order[..steps], drops, loads, 0)
    }
}

/// The plan from a holding in this order under a tie rule, if the tests fit.
pub(crate) fn plan_by(rule: TieRule, job: &Job, held: u64, order: &[u16]) -> Option<SomePlan> {
    let (places, booked, room) = (job.places, job.booked, job.wants.len());
    let plan = reference::plan_by(
        rule, places, booked, job.curves, &job.wants, held, order, room, room,
    )
    .ok()?;
    Some(SomePlan {
        order: order.to_vec(),
        drops: plan.drops,
        loads: plan.loads,
        end: plan.end,
    })
}

/// An order of the job and a plan for it from an empty drive: ours, the one of the other tie rule or
/// any other.
pub fn some_plan(random: &mut Random, job: &Job) -> SomePlan {
    some_plan_from(random, job, 0)
}

/// The same from a holding.
pub fn some_plan_from(random: &mut Random, job: &Job, held: u64) -> SomePlan {
    let order = permutation(random, job.wants.len());
    if random.chance(1, 2) {
        let rule = random.pick(&[TieRule::Lowest, TieRule::Highest]);
        if let Some(plan) = plan_by(rule, job, held, &order) {
            return plan;
        }
    }
    let (drops, loads, end) = free_plan(random, job, held, &order);
    SomePlan {
        order,
        drops,
        loads,
        end,
    }
}

/// The same; at times as if none were booked, so that it may hold too much.
pub(crate) fn fitting_or_not(random: &mut Random, job: &Job, held: u64) -> SomePlan {
    if random.chance(1, 5) {
        some_plan_from(random, &job.unbooked(), held)
    } else {
        some_plan_from(random, job, held)
    }
}

/// A job and the longest plan of any that passes.
fn longest_made(random: &mut Random) -> (Job, SomePlan) {
    let each = random.between(1, 4);
    let job = longest_job(random, each);
    let listed: Vec<u16> = (0..256).collect();
    let plan = plan_by(TieRule::Highest, &job, 0, &listed).expect("its tests fit");
    assert_eq!(plan.bytes().len(), PLAN_MADE);
    (job, plan)
}

/// A job, and steps for its counts that mean nothing, but are well formed and as long as can be.
fn longest_read(random: &mut Random) -> (Job, SomePlan) {
    let job = longest_job(random, 1);
    let mut full = || in_groups(random, job.curves, 8);
    let drops: Vec<u64> = (0..256).map(|_| full()).collect();
    let loads: Vec<u64> = (0..256).map(|_| full()).collect();
    let end = full();
    let plan = SomePlan {
        order: permutation(random, 256),
        drops,
        loads,
        end,
    };
    assert_eq!(plan.bytes().len(), PLAN_READ);
    (job, plan)
}

// ---------------------------------------------------------------------------------------------
// Plan bytes and their end

/// How the end of plan bytes is made, behind the last test's step.
#[derive(Clone, Copy, Debug, PartialEq, Eq)]
pub enum Ending {
    /// An end step that drops what is held; none where nothing is.
    Held,
    /// No end step, though something is held.
    Missing,
    /// An end step that drops a curve more than is held.
    OneMore,
    /// One that leaves one of several curves.
    OneFewer,
    /// One that drops all curves of the job, though they are not all held.
    All,
    /// The same with 64 curves.
    All64,
    /// One that drops any others.
    Others,
    /// Another map byte instead of 1.
    Map(u8),
    AnyMap,
    /// A group map without groups.
    NoGroups,
    /// A group byte zero.
    HollowGroup,
    /// A curve that the job lacks.
    Foreign,
    /// All 64 curves, though the job has fewer.
    AllOnes,
    /// Cut behind so many bytes of the end step.
    Cut(usize),
    /// The same end step twice.
    Doubled,
    /// Another end step behind it.
    Another,
    /// A test's step behind it.
    Step,
    /// One byte behind it.
    Surplus,
    /// Before the last test's step.
    BeforeLast,
    /// Before any test's step.
    Early,
    /// As held, and of the longest plan of the C call.
    LongestMade,
    /// Of the longest plan that reads.
    LongestRead,
    /// One byte behind that.
    LongerStill,
}

/// All of them, with their names.
pub const ENDINGS: [(Ending, &str); 43] = [
    (Ending::Held, "held"),
    (Ending::Missing, "missing"),
    (Ending::OneMore, "one-more"),
    (Ending::OneFewer, "one-fewer"),
    (Ending::All, "all"),
    (Ending::All64, "all-64"),
    (Ending::Others, "others"),
    (Ending::Map(0x00), "map-00"),
    (Ending::Map(0x02), "map-02"),
    (Ending::Map(0x03), "map-03"),
    (Ending::Map(0x04), "map-04"),
    (Ending::Map(0x05), "map-05"),
    (Ending::Map(0x06), "map-06"),
    (Ending::Map(0x07), "map-07"),
    (Ending::Map(0x08), "map-08"),
    (Ending::Map(0x09), "map-09"),
    (Ending::Map(0x11), "map-11"),
    (Ending::Map(0x80), "map-80"),
    (Ending::Map(0x81), "map-81"),
    (Ending::Map(0xff), "map-ff"),
    (Ending::AnyMap, "map-any"),
    (Ending::NoGroups, "no-groups"),
    (Ending::HollowGroup, "hollow-group"),
    (Ending::Foreign, "foreign"),
    (Ending::AllOnes, "all-ones"),
    (Ending::Cut(1), "cut-1"),
    (Ending::Cut(2), "cut-2"),
    (Ending::Cut(3), "cut-3"),
    (Ending::Cut(4), "cut-4"),
    (Ending::Cut(5), "cut-5"),
    (Ending::Cut(6), "cut-6"),
    (Ending::Cut(7), "cut-7"),
    (Ending::Cut(8), "cut-8"),
    (Ending::Cut(9), "cut-9"),
    (Ending::Doubled, "doubled"),
    (Ending::Another, "another"),
    (Ending::Step, "step"),
    (Ending::Surplus, "surplus"),
    (Ending::BeforeLast, "before-last"),
    (Ending::Early, "early"),
    (Ending::LongestMade, "5121-bytes"),
    (Ending::LongestRead, "5130-bytes"),
    (Ending::LongerStill, "5131-bytes"),
];

impl Ending {
    pub fn name(self) -> &'static str {
        let found = ENDINGS.iter().find(|(ending, _)| *ending == self);
        found.expect("all are named").1
    }

    /// Whether the bytes read; if not, they get refusal 11.
    pub fn reads(self) -> bool {
        use Ending::*;
        matches!(self, Held | LongestMade | LongestRead)
            || matches!(self, Missing | OneMore | OneFewer | All | All64 | Others)
    }

    /// Whether a plan without tests can end so: nothing is held, and there is no test's step.
    pub fn without_tests(self) -> bool {
        use Ending::*;
        !matches!(self, Missing | OneFewer | BeforeLast | Early)
            && !matches!(self, LongestMade | LongestRead | LongerStill)
    }
}

/// Plan bytes of a job with an end made on purpose.
pub struct EndedPlan {
    pub job: Job,
    pub plan: Vec<u8>,
    /// What reading has to answer: the end set, or the offset of refusal 11.
    pub foreseen: Result<u64, usize>,
}

/// Map and set.
fn end_step(set: u64) -> Vec<u8> {
    let mut bytes = vec![1];
    bytes.extend(parts::set_bytes(set));
    bytes
}

/// What the bits 0 to 2 of a map ask for: drops, loads and a test.
fn asked_for(random: &mut Random, map: u8, curves: usize, tests: usize) -> Vec<u8> {
    let mut bytes = Vec::new();
    for bit in [1, 2] {
        if map & bit != 0 {
            bytes.extend(parts::set_bytes(in_groups(random, curves, 1)));
        }
    }
    if map & 4 != 0 {
        bytes.push(random.below(tests.max(1)) as u8);
    }
    bytes
}

/// A plan's bytes with this end, and what is foreseen of them. `None`: the plan does not allow it.
pub(crate) fn with_ending(
    random: &mut Random,
    job: &Job,
    made: &SomePlan,
    ending: Ending,
) -> Option<(Vec<u8>, Result<u64, usize>)> {
    let tests = job.wants.len();
    let all = all_curves(job.curves);
    let held = made.end;
    let mut bytes = made.first_bytes(tests);
    let start = bytes.len();
    // Where reading does not come to an end, any set will do.
    let groups = random.between(1, job.curves.div_ceil(8));
    let set = match random.below(2) {
        0 if held != 0 => held,
        _ => in_groups(random, job.curves, groups),
    };
    let step = end_step(set);
    let behind = start + step.len();
    let foreseen = match ending {
        Ending::Held => {
            bytes = made.bytes();
            Ok(held)
        }
        Ending::Missing if held != 0 => Ok(0),
        Ending::OneMore if held != all => {
            let more = held | one_of(random, all & !held);
            bytes.extend(end_step(more));
            Ok(more)
        }
        Ending::OneFewer if held.count_ones() > 1 => {
            let fewer = held & !one_of(random, held);
            bytes.extend(end_step(fewer));
            Ok(fewer)
        }
        Ending::All | Ending::All64 if held != all => {
            bytes.extend(end_step(all));
            Ok(all)
        }
        Ending::Others if set != held => {
            bytes.extend(step);
            Ok(set)
        }
        Ending::Map(map) => {
            bytes.push(map);
            if random.chance(1, 2) {
                bytes.extend(&step[1..]);
            } else {
                bytes.extend(asked_for(random, map, job.curves, tests));
            }
            Err(start)
        }
        Ending::AnyMap => {
            bytes.push(random.byte() | random.pick(&[2, 4, 8, 16, 32, 64, 128]));
            bytes.extend(&step[1..]);
            Err(start)
        }
        Ending::NoGroups => {
            bytes.extend([1, 0]);
            if random.chance(1, 2) {
                bytes.extend(&step[2..]);
            }
            Err(start + 1)
        }
        Ending::HollowGroup => {
            let at = start + random.between(2, step.len() - 1);
            bytes.extend(step);
            bytes[at] = 0;
            Err(at)
        }
        Ending::Foreign if job.curves < 64 => {
            let own = if random.chance(1, 4) { 0 } else { set };
            let foreign = one_of(random, !all);
            let group = foreign.trailing_zeros() / 8;
            let before = (0..group).filter(|g| own >> (8 * g) & 0xff != 0).count();
            bytes.extend(end_step(own | foreign));
            Err(start + 2 + before)
        }
        Ending::AllOnes if job.curves < 64 => {
            bytes.extend(end_step(u64::MAX));
            Err(start + 2 + job.curves / 8)
        }
        // The set has so many groups that something is cut off.
        Ending::Cut(length) if length <= 1 + job.curves.div_ceil(8) => {
            let least = length.saturating_sub(1).max(1);
            let groups = random.between(least, job.curves.div_ceil(8));
            bytes.extend(&end_step(in_groups(random, job.curves, groups))[..length]);
            Err(start + length)
        }
        Ending::Doubled => {
            bytes.extend(&step);
            bytes.extend(&step);
            Err(behind)
        }
        Ending::Another => {
            bytes.extend(step);
            bytes.extend(end_step(in_groups(random, job.curves, groups)));
            Err(behind)
        }
        Ending::Step => {
            bytes.extend(step);
            match tests {
                0 => bytes.extend([4, 0]),
                _ => bytes.extend(made.first_bytes(1)),
            }
            Err(behind)
        }
        Ending::Surplus => {
            bytes.extend(step);
            let byte = random.byte();
            bytes.push(random.pick(&[0, 1, 4, 255, byte]));
            Err(behind)
        }
        Ending::BeforeLast | Ending::Early if tests > 0 => {
            let steps = match ending {
                Ending::BeforeLast => tests - 1,
                _ => random.below(tests),
            };
            let at = made.first_bytes(steps).len();
            // The right end step may stand at the end as well.
            if random.chance(1, 2) {
                bytes = made.bytes();
            }
            drop(bytes.splice(at..at, step));
            Err(at)
        }
        _ => return None,
    };
    Some((bytes, foreseen))
}

/// Plan bytes with this end, of a job that allows it.
pub fn ended_plan(random: &mut Random, size: Size, ending: Ending) -> EndedPlan {
    let (job, plan, foreseen) = match ending {
        Ending::LongestMade => {
            let (job, made) = longest_made(random);
            (job, made.bytes(), Ok(made.end))
        }
        Ending::LongestRead => {
            let (job, made) = longest_read(random);
            (job, made.bytes(), Ok(made.end))
        }
        Ending::LongerStill => {
            let (job, made) = longest_read(random);
            let mut plan = made.bytes();
            plan.push(random.byte());
            (job, plan, Err(PLAN_READ))
        }
        _ => loop {
            let mut job = job(random, size);
            if ending == Ending::All64 {
                job.curves = 64;
            }
            let made = some_plan(random, &job);
            if let Some((plan, foreseen)) = with_ending(random, &job, &made, ending) {
                break (job, plan, foreseen);
            }
        },
    };
    EndedPlan {
        job,
        plan,
        foreseen,
    }
}

/// Faults in the counts handed over with plan bytes.
fn spoil_counts(random: &mut Random, curves: &mut usize, tests: &mut usize) {
    match random.below(7) {
        0 => *curves = random.pick(&WILD),
        1 => *tests = random.pick(&[0, 0, 257, 257, 258, 512, 1 << 32, usize::MAX]),
        2 => {
            *curves = random.pick(&WILD);
            *tests = random.pick(&[0, 257, 1 << 32, usize::MAX]);
        }
        3 => *curves = curves.saturating_sub(1),
        4 => *tests = tests.saturating_sub(1),
        5 => *tests += 1,
        _ => *curves += 1,
    }
}

/// Plan bytes with the counts handed over for them.
struct HandedBytes {
    curves: usize,
    tests: usize,
    plan: Vec<u8>,
    ending: Option<Ending>,
}

fn any_plan_bytes(random: &mut Random, size: Size) -> HandedBytes {
    if random.chance(1, 3) {
        let (ending, _) = random.pick(&ENDINGS);
        let EndedPlan { job, plan, .. } = ended_plan(random, size, ending);
        let mut curves = job.curves;
        let mut tests = job.wants.len();
        if random.chance(1, 8) {
            spoil_counts(random, &mut curves, &mut tests);
        }
        // Of a list without tests this is no end any more.
        let steps_alone = tests == 0 && !job.wants.is_empty();
        return HandedBytes {
            curves,
            tests,
            plan,
            ending: (!steps_alone).then_some(ending),
        };
    }
    let job = job(random, size);
    let mut curves = job.curves;
    let mut tests = job.wants.len();
    let mut bytes = match random.below(8) {
        0..=4 => some_plan(random, &job).bytes(),
        5 | 6 => {
            // Steps that mean nothing, but are well formed: tests may repeat.
            let all = all_curves(curves);
            let order: Vec<u16> = (0..tests).map(|_| random.below(tests) as u16).collect();
            let drops: Vec<u64> = (0..tests).map(|_| some_of(random, all)).collect();
            let loads: Vec<u64> = (0..tests).map(|_| some_of(random, all)).collect();
            let end = some_of(random, all);
            reference::plan_bytes(&order, &drops, &loads, end)
        }
        _ => {
            let length = random.below(16);
            (0..length)
                .map(|_| random.pick(&[0, 1, 2, 4, 5, 6, 7, 7, 8, 255]))
                .collect()
        }
    };
    match random.below(10) {
        0..=4 => {}
        5..=7 => damage(random, &mut bytes),
        _ => {
            damage(random, &mut bytes);
            damage(random, &mut bytes);
        }
    }
    if random.chance(7, 24) {
        spoil_counts(random, &mut curves, &mut tests);
    }
    HandedBytes {
        curves,
        tests,
        plan: bytes,
        ending: None,
    }
}

/// Job bytes and plan bytes for an audit: a plan with an end made on purpose; or a plan of the job,
/// ours or another, with faults in the steps or the end set, in the bytes of either or of both, or
/// with the bytes of another job.
fn audited(random: &mut Random, size: Size) -> (Vec<u8>, Vec<u8>, Option<Ending>) {
    if random.chance(1, 4) {
        let (ending, _) = random.pick(&ENDINGS);
        let EndedPlan { job, plan, .. } = ended_plan(random, size, ending);
        let mut bytes = old_or_new(random, &job);
        if random.chance(1, 12) {
            damage(random, &mut bytes);
            return (bytes, plan, None); // perhaps of another job
        }
        return (bytes, plan, Some(ending));
    }
    let job = job(random, size);
    let tests = job.wants.len();
    let mut made = fitting_or_not(random, &job, 0);
    if random.chance(1, 3) {
        spoil_plan(random, &mut made.drops, &mut made.loads, job.curves);
        // In bytes every step has its sets.
        made.drops.resize(tests, 0);
        made.loads.resize(tests, 0);
        if random.chance(1, 2) {
            made.end = reference::held_behind(0, &made.drops, &made.loads);
        }
    }
    if random.chance(1, 8) {
        spoil_end(random, &mut made.end, job.curves);
    }
    if tests > 0 && random.chance(1, 8) {
        let at = random.below(tests);
        made.order[at] = random.pick(&made.order);
    }
    let mut bytes = old_or_new(random, &job);
    let mut plan = made.bytes();
    match random.below(14) {
        0..=7 => {}
        8 => damage(random, &mut plan),
        9 => {
            damage(random, &mut plan);
            damage(random, &mut plan);
        }
        10 => damage(random, &mut bytes),
        11 => {
            damage(random, &mut bytes);
            damage(random, &mut plan);
        }
        _ => bytes = any_job_bytes(random, size),
    }
    (bytes, plan, None)
}

// ---------------------------------------------------------------------------------------------
// Sets and numbers

const EDGE_SETS: [u64; 14] = [
    0,
    0,
    1,
    2,
    3,
    0xff,
    0xff00,
    1 << 62,
    1 << 63,
    u64::MAX >> 1,
    u64::MAX - 1,
    u64::MAX,
    u64::MAX,
    0x8000_0000_0000_0001,
];

const EDGE_NUMBERS: [usize; 24] = [
    0,
    1,
    7,
    8,
    31,
    32,
    62,
    63,
    63,
    64,
    64,
    65,
    65,
    66,
    127,
    128,
    255,
    256,
    1 << 32,
    (1 << 32) + 1,
    1 << 61,
    1 << 63,
    usize::MAX - 1,
    usize::MAX,
];

/// Any 64-bit number: an edge, dense, sparse, or with some groups of eight empty.
pub(crate) fn any_set(random: &mut Random) -> u64 {
    match random.below(4) {
        0 => random.pick(&EDGE_SETS),
        1 => random.word(),
        2 => random.word() & random.word() & random.word(),
        _ => {
            let mut set = 0;
            for group in 0..8 {
                if random.chance(1, 2) {
                    set |= (random.byte() as u64) << (8 * group);
                }
            }
            set
        }
    }
}

/// A set beside another: the same, all it lacks, a part of it, more than it, or any.
fn beside(random: &mut Random, set: u64) -> u64 {
    match random.below(8) {
        0 => set,
        1 => !set,
        2 => some_of(random, set),
        3 => set | random.word(),
        _ => any_set(random),
    }
}

pub(crate) fn any_number(random: &mut Random) -> usize {
    if random.chance(1, 2) {
        random.pick(&EDGE_NUMBERS)
    } else {
        random.below(64)
    }
}

/// A group byte and where it stands.
fn group_case(random: &mut Random) -> Case {
    let length = random.below(7);
    let rest: Vec<u8> = (0..length)
        .map(|_| {
            if random.chance(1, 2) {
                random.byte()
            } else {
                random.pick(&[0, 0, 1, 2, 0x10, 0x7f, 0x80, 0xff])
            }
        })
        .collect();
    let at = match random.below(8) {
        0 => length,
        1 => random.pick(&[length + 1, 255, 1 << 32, usize::MAX]),
        _ => random.below(length.max(1)),
    };
    let group = if random.chance(1, 6) {
        random.pick(&[8, 9, 15, 16, 31, 32, 255, 1 << 32, 1 << 61, usize::MAX])
    } else {
        random.below(8)
    };
    let curves = match random.below(4) {
        0 => random.pick(&EDGE_NUMBERS),
        1 => 64,
        2 => random.between(1, 64),
        // In the middle of the group.
        _ => 8 * group.min(8) + random.between(0, 8),
    };
    Case::ReadGroup {
        rest,
        at,
        group,
        curves,
    }
}

/// A job with faults in its numbers and wants; more often than not with one at least.
fn spoilt_job(random: &mut Random, size: Size) -> Job {
    let mut job = job(random, size);
    for _ in 0..3 {
        spoil_numbers(random, &mut job);
    }
    job
}

// ---------------------------------------------------------------------------------------------
// Cases

/// The first cases of a run go through every function on the bounds, 40 times each.
pub const EDGE_CASES: u64 = 40 * FUNCTIONS.len() as u64;

/// The case with this number; of this one function, if it is given.
pub fn case(seed: u64, number: u64, only: Option<usize>) -> Case {
    let mut random = Random::of_case(seed, number);
    let random = &mut random;
    if number < EDGE_CASES {
        let function = only.unwrap_or(number as usize % FUNCTIONS.len());
        let size = random.pick(&[Size::Edge, Size::Edge, Size::Edge, Size::Full]);
        return case_of(function, size, random);
    }
    let mut roll = random.below(SHARES.iter().sum());
    let mut function = 0;
    while roll >= SHARES[function] {
        roll -= SHARES[function];
        function += 1;
    }
    let function = only.unwrap_or(function);
    if random.chance(1, 8) {
        if let Some(case) = empty::case(function, random) {
            return case;
        }
    }
    if let Some(case) = degrees::case(function, random) {
        return case;
    }
    if random.chance(1, 8) {
        if let Some(case) = booked::case(function, random) {
            return case;
        }
    }
    if let Some(case) = holding::case(function, random) {
        return case;
    }
    if random.chance(1, 12) {
        if let Some(case) = withdrawn::case(function, random) {
            return case;
        }
    }
    let size = size(random);
    case_of(function, size, random)
}

pub fn case_of(function: usize, size: Size, random: &mut Random) -> Case {
    match function {
        0 => {
            let job = any_job_bytes(random, size);
            let needed = match reference::read_job(&job, usize::MAX) {
                Ok(read) => read.tests,
                Err(_) => random.below(20),
            };
            Case::ReadJob {
                job,
                wants_len: lent(random, needed),
            }
        }
        1 => {
            let mut job = job(random, size);
            spoil_numbers(random, &mut job);
            let needed = match job_written(&job) {
                Ok(bytes) => bytes.len(),
                Err(_) => random.below(20),
            };
            Case::WriteJob {
                places: job.places,
                booked: job.booked,
                curves: job.curves,
                method: job.method,
                wants: job.wants,
                out_len: lent(random, needed),
            }
        }
        2 => {
            let mut job = if random.chance(1, 10) {
                flipping_job(random)
            } else {
                job(random, size)
            };
            spoil_numbers(random, &mut job);
            let order_len = if random.chance(1, 3) {
                lent(random, job.wants.len())
            } else {
                enough(random, job.wants.len())
            };
            Case::OrderTests {
                places: job.places,
                booked: job.booked,
                curves: job.curves,
                method: job.method,
                wants: job.wants,
                order_len,
            }
        }
        3 => {
            let mut job = job(random, size);
            if large(size) && !job.wants.is_empty() && random.chance(1, 4) {
                // All 64 curves are held at the end.
                (job.places, job.booked, job.curves) = (64, 0, 64);
                let test = random.below(job.wants.len());
                job.wants[test] = u64::MAX;
            }
            let held = holding::any(random, &job);
            let tests = job.wants.len();
            let mut order = permutation(random, tests);
            if random.chance(1, 8) && job.method != 3 {
                let (places, booked, curves) = (job.places, job.booked, job.curves);
                let wants = &job.wants;
                if let Ok(made) =
                    reference::order_tests(places, booked, curves, job.method, wants, tests)
                {
                    order = made;
                }
            }
            spoil_numbers(random, &mut job);
            let tests = job.wants.len();
            spoil_order(random, &mut order, tests);
            let (drops_len, loads_len) = if random.chance(1, 3) {
                (lent(random, tests), lent(random, tests))
            } else {
                (enough(random, tests), enough(random, tests))
            };
            Case::PlanOrder {
                places: job.places,
                booked: job.booked,
                curves: job.curves,
                wants: job.wants,
                held,
                order,
                drops_len,
                loads_len,
            }
        }
        5 if large(size) && random.chance(1, 3) => {
            let (job, made) = longest_made(random);
            Case::WritePlan {
                places: job.places,
                booked: job.booked,
                curves: job.curves,
                wants: job.wants,
                held: 0,
                order: made.order,
                drops: made.drops,
                loads: made.loads,
                end: made.end,
                out_len: around(random, PLAN_MADE),
            }
        }
        4 | 5 => {
            let (mut job, held, made) = if large(size) && random.chance(1, 4) {
                let (job, made) = longest_made(random);
                (job, 0, made)
            } else {
                let job = job(random, size);
                let held = holding::any(random, &job);
                let made = fitting_or_not(random, &job, held);
                (job, held, made)
            };
            let SomePlan {
                mut order,
                mut drops,
                mut loads,
                mut end,
            } = made;
            spoil_plan(random, &mut drops, &mut loads, job.curves);
            if random.chance(1, 2) {
                end = reference::held_behind(held, &drops, &loads);
            }
            if random.chance(1, 3) {
                spoil_end(random, &mut end, job.curves);
            }
            if random.chance(1, 4) {
                spoil_numbers(random, &mut job);
            }
            if random.chance(1, 2) {
                spoil_order(random, &mut order, job.wants.len());
            }
            // A place fewer, or one more booked.
            match random.below(40) {
                0 => job.places -= job.places.min(1),
                1 => job.booked = job.booked.saturating_add(1),
                _ => {}
            }
            let Job {
                places,
                booked,
                curves,
                wants,
                ..
            } = job;
            if function == 4 {
                return Case::CheckPlan {
                    places,
                    booked,
                    curves,
                    wants,
                    held,
                    order,
                    drops,
                    loads,
                    end,
                };
            }
            let tests = wants.len();
            let answer = reference::write_plan(
                places,
                booked,
                curves,
                &wants,
                held,
                &order,
                &drops,
                &loads,
                end,
                usize::MAX,
            );
            let needed = match answer {
                Ok(bytes) => bytes.len(),
                // Sound steps and another end set: what the bytes would take.
                Err(no)
                    if no == reference::refusal(12, tests)
                        && (drops.len(), loads.len()) == (tests, tests) =>
                {
                    reference::plan_bytes(&order, &drops, &loads, end).len()
                }
                Err(_) => random.below(40),
            };
            Case::WritePlan {
                places,
                booked,
                curves,
                wants,
                held,
                order,
                drops,
                loads,
                end,
                out_len: lent(random, needed),
            }
        }
        6 => {
            let HandedBytes {
                curves,
                tests,
                plan,
                ending,
            } = any_plan_bytes(random, size);
            let needed = tests.min(300);
            let (order_len, drops_len, loads_len) = match random.below(6) {
                0 => (
                    lent(random, needed),
                    lent(random, needed),
                    lent(random, needed),
                ),
                1 => {
                    // Only one of the three is short.
                    let mut lengths = [needed, needed, needed];
                    lengths[random.below(3)] = needed.saturating_sub(1);
                    (lengths[0], lengths[1], lengths[2])
                }
                _ => (
                    enough(random, needed),
                    enough(random, needed),
                    enough(random, needed),
                ),
            };
            Case::ReadPlan {
                curves,
                tests,
                plan,
                ending,
                order_len,
                drops_len,
                loads_len,
            }
        }
        7 => {
            let HandedBytes {
                curves,
                tests,
                plan,
                ending,
            } = any_plan_bytes(random, size);
            let further = match random.below(3) {
                0 => random.pick(&[257, 300, 65_535, 65_536, 1 << 32, usize::MAX]),
                1 => tests.saturating_add(random.between(1, 9)),
                _ => plan.len(),
            };
            Case::StepBytes {
                curves,
                tests,
                plan,
                ending,
                further,
            }
        }
        8 if large(size) && random.chance(1, 3) => {
            let each = random.between(1, 4);
            Case::Call {
                job: job_bytes(&longest_job(random, each)),
                plan_len: around(random, PLAN_MADE),
            }
        }
        8 => {
            let job = any_job_bytes(random, size);
            let plan_len = match random.below(8) {
                0..=4 => random.pick(&[PLAN_MADE, PLAN_MADE, PLAN_READ, 6_000]),
                5 => random.below(64),
                _ => {
                    // Exactly enough, or one too few.
                    let slow = job.len() > 600 && job[0] & 8 == 8;
                    let needed = if slow {
                        random.between(1_000, 3_000)
                    } else {
                        reference::call(&job, usize::MAX).1.len()
                    };
                    lent(random, needed)
                }
            };
            Case::Call { job, plan_len }
        }
        9 if large(size) && random.chance(1, 2) => Case::Sheet {
            job: job_bytes(&longest_job(random, 4)),
            out_len: around(random, SHEET),
        },
        9 => {
            let job = any_job_bytes(random, size);
            // Ordering it twice may be slow: see the C call.
            let slow = job.len() > 600 && job[0] & 8 == 8;
            let out_len = if slow || random.chance(1, 4) {
                random.pick(&[SHEET, SHEET, 1_000, 0])
            } else {
                lent(random, reference::sheet(&job).len())
            };
            Case::Sheet { job, out_len }
        }
        10 => {
            let (job, plan, ending) = audited(random, size);
            let needed = reference::audit_text(&reference::audit(&job, &plan)).len();
            Case::Audit {
                job,
                plan,
                ending,
                out_len: lent(random, needed),
            }
        }
        11 => {
            let Job {
                places,
                booked,
                curves,
                wants,
                ..
            } = spoilt_job(random, size);
            Case::Examine {
                places,
                booked,
                curves,
                wants,
            }
        }
        12 => {
            let Job {
                places,
                booked,
                curves,
                method,
                wants,
            } = spoilt_job(random, size);
            Case::ExamineBy {
                places,
                booked,
                curves,
                method,
                wants,
            }
        }
        13 => {
            let curves = if random.chance(1, 3) {
                any_number(random)
            } else {
                random.between(1, 64)
            };
            let tests = match random.below(4) {
                0 => any_number(random),
                1 => random.pick(&[0, 1, 255, 256, 257, 258, 512]),
                _ => random.between(1, 256),
            };
            Case::ExamineCounts { curves, tests }
        }
        14 => {
            let job = job(random, size);
            let mut capacity = job.capacity();
            let mut wants = job.wants;
            // Any list is examined, however long, and any sets.
            match random.below(12) {
                0 => wants.clear(),
                1 => wants.resize(random.between(257, 300), any_set(random)),
                2 | 3 if !wants.is_empty() => {
                    for _ in 0..random.between(1, 2) {
                        let test = random.below(wants.len());
                        wants[test] = any_set(random);
                    }
                }
                _ => {}
            }
            if random.chance(1, 3) {
                capacity = any_number(random);
            }
            Case::ExamineSizes { capacity, wants }
        }
        15 => group_case(random),
        16 => Case::GroupMap {
            set: any_set(random),
        },
        17 => Case::SetLen {
            set: any_set(random),
        },
        18 => {
            let set = any_set(random);
            let needed = parts::set_bytes(set).len();
            Case::PutSet {
                set,
                out_len: lent(random, needed),
            }
        }
        19 => Case::Reverse {
            length: random.below(300),
        },
        20 => {
            let tests = if random.chance(1, 6) {
                random.between(255, 400)
            } else {
                random.below(257)
            };
            Case::ListedOrder {
                tests,
                order_len: lent(random, tests),
            }
        }
        21 => {
            let job = job(random, size);
            let mut capacity = job.capacity();
            let mut wants = job.wants;
            // Any list is taken, however long, with any sets and any capacity.
            match random.below(12) {
                0 => wants.clear(),
                1 => wants.resize(random.between(257, 300), any_set(random)),
                2 | 3 if !wants.is_empty() => {
                    for _ in 0..random.between(1, 2) {
                        let test = random.below(wants.len());
                        wants[test] = any_set(random);
                    }
                }
                _ => {}
            }
            if random.chance(1, 6) {
                capacity = any_number(random);
            }
            let order_len = lent(random, wants.len());
            Case::PackageOrder {
                capacity,
                wants,
                order_len,
            }
        }
        32 => match random.below(3) {
            0 => walks::instead_of_planning(case_of(PLAN_ORDER, size, random)),
            _ => walks::make_case(random, size),
        },
        33 => walks::look_case(random),
        34 => walks::commit_case(random),
        35 => walks::walk_case(random, size),
        36 => drives::sizes_case(random, size),
        37 => drives::fewest_case(random, size),
        38 => drives::table_case(random, size),
        _ => {
            let mut a = any_set(random);
            let mut b = beside(random, a);
            if random.chance(1, 8) {
                a = random.pick(&[0, u64::MAX]);
                b = random.pick(&[0, u64::MAX]);
            }
            Case::Sets {
                function: SET_FUNCTIONS[function - FIRST_SET],
                a,
                b,
                k: any_number(random),
            }
        }
    }
}
