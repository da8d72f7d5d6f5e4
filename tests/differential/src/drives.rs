//! Every drive size together (wish 9): lists with orders of them, wanted counts, job bytes for tables, and
//! what is told of these.

use crate::booked;
use crate::generate::{
    self, all_curves, flipping_job, lent, one_of, permutation, random_set, spoil_tests,
    with_booked, Case, Job, Size, WILD,
};
use crate::random::Random;
use crate::reference::{read_job, Answer, Refusal};
use crate::sizes::{
    all_sizes, different_curves, fewest, table_text, wanted, Counts, Table, MARK, SIZES,
};
use crate::withdrawn::{self, field_of_2, old_or_new};
use std::collections::BTreeSet;

// ---------------------------------------------------------------------------------------------
// Lists

/// A list and an order of it.
#[derive(Clone, Debug)]
pub struct List {
    pub curves: usize,
    pub wants: Vec<u64>,
    pub order: Vec<u16>,
}

impl List {
    pub fn counts(&self) -> Answer<Counts> {
        all_sizes(self.curves, &self.wants, &self.order)
    }

    fn listed(&self) -> List {
        List {
            order: (0..self.wants.len() as u16).collect(),
            ..self.clone()
        }
    }
}

/// What a case hands over.
pub fn list_of(case: &Case) -> Option<List> {
    match case {
        Case::AllSizes {
            curves,
            wants,
            order,
        }
        | Case::FewestPlaces {
            curves,
            wants,
            order,
            ..
        } => Some(List {
            curves: *curves,
            wants: wants.clone(),
            order: order.clone(),
        }),
        _ => None,
    }
}

fn tests_of(random: &mut Random, size: Size) -> usize {
    match size {
        Size::Tiny => random.pick(&[0, 1, 1, 2, 2, 3, 4, 5, 6, 8]),
        Size::Small => random.pick(&[2, 7, 12, 16, 16, 24]),
        Size::Medium => random.pick(&[25, 40, 64, 64, 80]),
        Size::Full => random.pick(&[200, 255, 256, 256]),
        Size::Edge => random.pick(&[0, 1, 2, 16, 64, 256, 256, 256]),
    }
}

fn curves_of(random: &mut Random) -> usize {
    match random.below(2) {
        0 => random.pick(&[1, 2, 8, 8, 63, 64, 64, 64]),
        _ => random.between(1, 64),
    }
}

/// Each test wants between so many curves.
fn between(random: &mut Random, tests: usize, curves: usize, low: usize, high: usize) -> Vec<u64> {
    let mut wants = Vec::new();
    for _ in 0..tests {
        let number = random.between(low, high);
        wants.push(random_set(random, curves, number));
    }
    wants
}

/// The curves in any order.
fn shuffled(random: &mut Random, curves: usize) -> Vec<u64> {
    let mut all: Vec<u64> = (0..curves).map(|curve| 1 << curve).collect();
    random.shuffle(&mut all);
    all
}

/// Two sets take turns, each of half of the curves, and none is in both: with less than all places, and
/// enough for a half, much has to be loaded in each step.
pub fn halves(random: &mut Random, tests: usize, curves: usize) -> Vec<u64> {
    let all = shuffled(random, curves);
    let (one, other) = all.split_at(curves / 2);
    let halves = [one.iter().sum(), other.iter().sum()];
    (0..tests).map(|test| halves[test % 2]).collect()
}

/// So many curves each, one behind the other through all of them and again: each place more saves loads.
pub fn in_turn(random: &mut Random, tests: usize, curves: usize, each: usize) -> Vec<u64> {
    let all = shuffled(random, curves);
    let mut next = all.iter().cycle();
    let mut wants = Vec::new();
    for _ in 0..tests {
        wants.push(next.by_ref().take(each).fold(0, |set, one| set | one));
    }
    wants
}

fn wants(random: &mut Random, tests: usize, curves: usize) -> Vec<u64> {
    match random.below(12) {
        // Few, many, all, or any number.
        0 | 1 => between(random, tests, curves, 0, curves.min(3)),
        2 => between(random, tests, curves, curves - curves / 4, curves),
        3 => vec![all_curves(curves); tests],
        4 => between(random, tests, curves, 0, curves),
        // Up to a width.
        5 | 6 => {
            let most = random.between(1, curves);
            between(random, tests, curves, 0, most)
        }
        7 => halves(random, tests, curves),
        8 => {
            let each = random.pick(&[1, 1, 2, 3]);
            in_turn(random, tests, curves, each)
        }
        // Few, and in one test many.
        9 => {
            let mut wants = between(random, tests, curves, 0, curves.min(3));
            if let Some(last) = wants.len().checked_sub(1) {
                let test = random.between(0, last);
                let number = random.between(curves / 2, curves);
                wants[test] = random_set(random, curves, number);
            }
            wants
        }
        10 if random.chance(1, 3) => vec![0; tests],
        _ => {
            let capacity = random.between(1, 64);
            generate::wants(random, tests, capacity, curves)
        }
    }
}

/// More large lists than of other functions.
fn larger(random: &mut Random, size: Size) -> Size {
    match random.below(20) {
        0 => random.pick(&[Size::Full, Size::Edge, Size::Edge]),
        1 => Size::Medium,
        _ => size,
    }
}

/// The most wants there are, the most loads, or the most different counts.
fn extreme(random: &mut Random) -> List {
    let wants = match random.below(4) {
        0 => vec![u64::MAX; 256],
        1 | 2 => halves(random, 256, 64),
        _ => in_turn(random, 256, 64, 1),
    };
    let mut order: Vec<u16> = (0..256).collect();
    if random.chance(1, 2) {
        order.reverse();
    }
    List {
        curves: 64,
        wants,
        order,
    }
}

pub fn sound(random: &mut Random, size: Size) -> List {
    if size == Size::Edge && random.chance(1, 2) {
        return extreme(random);
    }
    let (tests, curves) = (tests_of(random, size), curves_of(random));
    List {
        curves,
        wants: wants(random, tests, curves),
        order: permutation(random, tests),
    }
}

// ---------------------------------------------------------------------------------------------
// Faults

/// What can be faulty. The first three are asked in this sequence, and before 8; of 8 the first position
/// counts.
pub const FAULTS: [&str; 7] = [
    "10:1",
    "10:2",
    "10:4+t",
    "8:short",
    "8:long",
    "8:repeated",
    "8:outside",
];

/// All that is faulty, each whatever else is. Repeated numbers and those out of range count where a test
/// is owed.
pub fn faults(list: &List) -> Vec<&'static str> {
    let tests = list.wants.len();
    let own = all_curves(list.curves);
    let order = &list.order[..tests.min(list.order.len())];
    let different: BTreeSet<&u16> = order.iter().collect();
    let faulty = [
        !(1..=64).contains(&list.curves),
        tests > 256,
        list.wants.iter().any(|want| want & !own != 0),
        list.order.len() < tests,
        list.order.len() > tests,
        different.len() < order.len(),
        order.iter().any(|&test| test as usize >= tests),
    ];
    let named = FAULTS.iter().zip(faulty).filter(|(_, faulty)| *faulty);
    named.map(|(name, _)| *name).collect()
}

/// One of these faults, if the list allows it.
fn spoil(random: &mut Random, list: &mut List, fault: &str) {
    let tests = list.wants.len();
    match fault {
        "10:1" => list.curves = random.pick(&WILD),
        "10:2" => {
            spoil_tests(random, &mut list.wants);
            if random.chance(1, 2) {
                list.order = permutation(random, list.wants.len());
            }
        }
        "8:long" => {
            if list.order.len() < tests {
                list.order = permutation(random, tests);
            }
            for _ in 0..random.between(1, 3) {
                let (near, any) = (random.below(tests + 1) as u16, random.word() as u16);
                list.order.push(random.pick(&[0, tests as u16, near, any]));
            }
        }
        _ if tests == 0 => {}
        "10:4+t" => {
            if list.curves == 64 {
                list.curves = random.between(1, 63);
            }
            let lacking = !all_curves(list.curves);
            for _ in 0..random.between(1, 2) {
                let test = random.below(tests);
                list.wants[test] |= one_of(random, lacking);
            }
        }
        "8:short" => {
            let any = random.below(tests);
            list.order
                .truncate(random.pick(&[tests - 1, tests - 1, any, 0]));
        }
        _ if list.order.is_empty() => {}
        "8:repeated" => {
            let at = random.below(list.order.len());
            let other = random.below(list.order.len());
            list.order[at] = list.order[other];
        }
        _ => {
            let at = random.below(list.order.len());
            let number = tests as u16;
            list.order[at] = random.pick(&[number, number, number + 1, 512, 0xff00, u16::MAX]);
        }
    }
}

/// A sound list, or one with up to three faults.
fn any_list(random: &mut Random, size: Size) -> List {
    let size = larger(random, size);
    let mut list = sound(random, size);
    for _ in 0..random.pick(&[0, 0, 0, 1, 2, 2, 3]) {
        let fault = random.pick(&FAULTS);
        spoil(random, &mut list, fault);
    }
    list
}

/// One fault alone, or any two.
pub fn fault_names() -> Vec<&'static str> {
    let mut names: Vec<&'static str> = Vec::new();
    for (at, first) in FAULTS.iter().enumerate() {
        names.push(format!("{first}-alone").leak());
        for other in &FAULTS[at + 1..] {
            // No order is both.
            if (*first, *other) != ("8:short", "8:long") {
                names.push(format!("{first}+{other}").leak());
            }
        }
    }
    names
}

/// The names among these of what is faulty.
pub fn fault_kinds(list: &List, names: &[&'static str]) -> Vec<&'static str> {
    let faults = faults(list);
    let mut told = Vec::new();
    for (at, first) in faults.iter().enumerate() {
        for other in &faults[at + 1..] {
            told.push(format!("{first}+{other}"));
        }
    }
    if let [alone] = faults[..] {
        told.push(format!("{alone}-alone"));
    }
    let known = |name: &String| {
        let known = names.iter().find(|known| *known == name);
        *known.unwrap_or_else(|| panic!("{name} is unforeseen"))
    };
    told.iter().map(known).collect()
}

/// Where 8 is: at an entry, at the first missing position, or at the first surplus one.
pub const POSITIONS: [&str; 3] = ["entry", "missing", "surplus"];

pub fn position_kind(list: &List, answer: &Answer<Counts>) -> Option<&'static str> {
    let position = match answer {
        Err(no) if no.number == 8 => no.figure as usize,
        _ => return None,
    };
    let (length, tests) = (list.order.len(), list.wants.len());
    Some(match position {
        _ if position < length.min(tests) => "entry",
        _ if position == length => "missing",
        _ => "surplus",
    })
}

pub fn sizes_case(random: &mut Random, size: Size) -> Case {
    let list = any_list(random, size);
    Case::AllSizes {
        curves: list.curves,
        wants: list.wants,
        order: list.order,
    }
}

// ---------------------------------------------------------------------------------------------
// What is told of lists

/// What is told of a list that is not refused: how many tests and curves it has; how many sizes are marked;
/// how many different counts there are; that 63 places need more loads than 64, that the counts are
/// as large as can be, or above a byte, that all tests want all 64 curves; and that the counts are others
/// as listed, or where the curve last wanted longest ago would be dropped.
pub const LISTS: [&str; 24] = [
    "0-tests",
    "1-test",
    "2-tests",
    "16-tests",
    "64-tests",
    "256-tests",
    "1-curve",
    "8-curves",
    "63-curves",
    "64-curves",
    "nothing-wanted",
    "no-mark",
    "1-mark",
    "2-to-62-marks",
    "63-marks",
    "one-count",
    "several-counts",
    "64-counts",
    "all-64-needed",
    "above-255",
    "8192-loads",
    "16384-wants",
    "others-as-listed",
    "others-by-oldest",
];

/// The kinds of a list with these counts, for which the paper's sentences have to hold.
pub fn kinds(list: &List, counts: &Counts) -> Vec<&'static str> {
    let List { curves, wants, .. } = list;
    let widest = wants.iter().map(|want| want.count_ones() as usize).max();
    let widest = widest.unwrap_or(0);
    let different = different_curves(wants);
    assert_eq!(counts.len(), SIZES);
    assert_eq!(counts[SIZES - 1], Some(different));
    for (at, count) in counts.iter().enumerate() {
        assert_eq!(count.is_some(), widest <= at + 1, "{list:x?}");
        assert!(count.is_none_or(|count| different <= count && count < MARK as u64));
        let more = counts.get(at + 1).copied().flatten();
        assert!(more.is_none_or(|more| count.is_none_or(|count| more <= count)));
    }
    let mut kinds = Vec::new();
    let mut note = |told: bool, name: &'static str| {
        if told {
            kinds.push(name);
        }
    };
    note(wants.is_empty(), "0-tests");
    note(wants.len() == 1, "1-test");
    note(wants.len() == 2, "2-tests");
    note(wants.len() == 16, "16-tests");
    note(wants.len() == 64, "64-tests");
    note(wants.len() == 256, "256-tests");
    note(*curves == 1, "1-curve");
    note(*curves == 8, "8-curves");
    note(*curves == 63, "63-curves");
    note(*curves == 64, "64-curves");
    note(!wants.is_empty() && different == 0, "nothing-wanted");
    let marks = counts.iter().filter(|count| count.is_none()).count();
    note(marks == 0, "no-mark");
    note(marks == 1, "1-mark");
    note((2..=62).contains(&marks), "2-to-62-marks");
    note(marks == 63, "63-marks");
    let values: BTreeSet<u64> = counts.iter().copied().flatten().collect();
    note(different > 0 && values.len() == 1, "one-count");
    note(values.len() > 1, "several-counts");
    note(values.len() == SIZES, "64-counts");
    note(counts[SIZES - 2] != counts[SIZES - 1], "all-64-needed");
    let most = values.last().copied().unwrap_or(0);
    note(most > 255, "above-255");
    note(most == 8_192, "8192-loads");
    let all: u32 = wants.iter().map(|want| want.count_ones()).sum();
    note(all == 16_384, "16384-wants");
    note(
        list.listed().counts().as_ref() != Ok(counts),
        "others-as-listed",
    );
    // The drive's own walk would take long otherwise.
    note(
        wants.len() <= 24 && by_oldest(list) != *counts,
        "others-by-oldest",
    );
    kinds
}

/// The counts where the curves last wanted longest ago are dropped.
fn by_oldest(list: &List) -> Counts {
    let count = |places: usize| {
        let (mut held, mut loads) = (0u64, 0);
        let mut last = [0; 64];
        for (step, &test) in list.order.iter().enumerate() {
            let want = list.wants[test as usize];
            if want.count_ones() as usize > places {
                return None;
            }
            loads += (want & !held).count_ones() as u64;
            while (held | want).count_ones() as usize > places {
                let stays = |curve: &usize| (held & !want) >> curve & 1 == 1;
                let oldest = (0..64).filter(stays).min_by_key(|&curve| last[curve]);
                held ^= 1 << oldest.expect("the test fits");
            }
            held |= want;
            for (curve, last) in last.iter_mut().enumerate() {
                if want >> curve & 1 == 1 {
                    *last = step;
                }
            }
        }
        Some(loads)
    };
    (1..=SIZES).map(count).collect()
}

// ---------------------------------------------------------------------------------------------
// Wanted counts

/// Numbers on the bounds of one, two, four and six bytes, and around the mark.
const EDGES: [usize; 16] = [
    0,
    1,
    255,
    256,
    65_534,
    65_535,
    65_536,
    65_537,
    1 << 32,
    (1 << 32) + 65_535,
    1 << 47,
    1 << 48,
    (1 << 48) + 1,
    1 << 63,
    usize::MAX - 1,
    usize::MAX,
];

/// Wanted counts around each count, on the bounds, and with a low part that is too small by itself.
fn around(random: &mut Random, counts: &Counts) -> Vec<usize> {
    let mut wanted = BTreeSet::from(EDGES);
    for count in counts.iter().copied().flatten() {
        let count = count as usize;
        wanted.extend([count.saturating_sub(1), count, count + 1]);
    }
    let least = counts[SIZES - 1].expect("64 places are enough") as usize;
    if least > 0 {
        let low = random.below(least);
        wanted.extend([(1 << 16) + low, (1 << 32) + low, (1 << 48) + low]);
    }
    let mut wanted: Vec<usize> = wanted.into_iter().collect();
    random.shuffle(&mut wanted);
    wanted
}

/// One of them.
fn any_wanted(random: &mut Random, counts: Option<&Counts>) -> usize {
    match counts {
        Some(counts) if !random.chance(1, 4) => {
            let wanted = around(random, counts);
            random.pick(&wanted)
        }
        _ => random.pick(&EDGES),
    }
}

/// All those around; of large lists so many of them as do not take long.
pub fn fewest_case(random: &mut Random, size: Size) -> Case {
    let list = any_list(random, size);
    let mut loads = match list.counts() {
        Ok(counts) => around(random, &counts),
        Err(_) => vec![0, random.pick(&EDGES), usize::MAX],
    };
    if list.wants.len() > 80 {
        loads.truncate(60);
    }
    Case::FewestPlaces {
        curves: list.curves,
        wants: list.wants,
        order: list.order,
        loads,
    }
}

/// What is told of a wanted count: the answer; the count beside those of the sizes; its bounds; that its
/// low two or four bytes would have none; and that a mark, were it a count, would serve.
pub const WANTED: [&str; 17] = [
    "none",
    "1-place",
    "2-to-63-places",
    "64-places",
    "a-count",
    "one-less",
    "one-more",
    "between",
    "0",
    "65534",
    "65535",
    "65536",
    "above",
    "max",
    "low-half-has-none",
    "low-word-has-none",
    "a-mark-would-serve",
];

/// None has to come exactly where the list wants more different curves.
pub fn wanted_kinds(list: &List, counts: &Counts, loads: usize) -> Vec<&'static str> {
    let places = fewest(counts, loads);
    let different = different_curves(&list.wants);
    assert_eq!(places.is_none(), different > loads as u64, "{list:x?}");
    let mut kinds = vec![match places {
        None => "none",
        Some(1) => "1-place",
        Some(64) => "64-places",
        Some(_) => "2-to-63-places",
    }];
    let mut note = |told: bool, name: &'static str| {
        if told {
            kinds.push(name);
        }
    };
    let is = |count: Option<usize>| counts.contains(&count.map(|count| count as u64));
    let own = is(Some(loads));
    let (less, more) = (loads.checked_add(1), loads.checked_sub(1));
    let (less, more) = (less.is_some() && is(less), more.is_some() && is(more));
    note(own, "a-count");
    note(less && !own, "one-less");
    note(more && !own, "one-more");
    let above_least = places.is_some() && loads < MARK as usize - 1;
    note(above_least && !(own || less || more), "between");
    note(loads == 0, "0");
    note(loads == 65_534, "65534");
    note(loads == 65_535, "65535");
    note(loads == 65_536, "65536");
    note(loads > 65_536 && loads < usize::MAX, "above");
    note(loads == usize::MAX, "max");
    let low_has_none = |low: usize| low < loads && fewest(counts, low).is_none();
    note(low_has_none(loads % (1 << 16)), "low-half-has-none");
    note(low_has_none(loads % (1 << 32)), "low-word-has-none");
    let marked = counts.contains(&None);
    note(marked && loads >= MARK as usize, "a-mark-would-serve");
    kinds
}

// ---------------------------------------------------------------------------------------------
// Tables

/// A job of such a list. Mostly its tests fit.
fn job(random: &mut Random, size: Size) -> Job {
    let size = larger(random, size);
    let List { curves, wants, .. } = sound(random, size);
    let widest = wants.iter().map(|want| want.count_ones() as usize).max();
    let least = match random.below(8) {
        0 => 1,
        _ => widest.unwrap_or(0).max(1),
    };
    let capacity = random.between(least, 64);
    let (places, booked) = with_booked(random, capacity);
    // The packages of many tests take long.
    let methods: &[usize] = match wants.len() {
        0..=80 => &[0, 1, 1, 3, 3],
        _ => &[0, 0, 0, 1],
    };
    Job {
        places,
        booked,
        curves,
        method: random.pick(methods),
        wants,
    }
}

fn any_bytes(random: &mut Random, size: Size) -> Vec<u8> {
    let mut bytes = match random.below(16) {
        0 => booked::any_bytes(random),
        1 => withdrawn::any_bytes(random),
        2 | 3 => generate::any_job_bytes(random, size),
        4 => {
            let job = flipping_job(random);
            old_or_new(random, &job)
        }
        _ => {
            let job = job(random, size);
            old_or_new(random, &job)
        }
    };
    for _ in 0..random.pick(&[0, 0, 0, 0, 0, 0, 1, 2]) {
        generate::damage(random, &mut bytes);
    }
    bytes
}

pub fn table_case(random: &mut Random, size: Size) -> Case {
    let job = any_bytes(random, size);
    table_of(random, job)
}

/// The table of these job bytes, in a buffer around its length.
pub fn table_of(random: &mut Random, job: Vec<u8>) -> Case {
    let asked = random.pick(&[0, 0, 0, 1, 1, 1, 1, 2, 256, 1 << 32, usize::MAX]);
    // Ordering it twice may be slow: see the C call.
    if job.len() > 600 && job[0] & 8 == 8 {
        return Case::SizeTable {
            job,
            asked,
            loads: random.pick(&EDGES),
            out_len: random.pick(&[2_000, 2_000, 60, 0]),
        };
    }
    let table = Table::new(&job);
    let loads = any_wanted(random, table.as_ref().ok().map(|table| &table.counts));
    let needed = table_text(&table, wanted(asked, loads)).len();
    Case::SizeTable {
        job,
        asked,
        loads,
        out_len: lent(random, needed),
    }
}

/// What is told of tables that are written: the wanted count and what comes of it; the rows and those of
/// sizes too small; tests and method; booked places; that another order, or another number of places,
/// would give other counts; and how long the buffer is beside the text.
pub const TABLES: [&str; 28] = [
    "asked:0",
    "asked:1",
    "asked:more",
    "wanted:places",
    "wanted:none",
    "wanted:20-digits",
    "1-row",
    "2-to-63-rows",
    "64-rows",
    "none-too-few",
    "1-too-few",
    "several-too-few",
    "63-too-few",
    "0-tests",
    "1-test",
    "256-tests",
    "method-0",
    "method-1",
    "method-1:byte-2",
    "method-3",
    "booked",
    "8192-loads",
    "others-as-listed",
    "others-by-raw-places",
    "exact",
    "longer",
    "refused:exact",
    "refused:longer",
];

/// What is told where the buffer is too short: by one, by more, or no bytes at all; for a table and for
/// what is refused.
pub const SHORT: [&str; 5] = [
    "one-short",
    "shorter",
    "no-bytes",
    "refused:one-short",
    "refused:shorter",
];

pub fn table_kinds(
    job: &[u8],
    table: &Answer<Table>,
    wanted: Option<usize>,
    asked: usize,
    out_len: usize,
) -> Vec<&'static str> {
    let length = table_text(table, wanted).len();
    let table = match table {
        Ok(table) => table,
        Err(_) if out_len < length => return vec![],
        Err(_) if out_len == length => return vec!["refused:exact"],
        Err(_) => return vec!["refused:longer"],
    };
    if out_len < length {
        return vec![];
    }
    let mut kinds = Vec::new();
    let mut note = |told: bool, name: &'static str| {
        if told {
            kinds.push(name);
        }
    };
    note(asked == 0, "asked:0");
    note(asked == 1, "asked:1");
    note(asked > 1, "asked:more");
    if let Some(loads) = wanted {
        let none = fewest(&table.counts, loads).is_none();
        note(!none, "wanted:places");
        note(none, "wanted:none");
        note(loads >= 10_000_000_000_000_000_000, "wanted:20-digits");
    }
    let rows = table.rows();
    note(rows == 1, "1-row");
    note((2..=63).contains(&rows), "2-to-63-rows");
    note(rows == 64, "64-rows");
    let marks = table.counts.iter().filter(|count| count.is_none()).count();
    note(marks == 0, "none-too-few");
    note(marks == 1, "1-too-few");
    note((2..=62).contains(&marks), "several-too-few");
    note(marks == 63, "63-too-few");
    note(table.tests == 0, "0-tests");
    note(table.tests == 1, "1-test");
    note(table.tests == 256, "256-tests");
    let old = field_of_2(job).is_some();
    note(table.method == 0, "method-0");
    note(table.method == 1 && !old, "method-1");
    note(table.method == 1 && old, "method-1:byte-2");
    note(table.method == 3, "method-3");
    note(table.counts.contains(&Some(8_192)), "8192-loads");
    let read = read_job(job, usize::MAX).expect("its table is told");
    note(read.booked > 0, "booked");
    let by = |order: Vec<u16>| {
        let counts = all_sizes(read.curves, &read.wants, &order);
        counts.expect("an order of the list") != table.counts
    };
    let listed = (0..table.tests as u16).collect();
    note(by(listed), "others-as-listed");
    if table.method == 3 && read.booked > 0 && table.tests <= 24 {
        let raw = booked::packages(read.places, read.places, &read.wants);
        note(by(raw), "others-by-raw-places");
    }
    note(out_len == length, "exact");
    note(out_len > length, "longer");
    kinds
}

pub fn short_kind(
    length: usize,
    refused: Option<&Refusal>,
    out_len: usize,
) -> Option<&'static str> {
    let one = out_len + 1 == length;
    match refused {
        _ if out_len >= length => None,
        Some(_) if one => Some("refused:one-short"),
        Some(_) => Some("refused:shorter"),
        None if one => Some("one-short"),
        None if out_len == 0 => Some("no-bytes"),
        None => Some("shorter"),
    }
}
