//! The degrees of method 1, which two bytes hold (wish 4): jobs with large ones, and where a number
//! that does not hold them all, or holds them wrongly, would give another order.

use crate::generate::{
    all_curves, enough, random_set, with_booked, Case, Job, FUNCTIONS, PLAN_MADE, SHEET,
};
use crate::random::Random;
use crate::withdrawn::old_or_new;
use std::collections::BTreeSet;

/// The largest degree there is: 255 other tests, and 64 curves in common with each.
pub const LARGEST: u64 = 255 * 64;

/// The degrees of a list in eight bytes, pair by pair.
pub fn degrees(wants: &[u64]) -> Vec<u64> {
    let mut degrees = vec![0; wants.len()];
    for a in 0..wants.len() {
        for b in 0..a {
            let weight = (wants[a] & wants[b]).count_ones() as u64;
            degrees[a] += weight;
            degrees[b] += weight;
        }
    }
    degrees
}

/// The order of method 1 where the tests' degrees are compared by these numbers.
pub fn order_by(wants: &[u64], held: &[i64]) -> Vec<u16> {
    let tests = wants.len();
    // Sorting keeps equals as they are: ties go to the lowest test number.
    let mut rising: Vec<usize> = (0..tests).collect();
    rising.sort_by_key(|&test| held[test]);
    let mut list: Vec<usize> = Vec::new();
    let mut listed = vec![false; tests];
    let mut along = 0;
    while list.len() < tests {
        if along == list.len() {
            let smallest = rising.iter().find(|&&test| !listed[test]);
            let smallest = *smallest.expect("tests remain");
            list.push(smallest);
            listed[smallest] = true;
        }
        let present = wants[list[along]];
        for &test in &rising {
            if !listed[test] && wants[test] & present != 0 {
                list.push(test);
                listed[test] = true;
            }
        }
        along += 1;
    }
    list.iter().rev().map(|&test| test as u16).collect()
}

/// What is compared in place of a degree.
type Held = fn(u64) -> i64;

/// Numbers that do not hold every degree, or are compared wrongly, with their names.
const WRONG: [(&str, Held); 12] = [
    ("modulo-256", |degree| (degree % 256) as i64),
    ("modulo-512", |degree| (degree % 512) as i64),
    ("modulo-1024", |degree| (degree % 1_024) as i64),
    ("modulo-2048", |degree| (degree % 2_048) as i64),
    ("modulo-4096", |degree| (degree % 4_096) as i64),
    ("modulo-8192", |degree| (degree % 8_192) as i64),
    ("at-most-255", |degree| degree.min(255) as i64),
    ("at-most-8191", |degree| degree.min(8_191) as i64),
    ("signed-byte", |degree| degree as i8 as i64),
    // The high byte first, then the low one with its sign.
    ("signed-low-byte", |degree| {
        (degree / 256 * 256) as i64 + degree as i8 as i64
    }),
    ("high-byte", |degree| (degree / 256) as i64),
    ("low-byte-first", |degree| {
        (degree as u16).swap_bytes() as i64
    }),
];

/// What else is told: a degree is above 255, or the largest there is; a curve is wanted by 256 tests,
/// one more than a byte counts, in a list with different degrees; two different degrees are alike
/// modulo 256, in a list that has another order by the degrees modulo 256.
const OTHERS: [&str; 4] = ["above-255", "16320", "wanted-by-256", "alike-modulo-256"];

/// All that is told of a list that method 1 orders.
pub fn names() -> Vec<&'static str> {
    let wrong = WRONG.iter().map(|(name, _)| *name);
    OTHERS.into_iter().chain(wrong).collect()
}

/// The kinds of a list that method 1 orders so: those wrong numbers with which it has another order, and
/// the others. With degrees in eight bytes it has to have the same order.
pub fn kinds(wants: &[u64], order: &[u16]) -> Vec<&'static str> {
    let degrees = degrees(wants);
    let order_of = |held: Held| {
        let held: Vec<i64> = degrees.iter().map(|&degree| held(degree)).collect();
        order_by(wants, &held)
    };
    let wide = order_of(|degree| degree as i64);
    assert_eq!(wide, order, "wants {wants:x?}");
    let mut kinds = Vec::new();
    for (name, held) in WRONG {
        if order_of(held) != order {
            kinds.push(name);
        }
    }
    let different: BTreeSet<u64> = degrees.iter().copied().collect();
    let bytes: BTreeSet<u64> = different.iter().map(|degree| degree % 256).collect();
    if bytes.len() < different.len() && kinds.contains(&"modulo-256") {
        kinds.push("alike-modulo-256");
    }
    let wanted_by_all = wants.iter().fold(u64::MAX, |all, want| all & want);
    if wants.len() == 256 && wanted_by_all != 0 && different.len() > 1 {
        kinds.push("wanted-by-256");
    }
    let largest = different.last().copied().unwrap_or(0);
    if largest > 255 {
        kinds.push("above-255");
    }
    if largest == LARGEST {
        kinds.push("16320");
    }
    kinds
}

// ---------------------------------------------------------------------------------------------
// Jobs

/// A job of method 1 with large degrees, whose tests fit. Mostly there are few tests; there are 256
/// only now and then, since the reference takes long for them.
pub fn job(random: &mut Random) -> Job {
    let curves = random.pick(&[64, 64, 64, 63, 57]);
    let (curves, wants) = match random.below(64) {
        0..=3 => (64, nearly_full(random, 256, 64)),
        4 | 5 => (64, wants(random, 256, 64)),
        6..=9 => {
            let tests = random.between(130, 160);
            (64, two_groups(random, tests, 64))
        }
        10..=14 => {
            let tests = random.between(66, 100);
            (curves, wants(random, tests, curves))
        }
        _ => {
            let tests = random.between(4, 40);
            (curves, wants(random, tests, curves))
        }
    };
    let widest = wants.iter().map(|want| want.count_ones() as usize).max();
    let capacity = random.between(widest.unwrap_or(0).max(1), 64);
    let (places, booked) = with_booked(random, capacity);
    Job {
        places,
        booked,
        curves,
        method: 1,
        wants,
    }
}

/// Now and then, for a function that orders, a case of such a job that is answered.
pub fn case(function: usize, random: &mut Random) -> Option<Case> {
    Some(match FUNCTIONS[function] {
        "order_tests" if random.chance(1, 24) => {
            let Job {
                places,
                booked,
                curves,
                method,
                wants,
            } = job(random);
            let order_len = enough(random, wants.len());
            Case::OrderTests {
                places,
                booked,
                curves,
                method,
                wants,
                order_len,
            }
        }
        "plan" if random.chance(1, 24) => {
            let job = job(random);
            Case::Call {
                job: old_or_new(random, &job),
                plan_len: enough(random, PLAN_MADE),
            }
        }
        "sheet" if random.chance(1, 12) => {
            let job = job(random);
            Case::Sheet {
                job: old_or_new(random, &job),
                out_len: enough(random, SHEET),
            }
        }
        _ => return None,
    })
}

/// All curves in each test, or in each but one.
fn nearly_full(random: &mut Random, tests: usize, curves: usize) -> Vec<u64> {
    let mut list = vec![all_curves(curves); tests];
    if tests > 0 && random.chance(1, 2) {
        let number = random.pick(&[0, 1, 2, curves / 2, curves - 1, curves - 1]);
        let test = random.below(tests);
        list[test] = random_set(random, curves, number);
    }
    list
}

/// A list whose tests have many curves in common.
pub fn wants(random: &mut Random, tests: usize, curves: usize) -> Vec<u64> {
    let all = all_curves(curves);
    let mut list = vec![all; tests];
    match random.below(8) {
        0 => return nearly_full(random, tests, curves),
        // All curves, and the same fewer, in turn.
        1 => {
            let number = random.pick(&[0, 1, 2, 8, curves / 2, curves - 1]);
            let fewer = random_set(random, curves, number);
            for test in (random.below(2)..tests).step_by(2) {
                list[test] = fewer;
            }
        }
        // All but a few in each.
        2 | 3 => {
            let most = random.between(1, 4);
            for want in &mut list {
                let number = random.between(0, most);
                *want &= !random_set(random, curves, number);
            }
        }
        // Any number from some number on.
        4 => {
            let least = random.below(curves);
            for want in &mut list {
                let number = random.between(least, curves);
                *want = random_set(random, curves, number);
            }
        }
        _ => return two_groups(random, tests, curves),
    }
    list
}

/// All but a few curves in each, or few. In the first group are 129 tests at least, if there are as
/// many: where they lack nothing their degrees are 8,192 or more.
fn two_groups(random: &mut Random, tests: usize, curves: usize) -> Vec<u64> {
    let least = if tests > 129 { 129 } else { tests / 2 };
    let wide = random.between(least, tests);
    let lacking = random.between(0, 2);
    let most = random.between(1, 24);
    let mut list = Vec::new();
    for test in 0..tests {
        list.push(if test < wide {
            let number = curves - random.between(0, lacking);
            random_set(random, curves, number)
        } else {
            let number = random.between(0, most);
            random_set(random, curves, number)
        });
    }
    random.shuffle(&mut list);
    list
}
