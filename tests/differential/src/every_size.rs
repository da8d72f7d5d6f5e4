//! Every drive size together (wish 9): lists worked by hand, the paper's sentences one by one, an
//! exhaustive search for the least loads of every size, refusals beside those of planning, and tables.

use crate::drives::{self, List};
use crate::generate::{self, all_curves, permutation, random_set, Case, Job, Size};
use crate::random::Random;
use crate::reference::*;
use crate::sizes::*;
use crate::tuned;
use crate::withdrawn;
use std::collections::BTreeSet;

fn set(curves: &[u8]) -> u64 {
    bits_of(&curves.iter().copied().collect())
}

fn sets(list: &[&[u8]]) -> Vec<u64> {
    list.iter().map(|curves| set(curves)).collect()
}

fn as_listed(tests: usize) -> Vec<u16> {
    (0..tests as u16).collect()
}

fn bytes(text: &str) -> Vec<u8> {
    text.split_whitespace()
        .map(|byte| u8::from_str_radix(byte, 16).unwrap())
        .collect()
}

/// Job A's wants: 4 curves.
fn a_wants() -> Vec<u64> {
    sets(&[&[0, 1], &[1, 2], &[0, 1], &[3]])
}

/// These numbers, and the last of them for all larger sizes.
fn and_so_on(numbers: &[u16]) -> [u16; 64] {
    let mut all = [*numbers.last().unwrap(); 64];
    all[..numbers.len()].copy_from_slice(numbers);
    all
}

fn numbers_of(curves: usize, wants: &[u64], order: &[u16]) -> [u16; 64] {
    numbers(&all_sizes(curves, wants, order).unwrap())
}

/// The single plan for so many places, none booked, from an empty drive.
fn single(places: usize, curves: usize, wants: &[u64], order: &[u16]) -> Answer<Plan> {
    let room = wants.len();
    plan(places, 0, curves, wants, 0, order, room, room)
}

/// Wanted counts that no count of a list comes near, the mark and those around it among them.
const LARGE: [usize; 9] = [
    65_534,
    65_535,
    65_536,
    65_537,
    1 << 32,
    1 << 48,
    1 << 63,
    usize::MAX - 1,
    usize::MAX,
];

// ---------------------------------------------------------------------------------------------
// Examples

#[test]
fn job_a() {
    let (wants, listed) = (a_wants(), as_listed(4));
    assert_eq!(numbers_of(4, &wants, &listed), and_so_on(&[65_535, 5, 4]));
    for (loads, places) in [
        (0, None),
        (3, None),
        (4, Some(3)),
        (5, Some(2)),
        (6, Some(2)),
        (1_000, Some(2)),
    ] {
        let answer = fewest_places(4, &wants, &listed, loads);
        assert_eq!(answer, Ok(places), "{loads}");
    }
    for loads in LARGE {
        assert_eq!(fewest_places(4, &wants, &listed, loads), Ok(Some(2)));
    }
    // The orders of methods 1 and 3.
    for order in [[2, 0, 1, 3], [0, 2, 1, 3]] {
        assert_eq!(numbers_of(4, &wants, &order), and_so_on(&[65_535, 4]));
        assert_eq!(fewest_places(4, &wants, &order, 4), Ok(Some(2)));
    }
    // More curves than are wanted change nothing.
    assert_eq!(numbers_of(64, &wants, &listed), and_so_on(&[65_535, 5, 4]));
}

#[test]
fn lists_by_hand() {
    for (wants, expected) in [
        // Document 01's.
        (sets(&[&[0], &[1], &[2], &[0]]), &[4, 3][..]),
        (sets(&[&[0, 1], &[0, 2], &[0, 2]]), &[65_535, 3]),
        (sets(&[&[0, 1, 2]]), &[65_535, 65_535, 3]),
        // Nothing wanted, and nothing in between.
        (sets(&[&[]]), &[0]),
        (sets(&[&[], &[], &[]]), &[0]),
        (sets(&[&[5], &[], &[5]]), &[1]),
        (sets(&[&[5], &[63], &[5]]), &[3, 2]),
        // Each in turn: with 2 places every second stays.
        (
            sets(&[&[0], &[1], &[2], &[0], &[1], &[2], &[0], &[1], &[2]]),
            &[9, 6, 3],
        ),
        // Two halves in turn: one place more keeps one curve over each test.
        (
            sets(&[&[0, 1], &[2, 3], &[0, 1], &[2, 3], &[0, 1], &[2, 3]]),
            &[65_535, 12, 8, 4],
        ),
        // What is wanted once takes its place all the same.
        (
            sets(&[&[0, 1], &[2, 3, 4], &[0, 1]]),
            &[65_535, 65_535, 7, 6, 5],
        ),
        // The mark of a test in the middle.
        (
            sets(&[&[0], &[0, 1, 2, 3], &[0]]),
            &[65_535, 65_535, 65_535, 4],
        ),
        // Of two that are kept over the same test the one used sooner stays.
        (sets(&[&[0, 1], &[2], &[1], &[2], &[0]]), &[65_535, 4, 3]),
    ] {
        let listed = as_listed(wants.len());
        let counts = numbers_of(64, &wants, &listed);
        assert_eq!(counts, and_so_on(expected), "{wants:x?}");
        assert_eq!(tuned::all_sizes(&wants, &listed), counts, "{wants:x?}");
    }
}

/// 256 tests: all curves each; one curve each; two halves in turn, the most loads there are.
#[test]
fn full_lists_by_hand() {
    let listed = as_listed(256);
    let mut expected = [65_535; 64];
    expected[63] = 64;
    let all = vec![u64::MAX; 256];
    assert_eq!(numbers_of(64, &all, &listed), expected);
    for loads in LARGE.into_iter().chain([64, 65, 16_384]) {
        assert_eq!(fewest_places(64, &all, &listed, loads), Ok(Some(64)));
    }
    for loads in [0, 1, 63] {
        assert_eq!(fewest_places(64, &all, &listed, loads), Ok(None));
    }
    // Each half is loaded 128 times; each place more keeps a curve over each test but the first and last.
    let low = u32::MAX as u64;
    let halves: Vec<u64> = (0..256)
        .map(|test| if test % 2 == 0 { low } else { !low })
        .collect();
    for places in 1..=64 {
        expected[places - 1] = match places as u16 {
            0..=31 => 65_535,
            more => 8_192 - 254 * (more - 32),
        };
    }
    assert_eq!(expected[63], 64);
    assert_eq!(numbers_of(64, &halves, &listed), expected);
    for (loads, places) in [(8_192, 32), (8_191, 33), (7_938, 33), (7_937, 34), (64, 64)] {
        let answer = fewest_places(64, &halves, &listed, loads);
        assert_eq!(answer, Ok(Some(places)), "{loads}");
    }
    // One place: each test loads its curve. 64 places: each curve once.
    let turns: Vec<u64> = (0..256).map(|test| 1 << (test % 64)).collect();
    let counts = numbers_of(64, &turns, &listed);
    assert_eq!((counts[0], counts[63]), (256, 64));
    let different: BTreeSet<u16> = counts.into_iter().collect();
    assert_eq!(different.len(), 64);
    assert_eq!(fewest_places(64, &turns, &listed, 255), Ok(Some(2)));
    assert_eq!(fewest_places(64, &turns, &listed, 256), Ok(Some(1)));
    assert_eq!(fewest_places(64, &turns, &listed, 64), Ok(Some(64)));
    assert_eq!(fewest_places(64, &turns, &listed, 63), Ok(None));
    for wants in [all, halves, turns] {
        let counts = numbers_of(64, &wants, &listed);
        assert_eq!(tuned::all_sizes(&wants, &listed), counts);
    }
}

#[test]
fn without_tests() {
    for curves in [1, 2, 63, 64] {
        assert_eq!(numbers_of(curves, &[], &[]), [0; 64]);
        for loads in LARGE.into_iter().chain([0, 1, 64]) {
            assert_eq!(fewest_places(curves, &[], &[], loads), Ok(Some(1)));
        }
        for entry in [0, 1, u16::MAX] {
            let no = refusal(8, 0);
            assert_eq!(all_sizes(curves, &[], &[entry]), Err(no));
            assert_eq!(fewest_places(curves, &[], &[entry], 0), Err(no));
        }
    }
    assert_eq!(tuned::all_sizes(&[], &[]), [0; 64]);
    for curves in [0, 65, usize::MAX] {
        assert_eq!(all_sizes(curves, &[], &[]), Err(refusal(10, 1)));
        assert_eq!(all_sizes(curves, &[], &[0]), Err(refusal(10, 1)));
    }
}

// ---------------------------------------------------------------------------------------------
// The sentences

/// Sound lists of every kind and of this size.
fn lists(seed: u64, rounds: usize, size: Size) -> Vec<List> {
    let mut random = Random::new(seed);
    (0..rounds)
        .map(|_| drives::sound(&mut random, size))
        .collect()
}

fn widest(wants: &[u64]) -> usize {
    let widths = wants.iter().map(|&want| set_of(want).len());
    widths.max().unwrap_or(0)
}

/// Each entry of a list equals the single plan's count, under either tie rule; it is the mark exactly where
/// that plan is refused, which is where a test wants more curves.
fn assert_single_plans(list: &List, sizes: impl Iterator<Item = usize>) {
    let List {
        curves,
        wants,
        order,
    } = list;
    let counts = list.counts().unwrap();
    let numbers = numbers(&counts);
    let too_wide = |places: usize| wants.iter().position(|&want| set_of(want).len() > places);
    for places in sizes {
        let plan = single(places, *curves, wants, order);
        match too_wide(places) {
            None => {
                let plan = plan.unwrap();
                assert_eq!(counts[places - 1], Some(plan.count), "{list:x?}");
                assert_eq!(numbers[places - 1] as u64, plan.count);
                let room = wants.len();
                let other = TieRule::Lowest;
                let plan = plan_by(other, places, 0, *curves, wants, 0, order, room, room);
                assert_eq!(counts[places - 1], Some(plan.unwrap().count));
            }
            Some(test) => {
                assert_eq!(plan, Err(refusal(7, test)), "{list:x?}");
                assert_eq!(counts[places - 1], None, "{list:x?}");
                assert_eq!(numbers[places - 1], 65_535);
            }
        }
    }
}

#[test]
fn each_entry_is_the_single_plans_count() {
    for list in lists(91, 2_000, Size::Tiny) {
        assert_single_plans(&list, 1..=64);
    }
    for list in lists(92, 150, Size::Small) {
        assert_single_plans(&list, 1..=64);
    }
    for (round, list) in lists(93, 18, Size::Full).iter().enumerate() {
        assert_single_plans(list, (1 + round..=64).step_by(9));
    }
}

/// The same beside the audit's count of the fewest loads, and beside the one walk of the tuned
/// implementation.
#[test]
fn other_ways_to_count() {
    let mut large = lists(94, 60, Size::Full);
    large.extend(lists(95, 100, Size::Edge));
    large.extend(lists(96, 2_000, Size::Small));
    for list in &large {
        let (wants, order) = (&list.wants, &list.order);
        let counts = list.counts().unwrap();
        assert_eq!(
            tuned::all_sizes(wants, order),
            numbers(&counts),
            "{list:x?}"
        );
    }
    for list in large.iter().step_by(20) {
        let counts = list.counts().unwrap();
        for places in widest(&list.wants).max(1)..=64 {
            let fewest = fewest_loads(places, 0, &list.wants, 0, &list.order);
            assert_eq!(counts[places - 1], Some(fewest));
        }
    }
}

/// More places never mean more loads; with 64 places each wanted curve is loaded once, and no size needs
/// fewer; the mark is there exactly where a test is too large, and no count reaches it.
#[test]
fn sizes_beside_each_other() {
    let mut all = lists(97, 3_000, Size::Tiny);
    all.extend(lists(98, 600, Size::Small));
    all.extend(lists(99, 60, Size::Edge));
    let mut marks = 0;
    for list in &all {
        let counts = numbers(&list.counts().unwrap());
        let mut wanted = Curves::new();
        for &want in &list.wants {
            wanted.extend(set_of(want));
        }
        assert_eq!(counts[63] as usize, wanted.len());
        assert_eq!(different_curves(&list.wants) as usize, wanted.len());
        let first = widest(&list.wants).max(1);
        for (at, &count) in counts.iter().enumerate() {
            if at + 1 < first {
                assert_eq!(count, 65_535);
                marks += 1;
                continue;
            }
            assert!(count < 65_535 && count >= counts[63]);
            assert!(at + 1 == first || counts[at - 1] >= count, "{list:x?}");
            // No more than all that is wanted, and 8,192 at most.
            let all: usize = list.wants.iter().map(|&want| set_of(want).len()).sum();
            assert!(count as usize <= all && count <= 8_192);
        }
    }
    assert!(marks > 10_000, "{marks} marks");
}

/// The fewest places serve, and no smaller size does; there is none exactly where the list wants more
/// different curves than the count.
#[test]
fn the_fewest_places() {
    let mut all = lists(100, 1_500, Size::Tiny);
    all.extend(lists(101, 300, Size::Small));
    all.extend(lists(102, 20, Size::Full));
    let (mut served, mut none) = (0, 0);
    for list in &all {
        let List {
            curves,
            wants,
            order,
        } = list;
        let counts = numbers(&list.counts().unwrap());
        let serves = |places: usize, loads: usize| {
            let count = counts[places - 1];
            count != 65_535 && count as usize <= loads
        };
        let mut wanted = BTreeSet::from(LARGE);
        for count in counts {
            let count = count as usize;
            wanted.extend([0, count.saturating_sub(1), count, count + 1]);
        }
        for loads in wanted {
            let answer = fewest_places(*curves, wants, order, loads).unwrap();
            let more_curves = different_curves(wants) > loads as u64;
            assert_eq!(answer.is_none(), more_curves, "{loads} of {list:x?}");
            match answer {
                None => {
                    none += 1;
                    assert!((1..=64).all(|places| !serves(places, loads)));
                }
                Some(places) => {
                    served += 1;
                    assert!((1..=64).contains(&places) && serves(places, loads));
                    assert!((1..places).all(|places| !serves(places, loads)));
                }
            }
        }
        // However many loads are wanted, the size fits the tests.
        for loads in LARGE {
            let answer = fewest_places(*curves, wants, order, loads);
            assert_eq!(answer, Ok(Some(widest(wants).max(1))));
        }
    }
    assert!(served > 10_000 && none > 2_000, "{served}, {none}");
}

// ---------------------------------------------------------------------------------------------
// Every plan tried

/// Every list of up to three tests on three curves, in every order, for every size.
#[test]
fn every_small_list() {
    let mut lists = 0;
    for tests in 0..=3u32 {
        for number in 0..8u64.pow(tests) {
            let wants: Vec<u64> = (0..tests).map(|test| number >> (3 * test) & 7).collect();
            for order in orders(tests as u16) {
                let counts = all_sizes(3, &wants, &order).unwrap();
                for places in 1..=4 {
                    let least = least_loads(places, 0, 3, &wants, 0, &order);
                    assert_eq!(counts[places - 1], least, "{places}: {wants:x?}");
                }
                assert!(counts[4..].iter().all(|count| *count == counts[3]));
                lists += 1;
            }
        }
    }
    assert_eq!(lists, 1 + 8 + 64 * 2 + 512 * 6);
}

/// All orders of so many tests.
fn orders(tests: u16) -> Vec<Vec<u16>> {
    let mut orders = vec![vec![]];
    for test in 0..tests {
        let mut longer = Vec::new();
        for order in &orders {
            for at in 0..=order.len() {
                let mut order = order.clone();
                order.insert(at, test);
                longer.push(order);
            }
        }
        orders = longer;
    }
    orders
}

/// Random lists on up to five curves: for every size the least loads of any plan that passes the check.
#[test]
fn the_least_loads_of_every_size() {
    let mut random = Random::new(103);
    let mut falls = 0;
    for round in 0..2_000 {
        let curves = if round < 300 { 5 } else { random.between(1, 4) };
        let tests = random.between(2, 14);
        let most = random.pick(&[1, 1, 2, 2, curves]).min(curves);
        let wants: Vec<u64> = (0..tests)
            .map(|_| {
                let number = random.between((round % 4).min(1), most);
                random_set(&mut random, curves, number)
            })
            .collect();
        let order = permutation(&mut random, tests);
        let counts = all_sizes(curves, &wants, &order).unwrap();
        for places in (1..=curves + 1).chain([64]) {
            let least = least_loads(places, 0, curves, &wants, 0, &order);
            assert_eq!(counts[places - 1], least, "{places}: {wants:x?}, {order:?}");
        }
        let values: BTreeSet<u64> = counts.iter().copied().flatten().collect();
        falls += (values.len() > 2) as u64;
    }
    assert!(falls > 200, "{falls} lists with three counts or more");
}

// ---------------------------------------------------------------------------------------------
// Refusals

/// Both calls answer this refusal, and planning with any places does.
fn assert_refused(curves: usize, wants: &[u64], order: &[u16], no: Refusal) {
    assert_eq!(
        all_sizes(curves, wants, order),
        Err(no),
        "{wants:x?}, {order:?}"
    );
    for loads in [0, 5, 65_535, usize::MAX] {
        assert_eq!(fewest_places(curves, wants, order, loads), Err(no));
    }
    for places in [1, 8, 64] {
        assert_eq!(single(places, curves, wants, order), Err(no));
    }
}

#[test]
fn refusals() {
    let wants = a_wants();
    let listed = as_listed(4);
    for curves in [0, 65, 66, 255, 256, 1 << 32, usize::MAX] {
        assert_refused(curves, &wants, &listed, refusal(10, 1));
        // Before all others.
        assert_refused(curves, &vec![u64::MAX; 257], &[9], refusal(10, 1));
    }
    for tests in [257, 258, 300, 512, 65_536] {
        let order = as_listed(tests.min(65_535));
        assert_refused(4, &vec![1; tests], &order, refusal(10, 2));
        assert_refused(4, &vec![16; tests], &[], refusal(10, 2));
    }
    // The lowest test with a foreign curve, whatever the order.
    assert_refused(3, &wants, &listed, refusal(10, 7));
    assert_refused(2, &wants, &[3, 2, 1, 0], refusal(10, 5));
    assert_refused(1, &wants, &[0, 0], refusal(10, 4));
    assert_refused(63, &[0, 1 << 62, 1 << 63], &[], refusal(10, 6));
    let mut last = vec![0; 256];
    last[255] = 1 << 7;
    assert_refused(7, &last, &as_listed(256), refusal(10, 259));
    // The order.
    let three = sets(&[&[0], &[1], &[2]]);
    for (order, position) in [
        (&[0, 1, 1][..], 2),
        (&[0, 1], 2),
        (&[], 0),
        (&[3, 0, 1], 0),
        (&[0, 3, 1], 1),
        (&[0, 0, 3, 3], 1),
        (&[0, 1, 2, 2], 3),
        (&[0, 1, 2, 3], 3),
        (&[2, 2], 1),
        (&[2, 1, 65_535], 2),
        (&[0, 256, 1], 1),
        (&[0, 1, 2, 0, 1, 2], 3),
    ] {
        assert_refused(3, &three, order, refusal(8, position));
    }
    // A test that is too large is marked, and never refused.
    let counts = numbers_of(64, &[u64::MAX, 1], &[1, 0]);
    assert_eq!((counts[62], counts[63]), (65_535, 64));
    assert_eq!(single(63, 64, &[u64::MAX, 1], &[1, 0]), Err(refusal(7, 0)));
}

/// Of any faults the first in sequence is answered, as planning with 64 places answers it; and all faults
/// alone and any two of them come up.
#[test]
fn the_first_fault_decides() {
    let mut random = Random::new(104);
    let names = drives::fault_names();
    let (mut met, mut positions) = (BTreeSet::new(), BTreeSet::new());
    for _ in 0..20_000 {
        let case = drives::sizes_case(&mut random, Size::Tiny);
        let list = drives::list_of(&case).unwrap();
        let List {
            curves,
            wants,
            order,
        } = &list;
        let answer = list.counts();
        let told = match &answer {
            Ok(_) => None,
            Err(no) => Some(match (no.number, no.figure) {
                (10, 1) => "10:1",
                (10, 2) => "10:2",
                (10, _) => "10:4+t",
                (8, _) => "8:",
                _ => panic!("{no:?} of {list:x?}"),
            }),
        };
        match drives::faults(&list).first() {
            None => assert_eq!(told, None),
            Some(first) => assert!(first.starts_with(told.unwrap()), "{list:x?}"),
        }
        if let Err(no) = answer {
            assert_eq!(single(64, *curves, wants, order), Err(no));
            assert_eq!(single(1, *curves, wants, order), Err(no));
            assert_eq!(fewest_places(*curves, wants, order, 7), Err(no));
        }
        met.extend(drives::fault_kinds(&list, &names));
        positions.extend(drives::position_kind(&list, &answer));
    }
    assert_eq!(met, names.into_iter().collect());
    assert_eq!(positions, BTreeSet::from(drives::POSITIONS));
}

// ---------------------------------------------------------------------------------------------
// Tables

const A: &str = "07 02 04 04 00 01 03 01 06 01 03 01 08";
const A_TABLE: &str = "4 tests, method 0\n\
    1 places: too few\n\
    2 places: 5 loads\n\
    3 places: 4 loads\n\
    more places: no fewer loads\n";

fn table(job: &[u8], wanted: Option<usize>) -> String {
    table_text(&Table::new(job), wanted)
}

#[test]
fn tables_of_job_a() {
    let job = bytes(A);
    assert_eq!(table(&job, None), A_TABLE);
    for (loads, line) in [
        (5, "at most 5 loads: 2 places\n"),
        (4, "at most 4 loads: 3 places\n"),
        (3, "at most 3 loads: none\n"),
        (0, "at most 0 loads: none\n"),
        (65_535, "at most 65535 loads: 2 places\n"),
        (usize::MAX, "at most 18446744073709551615 loads: 2 places\n"),
    ] {
        assert_eq!(table(&job, Some(loads)), A_TABLE.to_string() + line);
    }
    assert_eq!(
        (wanted(0, 5), wanted(1, 5), wanted(9, 0)),
        (None, Some(5), Some(0))
    );
    // The orders of the other methods, and of an old file.
    for (method, number) in [("01", 1), ("02", 1), ("03", 3)] {
        let job = bytes(&format!("0f 02 04 04 00 {method} 01 03 01 06 01 03 01 08"));
        let text = format!(
            "4 tests, method {number}\n1 places: too few\n2 places: 4 loads\n\
             more places: no fewer loads\nat most 4 loads: 2 places\n"
        );
        assert_eq!(table(&job, Some(4)), text);
    }
    // With 5 places of which 3 are booked, the table is the same; with 4 it is refused.
    assert_eq!(
        table(&bytes("17 05 04 04 00 03 01 03 01 06 01 03 01 08"), None),
        A_TABLE
    );
    let one = bytes("17 05 04 04 00 04 01 03 01 06 01 03 01 08");
    assert_eq!(table(&one, Some(5)), "refused 7 at 0\n");
}

#[test]
fn small_tables() {
    for (job, rows) in [
        ("00", "0 tests, method 0\n1 places: 0 loads\n"),
        ("18 03 07", "0 tests, method 3\n1 places: 0 loads\n"),
        ("04 01 00 00", "1 tests, method 0\n1 places: 0 loads\n"),
        (
            "05 01 01 00 01 01",
            "1 tests, method 0\n1 places: 1 loads\n",
        ),
        (
            "05 03 01 00 01 07",
            "1 tests, method 0\n1 places: too few\n2 places: too few\n3 places: 3 loads\n",
        ),
        (
            "05 01 04 00 01 01 01 02 01 04 01 01",
            "4 tests, method 0\n1 places: 4 loads\n2 places: 3 loads\n",
        ),
    ] {
        let text = rows.to_string() + "more places: no fewer loads\n";
        assert_eq!(table(&bytes(job), None), text, "{job}");
    }
    let text = table(&[0], Some(0));
    assert!(text.ends_with("loads\nat most 0 loads: 1 places\n"));
    for (job, text) in [
        ("", "refused 1 at 0\n"),
        ("01", "refused 1 at 1\n"),
        ("01 08", "refused 2 at 1\n"),
        ("20", "refused 2 at 0\n"),
        ("04 01 00 01 00", "refused 3 at 4\n"),
        ("06 04 01 00 01 10", "refused 4 at 5\n"),
        ("04 01 00 00 00", "refused 6 at 4\n"),
        ("05 02 01 00 01 07", "refused 7 at 0\n"),
        ("15 03 01 00 01 01 07", "refused 7 at 0\n"),
        ("10 08", "refused 13 at 1\n"),
    ] {
        assert_eq!(table(&bytes(job), None), text, "{job}");
        assert_eq!(table(&bytes(job), Some(5)), text, "{job}");
    }
}

/// A job is refused as on its sheet. Otherwise the row of the job's own places less booked, if it is not
/// behind the last, has the sheet's loads.
#[test]
fn tables_beside_sheets() {
    let mut random = Random::new(105);
    let (mut refused, mut told) = (0, 0);
    for _ in 0..4_000 {
        let Case::SizeTable { job, .. } = drives::table_case(&mut random, Size::Tiny) else {
            panic!("another case");
        };
        if job.len() > 300 {
            continue;
        }
        let (sheet, text) = (sheet(&job), table(&job, None));
        if sheet.starts_with("refused ") {
            assert_eq!(text, sheet);
            refused += 1;
            continue;
        }
        let (read, _, plan) = planned_job(&job).unwrap();
        let head = format!("{} tests, method {}\n", read.tests, read.method);
        assert!(text.starts_with(&head));
        let capacity = less_booked(read.places, read.booked);
        let rows: Vec<&str> = text.lines().skip(1).collect();
        let row = rows[capacity.min(rows.len() - 1) - 1];
        assert!(
            row.ends_with(&format!(" places: {} loads", plan.count)),
            "{text}"
        );
        assert_eq!(*rows.last().unwrap(), "more places: no fewer loads");
        for (at, row) in rows[..rows.len() - 1].iter().enumerate() {
            assert!(row.starts_with(&format!("{} places: ", at + 1)));
        }
        told += 1;
    }
    assert!(refused > 500 && told > 2_000, "{refused}, {told}");
}

#[test]
fn arguments_of_the_program() {
    let job = bytes(A);
    assert_eq!(printed(None, &job), A_TABLE);
    for (argument, loads) in [
        ("0", 0),
        ("5", 5),
        ("05", 5),
        ("00005", 5),
        ("65535", 65_535),
        ("99999", 99_999),
    ] {
        let text = table(&job, Some(loads));
        assert_eq!(printed(Some(argument.as_bytes()), &job), text);
    }
    for argument in [
        "", " ", "-1", "+5", "5 ", " 5", "5.", "0x5", "five", "100000", "000005", "\u{665}", "5\n",
        "--help",
    ] {
        for job in [&job[..], &[], &[0]] {
            let text = printed(Some(argument.as_bytes()), job);
            assert_eq!(text, "sizes [LOADS] < JOB\n", "{argument:?}");
        }
    }
    assert_eq!(printed(Some(b"5"), &[]), "refused 1 at 0\n");
}

// ---------------------------------------------------------------------------------------------
// What is told of cases

#[test]
fn all_kinds_come_up() {
    let mut random = Random::new(106);
    let (mut lists, mut wanted_counts) = (BTreeSet::new(), BTreeSet::new());
    let (mut tables, mut short) = (BTreeSet::new(), BTreeSet::new());
    for round in 0..3_000 {
        let size = match round {
            0..100 => Size::Edge,
            _ => random.pick(&[Size::Tiny, Size::Small]),
        };
        let case = drives::fewest_case(&mut random, size);
        let list = drives::list_of(&case).unwrap();
        if let (Case::FewestPlaces { loads, .. }, Ok(counts)) = (&case, list.counts()) {
            lists.extend(drives::kinds(&list, &counts));
            for &loads in loads {
                wanted_counts.extend(drives::wanted_kinds(&list, &counts, loads));
            }
        }
        let Case::SizeTable {
            job,
            asked,
            loads,
            out_len,
        } = drives::table_case(&mut random, size)
        else {
            panic!("another case");
        };
        let (table, wanted) = (Table::new(&job), wanted(asked, loads));
        tables.extend(drives::table_kinds(&job, &table, wanted, asked, out_len));
        let length = table_text(&table, wanted).len();
        short.extend(drives::short_kind(length, table.as_ref().err(), out_len));
    }
    assert_eq!(lists, BTreeSet::from(drives::LISTS));
    assert_eq!(wanted_counts, BTreeSet::from(drives::WANTED));
    assert_eq!(tables, BTreeSet::from(drives::TABLES));
    assert_eq!(short, BTreeSet::from(drives::SHORT));
}

/// What is told of job A, and of a list on the bounds.
#[test]
fn what_is_told() {
    let list = List {
        curves: 4,
        wants: a_wants(),
        order: vec![2, 0, 1, 3],
    };
    let counts = list.counts().unwrap();
    assert_eq!(
        drives::kinds(&list, &counts),
        ["1-mark", "one-count", "others-as-listed"]
    );
    for (loads, kinds) in [
        (3, &["none", "one-less"][..]),
        (4, &["2-to-63-places", "a-count"]),
        (5, &["2-to-63-places", "one-more"]),
        (0, &["none", "0"]),
        (9, &["2-to-63-places", "between"]),
        (65_535, &["2-to-63-places", "65535", "a-mark-would-serve"]),
        (
            65_536,
            &[
                "2-to-63-places",
                "65536",
                "low-half-has-none",
                "a-mark-would-serve",
            ],
        ),
        (usize::MAX, &["2-to-63-places", "max", "a-mark-would-serve"]),
    ] {
        let told = drives::wanted_kinds(&list, &counts, loads);
        assert_eq!(told, kinds, "{loads}");
    }
    let job = generate::job_bytes(&Job {
        places: 4,
        booked: 2,
        curves: 4,
        method: 1,
        wants: a_wants(),
    });
    for (job, method) in [
        (job.clone(), "method-1"),
        (withdrawn::with_2(job), "method-1:byte-2"),
    ] {
        let table = Table::new(&job);
        let length = table_text(&table, Some(3)).len();
        assert_eq!(
            drives::table_kinds(&job, &table, Some(3), 1, length),
            [
                "asked:1",
                "wanted:none",
                "2-to-63-rows",
                "1-too-few",
                method,
                "booked",
                "others-as-listed",
                "exact"
            ]
        );
        assert!(drives::table_kinds(&job, &table, Some(3), 1, length - 1).is_empty());
        assert_eq!(
            drives::short_kind(length, None, length - 1),
            Some("one-short")
        );
        assert_eq!(drives::short_kind(length, None, length), None);
    }
    let list = List {
        curves: 64,
        wants: vec![all_curves(64); 256],
        order: as_listed(256),
    };
    assert_eq!(
        drives::kinds(&list, &list.counts().unwrap()),
        [
            "256-tests",
            "64-curves",
            "63-marks",
            "one-count",
            "all-64-needed",
            "16384-wants"
        ]
    );
}
