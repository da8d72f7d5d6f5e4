//! Replanning from halfway (wish 6): the paper's sentences, refusal 14, the fewest loads of every small
//! list from every holding, what holds of every plan that passes, and lists cut in two.

use crate::generate::{self, all_curves, permutation, Case, Size, SomePlan, FUNCTIONS, PLAN_READ};
use crate::holding;
use crate::parts;
use crate::random::Random;
use crate::reference::*;
use std::collections::BTreeSet;

fn set(curves: &[u8]) -> u64 {
    bits_of(&curves.iter().copied().collect())
}

fn sets(list: &[&[u8]]) -> Vec<u64> {
    list.iter().map(|curves| set(curves)).collect()
}

fn as_listed(tests: usize) -> Vec<u16> {
    (0..tests as u16).collect()
}

/// How many curves these sets have together.
fn curves_in(sets: &[u64]) -> u64 {
    sets.iter().map(|&set| parts::size(set)).sum()
}

/// A job with what its drive holds, and an order.
#[derive(Clone, Debug)]
struct Start {
    places: usize,
    booked: usize,
    curves: usize,
    wants: Vec<u64>,
    held: u64,
    order: Vec<u16>,
}

impl Start {
    fn plan(&self) -> Answer<Plan> {
        let tests = self.wants.len();
        let (places, booked, curves) = (self.places, self.booked, self.curves);
        plan(
            places,
            booked,
            curves,
            &self.wants,
            self.held,
            &self.order,
            tests,
            tests,
        )
    }

    fn check(&self, drops: &[u64], loads: &[u64], end: u64) -> Answer<u64> {
        let (places, booked, curves) = (self.places, self.booked, self.curves);
        let (wants, order) = (&self.wants, &self.order);
        check_plan(
            places, booked, curves, wants, self.held, order, drops, loads, end,
        )
    }

    fn write(&self, drops: &[u64], loads: &[u64], end: u64, room: usize) -> Answer<Vec<u8>> {
        let (places, booked, curves) = (self.places, self.booked, self.curves);
        let (wants, order) = (&self.wants, &self.order);
        write_plan(
            places, booked, curves, wants, self.held, order, drops, loads, end, room,
        )
    }

    fn passes(&self, drops: &[u64], loads: &[u64], end: u64) -> bool {
        let (places, booked, curves) = (self.places, self.booked, self.curves);
        let (wants, order) = (&self.wants, &self.order);
        passes(
            places, booked, curves, wants, self.held, order, drops, loads, end,
        )
    }

    fn from(&self, held: u64) -> Start {
        Start {
            held,
            ..self.clone()
        }
    }

    /// The first test that is too wide.
    fn wide(&self) -> Option<usize> {
        let capacity = self.places - self.booked;
        let wide = |want: &u64| parts::size(*want) as usize > capacity;
        self.wants.iter().position(wide)
    }
}

/// Held at the start plus loads is drops plus end set, and the end set is what is left.
fn assert_balance(held: u64, drops: &[u64], loads: &[u64], end: u64) {
    let dropped = curves_in(drops) + curves_in(&[end]);
    assert_eq!(curves_in(&[held]) + curves_in(loads), dropped);
    assert_eq!(held_behind(held, drops, loads), end);
}

/// What holds of our plan from any holding: it passes the check, told in two ways; its count is that of
/// its load sets; each step drops the excess and no more, and loads what its test wants; the balance; its
/// bytes; and the stays have as many loads.
fn assert_ours(start: &Start, made: &Plan) {
    let (drops, loads, end) = (&made.drops, &made.loads, made.end);
    assert_eq!(start.check(drops, loads, end), Ok(made.count), "{start:?}");
    assert!(start.passes(drops, loads, end), "{start:?}");
    assert_eq!(curves_in(loads), made.count);
    assert_balance(start.held, drops, loads, end);
    let capacity = (start.places - start.booked) as u64;
    let mut held = start.held;
    for (step, &test) in start.order.iter().enumerate() {
        let want = start.wants[test as usize];
        let excess = parts::size(held | want).saturating_sub(capacity);
        assert_eq!(parts::size(drops[step]), excess, "{start:?}");
        assert_eq!(drops[step] & (want | !held), 0);
        assert_eq!(loads[step], want & !held);
        held = held & !drops[step] | loads[step];
    }
    let bytes = plan_bytes(&start.order, drops, loads, end);
    assert_eq!(start.write(drops, loads, end, bytes.len()), Ok(bytes));
    let fewest = fewest_loads(
        start.places,
        start.booked,
        &start.wants,
        start.held,
        &start.order,
    );
    assert_eq!(fewest, made.count, "{start:?}");
}

// ---------------------------------------------------------------------------------------------
// Examples

/// Four tests, stopped behind two; then the rest is changed and two places are booked.
#[test]
fn stopped_behind_two_tests() {
    let whole = Start {
        places: 4,
        booked: 0,
        curves: 6,
        wants: sets(&[&[0, 1, 2], &[1, 2, 3], &[0, 5], &[3, 4]]),
        held: 0,
        order: as_listed(4),
    };
    let made = whole.plan().unwrap();
    assert_ours(&whole, &made);
    assert_eq!(made.drops, sets(&[&[], &[], &[2], &[5]]));
    assert_eq!(made.loads, sets(&[&[0, 1, 2], &[3], &[5], &[4]]));
    assert_eq!((made.end, made.count), (set(&[0, 1, 3, 4]), 6));
    let held = held_behind(0, &made.drops[..2], &made.loads[..2]);
    assert_eq!(held, set(&[0, 1, 2, 3]));

    let rest = Start {
        booked: 2,
        wants: sets(&[&[3], &[0, 4], &[3, 4]]),
        held,
        order: as_listed(3),
        ..whole
    };
    let made = rest.plan().unwrap();
    assert_ours(&rest, &made);
    assert_eq!(made.drops, sets(&[&[1, 2], &[3], &[0]]));
    assert_eq!(made.loads, sets(&[&[], &[4], &[3]]));
    assert_eq!((made.end, made.count), (set(&[3, 4]), 2));
    let bytes = [
        5, 1, 0x06, 0, 7, 1, 0x08, 1, 0x10, 1, 7, 1, 0x01, 1, 0x08, 2, 1, 1, 0x18,
    ];
    let written = |room: usize| rest.write(&made.drops, &made.loads, made.end, room);
    assert_eq!(written(bytes.len()), Ok(bytes.to_vec()));
    assert_eq!(written(18), Err(refusal(9, 19)));
    assert_eq!(rest.from(0).plan().unwrap().count, 4);
    // It passes from nothing else.
    for held in (0..64).filter(|&held| held != rest.held) {
        let other = rest.from(held);
        assert!(other.check(&made.drops, &made.loads, made.end).is_err());
    }
}

/// The usual rule in the first step: what is wanted stays, the furthest goes first, then the highest.
#[test]
fn more_is_held_than_fits() {
    let start = |wants: &[&[u8]], held: &[u8], capacity: usize| Start {
        places: capacity + 1,
        booked: 1,
        curves: 8,
        wants: sets(wants),
        held: set(held),
        order: as_listed(wants.len()),
    };
    for (wants, held, capacity, drops, loads, end) in [
        // Never used again: the highest.
        (&[&[][..]][..], &[1, 4, 7][..], 2, &[7][..], 0, &[1, 4][..]),
        (&[&[]], &[1, 4, 7], 1, &[4, 7], 0, &[1]),
        // Wanted, though it is the highest and never used again.
        (&[&[7]], &[1, 4, 7], 1, &[1, 4], 0, &[7]),
        // Used later stays before never.
        (&[&[], &[7]], &[1, 4, 7], 1, &[1, 4], 0, &[7]),
        (&[&[], &[7], &[1]], &[1, 4, 7], 2, &[4], 0, &[1, 7]),
        // What the test wants beside it takes places too.
        (&[&[0, 2]], &[1, 4, 7], 3, &[4, 7], 2, &[0, 1, 2]),
        (&[&[0, 4]], &[1, 4, 7], 2, &[1, 7], 1, &[0, 4]),
        // Nothing has to go: as many as fit.
        (&[&[4]], &[1, 4, 7], 3, &[], 0, &[1, 4, 7]),
    ] {
        let start = start(wants, held, capacity);
        let made = start.plan().unwrap();
        assert_ours(&start, &made);
        assert_eq!(made.drops[0], set(drops), "{start:?}");
        assert_eq!((made.end, made.count), (set(end), loads), "{start:?}");
    }
}

/// A holding above the capacity is no fault by itself, but it has to be gone when the test runs.
#[test]
fn the_check_asks_after_the_loads() {
    let start = Start {
        places: 2,
        booked: 1,
        curves: 4,
        wants: sets(&[&[3], &[]]),
        held: set(&[0, 1, 2]),
        order: as_listed(2),
    };
    let check = |drops: &[&[u8]], loads: &[&[u8]], end: &[u8]| {
        start.check(&sets(drops), &sets(loads), set(end))
    };
    let no = |step: usize| Err(refusal(12, step));
    assert_eq!(check(&[&[0, 1, 2], &[]], &[&[3], &[]], &[3]), Ok(1));
    assert_eq!(check(&[&[0, 1, 2], &[3]], &[&[3], &[0]], &[0]), Ok(2));
    assert_eq!(check(&[&[0, 1, 2], &[3]], &[&[3], &[]], &[]), Ok(1));
    // One or all left.
    assert_eq!(check(&[&[1, 2], &[]], &[&[3], &[]], &[0, 3]), no(0));
    assert_eq!(check(&[&[], &[]], &[&[3], &[]], &[0, 1, 2, 3]), no(0));
    // Not held, or held and loaded.
    assert_eq!(check(&[&[0, 1, 2, 3], &[]], &[&[3], &[]], &[3]), no(0));
    assert_eq!(check(&[&[1, 2], &[]], &[&[0], &[]], &[0]), no(0));
    // The plan of an empty drive, and its end.
    assert_eq!(check(&[&[], &[]], &[&[3], &[]], &[3]), no(0));
    assert_eq!(check(&[&[0, 1, 2], &[]], &[&[3], &[]], &[]), no(2));
    assert_eq!(check(&[&[0, 1, 2], &[]], &[&[3], &[]], &[0, 3]), no(2));
    // With a place more, a held and wanted curve is not loaded again.
    let wide = Start {
        places: 64,
        wants: sets(&[&[0, 3], &[1]]),
        ..start.clone()
    };
    assert_eq!(
        wide.check(&[0, 0], &sets(&[&[3], &[]]), set(&[0, 1, 2, 3])),
        Ok(1)
    );
    for (loads, step) in [([&[0, 3][..], &[]], 0), ([&[3], &[1]], 1)] {
        let again = wide.check(&[0, 0], &sets(&loads), set(&[0, 1, 2, 3]));
        assert_eq!(again, no(step));
    }
}

/// With no tests left, only the end step remains: of every number of curves, whatever is held.
#[test]
fn only_the_end_step_remains() {
    let mut random = Random::new(41);
    for curves in 1..=64 {
        let all = all_curves(curves);
        for held in [0, 1, all, 1 << (curves - 1), random.word() & all] {
            for (places, booked) in [(1, 0), (64, 63), (8, 0)] {
                let start = Start {
                    places,
                    booked,
                    curves,
                    wants: vec![],
                    held,
                    order: vec![],
                };
                let made = start.plan().unwrap();
                assert_eq!((&made.drops[..], &made.loads[..]), (&[][..], &[][..]));
                assert_eq!((made.end, made.count), (held, 0));
                assert_ours(&start, &made);
                for other in [0, !held, held ^ 1, held ^ 1 << 63, u64::MAX, random.word()] {
                    let expected = match other == held {
                        true => Ok(0),
                        false => Err(refusal(12, 0)),
                    };
                    assert_eq!(start.check(&[], &[], other), expected);
                    assert_eq!(start.check(&[0], &[], other), Err(refusal(12, 0)));
                    assert_eq!(start.check(&[], &[held], other), Err(refusal(12, 0)));
                }
                let mut bytes = vec![];
                if held != 0 {
                    bytes.push(1);
                    bytes.extend(parts::set_bytes(held));
                }
                let written = |room: usize| start.write(&[], &[], held, room);
                assert_eq!(written(bytes.len()), Ok(bytes.clone()));
                if held != 0 {
                    let short = written(bytes.len() - 1);
                    assert_eq!(short, Err(refusal(9, bytes.len())));
                }
                let read = read_plan(curves, 0, &bytes, 0, 0, 0).unwrap();
                assert_eq!(read.end_set(), held);
            }
        }
    }
}

/// All 64 curves, and any number of places less booked.
#[test]
fn all_64_curves_are_held() {
    let mut random = Random::new(42);
    for capacity in 1..=64 {
        for booked in [0, (64 - capacity) / 2, 64 - capacity] {
            let tests = random.between(1, 12);
            let wants: Vec<u64> = (0..tests)
                .map(|_| {
                    let number = random.between(0, capacity);
                    generate::random_set(&mut random, 64, number)
                })
                .collect();
            let start = Start {
                places: capacity + booked,
                booked,
                curves: 64,
                order: permutation(&mut random, tests),
                wants,
                held: u64::MAX,
            };
            let made = start.plan().unwrap();
            assert_ours(&start, &made);
            assert_eq!(made.loads[0], 0);
            assert_eq!(parts::size(made.drops[0]), 64 - capacity as u64);
            if capacity == 64 {
                assert_eq!((made.end, made.count), (u64::MAX, 0));
                assert!(made.drops.iter().all(|&drops| drops == 0));
            }
        }
    }
}

/// The first step may drop too, so a plan may have as many bytes as any that reads.
#[test]
fn the_longest_plan_from_a_holding() {
    let mut random = Random::new(43);
    for _ in 0..4 {
        let (job, held, made) = holding::longest(&mut random);
        let SomePlan {
            order,
            drops,
            loads,
            end,
        } = made;
        let start = Start {
            places: job.places,
            booked: job.booked,
            curves: job.curves,
            wants: job.wants,
            held,
            order,
        };
        let written = start.write(&drops, &loads, end, PLAN_READ).unwrap();
        assert_eq!(written.len(), PLAN_READ);
        let short = start.write(&drops, &loads, end, PLAN_READ - 1);
        assert_eq!(short, Err(refusal(9, PLAN_READ)));
    }
}

// ---------------------------------------------------------------------------------------------
// Refusal 14

/// The lowest held curve that is not below the number of curves, whatever else is held. That the other
/// refusals go before and behind it is told with theirs, in every choice of faults.
#[test]
fn the_lowest_held_curve_that_the_job_lacks() {
    let mut random = Random::new(44);
    for curves in 1..=64 {
        let all = all_curves(curves);
        let mut holdings = vec![0, all, u64::MAX, !all, 1 << 63, 1, all & random.word()];
        holdings.extend((0..64).map(|curve| 1 << curve));
        holdings.extend((0..64).map(|curve| all | 1 << curve));
        holdings.extend((0..30).map(|_| random.word() & random.word()));
        for held in holdings {
            let lowest = (curves..64).find(|&curve| held >> curve & 1 == 1);
            for wants in [&[][..], &[1, 0, all & 3]] {
                let start = Start {
                    places: 5,
                    booked: 2,
                    curves,
                    wants: wants.to_vec(),
                    held,
                    order: as_listed(wants.len()),
                };
                let refused = lowest.map(|curve| refusal(14, curve));
                let made = start.plan();
                assert_eq!(made.as_ref().err().copied(), refused);
                let (drops, loads, end) = match made {
                    Ok(made) => (made.drops, made.loads, made.end),
                    Err(_) => (vec![0; wants.len()], wants.to_vec(), held),
                };
                assert_eq!(start.check(&drops, &loads, end).err(), refused);
                assert_eq!(start.write(&drops, &loads, end, 99).err(), refused);
            }
        }
    }
}

/// Two faults at once: 14 comes behind 10 and 13, and before 8, 7, 9 and 12.
#[test]
fn refusal_14_and_another() {
    let (wants, order, foreign) = ([1u64, 3], [0u16, 1], 0b1110_0001u64);
    let made = plan(2, 0, 5, &wants, 1, &order, 2, 2).unwrap();
    let (drops, loads, end) = (&made.drops[..], &made.loads[..], made.end);
    let lists = (drops, loads, end);
    type Lists<'a> = (&'a [u64], &'a [u64], u64);
    let all = |numbers: [usize; 3], wants: &[u64], order: &[u16], lists: Lists, room: usize| {
        let ([p, b, c], (drops, loads, end)) = (numbers, lists);
        let planned = plan(p, b, c, wants, foreign, order, room, room);
        let checked = check_plan(p, b, c, wants, foreign, order, drops, loads, end);
        let written = write_plan(p, b, c, wants, foreign, order, drops, loads, end, room);
        [planned.err(), checked.err(), written.err()]
    };
    let sound = [2, 0, 5];
    let many = vec![0; 257];
    for (numbers, wants, number, figure) in [
        ([0, 0, 5], &wants[..], 10, 0),
        ([65, 64, 5], &wants, 10, 0),
        ([2, 0, 0], &wants, 10, 1),
        (sound, &many, 10, 2),
        (sound, &[1, 1 << 5], 10, 5),
        ([2, 64, 5], &wants, 10, 260),
        ([2, 2, 5], &wants, 13, 0),
        ([2, 63, 5], &wants, 13, 0),
        (sound, &wants, 14, 5),
        // 7, and 12 in the check.
        (sound, &[1, 7], 14, 5),
    ] {
        for order in [&order[..], &[0, 0], &[], &[0, 1, 2]] {
            for lists in [
                lists,
                (&[], &[], 0),
                (&[1, 1], &[2, 2], 0),
                (drops, loads, 9),
            ] {
                for room in [0, 1, 2, 99] {
                    let expected = Some(refusal(number, figure));
                    let answers = all(numbers, wants, order, lists, room);
                    assert_eq!(answers, [expected; 3]);
                }
            }
        }
    }
    // More curves: then nothing held is lacking, and the others are answered.
    let more = [2, 0, 8];
    assert_eq!(
        all(more, &wants, &[0, 0], lists, 0),
        [Some(refusal(8, 1)); 3]
    );
    assert_eq!(
        all(more, &wants, &order, lists, 1),
        [
            Some(refusal(9, 2)),
            Some(refusal(12, 0)),
            Some(refusal(12, 0))
        ]
    );
    assert_eq!(all(more, &[1, 7], &order, lists, 0)[0], Some(refusal(7, 1)));
}

// ---------------------------------------------------------------------------------------------
// The fewest loads

/// The fewest loads from every holding at once, walking from the last step to the first: any drops of what
/// is held and any loads of what is not, early ones too. `None`: no plan passes.
fn least_from_every_holding(start: &Start) -> Vec<Option<u64>> {
    let all = 1usize << start.curves;
    let mut least = vec![Some(0); all];
    for &test in start.order.iter().rev() {
        let wanted = start.wants[test as usize] as usize;
        let mut before: Vec<Option<u64>> = vec![None; all];
        for (after, then) in least.iter().enumerate() {
            let Some(then) = then else { continue };
            let taken = after.count_ones() as usize + start.booked;
            if wanted & !after != 0 || taken > start.places {
                continue;
            }
            // What stays in the drive is a part of what is held before and of what is held after.
            for left in (0..all).filter(|&left| left & !after == 0) {
                let total = then + (after & !left).count_ones() as u64;
                for held in (0..all).filter(|&held| left & !held == 0) {
                    if before[held].is_none_or(|known| total < known) {
                        before[held] = Some(total);
                    }
                }
            }
        }
        least = before;
    }
    least
}

/// Our plans of a list from every holding: each has the fewest loads, and none is missing but where a test
/// is too wide. A holding never needs more loads than an empty drive, and saves at most one for each
/// of its curves. Answers how many of the holdings are above the capacity and planned.
fn assert_least_from_every_holding(start: &Start) -> usize {
    let least = least_from_every_holding(start);
    let mut above = 0;
    for (held, &least_loads) in least.iter().enumerate() {
        let start = start.from(held as u64);
        match (start.plan(), start.wide()) {
            (Ok(made), None) => {
                assert_eq!(least_loads, Some(made.count), "{start:?}");
                let (drops, loads, end) = (&made.drops, &made.loads, made.end);
                assert_eq!(start.check(drops, loads, end), Ok(made.count), "{start:?}");
                let empty = least[0].unwrap();
                assert!(made.count <= empty && empty <= made.count + parts::size(start.held));
                above += (held.count_ones() as usize > start.places - start.booked) as usize;
            }
            (Err(no), Some(test)) => assert_eq!((no, least_loads), (refusal(7, test), None)),
            (made, wide) => panic!("{made:?}, {wide:?}: {start:?}"),
        }
    }
    above
}

/// Every list of up to four tests with three curves and of up to two with four, and some with more, with
/// each capacity, from every holding.
#[test]
fn every_small_list_from_every_holding() {
    let mut above = 0;
    // Curves, tests, and of how many lists one is tried.
    for (curves, tests, part) in [
        (1, 4, 1),
        (2, 4, 1),
        (3, 1, 1),
        (3, 2, 1),
        (3, 3, 1),
        (3, 4, 1),
        (4, 0, 1),
        (4, 1, 1),
        (4, 2, 1),
        (4, 3, 5),
        (4, 4, 97),
        (5, 3, 131),
    ] {
        let all = all_curves(curves);
        for (round, list) in (0..1u64 << (curves * tests)).step_by(part).enumerate() {
            let wants: Vec<u64> = (0..tests)
                .map(|test| list >> (curves * test) & all)
                .collect();
            for capacity in 1..=curves {
                let booked = (round + capacity) % 4;
                above += assert_least_from_every_holding(&Start {
                    places: capacity + booked,
                    booked,
                    curves,
                    wants: wants.clone(),
                    held: 0,
                    order: as_listed(tests),
                });
            }
        }
    }
    assert!(above > 10_000, "{above} above the capacity");
}

/// The two searches agree, the other one walking from the first step to the last.
#[test]
fn both_searches_from_every_holding() {
    let mut random = Random::new(45);
    for _ in 0..300 {
        let (curves, tests) = (random.between(1, 5), random.between(0, 5));
        let places = random.between(1, 5);
        let all = all_curves(curves);
        let start = Start {
            places,
            booked: random.below(places),
            curves,
            wants: (0..tests)
                .map(|_| random.word() & random.word() & all)
                .collect(),
            held: 0,
            order: permutation(&mut random, tests),
        };
        let backwards = least_from_every_holding(&start);
        for (held, &least) in backwards.iter().enumerate() {
            let forwards = least_loads(
                start.places,
                start.booked,
                curves,
                &start.wants,
                held as u64,
                &start.order,
            );
            assert_eq!(forwards, least, "{start:?} from {held:x}");
        }
    }
}

/// Every plan whatever of a few tiny jobs, one foreign curve included, from every holding: those that
/// pass keep the balance, no two holdings let the same plan pass, and none has fewer loads than ours.
#[test]
fn every_plan_whatever_from_every_holding() {
    let mut passed = 0;
    for (curves, tests, wants) in [
        (3, 0, &[][..]),
        (3, 1, &[0b011]),
        (3, 1, &[0]),
        (2, 2, &[0b01, 0b10]),
        (2, 2, &[0b00, 0b11]),
        (1, 3, &[1, 0, 1]),
    ] {
        let bits = curves + 1;
        for capacity in 1..=curves {
            let start = Start {
                places: capacity + 2,
                booked: 2,
                curves,
                wants: wants.to_vec(),
                held: 0,
                order: (0..tests as u16).rev().collect(),
            };
            let mut least: Vec<Option<u64>> = vec![None; 1 << curves];
            for plan in 0..1u64 << (bits * (2 * tests + 1)) {
                let set = |number: usize| plan >> (bits * number) & all_curves(bits);
                let drops: Vec<u64> = (0..tests).map(|step| set(1 + step)).collect();
                let loads: Vec<u64> = (0..tests).map(|step| set(1 + tests + step)).collect();
                let end = set(0);
                let of = holding::holding_of(&drops, &loads, end);
                for held in 0..1u64 << curves {
                    let start = start.from(held);
                    let answer = start.check(&drops, &loads, end);
                    assert_eq!(answer.is_ok(), start.passes(&drops, &loads, end));
                    if let Ok(count) = answer {
                        passed += 1;
                        assert_eq!(held, of);
                        assert_eq!(count, curves_in(&loads));
                        assert_balance(held, &drops, &loads, end);
                        let known = &mut least[held as usize];
                        *known = Some(known.map_or(count, |known: u64| known.min(count)));
                    }
                }
            }
            assert_eq!(least, least_from_every_holding(&start));
            assert_least_from_every_holding(&start);
        }
    }
    assert!(passed > 400, "{passed} passed");
}

/// Small and large jobs from holdings of every kind: ours passes, and the stays tell its loads.
#[test]
fn our_plan_from_any_holding() {
    let mut random = Random::new(46);
    let (mut planned, mut above, mut fewer) = (0, 0, 0);
    for round in 0..2_500 {
        let size = match round {
            0..=15 => Size::Full,
            16..=55 => Size::Medium,
            _ => random.pick(&[Size::Tiny, Size::Small]),
        };
        let job = generate::job(&mut random, size);
        let start = Start {
            places: job.places,
            booked: job.booked,
            curves: job.curves,
            held: holding::own(&mut random, &job),
            order: permutation(&mut random, job.wants.len()),
            wants: job.wants,
        };
        let empty = start.from(0).plan();
        match (start.plan(), start.wide()) {
            (Ok(made), None) => {
                assert_ours(&start, &made);
                planned += 1;
                above += (parts::size(start.held) as usize > start.places - start.booked) as usize;
                let empty = empty.unwrap().count;
                assert!(made.count <= empty && empty <= made.count + parts::size(start.held));
                fewer += (made.count < empty) as usize;
            }
            (Err(no), Some(test)) => {
                assert_eq!(no, refusal(7, test));
                assert_eq!(empty, Err(no));
            }
            (made, wide) => panic!("{made:?}, {wide:?}: {start:?}"),
        }
    }
    assert!(
        planned > 2_000 && above > 400 && fewer > 800,
        "{planned}, {above}, {fewer}"
    );
}

// ---------------------------------------------------------------------------------------------
// Any plan that passes

/// Plans with early loads, drops that were not needed, and curves that leave and come back; and faulty
/// ones: the two checks agree, those that pass keep the balance, and from no other holding do they pass.
#[test]
fn every_plan_that_passes_keeps_the_balance() {
    let mut random = Random::new(47);
    let (mut passed, mut failed, mut above) = (0, 0, 0);
    let mut sorts = BTreeSet::new();
    for _ in 0..20_000 {
        let Some(case) = holding::case(4, &mut random) else {
            continue;
        };
        let Case::CheckPlan {
            places,
            booked,
            curves,
            wants,
            held,
            order,
            drops,
            loads,
            end,
        } = case.clone()
        else {
            unreachable!()
        };
        let start = Start {
            places,
            booked,
            curves,
            wants,
            held,
            order,
        };
        let answer = start.check(&drops, &loads, end);
        if let Err(no) = answer {
            if [10, 13, 14].contains(&no.number) {
                continue;
            }
        }
        sorts.extend(holding::sorts(&case, answer.err()));
        assert_eq!(answer.is_ok(), start.passes(&drops, &loads, end));
        let Ok(count) = answer else {
            failed += 1;
            continue;
        };
        passed += 1;
        above += (parts::size(held) as usize > places - booked) as usize;
        assert_eq!(count, curves_in(&loads));
        assert_balance(held, &drops, &loads, end);
        assert_eq!(holding::holding_of(&drops, &loads, end), held);
        for other in [0, held ^ 1, !held & all_curves(curves)] {
            if other != held {
                assert!(start.from(other).check(&drops, &loads, end).is_err());
            }
        }
        let ours = start.plan().expect("a plan passes, so no test is too wide");
        assert!(ours.count <= count, "{start:?}");
    }
    assert!(
        passed > 1_000 && failed > 1_000 && above > 200,
        "{passed}, {failed}, {above}"
    );
    assert_eq!(sorts, BTreeSet::from(holding::SORTS));
}

// ---------------------------------------------------------------------------------------------
// Lists cut in two

/// The rest of an unchanged list, at every position, as a list of its own with its tests numbered anew:
/// from what is held there its plan is the rest of the whole plan. And so it is checked.
#[test]
fn the_rest_is_planned_as_the_whole_was() {
    let mut random = Random::new(48);
    let mut cuts = 0;
    for round in 0..450 {
        let size = match round {
            0..=2 => Size::Full,
            3..=30 => Size::Medium,
            _ => random.pick(&[Size::Tiny, Size::Small]),
        };
        let job = generate::job(&mut random, size);
        let whole = Start {
            places: job.places,
            booked: job.booked,
            curves: job.curves,
            held: match round % 3 {
                0 => holding::own(&mut random, &job),
                _ => 0,
            },
            order: permutation(&mut random, job.wants.len()),
            wants: job.wants,
        };
        let Ok(made) = whole.plan() else {
            continue;
        };
        let tests = whole.wants.len();
        let made = SomePlan {
            order: whole.order.clone(),
            drops: made.drops,
            loads: made.loads,
            end: made.end,
        };
        // Of the large ones some positions.
        for steps in (0..=tests).step_by(1 + tests / 40) {
            let rest = holding::rest(&mut random, &whole.wants, whole.held, &made, steps);
            let start = Start {
                wants: rest.wants,
                held: rest.held,
                order: rest.plan.order,
                ..whole.clone()
            };
            assert_eq!(start.wants.len(), tests - steps);
            let again = start.plan().unwrap();
            assert_eq!(again.drops, made.drops[steps..], "{start:?}");
            assert_eq!(again.loads, made.loads[steps..]);
            assert_eq!(again.end, made.end);
            assert_eq!(again.count, curves_in(&made.loads[steps..]));
            assert_ours(&start, &again);
            cuts += 1;
        }
    }
    assert!(cuts > 4_000, "{cuts} cuts");
}

/// Each of the four functions gets cases with holdings, and no other does; all kinds of holdings and 14
/// beside all other faults are among them.
#[test]
fn cases_with_holdings() {
    let mut random = Random::new(49);
    for (function, name) in FUNCTIONS.iter().enumerate() {
        let takes = ["plan_order", "check_plan", "write_plan", "make_state"].contains(name);
        let (mut kinds, mut twice) = (BTreeSet::new(), BTreeSet::new());
        for _ in 0..if takes { 10_000 } else { 9 } {
            let Some(case) = holding::case(function, &mut random) else {
                continue;
            };
            assert!(takes && case.function() == function);
            kinds.extend(holding::kinds(&case, true));
            twice.extend(holding::twice(&case));
        }
        if takes {
            assert_eq!(kinds, BTreeSet::from(holding::HOLDINGS), "{name}");
            let expected: BTreeSet<&str> = holding::twice_names(name).into_iter().collect();
            assert_eq!(twice, expected, "{name}");
        }
    }
}
