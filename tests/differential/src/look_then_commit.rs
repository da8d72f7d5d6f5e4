//! Look, then commit (wish 7): the paper's sentences on lists worked by hand, every small list from every
//! holding, numbers that were not made, and that the two ways of telling it agree.

use crate::generate::{all_curves, Case, Size};
use crate::parts;
use crate::random::Random;
use crate::reference::*;
use crate::states::{answered, Any, Made, Shown, ENTRIES, NUMBERS};
use crate::walks::{self, List, Move};
use std::collections::BTreeSet;

fn set(curves: &[u8]) -> u64 {
    bits_of(&curves.iter().copied().collect())
}

fn sets(list: &[&[u8]]) -> Vec<u64> {
    list.iter().map(|curves| set(curves)).collect()
}

fn as_listed(tests: usize) -> Vec<u16> {
    (0..tests as u16).collect()
}

fn step(drops: &[u8], loads: &[u8]) -> Shown {
    Shown::Step {
        drops: set(drops),
        loads: set(loads),
    }
}

fn end(drops: &[u8]) -> Shown {
    Shown::End { drops: set(drops) }
}

/// Positions that a commit may name, up to some behind a list of so many steps, and far ones.
fn positions(steps: usize) -> impl Iterator<Item = usize> {
    let far = [255, 256, 257, 65_535, 65_536, 1 << 32, 1 << 48, 1 << 63];
    (0..=steps + 3)
        .chain(far)
        .chain([usize::MAX - 1, usize::MAX])
}

/// Job A's wants: 2 places, 4 curves.
fn a_wants() -> Vec<u64> {
    sets(&[&[0, 1], &[1, 2], &[0, 1], &[3]])
}

/// A state goes through these steps, and what is held before each and behind the last is this. Before each
/// it is looked at twice, and every position but the next is refused and changes nothing; behind the last
/// every position is. So go its numbers, by the header's sentences.
fn assert_walk(made: &Made, steps: &[Shown], held: &[u64]) {
    assert_eq!(held.len(), steps.len() + 1);
    let mut made = made.clone();
    let mut any = Any::new(&made.numbers());
    for (position, &held) in held.iter().enumerate() {
        let next = steps.get(position).copied().unwrap_or(Shown::Done);
        let before = made.clone();
        assert_eq!((made.look(), made.look()), (next, next));
        assert_eq!(made, before);
        assert_eq!((made.held(), made.committed()), (held, position));
        assert_eq!(any.numbers(), made.numbers());
        assert_eq!(any.look(), next);
        for other in positions(steps.len()) {
            if other == position && next != Shown::Done {
                continue;
            }
            assert_eq!(made.commit(other), Err(refusal(15, position)));
            assert_eq!(made, before);
            let unchanged = any.clone();
            assert_eq!(any.commit(other), Err(refusal(15, position)));
            assert_eq!(any, unchanged);
        }
        if next != Shown::Done {
            assert_eq!(made.commit(position), Ok(next));
            assert_eq!(any.commit(position), Ok(next));
            assert_ne!(made, before);
        }
    }
    assert_eq!(any.numbers(), made.numbers());
}

// ---------------------------------------------------------------------------------------------
// Examples

/// Job A: with its end step, and the highest of the curves never used again dropped in step 3.
#[test]
fn job_a_step_by_step() {
    let made = Made::new(2, 0, 4, &a_wants(), 0, &as_listed(4)).unwrap();
    let steps = [
        step(&[], &[0, 1]),
        step(&[0], &[2]),
        step(&[2], &[0]),
        step(&[1], &[3]),
        end(&[0, 3]),
    ];
    let held = sets(&[&[], &[0, 1], &[1, 2], &[0, 1], &[0, 3], &[]]);
    assert_walk(&made, &steps, &held);

    let mut made = made;
    let mut numbers = vec![2, 0, 0, 4, 0b0011, 0b0110, 0b0011, 0b1000];
    numbers.resize(NUMBERS, 0);
    assert_eq!(made.numbers(), numbers);
    for (position, held) in [0b0011, 0b0110, 0b0011, 0b1001, 0].into_iter().enumerate() {
        assert_eq!(made.commit(position), Ok(steps[position]));
        (numbers[1], numbers[2]) = (held, position as u64 + 1);
        assert_eq!(made.numbers(), numbers);
    }
    assert_eq!(made.look(), Shown::Done);
    assert_eq!(answered(made.commit(5)), [15 << 48 | 5, 0, 0]);
    assert_eq!(made.numbers(), numbers);
    // Their bytes are the plan's.
    let sets_of = |which: usize| -> Vec<u64> {
        let sets = steps[..4].iter().map(|step| step.numbers()[which]);
        sets.collect()
    };
    let bytes = write_plan(
        2,
        0,
        4,
        &a_wants(),
        0,
        &as_listed(4),
        &sets_of(1),
        &sets_of(2),
        0b1001,
        99,
    );
    assert_eq!(bytes.unwrap()[22..], [1, 1, 9]);
}

/// In the order of method 1 the second test finds all it wants: neither drops nor loads, but a step.
#[test]
fn a_step_with_empty_sets_is_committed() {
    let made = Made::new(2, 0, 4, &a_wants(), 0, &[2, 0, 1, 3]).unwrap();
    let steps = [
        step(&[], &[0, 1]),
        step(&[], &[]),
        step(&[0], &[2]),
        step(&[2], &[3]),
        end(&[1, 3]),
    ];
    let held = sets(&[&[], &[0, 1], &[0, 1], &[1, 2], &[1, 3], &[]]);
    assert_walk(&made, &steps, &held);
    // The wants stand in the order of the steps.
    assert_eq!(made.numbers()[4..8], [0b0011, 0b0011, 0b0110, 0b1000]);

    let mut made = made;
    made.commit(0).unwrap();
    assert_eq!(made.look().numbers(), [1, 0, 0]);
    assert_ne!(made.look(), Shown::Done);
    assert_eq!(made.commit(2), Err(refusal(15, 1)));
    assert_eq!(made.commit(1), Ok(step(&[], &[])));
    assert_eq!(made.commit(1), Err(refusal(15, 2)));
    assert_eq!(made.look(), step(&[0], &[2]));
}

#[test]
fn without_tests() {
    for (places, booked, curves) in [(1, 0, 1), (8, 0, 64), (64, 63, 64), (2, 1, 7)] {
        // Done at once.
        let made = Made::new(places, booked, curves, &[], 0, &[]).unwrap();
        assert_walk(&made, &[], &[0]);
        let mut numbers = vec![(places - booked) as u64];
        numbers.resize(NUMBERS, 0);
        assert_eq!(made.numbers(), numbers);
        // Only the end step, whatever the places.
        for held in [1, all_curves(curves), 1 << (curves - 1)] {
            let made = Made::new(places, booked, curves, &[], held, &[]).unwrap();
            assert_walk(&made, &[Shown::End { drops: held }], &[held, 0]);
            let mut made = made;
            assert_eq!(made.commit(1), Err(refusal(15, 0)));
            assert_eq!(made.commit(0), Ok(Shown::End { drops: held }));
            assert_eq!(made.commit(0), Err(refusal(15, 1)));
            assert_eq!(made.commit(1), Err(refusal(15, 1)));
        }
    }
}

/// Nothing is held behind the last test: no end step, and the tests' number is refused as its position.
#[test]
fn without_end_step() {
    for tests in [1, 2, 3, 255, 256] {
        let made = Made::new(3, 1, 5, &vec![0; tests], 0, &as_listed(tests)).unwrap();
        let held = vec![0; tests + 1];
        assert_walk(&made, &vec![step(&[], &[]); tests], &held);
        let mut made = made;
        for position in 0..tests {
            made.commit(position).unwrap();
        }
        assert_eq!(made.look(), Shown::Done);
        assert_eq!(made.commit(tests), Err(refusal(15, tests)));
        // One curve held, and there is one.
        let made = Made::new(3, 1, 5, &vec![0; tests], 16, &as_listed(tests)).unwrap();
        let mut steps = vec![step(&[], &[]); tests];
        steps.push(end(&[4]));
        let mut held = vec![16; tests + 1];
        held.push(0);
        assert_walk(&made, &steps, &held);
    }
}

/// Job A with 5 places of which 3 are booked: the same, by 2 places. With 4 nothing has to go.
#[test]
fn booked_places() {
    let made = |booked: usize| Made::new(5, booked, 4, &a_wants(), 0, &as_listed(4));
    assert_eq!(made(3), Made::new(2, 0, 4, &a_wants(), 0, &as_listed(4)));
    assert_eq!(made(3).unwrap().numbers()[0], 2);
    let steps = [
        step(&[], &[0, 1]),
        step(&[], &[2]),
        step(&[], &[]),
        step(&[], &[3]),
        end(&[0, 1, 2, 3]),
    ];
    let held = sets(&[&[], &[0, 1], &[0, 1, 2], &[0, 1, 2], &[0, 1, 2, 3], &[]]);
    for booked in [0, 1] {
        assert_walk(&made(booked).unwrap(), &steps, &held);
    }
    // With 3 the last test takes a place.
    let steps = [
        steps[0],
        steps[1],
        steps[2],
        step(&[2], &[3]),
        end(&[0, 1, 3]),
    ];
    let held = sets(&[&[], &[0, 1], &[0, 1, 2], &[0, 1, 2], &[0, 1, 3], &[]]);
    assert_walk(&made(2).unwrap(), &steps, &held);
    assert_eq!(made(4), Err(refusal(7, 0)));
    assert_eq!(made(5), Err(refusal(13, 0)));
    assert_eq!(made(64), Err(refusal(10, 260)));
}

/// More is held than fits: the first step drops down, what is wanted soon last.
#[test]
fn a_holding_above_the_capacity() {
    // Held 1, 4 and 7, one place: 7 is wanted, 4 is used next, 1 later.
    let wants = sets(&[&[7], &[4], &[1]]);
    let made = Made::new(2, 1, 8, &wants, set(&[1, 4, 7]), &as_listed(3)).unwrap();
    let steps = [
        step(&[1, 4], &[]),
        step(&[7], &[4]),
        step(&[4], &[1]),
        end(&[1]),
    ];
    let held = sets(&[&[1, 4, 7], &[7], &[4], &[1], &[]]);
    assert_walk(&made, &steps, &held);
    // Two places: of 4, used next, and 1, used later, 1 goes.
    let made = Made::new(2, 0, 8, &wants, set(&[1, 4, 7]), &as_listed(3)).unwrap();
    let steps = [
        step(&[1], &[]),
        step(&[], &[]),
        step(&[7], &[1]),
        end(&[1, 4]),
    ];
    let held = sets(&[&[1, 4, 7], &[4, 7], &[4, 7], &[1, 4], &[]]);
    assert_walk(&made, &steps, &held);
    // None is used again, and the highest go.
    let made = Made::new(2, 0, 8, &[0], set(&[0, 3, 5, 6]), &[0]).unwrap();
    let held = sets(&[&[0, 3, 5, 6], &[0, 3], &[]]);
    assert_walk(&made, &[step(&[5, 6], &[]), end(&[0, 3])], &held);
}

/// As in planning, in its sequence, and never 9. Of two faults at once the sequence is told elsewhere.
#[test]
fn refused_as_in_planning() {
    let wants = a_wants();
    let order = as_listed(4);
    let made = |p: usize, b: usize, c: usize, wants: &[u64], held: u64, order: &[u16]| {
        let answer = Made::new(p, b, c, wants, held, order);
        let room = wants.len();
        let planned = plan(p, b, c, wants, held, order, room, room);
        assert_eq!(answer.as_ref().err(), planned.as_ref().err());
        answer.map(|made| made.tests())
    };
    let no = |number: u64, figure: usize| Err(refusal(number, figure));
    assert_eq!(made(2, 0, 4, &wants, 0, &order), Ok(4));
    assert_eq!(made(0, 0, 4, &wants, 0, &order), no(10, 0));
    assert_eq!(made(65, 0, 4, &wants, 0, &order), no(10, 0));
    assert_eq!(made(2, 0, 0, &wants, 0, &order), no(10, 1));
    assert_eq!(made(2, 0, 65, &wants, 0, &order), no(10, 1));
    assert_eq!(made(2, 0, 4, &[0; 256], 0, &as_listed(256)), Ok(256));
    assert_eq!(made(2, 0, 4, &[0; 257], 0, &as_listed(257)), no(10, 2));
    assert_eq!(made(2, 0, 3, &wants, 0, &order), no(10, 7));
    assert_eq!(made(2, 64, 4, &wants, 0, &order), no(10, 260));
    assert_eq!(made(2, 2, 4, &wants, 0, &order), no(13, 0));
    assert_eq!(made(2, 0, 4, &wants, 0xf0, &order), no(14, 4));
    assert_eq!(made(2, 0, 4, &wants, 15, &[0, 1, 2]), no(8, 3));
    assert_eq!(made(2, 0, 4, &wants, 15, &[0, 1, 1, 3, 2]), no(8, 2));
    assert_eq!(made(2, 0, 4, &wants, 15, &[0, 1, 2, 3, 3]), no(8, 4));
    assert_eq!(made(2, 0, 4, &[], 15, &[0]), no(8, 0));
    assert_eq!(made(2, 1, 4, &wants, 15, &[3, 2, 1, 0]), no(7, 0));
}

/// A state that is copied goes on by itself.
#[test]
fn copies_go_on_by_themselves() {
    let mut made = Made::new(2, 0, 4, &a_wants(), 0, &as_listed(4)).unwrap();
    made.commit(0).unwrap();
    let mut copy = made.clone();
    for position in 1..5 {
        copy.commit(position).unwrap();
    }
    assert_eq!((made.look(), copy.look()), (step(&[0], &[2]), Shown::Done));
    assert_eq!(made.commit(1), Ok(step(&[0], &[2])));
}

// ---------------------------------------------------------------------------------------------
// Every small list

/// A walk by the numbers alone, right commits in turn until done: the steps.
fn walked(made: &Made) -> Vec<Shown> {
    let mut state = Any::new(&made.numbers());
    let mut steps = Vec::new();
    while state.look() != Shown::Done {
        let shown = state.look();
        assert_eq!(state.commit(steps.len()), Ok(shown));
        steps.push(shown);
    }
    assert_eq!(state.held, 0);
    assert_eq!(state.committed, steps.len() as u64);
    steps
}

/// What the plan's sets are as steps.
fn as_steps(plan: &Plan) -> Vec<Shown> {
    let mut steps = Vec::new();
    for (&drops, &loads) in plan.drops.iter().zip(&plan.loads) {
        steps.push(Shown::Step { drops, loads });
    }
    if plan.end != 0 {
        steps.push(Shown::End { drops: plan.end });
    }
    steps
}

/// Every list of up to three tests with up to three curves, and of up to two with four, by each capacity, from
/// every holding: the steps one by one, each told from what is held there and the wants behind, are the
/// whole plan. There is no end step exactly where nothing was ever held.
#[test]
fn every_small_list_is_walked_as_planned() {
    let (mut walks, mut without_end, mut neither) = (0, 0, 0);
    for (curves, tests) in [
        (1, 0),
        (1, 3),
        (2, 1),
        (2, 2),
        (2, 3),
        (3, 0),
        (3, 1),
        (3, 2),
        (3, 3),
        (4, 1),
        (4, 2),
    ] {
        let all = all_curves(curves);
        for list in 0..1u64 << (curves * tests) {
            let wants: Vec<u64> = (0..tests)
                .map(|test| list >> (curves * test) & all)
                .collect();
            for (capacity, held) in (1..=curves).flat_map(|c| (0..=all).map(move |h| (c, h))) {
                let booked = (list as usize + capacity) % 3;
                let order: Vec<u16> = match list % 2 {
                    0 => as_listed(tests),
                    _ => as_listed(tests).into_iter().rev().collect(),
                };
                let places = capacity + booked;
                let made = Made::new(places, booked, curves, &wants, held, &order);
                let planned = plan(places, booked, curves, &wants, held, &order, tests, tests);
                let (made, planned) = match (made, planned) {
                    (Ok(made), Ok(planned)) => (made, planned),
                    (made, planned) => {
                        assert_eq!(made.err(), planned.err());
                        continue;
                    }
                };
                let steps = as_steps(&planned);
                assert_eq!(
                    walked(&made),
                    steps,
                    "{wants:x?} from {held:x} by {capacity}"
                );
                assert_eq!(made.steps(), steps);
                walks += 1;
                neither += steps.contains(&step(&[], &[])) as usize;
                let nothing = held == 0 && wants.iter().all(|&want| want == 0);
                assert_eq!(steps.len(), tests + !nothing as usize);
                without_end += nothing as usize;
            }
        }
    }
    assert!(
        walks > 9_000 && without_end > 20 && neither > 3_000,
        "{walks}, {without_end}, {neither}"
    );
}

/// All wrong commits too, of every list of up to two tests with two curves.
#[test]
fn every_wrong_commit_of_the_smallest_lists() {
    for tests in 0..=2 {
        for list in 0..1u64 << (2 * tests) {
            let wants: Vec<u64> = (0..tests).map(|test| list >> (2 * test) & 3).collect();
            for (capacity, held) in [1, 2].into_iter().flat_map(|c| (0..4).map(move |h| (c, h))) {
                let Ok(made) = Made::new(capacity, 0, 2, &wants, held, &as_listed(tests)) else {
                    continue;
                };
                let steps = made.steps().to_vec();
                let mut holdings = vec![held];
                for (at, step) in steps.iter().enumerate() {
                    let [_, drops, loads] = step.numbers();
                    holdings.push(holdings[at] & !drops | loads);
                }
                assert_walk(&made, &steps, &holdings);
            }
        }
    }
}

/// Small and large lists of every kind: at each position the numbers tell the same step as the plan.
#[test]
fn any_list_is_walked_as_planned() {
    let mut random = Random::new(71);
    let (mut above, mut without_end, mut neither, mut steps) = (0, 0, 0, 0);
    for round in 0..1_500 {
        let size = match round {
            0..=5 => Size::Full,
            6..=25 => Size::Medium,
            26..=45 => Size::Edge,
            _ => random.pick(&[Size::Tiny, Size::Small]),
        };
        let (list, made) = walks::sound(&mut random, size);
        let all = walked(&made);
        assert_eq!(all, made.steps(), "{list:x?}");
        above += (parts::size(list.held) as usize > made.capacity()) as usize;
        without_end += (all.len() == made.tests()) as usize;
        neither += all.iter().filter(|&&shown| shown == step(&[], &[])).count();
        steps += all.len();
        // The load count, and held at the start plus loads equals drops.
        let count = |which: usize| -> u64 {
            let sets = all.iter().map(|shown| parts::size(shown.numbers()[which]));
            sets.sum()
        };
        assert_eq!(parts::size(list.held) + count(2), count(1));
        let tests = made.tests();
        let (p, b, c) = (list.places, list.booked, list.curves);
        let planned = plan(p, b, c, &list.wants, list.held, &list.order, tests, tests);
        assert_eq!(planned.unwrap().count, count(2));
    }
    assert!(
        above > 250 && without_end > 50 && neither > 1_000 && steps > 10_000,
        "{above}, {without_end}, {neither}, {steps}"
    );
}

/// A state on its way is as one made of the rest of the list, from what is held there; only the steps
/// committed and the wants are counted otherwise.
#[test]
fn a_state_on_its_way_is_that_of_the_rest() {
    let mut random = Random::new(72);
    for _ in 0..400 {
        let size = random.pick(&[Size::Tiny, Size::Small]);
        let (list, mut made) = walks::sound(&mut random, size);
        let tests = made.tests();
        let committed = random.between(0, tests);
        for position in 0..committed {
            made.commit(position).unwrap();
        }
        let wants: Vec<u64> = list.order[committed..]
            .iter()
            .map(|&test| list.wants[test as usize])
            .collect();
        let order = as_listed(tests - committed);
        let (places, booked, curves) = (list.places, list.booked, list.curves);
        let rest = Made::new(places, booked, curves, &wants, made.held(), &order).unwrap();
        assert_eq!(rest.steps(), &made.steps()[committed..], "{list:x?}");
    }
}

// ---------------------------------------------------------------------------------------------
// Numbers that were not made

/// Any numbers: capacity, held, committed, tests, and the first wants.
fn any(capacity: u64, held: &[u8], committed: u64, tests: u64, wants: &[&[u8]]) -> Any {
    let mut entries = sets(wants);
    entries.resize(ENTRIES, 0);
    Any {
        capacity,
        held: set(held),
        committed,
        tests,
        wants: entries,
    }
}

/// What a state shows, and what it holds and counts once that is committed.
fn assert_committed(state: &Any, shown: Shown, held: &[u8]) {
    assert_eq!(state.look(), shown);
    let mut then = state.clone();
    assert_eq!(then.commit(state.committed as usize), Ok(shown));
    let expected = Any {
        held: set(held),
        committed: state.committed + 1,
        ..state.clone()
    };
    assert_eq!(then, expected);
}

fn assert_done(state: &Any) {
    assert_eq!(state.look(), Shown::Done);
    let committed = state.committed as usize;
    for position in positions(260).chain([committed, committed.wrapping_add(1)]) {
        let mut then = state.clone();
        assert_eq!(then.commit(position), Err(refusal(15, committed)));
        assert_eq!(&then, state);
    }
}

/// Where more would have to be dropped than are held and not wanted, all of these go.
#[test]
fn capacities_that_no_list_has() {
    let wants: &[&[u8]] = &[&[1, 2], &[0, 5]];
    let state = |capacity: u64, held: &[u8]| any(capacity, held, 0, 2, wants);
    // 0, and fewer than the test wants.
    for capacity in [0, 1] {
        let state = state(capacity, &[0, 1, 5]);
        assert_committed(&state, step(&[0, 5], &[2]), &[1, 2]);
    }
    assert_committed(&state(0, &[1, 2]), step(&[], &[]), &[1, 2]);
    assert_committed(&state(0, &[]), step(&[], &[1, 2]), &[1, 2]);
    // As many as it wants, and more.
    assert_committed(&state(2, &[0, 1, 5]), step(&[0, 5], &[2]), &[1, 2]);
    assert_committed(&state(3, &[0, 1, 5]), step(&[5], &[2]), &[0, 1, 2]);
    for capacity in [4, 64, 65, 70, 1 << 32, 1 << 63, u64::MAX] {
        let state = state(capacity, &[0, 1, 5]);
        assert_committed(&state, step(&[], &[2]), &[0, 1, 2, 5]);
    }
    // All 64 are held, and 63 fit: 63 is never used, and is the highest of these.
    let mut all = state(63, &[]);
    all.held = u64::MAX;
    assert_eq!(all.look(), step(&[63], &[]));
    all.capacity = 0;
    let drops = !0b110;
    assert_eq!(all.look(), Shown::Step { drops, loads: 0 });
}

/// Tests above 256 count as 256.
#[test]
fn more_tests_than_entries() {
    for tests in [256, 257, 258, 300, 1 << 32, (1 << 32) + 1, u64::MAX] {
        let mut state = any(1, &[3, 6], 255, tests, &[&[6]]);
        state.wants[255] = set(&[3]);
        assert_committed(&state, step(&[6], &[]), &[3]);
        state.committed = 254;
        assert_committed(&state, step(&[6], &[]), &[3]);
        // Used in the first step, which lies behind.
        state.wants[255] = 0;
        assert_committed(&state, step(&[6], &[]), &[3]);
        state.committed = 256;
        assert_committed(&state, end(&[3, 6]), &[]);
        state.held = 0;
        assert_done(&state);
        state.held = set(&[3]);
        for committed in [257, 258, 300, 1 << 32, u64::MAX] {
            state.committed = committed;
            assert_done(&state);
        }
    }
}

/// The steps committed beside the tests: below them, equal, above.
#[test]
fn more_committed_than_there_are() {
    let wants: &[&[u8]] = &[&[0], &[1], &[2], &[3]];
    for tests in 0..=3u64 {
        for committed in 0..=6 {
            let state = any(9, &[7], committed, tests, wants);
            if committed < tests {
                let wanted = committed as u8;
                assert_committed(&state, step(&[], &[wanted]), &[7, wanted]);
            } else if committed == tests {
                assert_committed(&state, end(&[7]), &[]);
                assert_done(&any(9, &[], committed, tests, wants));
            } else {
                assert_done(&state);
                assert_done(&any(9, &[], committed, tests, wants));
            }
        }
    }
    for committed in [1 << 16, 1 << 32, 1 << 48, u64::MAX - 1, u64::MAX] {
        assert_done(&any(9, &[7], committed, 3, wants));
    }
    // Of the figure 48 bits are answered.
    let answer = |committed: u64| answered(any(9, &[7], committed, 3, wants).commit(0));
    assert_eq!(answer(4), [0xf_0000_0000_0004, 0, 0]);
    assert_eq!(answer((1 << 48) - 1), [0xf_ffff_ffff_ffff, 0, 0]);
    assert_eq!(answer(1 << 48), [0xf_0000_0000_0000, 0, 0]);
    assert_eq!(answer((1 << 60) + 7), [0xf_0000_0000_0007, 0, 0]);
    assert_eq!(answer(u64::MAX), [0xf_ffff_ffff_ffff, 0, 0]);
}

/// Only the steps up to the last test tell the next use; those before tell nothing.
#[test]
fn wants_of_other_entries() {
    let wants: &[&[u8]] = &[&[5], &[], &[], &[4], &[5]];
    // Of 4 and 5 one goes: 5 is used later, or never, or both never.
    let shown = |committed: u64, tests: u64| any(1, &[4, 5], committed, tests, wants).look();
    assert_eq!(shown(1, 5), step(&[5], &[]));
    assert_eq!(shown(1, 4), step(&[5], &[]));
    assert_eq!(shown(1, 3), step(&[5], &[]));
    let wants: &[&[u8]] = &[&[4], &[], &[], &[5], &[4]];
    let shown = |committed: u64, tests: u64| any(1, &[4, 5], committed, tests, wants).look();
    assert_eq!(shown(1, 5), step(&[4], &[]));
    assert_eq!(shown(1, 4), step(&[4], &[]));
    // Both never: the highest, though 5 stands behind the last.
    assert_eq!(shown(1, 3), step(&[5], &[]));
    assert_eq!(shown(2, 3), step(&[5], &[]));
}

/// What holds of every step of any numbers.
#[test]
fn the_rule_of_any_numbers() {
    let mut random = Random::new(73);
    let (mut kinds, mut steps) = (BTreeSet::new(), 0);
    for _ in 0..6_000 {
        let state = walks::any_state(&mut random);
        kinds.extend(walks::state_kinds(&state));
        assert_eq!(Any::new(&state.numbers()), state);
        let mut then = state.clone();
        let answer = then.commit(state.committed as usize);
        let Shown::Step { drops, loads } = state.look() else {
            continue;
        };
        steps += 1;
        assert_eq!(answer, Ok(state.look()));
        let (next, tests) = (state.committed as usize, state.counted_tests());
        let wanted = state.wants[next];
        assert_eq!(loads, parts::without(wanted, state.held));
        let candidates = parts::without(state.held, wanted);
        assert!(parts::inside(drops, candidates));
        let together = parts::size(parts::union(state.held, wanted));
        let excess = together.saturating_sub(state.capacity);
        assert_eq!(parts::size(drops), excess.min(parts::size(candidates)));
        // A curve that stays is used before one that goes, or then too and is lower.
        let next_use = |curve: u8| {
            let mut later = next + 1..tests;
            let used = later.find(|&step| state.wants[step] >> curve & 1 == 1);
            used.unwrap_or(usize::MAX)
        };
        for gone in set_of(drops) {
            for stays in set_of(candidates & !drops) {
                assert!((next_use(stays), stays) < (next_use(gone), gone));
            }
        }
        let held = parts::union(parts::without(state.held, drops), loads);
        assert_eq!((then.held, then.committed), (held, state.committed + 1));
        assert_eq!((then.capacity, then.tests), (state.capacity, state.tests));
        assert_eq!(then.wants, state.wants);
    }
    assert!(steps > 2_500, "{steps} steps");
    assert_eq!(kinds, BTreeSet::from(walks::STATES));
}

// ---------------------------------------------------------------------------------------------
// Cases

/// Of several faults the first in the papers' sequence is answered, and without any a state is made; all two
/// faults are among them.
#[test]
fn the_first_fault_decides() {
    let mut random = Random::new(74);
    let names = walks::fault_names();
    let (mut kinds, mut faults) = (BTreeSet::new(), BTreeSet::new());
    for _ in 0..6_000 {
        let size = random.pick(&[Size::Tiny, Size::Tiny, Size::Small]);
        let case = walks::make_case(&mut random, size);
        let list = walks::list_of(&case).unwrap();
        let answer = list.made();
        kinds.extend(walks::made_kinds(&list, &answer));
        faults.extend(walks::fault_kinds(&list, &names));
        let told = match answer {
            Ok(_) => None,
            Err(no) => Some(match (no.number, no.figure) {
                (10, 0) => "10:0",
                (10, 1) => "10:1",
                (10, 2) => "10:2",
                (10, 4..=259) => "10:4+t",
                (10, 260) => "10:260",
                (13, 0) => "13",
                (14, _) => "14",
                (8, _) => "8",
                (7, _) => "7",
                _ => panic!("{no:?} of {}", case.describe()),
            }),
        };
        let first = walks::faults(&list).first().copied();
        assert_eq!(told, first, "{}", case.describe());
    }
    let missing: Vec<_> = names
        .iter()
        .filter(|name| !faults.contains(*name))
        .collect();
    assert!(missing.is_empty(), "{missing:?}");
    let expected = walks::MADE.iter().chain(&walks::TOO_MANY).copied();
    assert_eq!(kinds, expected.collect());
}

/// All kinds of moves, steps and positions are among the walks, and all kinds of commits.
#[test]
fn cases_of_walks_and_commits() {
    let mut random = Random::new(75);
    let (mut moves, mut steps) = (BTreeSet::new(), BTreeSet::new());
    let (mut wrong, mut after_done) = (BTreeSet::new(), BTreeSet::new());
    let (mut ends, mut lists) = (BTreeSet::new(), BTreeSet::new());
    let mut commits = BTreeSet::new();
    for _ in 0..3_000 {
        let Case::Walk { list, moves: all } = walks::walk_case(&mut random, Size::Tiny) else {
            unreachable!()
        };
        let made = list.made().unwrap();
        let told = walks::told(&made, &all);
        moves.extend(told.moves);
        steps.extend(told.steps);
        wrong.extend(told.wrong);
        after_done.extend(told.after_done);
        ends.insert(walks::end_of(&made));
        lists.extend(walks::made_kinds(&list, &Ok(made)));
        let Case::Commit { state, positions } = walks::commit_case(&mut random) else {
            unreachable!()
        };
        commits.extend(walks::commit_kinds(&Any::new(&state), &positions));
    }
    assert_eq!(moves, BTreeSet::from(walks::MOVES));
    assert_eq!(steps, BTreeSet::from(walks::STEPS));
    assert_eq!(wrong, BTreeSet::from(walks::WRONG));
    assert_eq!(after_done, BTreeSet::from(walks::AFTER_DONE));
    assert_eq!(ends, BTreeSet::from(walks::ENDS));
    assert_eq!(lists, BTreeSet::from(walks::MADE));
    assert_eq!(commits, BTreeSet::from(walks::COMMITS));
}

/// What is told of a walk, by hand.
#[test]
fn what_is_told_of_a_walk() {
    let list = List {
        places: 2,
        booked: 0,
        curves: 4,
        wants: sets(&[&[0], &[0]]),
        held: 0,
        order: as_listed(2),
    };
    let moves = [
        Move::Look,
        Move::Look,
        Move::Commit(2),
        Move::Commit(0),
        Move::Commit(0),
        Move::Copy,
        Move::Commit(1),
        Move::Commit(usize::MAX),
        Move::Look,
        Move::Commit(2),
        Move::Commit(3),
        Move::Look,
    ];
    let told = walks::told(&list.made().unwrap(), &moves);
    let expected = [
        "looks",
        "looks",
        "looks-repeated",
        "wrong-commits",
        "right-commits",
        "wrong-commits",
        "copies",
        "right-commits",
        "right-commits-unlooked",
        "wrong-commits",
        "looks",
        "right-commits",
        "commits-when-done",
        "looks",
        "looks-when-done",
    ];
    assert_eq!(told.moves, expected);
    assert_eq!(told.steps, ["loads-alone", "neither", "end-step"]);
    assert_eq!(
        told.wrong,
        ["tests", "later", "one-less", "0", "earlier", "max"]
    );
    assert_eq!(told.after_done, ["next:behind-end-step"]);
}
