//! The reference against itself on random small jobs, and against the two fast
//! implementations.

use crate::booked;
use crate::empty;
use crate::fast;
use crate::generate::{self, permutation, with_booked, Case, Ending, Size, ENDINGS, FUNCTIONS};
use crate::generate::{JOB, PLAN_MADE, PLAN_READ};
use crate::parts;
use crate::random::Random;
use crate::reference::*;
use crate::sizes;
use crate::states::Made;
use crate::ties;
use crate::tuned;
use crate::withdrawn;
use std::collections::BTreeSet;

/// A small job whose tests all fit: places less booked up to 4, curves up to 6, tests up to 7 or none.
/// Places, booked places, curves and wants.
fn small_job(random: &mut Random) -> (usize, usize, usize, Vec<u64>) {
    let capacity = random.between(1, 4);
    let curves = random.between(1, 6);
    let tests = random.between(0, 7);
    let wants = (0..tests)
        .map(|_| {
            let number = random.between(0, capacity.min(curves));
            generate::random_set(random, curves, number)
        })
        .collect();
    let (places, booked) = with_booked(random, capacity);
    (places, booked, curves, wants)
}

/// How many curves these sets have together.
fn curves_in(sets: &[u64]) -> u64 {
    sets.iter().map(|&set| parts::size(set)).sum()
}

/// What holds of every plan that passes: what was held or loaded is dropped again, by a step or at the
/// end.
fn assert_ends_empty(held: u64, drops: &[u64], loads: &[u64], end: u64) {
    let dropped = curves_in(drops) + curves_in(&[end]);
    assert_eq!(dropped, curves_in(&[held]) + curves_in(loads));
    assert_eq!(held_behind(held, drops, loads), end);
}

#[test]
fn plan_passes_and_loads_least() {
    let mut random = Random::new(1);
    let (mut without_tests, mut with_fewer, mut need_more) = (0, 0, 0);
    for _ in 0..4_000 {
        let (places, booked, curves, wants) = small_job(&mut random);
        let tests = wants.len();
        without_tests += (tests == 0) as usize;
        let order = permutation(&mut random, tests);
        let made = plan(places, booked, curves, &wants, 0, &order, tests, tests).unwrap();
        let (drops, loads, end) = (&made.drops, &made.loads, made.end);
        assert_eq!(
            check_plan(places, booked, curves, &wants, 0, &order, drops, loads, end),
            Ok(made.count)
        );
        assert!(passes(
            places, booked, curves, &wants, 0, &order, drops, loads, end
        ));
        assert_ends_empty(0, drops, loads, end);
        assert_eq!(
            least_loads(places, booked, curves, &wants, 0, &order),
            Some(made.count),
            "{places} places, {booked} booked, {curves} curves, wants {wants:?}, order {order:?}"
        );
        assert_eq!(fewest_loads(places, booked, &wants, 0, &order), made.count);
        // With all places at hand some need fewer loads.
        let unbooked = least_loads(places, 0, curves, &wants, 0, &order).unwrap();
        assert!(unbooked <= made.count);
        with_fewer += (booked > 0) as usize;
        need_more += (unbooked < made.count) as usize;
    }
    assert!(without_tests > 300, "{without_tests} without tests");
    assert!(
        with_fewer > 1_000 && need_more > 100,
        "{need_more} of {with_fewer}"
    );
}

/// Both rules' plans pass, told in two ways, and load equally often. Answers whether they differ.
fn load_alike(places: usize, booked: usize, curves: usize, wants: &[u64], order: &[u16]) -> bool {
    let (lowest, highest) = ties::both_plans(places, booked, curves, wants, 0, order).unwrap();
    for made in [&lowest, &highest] {
        let (drops, loads, end) = (&made.drops, &made.loads, made.end);
        let checked = check_plan(places, booked, curves, wants, 0, order, drops, loads, end);
        assert_eq!(checked, Ok(made.count));
        assert!(passes(
            places, booked, curves, wants, 0, order, drops, loads, end
        ));
        assert_ends_empty(0, drops, loads, end);
        assert_eq!(curves_in(loads), made.count);
    }
    assert_eq!(lowest.count, highest.count);
    assert_eq!(fewest_loads(places, booked, wants, 0, order), highest.count);
    assert_parting(wants, order, &lowest, &highest);
    lowest != highest
}

/// Where the two plans part, one drops the lowest and the other the highest of the tied curves, and
/// nothing else differs. Where they do not part, they are the same.
fn assert_parting(wants: &[u64], order: &[u16], lowest: &Plan, highest: &Plan) {
    let Some(parting) = ties::parting(wants, 0, order, lowest, highest) else {
        assert_eq!(lowest, highest);
        return;
    };
    let step = parting.step;
    assert_eq!(lowest.drops[..step], highest.drops[..step]);
    assert_eq!(lowest.loads[..=step], highest.loads[..=step]);
    let tied: Vec<u8> = parting.tied.iter().copied().collect();
    let (go, stay) = (parting.tied_drops, tied.len() - parting.tied_drops);
    assert!(go > 0 && stay > 0);
    let low = set_of(lowest.drops[step]);
    let high = set_of(highest.drops[step]);
    assert!(tied[..go].iter().all(|curve| low.contains(curve)));
    assert!(tied[go..].iter().all(|curve| !low.contains(curve)));
    assert!(tied[..stay].iter().all(|curve| !high.contains(curve)));
    assert!(tied[stay..].iter().all(|curve| high.contains(curve)));
    assert_eq!(&low - &parting.tied, &high - &parting.tied);
}

#[test]
fn both_tie_rules_load_least_in_small_jobs() {
    let mut random = Random::new(17);
    let (mut differ, mut without_tests) = (0, 0);
    for round in 0..4_000 {
        let (places, booked, curves, wants) = match round % 2 {
            0 => small_job(&mut random),
            _ => {
                let (tests, curves) = (random.between(2, 7), random.between(4, 6));
                let job = generate::tied_job(&mut random, tests, curves);
                (job.places, job.booked, job.curves, job.wants)
            }
        };
        let order = permutation(&mut random, wants.len());
        differ += load_alike(places, booked, curves, &wants, &order) as usize;
        let least = least_loads(places, booked, curves, &wants, 0, &order);
        assert_eq!(least, Some(fewest_loads(places, booked, &wants, 0, &order)));
        if wants.is_empty() {
            without_tests += 1;
            assert_eq!(least, Some(0));
        }
    }
    assert!(without_tests > 150, "{without_tests} without tests");
    println!("small jobs with another plan under the other tie rule: {differ} of 4000");
    assert!(differ > 1_000, "{differ} differ");
}

/// All places less booked, up to 64 curves and 256 tests or none.
#[test]
fn both_tie_rules_load_alike_in_large_jobs() {
    let mut random = Random::new(18);
    let (mut jobs, mut differ) = (0, 0);
    let mut kinds = BTreeSet::new();
    for capacity in 1..=64 {
        for round in 0..12 {
            let tests = match round {
                0 => 256,
                1..=3 => random.between(100, 256),
                10 | 11 => 0,
                _ => random.between(2, 60),
            };
            let (curves, mut wants) = match round % 3 {
                0 => {
                    let curves = random.between(4, 64);
                    let job = generate::tied_job(&mut random, tests, curves);
                    (job.curves, job.wants)
                }
                _ => {
                    let curves = random.between(capacity.min(63) + 1, 64);
                    let wants = generate::wants(&mut random, tests, capacity, curves);
                    (curves, wants)
                }
            };
            // None wider than the drive takes.
            for want in &mut wants {
                while parts::size(*want) > capacity as u64 {
                    *want = parts::without_lowest(*want);
                }
            }
            let (places, booked) = with_booked(&mut random, capacity);
            let order = permutation(&mut random, tests);
            jobs += 1;
            differ += load_alike(places, booked, curves, &wants, &order) as usize;
            let plans = ties::both_plans(places, booked, curves, &wants, 0, &order);
            let (lowest, highest) = plans.unwrap();
            if let Some(parting) = ties::parting(&wants, 0, &order, &lowest, &highest) {
                kinds.extend(parting.kinds());
            }
        }
    }
    println!("large jobs with another plan under the other tie rule: {differ} of {jobs}");
    assert!(differ > jobs / 3, "{differ} of {jobs} differ");
    // All but the one of equal plans.
    assert_eq!(kinds.len(), ties::KINDS.len() - 1);
}

/// The plan whose steps sort their candidates, by falling next use and for equals by this rank, and
/// drop as many of the first as is needed.
fn sorted_plan(
    capacity: usize,
    wants: &[u64],
    order: &[u16],
    mut rank: impl FnMut(u32) -> u64,
) -> Plan {
    let steps: Vec<u64> = order.iter().map(|&test| wants[test as usize]).collect();
    let (mut drops, mut loads, mut held) = (vec![], vec![], 0u64);
    for (step, &wanted) in steps.iter().enumerate() {
        let excess = ((held | wanted).count_ones() as usize).saturating_sub(capacity);
        let mut candidates: Vec<(usize, u64, u32)> = (0..64)
            .filter(|curve| (held & !wanted) >> curve & 1 == 1)
            .map(|curve| {
                let used = |&later: &usize| steps[later] >> curve & 1 == 1;
                let next = (step + 1..steps.len()).find(used);
                (usize::MAX - next.unwrap_or(usize::MAX), rank(curve), curve)
            })
            .collect();
        candidates.sort();
        let dropped: u64 = candidates[..excess].iter().map(|first| 1 << first.2).sum();
        held &= !dropped;
        drops.push(dropped);
        loads.push(wanted & !held);
        held |= wanted;
    }
    let count = curves_in(&loads);
    Plan {
        drops,
        loads,
        end: held,
        count,
    }
}

/// Dropping one by one is dropping the first of the sorted; and however ties are decided, each time
/// anew, the load count is the same.
#[test]
fn any_choice_among_the_furthest_loads_alike() {
    let mut random = Random::new(19);
    let (mut planned, mut others) = (0, 0);
    for round in 0..4_000 {
        let size = match round {
            0..=19 => Size::Full,
            20..=59 => Size::Medium,
            _ => random.pick(&[Size::Tiny, Size::Small]),
        };
        let job = generate::job(&mut random, size);
        let (places, booked, curves, wants) = (job.places, job.booked, job.curves, &job.wants);
        let order = permutation(&mut random, wants.len());
        let Some((lowest, highest)) = ties::both_plans(places, booked, curves, wants, 0, &order)
        else {
            continue; // a test is too wide
        };
        planned += 1;
        let capacity = places - booked;
        let rising = sorted_plan(capacity, wants, &order, |curve| curve as u64);
        let falling = sorted_plan(capacity, wants, &order, |curve| 63 - curve as u64);
        assert_eq!((&rising, &falling), (&lowest, &highest));
        let any = sorted_plan(capacity, wants, &order, |_| random.word());
        assert_eq!(any.count, highest.count);
        let checked = check_plan(
            places, booked, curves, wants, 0, &order, &any.drops, &any.loads, any.end,
        );
        assert_eq!(checked, Ok(any.count));
        others += (any != lowest && any != highest) as usize;
    }
    assert!(planned > 3_000 && others > 300, "{planned}, {others}");
}

#[test]
fn the_stays_tell_the_loads_of_our_plan() {
    let mut random = Random::new(12);
    let mut planned = 0;
    for round in 0..3_000 {
        let size = if round < 20 { Size::Full } else { Size::Small };
        let job = generate::job(&mut random, size);
        let tests = job.wants.len();
        let order = permutation(&mut random, tests);
        let (places, booked) = (job.places, job.booked);
        if let Ok(made) = plan(
            places, booked, job.curves, &job.wants, 0, &order, tests, tests,
        ) {
            planned += 1;
            let fewest = fewest_loads(places, booked, &job.wants, 0, &order);
            assert_eq!(fewest, made.count);
            assert_ends_empty(0, &made.drops, &made.loads, made.end);
        }
    }
    assert!(planned > 2_000);
}

#[test]
fn no_plan_passes_exactly_if_a_test_is_too_wide() {
    let mut random = Random::new(2);
    let (mut refused, mut by_booked) = (0, 0);
    for _ in 0..1_500 {
        let capacity = random.between(1, 4);
        let (places, booked) = with_booked(&mut random, capacity);
        let curves = random.between(1, 6);
        let tests = random.between(0, 5);
        let all = generate::all_curves(curves);
        let wants: Vec<u64> = (0..tests)
            .map(|_| random.word() & random.word() & all)
            .collect();
        let order = permutation(&mut random, tests);
        let least = least_loads(places, booked, curves, &wants, 0, &order);
        match plan(places, booked, curves, &wants, 0, &order, tests, tests) {
            Ok(made) => assert_eq!(least, Some(made.count)),
            Err(no) => {
                refused += 1;
                assert_eq!(no.number, 7);
                assert_eq!(least, None);
                let unbooked = least_loads(places, 0, curves, &wants, 0, &order);
                by_booked += unbooked.is_some() as usize;
            }
        }
    }
    assert!(refused > 100 && by_booked > 50, "{refused}, {by_booked}");
}

#[test]
fn the_two_checks_agree() {
    let mut random = Random::new(3);
    let (mut good, mut bad, mut at_the_end) = (0, 0, 0);
    for _ in 0..30_000 {
        let size = random.pick(&[Size::Tiny, Size::Tiny, Size::Small]);
        let Case::CheckPlan {
            places,
            booked,
            curves,
            wants,
            held,
            order,
            drops,
            loads,
            end,
        } = generate::case_of(4, size, &mut random)
        else {
            unreachable!()
        };
        let check = |end: u64| {
            check_plan(
                places, booked, curves, &wants, held, &order, &drops, &loads, end,
            )
        };
        let answer = check(end);
        if matches!(
            answer,
            Err(Refusal {
                number: 10 | 13 | 14,
                ..
            })
        ) {
            continue;
        }
        let pass = passes(
            places, booked, curves, &wants, held, &order, &drops, &loads, end,
        );
        assert_eq!(answer.is_ok(), pass);
        if pass {
            good += 1;
            assert_eq!(answer, Ok(curves_in(&loads)));
            assert_ends_empty(held, &drops, &loads, end);
        } else {
            bad += 1;
        }
        // Of all end sets only what is held passes, and only behind sound steps.
        let left = held_behind(held, &drops, &loads);
        let ended = check(left);
        if end != left {
            assert!(!pass);
            if ended.is_ok() {
                at_the_end += 1;
                assert_eq!(answer, Err(refusal(12, wants.len())));
            } else {
                assert_eq!(answer, ended);
            }
        }
    }
    assert!(good > 5_000 && bad > 5_000, "{good} good, {bad} bad");
    assert!(at_the_end > 2_000, "{at_the_end} with another end set");
}

/// The fewest loads of every plan whatever that the check passes, end set included: all numbers of
/// so many bits are tried for each set.
fn least_by_the_check(
    places: usize,
    booked: usize,
    curves: usize,
    wants: &[u64],
    order: &[u16],
    bits: usize,
) -> Option<u64> {
    let tests = wants.len();
    let mut least = None;
    for plan in 0..1u64 << (bits * (2 * tests + 1)) {
        let set = |number: usize| plan >> (bits * number) & generate::all_curves(bits);
        let drops: Vec<u64> = (0..tests).map(|step| set(1 + step)).collect();
        let loads: Vec<u64> = (0..tests).map(|step| set(1 + tests + step)).collect();
        let end = set(0);
        let answer = check_plan(places, booked, curves, wants, 0, order, &drops, &loads, end);
        let pass = passes(places, booked, curves, wants, 0, order, &drops, &loads, end);
        assert_eq!(answer.is_ok(), pass);
        if let Ok(count) = answer {
            assert_ends_empty(0, &drops, &loads, end);
            least = Some(least.map_or(count, |known: u64| known.min(count)));
        }
    }
    least
}

#[test]
fn no_small_plan_at_all_beats_ours() {
    let mut random = Random::new(4);
    // Jobs of so many tests and curves; one curve more is tried, which is foreign.
    for (rounds, tests, curves) in [(6, 0, 9), (6, 1, 4), (4, 2, 3), (20, 3, 1), (2, 3, 2)] {
        for round in 0..rounds {
            let capacity = random.between(1, curves);
            // Every second time some are booked.
            let booked = round % 2 * random.between(1, 3);
            let places = capacity + booked;
            let wants: Vec<u64> = (0..tests)
                .map(|_| {
                    let number = random.between(0, capacity);
                    generate::random_set(&mut random, curves, number)
                })
                .collect();
            let order = permutation(&mut random, tests);
            let least = least_by_the_check(places, booked, curves, &wants, &order, curves + 1);
            assert_eq!(
                least,
                least_loads(places, booked, curves, &wants, 0, &order)
            );
            let made = plan(places, booked, curves, &wants, 0, &order, tests, tests).unwrap();
            assert_eq!(least, Some(made.count));
        }
    }
}

#[test]
fn another_end_set_is_refused_behind_everything_else() {
    let mut random = Random::new(13);
    let mut checked = 0;
    while checked < 200 {
        let job = generate::job(&mut random, Size::Small);
        let tests = job.wants.len();
        let generate::SomePlan {
            order,
            drops,
            loads,
            end,
        } = generate::some_plan(&mut random, &job);
        let check = |drops: &[u64], loads: &[u64], end: u64| {
            check_plan(
                job.places, job.booked, job.curves, &job.wants, 0, &order, drops, loads, end,
            )
        };
        if check(&drops, &loads, end).is_err() {
            continue; // a test is too wide
        }
        checked += 1;
        let needed = plan_bytes(&order, &drops, &loads, end).len();
        let mut others: BTreeSet<u64> = (0..64).map(|curve| end ^ 1 << curve).collect();
        others.extend([0, u64::MAX, !end, random.word()]);
        others.remove(&end);
        for other in others {
            assert_eq!(check(&drops, &loads, other), Err(refusal(12, tests)));
            // Also before a buffer that is too short.
            for length in [0, needed.saturating_sub(1), needed, 6_000] {
                let (places, booked, curves) = (job.places, job.booked, job.curves);
                let answer = write_plan(
                    places, booked, curves, &job.wants, 0, &order, &drops, &loads, other, length,
                );
                assert_eq!(answer, Err(refusal(12, tests)));
            }
        }
        // The lengths and the steps go first.
        let mut longer = loads.clone();
        longer.push(0);
        assert_eq!(check(&drops, &longer, !end), Err(refusal(12, tests)));
        if tests == 0 {
            continue;
        }
        assert_eq!(
            check(&drops[1..], &loads, !end),
            Err(refusal(12, tests - 1))
        );
        let step = random.below(tests);
        let mut foreign = drops.clone();
        foreign[step] = u64::MAX;
        if job.places < 64 {
            assert_eq!(check(&foreign, &loads, !end), Err(refusal(12, step)));
        }
    }
}

#[test]
fn job_bytes_round_trip() {
    let mut random = Random::new(5);
    for round in 0..3_000 {
        let size = if round < 20 { Size::Full } else { Size::Small };
        let job = generate::job(&mut random, size);
        let (places, booked, curves) = (job.places, job.booked, job.curves);
        let bytes = write_job(places, booked, curves, job.method, &job.wants, JOB).unwrap();
        let read = read_job(&bytes, job.wants.len()).unwrap();
        assert_eq!(read.places, job.places);
        assert_eq!(read.booked, job.booked);
        assert_eq!(read.curves, job.curves);
        assert_eq!(read.method, job.method);
        assert_eq!(read.tests, job.wants.len());
        assert_eq!(read.wants, job.wants);
    }
}

#[test]
fn job_bytes_that_read_are_those_written() {
    let mut random = Random::new(6);
    let (mut read, mut with_booked, mut with_2) = (0, 0, 0);
    for round in 0..20_000 {
        let bytes = match round % 4 {
            0 => booked::any_bytes(&mut random),
            _ => generate::any_job_bytes(&mut random, Size::Tiny),
        };
        if let Ok(job) = read_job(&bytes, 256) {
            read += 1;
            with_booked += (job.booked > 0) as usize;
            let (places, booked, curves) = (job.places, job.booked, job.curves);
            let again = write_job(places, booked, curves, job.method, &job.wants, JOB);
            with_2 += (again != Ok(bytes.clone())) as usize;
            assert_eq!(again, Ok(withdrawn::written_back(&bytes)));
        }
    }
    assert!(read > 8_000 && with_booked > 3_000, "{read}, {with_booked}");
    assert!(with_2 > 1_000, "{with_2}");
}

#[test]
fn plan_bytes_round_trip_and_part() {
    let mut random = Random::new(7);
    for round in 0..3_000 {
        let size = if round < 20 { Size::Full } else { Size::Small };
        let job = generate::job(&mut random, size);
        let tests = job.wants.len();
        let order = permutation(&mut random, tests);
        let (places, booked) = (job.places, job.booked);
        let Ok(made) = plan(
            places, booked, job.curves, &job.wants, 0, &order, tests, tests,
        ) else {
            continue;
        };
        let bytes = write_plan(
            places,
            booked,
            job.curves,
            &job.wants,
            0,
            &order,
            &made.drops,
            &made.loads,
            made.end,
            PLAN_MADE,
        )
        .unwrap();
        let steps = read_plan(job.curves, tests, &bytes, tests, tests, tests).unwrap();
        assert_eq!(steps.order(), order);
        assert_eq!(steps.drops(), made.drops);
        assert_eq!(steps.loads(), made.loads);
        assert_eq!(steps.end_set(), made.end);
        assert_eq!(steps.end.is_some(), made.end != 0);
        // The steps' parts, one behind the other, are the whole.
        let mut behind = 0;
        for position in 0..tests {
            let (start, length) = part(&steps, &bytes, position);
            assert_eq!(start, behind);
            assert!(length >= 2);
            behind = start + length;
        }
        let last = step_bytes(job.curves, tests, &bytes, tests);
        assert_eq!(last, (behind, bytes.len() - behind));
        assert_eq!(last.1 > 0, made.end != 0);
        for position in [tests + 1, tests + 2, usize::MAX] {
            assert_eq!(
                step_bytes(job.curves, tests, &bytes, position),
                (bytes.len(), 0)
            );
        }
    }
}

#[test]
fn plan_bytes_that_read_are_those_written() {
    let mut random = Random::new(14);
    let (mut read, mut ended) = (0, 0);
    for _ in 0..20_000 {
        let Case::ReadPlan {
            curves,
            tests,
            plan,
            ..
        } = generate::case_of(6, Size::Tiny, &mut random)
        else {
            unreachable!()
        };
        if let Ok(steps) = read_steps(curves, tests, &plan) {
            read += 1;
            ended += (steps.end_set() != 0) as usize;
            let (order, drops, loads) = (steps.order(), steps.drops(), steps.loads());
            assert_eq!(plan_bytes(&order, &drops, &loads, steps.end_set()), plan);
        }
    }
    assert!(read > 5_000 && ended > 3_000, "{read} read, {ended} ended");
}

#[test]
fn the_end_of_plan_bytes_is_read_as_foreseen() {
    let mut random = Random::new(15);
    for (ending, name) in ENDINGS {
        let longest = matches!(
            ending,
            Ending::LongestMade | Ending::LongestRead | Ending::LongerStill
        );
        for round in 0..if longest { 10 } else { 300 } {
            let size = if round < 2 { Size::Full } else { Size::Tiny };
            let made = generate::ended_plan(&mut random, size, ending);
            let (curves, tests) = (made.job.curves, made.job.wants.len());
            let answer = read_plan(curves, tests, &made.plan, tests, tests, tests);
            let found = answer.map(|steps| steps.end_set());
            let foreseen = made.foreseen.map_err(|offset| refusal(11, offset));
            assert_eq!(found, foreseen, "{name}");
            assert_eq!(found.is_ok(), ending.reads(), "{name}");
            // 11 goes before a short list.
            let short = match found {
                Ok(_) => refusal(9, tests),
                Err(no) => no,
            };
            for list in 0..3 {
                let mut lengths = [tests; 3];
                if tests == 0 {
                    break; // none is short
                }
                lengths[list] -= 1;
                let [order, drops, loads] = lengths;
                let answer = read_plan(curves, tests, &made.plan, order, drops, loads);
                assert_eq!(answer, Err(short), "{name}");
            }
            // What is not read has no step.
            if found.is_err() {
                for position in [0, tests.saturating_sub(1), tests, tests + 1] {
                    let part = step_bytes(curves, tests, &made.plan, position);
                    assert_eq!(part, (made.plan.len(), 0), "{name}");
                }
            }
            // And the check decides about the others.
            let audited = audit(&generate::job_bytes(&made.job), &made.plan);
            match (ending, audited) {
                (_, Err(Refused::Job(no))) => panic!("{name}: {no:?}"),
                (_, Err(Refused::Plan(no))) if found.is_err() => assert_eq!(no, short, "{name}"),
                (_, Ok(_)) if found.is_err() => panic!("{name}"),
                (Ending::LongestMade, answer) => assert!(answer.is_ok()),
                (Ending::LongestRead, answer) => {
                    assert_eq!(answer, Err(Refused::Plan(refusal(12, 0))));
                }
                (Ending::Held, Ok(_)) => {}
                (_, Ok(_)) => panic!("{name}"),
                (Ending::Held, Err(Refused::Plan(no))) => {
                    // Only a test that is too wide.
                    assert!(no.number == 12 && no.figure < tests as u64, "{no:?}");
                }
                (_, Err(Refused::Plan(no))) => assert_eq!(no.number, 12, "{name}"),
            }
        }
    }
}

#[test]
fn every_cut_of_a_plan_is_told_by_its_length() {
    let mut random = Random::new(16);
    for round in 0..300 {
        // Of the longest only the last bytes.
        let (ending, from) = match round {
            0 => (Ending::LongestRead, PLAN_READ - 30),
            _ => (Ending::Held, 0),
        };
        let made = generate::ended_plan(&mut random, Size::Small, ending);
        let (job, bytes) = (made.job, made.plan);
        let tests = job.wants.len();
        let steps = read_steps(job.curves, tests, &bytes).unwrap();
        let behind_tests = steps.tests.last().map_or(0, |step| step.behind);
        for length in from..bytes.len() {
            let answer = read_steps(job.curves, tests, &bytes[..length]);
            if length == behind_tests {
                // Only the end step is missing.
                assert_eq!(answer.unwrap().end_set(), 0);
            } else {
                assert_eq!(answer, Err(refusal(11, length)));
            }
        }
    }
}

/// Whatever stands behind the only test's step of a job with nine curves, or alone where there is no
/// test. Those that read are nothing and the end steps of its sets. Of the others the first byte is
/// refused with which no such end begins any more, or the length if there is no such byte. (Where all
/// groups named can be there: a group map alone names no curve.)
#[test]
fn every_short_end_of_a_plan() {
    let mut ends = BTreeSet::from([vec![]]);
    for set in 1..1u64 << 9 {
        let mut end = vec![1];
        end.extend(parts::set_bytes(set));
        ends.insert(end);
    }
    let mut begun = BTreeSet::new();
    for end in &ends {
        for length in 0..=end.len() {
            begun.insert(end[..length].to_vec());
        }
    }
    let bytes = || 0..=255u8;
    let mut tried: Vec<Vec<u8>> = vec![vec![]];
    tried.extend(bytes().map(|a| vec![a]));
    tried.extend(bytes().flat_map(|a| bytes().map(move |b| vec![a, b])));
    for map in 0..4 {
        tried.extend(bytes().flat_map(|a| bytes().map(move |b| vec![1, map, a, b])));
        tried.extend(bytes().map(|a| vec![1, map, a]));
        tried.extend(bytes().map(|a| vec![1, map, 1, 1, a]));
    }
    let mut read = [0, 0];
    for end in tried {
        let groups = end.get(1).copied().unwrap_or(0);
        if end.first() == Some(&1) && groups > 3 {
            continue;
        }
        for (tests, step) in [(0, &[][..]), (1, &[4u8, 0][..])] {
            let plan = [step, &end[..]].concat();
            let answer = read_steps(9, tests, &plan);
            if ends.contains(&end) {
                read[tests] += 1;
                let set = answer.unwrap().end_set();
                let written = plan_bytes(&[0][..tests], &[0][..tests], &[0][..tests], set);
                assert_eq!(written, plan);
                let position = step_bytes(9, tests, &plan, tests);
                assert_eq!(position, (step.len(), end.len()));
            } else {
                let sound = (0..=end.len()).rfind(|&length| begun.contains(&end[..length]));
                let refused = refusal(11, step.len() + sound.unwrap());
                assert_eq!(answer, Err(refused), "{end:x?}");
                assert_eq!(step_bytes(9, tests, &plan, tests), (plan.len(), 0));
            }
        }
    }
    assert_eq!(read, [512, 512]);
}

/// The bytes of jobs without tests, and places, booked places, curves and method: every job, but where
/// some are booked only with some numbers of curves. Those of method 1 have a byte of 1, or of 2.
fn jobs_without_tests() -> Vec<(Vec<u8>, [usize; 4])> {
    let mut jobs = Vec::new();
    for places in 1..=64 {
        for booked in 0..places {
            for curves in 1..=64 {
                if booked > 0 && ![1, 8, 9, 63, 64].contains(&curves) {
                    continue;
                }
                for (byte, method) in [(0, 0), (1, 1), (2, 1), (3, 3)] {
                    let mut bytes = vec![0];
                    for (bit, value, absent) in [
                        (1, places, 8),
                        (2, curves, 64),
                        (8, byte, 0),
                        (16, booked, 0),
                    ] {
                        if value != absent {
                            bytes[0] |= bit;
                            bytes.push(value as u8);
                        }
                    }
                    jobs.push((bytes, [places, booked, curves, method]));
                }
            }
        }
    }
    jobs
}

#[test]
fn every_job_without_tests() {
    for (bytes, [places, booked, curves, method]) in jobs_without_tests() {
        let job = Job {
            places,
            booked,
            curves,
            tests: 0,
            method,
            wants: vec![],
        };
        assert_eq!(read_job(&bytes, 0), Ok(job));
        let needed = bytes.len();
        assert_eq!(needed, empty::job_length(places, booked, curves, method));
        let written = |length: usize| write_job(places, booked, curves, method, &[], length);
        assert_eq!(written(needed), Ok(withdrawn::written_back(&bytes)));
        assert_eq!(written(needed - 1), Err(refusal(9, needed)));
        let order = order_tests(places, booked, curves, method, &[], 0);
        assert_eq!(order, Ok(vec![]));
        let made = plan(places, booked, curves, &[], 0, &[], 0, 0).unwrap();
        assert_eq!((made.drops, made.loads), (vec![], vec![]));
        assert_eq!((made.end, made.count), (0, 0));
        assert_eq!(call(&bytes, 0), (0, vec![]));
        let left = places - booked;
        let printed = format!("0 tests, {left} places, method {method}\nloads 0\n");
        assert_eq!(sheet(&bytes), printed);
        let audited = audit_text(&audit(&bytes, &[]));
        assert_eq!(audited, "loads 0\nfewest 0\nshorter by 0\n");
        // Plan bytes other than none: read or not, they do not pass.
        assert_eq!(
            audit(&bytes, &[1, 1, 1]),
            Err(Refused::Plan(refusal(12, 0)))
        );
        assert_eq!(audit(&bytes, &[4, 0]), Err(Refused::Plan(refusal(11, 0))));
    }
}

/// Whatever job bytes there are whose map has no field of tests or booked places: up to two bytes behind
/// the map, and a few with three or four. Those that read are the jobs without tests. Of the others those that such a job
/// begins with are cut; of the rest the first byte is refused with which no such job begins any more,
/// as surplus if a whole job stands before it.
#[test]
fn every_short_job_without_tests() {
    let mut whole = BTreeSet::new();
    let mut begun = BTreeSet::new();
    for (bytes, [_, booked, _, _]) in jobs_without_tests() {
        if booked > 0 {
            continue;
        }
        for length in 0..=bytes.len() {
            begun.insert(bytes[..length].to_vec());
        }
        whole.insert(bytes);
    }
    let bytes = || 0..=255u8;
    let mut tried: Vec<Vec<u8>> = Vec::new();
    for map in bytes().filter(|map| map & 4 == 0 && !(16..32).contains(map)) {
        tried.push(vec![map]);
        tried.extend(bytes().map(|a| vec![map, a]));
        if map < 16 {
            tried.extend(bytes().flat_map(|a| bytes().map(move |b| vec![map, a, b])));
            let few = [0, 1, 3, 4, 7, 8, 9, 63, 64, 65, 255];
            for a in few {
                for b in few {
                    tried.extend(few.map(|c| vec![map, a, b, c]));
                    tried.extend(few.map(|c| vec![map, a, b, c, 0]));
                }
            }
        }
    }
    let mut outcomes = [0; 7];
    for job in tried {
        let answer = read_job(&job, 0);
        let expected = if whole.contains(&job) {
            Ok(0)
        } else if begun.contains(&job) {
            Err(refusal(1, job.len()))
        } else {
            let sound = (0..job.len()).rfind(|&length| begun.contains(&job[..length]));
            let sound = sound.unwrap();
            let number = if whole.contains(&job[..sound]) { 6 } else { 2 };
            Err(refusal(number, sound))
        };
        outcomes[expected.map_or_else(|no| no.number as usize, |_| 0)] += 1;
        assert_eq!(answer.map(|job| job.tests), expected, "{job:x?}");
        if let Err(no) = expected {
            assert_eq!(call(&job, 0), (no.number * 65_536 + no.figure, vec![]));
            assert_eq!(audit(&job, &[]), Err(Refused::Job(no)));
        }
    }
    // Read, cut, faulty and with surplus bytes.
    assert!(
        [0, 1, 2, 6].iter().all(|&number| outcomes[number] > 5),
        "{outcomes:?}"
    );
}

/// What the reference answers to handed numbers and lists without tests; where it answers, the result
/// has nothing of a test. `None`: the case has job bytes instead, or no refusal.
fn refused_without_tests(case: &Case) -> Option<Result<(), Refusal>> {
    Some(match case {
        Case::WriteJob {
            places,
            booked,
            curves,
            method,
            wants,
            out_len,
        } => {
            let answer = write_job(*places, *booked, *curves, *method, wants, *out_len);
            let needed = empty::job_length(*places, *booked, *curves, *method);
            answer.map(|bytes| assert_eq!(bytes.len(), needed))
        }
        Case::OrderTests {
            places,
            booked,
            curves,
            method,
            wants,
            order_len,
        } => {
            let answer = order_tests(*places, *booked, *curves, *method, wants, *order_len);
            answer.map(|order| assert!(order.is_empty()))
        }
        Case::PlanOrder {
            places,
            booked,
            curves,
            wants,
            held,
            order,
            drops_len,
            loads_len,
        } => {
            let (p, b, c) = (*places, *booked, *curves);
            let answer = plan(p, b, c, wants, *held, order, *drops_len, *loads_len);
            answer.map(|plan| {
                assert!(plan.drops.is_empty() && plan.loads.is_empty());
                assert_eq!((plan.end, plan.count), (*held, 0));
            })
        }
        Case::CheckPlan {
            places,
            booked,
            curves,
            wants,
            held,
            order,
            drops,
            loads,
            end,
        } => {
            let (p, b, c) = (*places, *booked, *curves);
            let answer = check_plan(p, b, c, wants, *held, order, drops, loads, *end);
            answer.map(|count| assert_eq!(count, 0))
        }
        Case::WritePlan {
            places,
            booked,
            curves,
            wants,
            held,
            order,
            drops,
            loads,
            end,
            out_len,
        } => {
            let (p, b, c) = (*places, *booked, *curves);
            let answer = write_plan(p, b, c, wants, *held, order, drops, loads, *end, *out_len);
            answer.map(|bytes| assert_eq!(bytes.len(), empty::end_length(*held)))
        }
        Case::ReadPlan {
            curves,
            tests,
            plan,
            order_len,
            drops_len,
            loads_len,
            ..
        } => {
            let (c, t) = (*curves, *tests);
            let answer = read_plan(c, t, plan, *order_len, *drops_len, *loads_len);
            answer.map(|steps| assert!(steps.tests.is_empty()))
        }
        Case::StepBytes {
            curves,
            tests,
            plan,
            further,
            ..
        } => {
            let answer = read_steps(*curves, *tests, plan);
            let first = if answer.is_ok() { 0 } else { plan.len() };
            let fetched = step_bytes(*curves, *tests, plan, 0);
            assert_eq!(fetched, (first, plan.len() - first));
            for position in [1, 2, (*further).max(1)] {
                let fetched = step_bytes(*curves, *tests, plan, position);
                assert_eq!(fetched, (plan.len(), 0));
            }
            answer.map(|_| ())
        }
        Case::MakeState {
            places,
            booked,
            curves,
            wants,
            held,
            order,
        } => {
            let answer = Made::new(*places, *booked, *curves, wants, *held, order);
            answer.map(|made| assert_eq!((made.tests(), made.held()), (0, *held)))
        }
        Case::Examine {
            places,
            booked,
            curves,
            wants,
        } => examine(*places, *booked, *curves, wants),
        Case::ExamineBy {
            places,
            booked,
            curves,
            method,
            wants,
        } => examine_by(*places, *booked, *curves, *method, wants),
        Case::ExamineCounts { curves, tests } => examine_counts(*curves, *tests),
        Case::ExamineSizes { capacity, wants } => examine_sizes(*capacity, wants),
        Case::PackageOrder {
            capacity, wants, ..
        } => {
            assert!(package_order(*capacity, wants).is_empty());
            Ok(())
        }
        Case::AllSizes {
            curves,
            wants,
            order,
        } => {
            let answer = sizes::all_sizes(*curves, wants, order);
            answer.map(|counts| assert_eq!(counts, [Some(0); 64]))
        }
        Case::FewestPlaces {
            curves,
            wants,
            order,
            loads,
        } => {
            let answer = sizes::fewest_places(*curves, wants, order, loads[0]);
            answer.map(|places| assert_eq!(places, Some(1)))
        }
        _ => return None,
    })
}

/// Of several faults of a list without tests the first in the papers' sequence is answered, and
/// without any there is an answer.
#[test]
fn the_first_fault_without_tests_decides() {
    let mut random = Random::new(20);
    let mut functions = BTreeSet::new();
    for (function, name) in FUNCTIONS.iter().enumerate() {
        for _ in 0..2_000 {
            let Some(case) = empty::case(function, &mut random) else {
                break;
            };
            let text = case.describe();
            assert_eq!(case.function(), function, "{text}");
            assert_eq!(empty::without_tests(&case), Some(true), "{text}");
            let Some(answer) = refused_without_tests(&case) else {
                continue;
            };
            let told: &[&str] = match answer {
                Ok(()) => &[],
                Err(no) => match (no.number, no.figure) {
                    (8, 0) => &["8"],
                    (9, 1..=10) => &["9"],
                    (10, 0) => &["10:0"],
                    (10, 1) => &["10:1"],
                    (10, 3) => &["10:3"],
                    (10, 260) => &["10:260"],
                    (13, 0) => &["13"],
                    (14, 0..=63) => &["14"],
                    (11, _) => &["11"],
                    (12, 0) => &["12:lengths", "12:end"],
                    _ => panic!("{no:?} of {text}"),
                },
            };
            match empty::faults(&case).first() {
                Some(first) => assert!(told.contains(first), "{first}, {told:?}: {text}"),
                None => {
                    assert!(told.is_empty(), "{told:?}: {text}");
                    functions.insert(name);
                }
            }
        }
    }
    // All that are handed numbers or lists and may refuse, the steps fetched, and the packages.
    assert_eq!(functions.len(), 15, "{functions:?}");
}

#[test]
fn every_order_names_each_test_once() {
    let mut random = Random::new(8);
    for round in 0..4_000 {
        let size = if round < 12 { Size::Full } else { Size::Small };
        let job = generate::job(&mut random, size);
        for method in withdrawn::HANDED {
            if size == Size::Full && method == 3 && round > 0 {
                continue;
            }
            let tests = job.wants.len();
            let (places, booked) = (job.places, job.booked);
            match order_tests(places, booked, job.curves, method, &job.wants, tests) {
                Ok(mut order) => {
                    order.sort();
                    assert_eq!(order, (0..tests as u16).collect::<Vec<u16>>());
                }
                Err(no) => assert_eq!(no.number, 7),
            }
        }
    }
}

#[test]
fn bytes_past_the_longest_job_change_nothing() {
    let mut random = Random::new(9);
    for round in 0..80 {
        let mut bytes = match round {
            0..60 => generate::any_job_bytes(&mut random, Size::Full),
            _ => generate::job_bytes(&booked::longest_job(&mut random)),
        };
        while bytes.len() < 2_400 {
            bytes.push(random.byte());
        }
        let all = read_job(&bytes, 256);
        let part = read_job(&bytes[..JOB + 1], 256);
        assert_eq!(all, part);
    }
}

#[test]
fn tuned_and_the_c_program_agree() {
    let mut random = Random::new(10);
    for round in 0..20_000 {
        let size = match round {
            500..=599 => random.pick(&[Size::Full, Size::Edge]),
            _ => random.pick(&[Size::Tiny, Size::Tiny, Size::Small]),
        };
        let job = match round {
            0..=11 => generate::job_bytes(&generate::longest_job(&mut random, 1 + round % 4)),
            12..=499 => empty::job_bytes(&mut random),
            _ if round % 8 == 0 => booked::any_bytes(&mut random),
            _ if round % 8 == 1 => withdrawn::any_bytes(&mut random),
            _ => generate::any_job_bytes(&mut random, size),
        };
        let length = match round {
            0..=3 => PLAN_MADE,
            4..=7 => PLAN_MADE - 1,
            12..=499 => random.pick(&[0, 0, 1, 80]),
            _ if random.chance(1, 8) => random.below(80),
            _ => PLAN_READ,
        };
        let (number, bytes) = call(&job, length);
        let mut expected = vec![0x5a; length];
        expected[..bytes.len()].copy_from_slice(&bytes);
        for fast in [tuned::call, fast::call] {
            let mut out = vec![0x5a; length];
            assert_eq!(fast(&job, &mut out), number);
            assert_eq!(out, expected);
        }
    }
}
