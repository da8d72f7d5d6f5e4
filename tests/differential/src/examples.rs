//! Every example of the papers.

use crate::fast;
use crate::reference::*;
use crate::tuned;

fn no(number: u64, figure: u64) -> Refusal {
    Refusal { number, figure }
}

fn bytes(text: &str) -> Vec<u8> {
    text.split_whitespace()
        .map(|byte| u8::from_str_radix(byte, 16).unwrap())
        .collect()
}

fn sets(list: &[&[u8]]) -> Vec<u64> {
    list.iter()
        .map(|curves| bits_of(&curves.iter().copied().collect()))
        .collect()
}

fn as_listed(tests: usize) -> Vec<u16> {
    (0..tests as u16).collect()
}

const A: &str = "07 02 04 04 00 01 03 01 06 01 03 01 08";

fn a_wants() -> Vec<u64> {
    sets(&[&[0, 1], &[1, 2], &[0, 1], &[3]])
}

#[test]
fn job_a_reads_and_writes() {
    let job = read_job(&bytes(A), 4).unwrap();
    assert_eq!(
        job,
        Job {
            places: 2,
            booked: 0,
            curves: 4,
            tests: 4,
            method: 0,
            wants: a_wants()
        }
    );
    assert_eq!(write_job(2, 0, 4, 0, &a_wants(), 13).unwrap(), bytes(A));
    assert_eq!(write_job(2, 0, 4, 0, &a_wants(), 12), Err(no(9, 13)));
    assert_eq!(read_job(&bytes(A), 3), Err(no(9, 4)));
}

#[test]
fn job_a_sheet() {
    assert_eq!(
        sheet(&bytes(A)),
        "4 tests, 2 places, method 0\n\
         0: test 0 drop none load 0 1\n\
         1: test 1 drop 0 load 2\n\
         2: test 2 drop 2 load 0\n\
         3: test 3 drop 1 load 3\n\
         4: end drop 0 3\n\
         loads 5\n"
    );
}

/// Job A's steps, without the end step.
const A_STEPS: &str = "06 01 03 00 07 01 01 01 04 01 07 01 04 01 01 02 07 01 02 01 08 03";
const A_END: &str = "01 01 09";

/// The same in document 01, where ties go to the lowest curve, with wish 1's end step.
const A_OF_01: &str = "06 01 03 00 07 01 01 01 04 01 07 01 04 01 01 02 07 01 01 01 08 03 01 01 0a";

fn a_plan() -> Vec<u8> {
    [bytes(A_STEPS), bytes(A_END)].concat()
}

/// Job A with methods 1 and 3: curves 1 and 2 are held when test 3 comes, and never used again.
#[test]
fn job_a_by_every_method() {
    for (method, first, second) in [(1, 2, 0), (3, 0, 2)] {
        let job = write_job(2, 0, 4, method, &a_wants(), 99).unwrap();
        assert_eq!(
            sheet(&job),
            format!(
                "4 tests, 2 places, method {method}\n\
                 0: test {first} drop none load 0 1\n\
                 1: test {second} drop none load none\n\
                 2: test 1 drop 0 load 2\n\
                 3: test 3 drop 2 load 3\n\
                 4: end drop 1 3\n\
                 loads 4\n"
            )
        );
        let plan = bytes(&format!(
            "06 01 03 0{first} 04 0{second} 07 01 01 01 04 01 07 01 04 01 08 03 01 01 0a"
        ));
        assert_eq!(call(&job, 99), (21, plan.clone()));
        let mut out = [0xaa; 22];
        assert_eq!(tuned::call(&job, &mut out), 21);
        assert_eq!((&out[..21], out[21]), (&plan[..], 0xaa));
        let audited = audit(&job, &plan);
        assert_eq!(audit_text(&audited), "loads 4\nfewest 4\nshorter by 0\n");
    }
}

/// The plan of document 01 still passes, and has as many loads.
#[test]
fn job_a_by_the_lowest_tie_rule() {
    let lowest = plan_by(TieRule::Lowest, 2, 0, 4, &a_wants(), 0, &as_listed(4), 4, 4).unwrap();
    let written = plan_bytes(&as_listed(4), &lowest.drops, &lowest.loads, lowest.end);
    assert_eq!(written, bytes(A_OF_01));
    assert_eq!(lowest.count, 5);
    let audited = audit(&bytes(A), &bytes(A_OF_01));
    assert_eq!(audit_text(&audited), "loads 5\nfewest 5\nshorter by 0\n");
}

#[test]
fn job_a_plan_bytes() {
    let expected = a_plan();
    assert_eq!(expected.len(), 25);
    assert_eq!(call(&bytes(A), 25), (25, expected.clone()));
    assert_eq!(call(&bytes(A), 5_121), (25, expected.clone()));
    assert_eq!(call(&bytes(A), 24), (9 * 65_536 + 25, vec![]));
    assert_eq!(call(&bytes(A), 22), (9 * 65_536 + 25, vec![]));

    let mut out = [0xaa; 33];
    assert_eq!(tuned::call(&bytes(A), &mut out), 25);
    assert_eq!(out[..25], expected[..]);
    assert_eq!(out[25..], [0xaa; 8]);
    let mut short = [0xaa; 24];
    assert_eq!(tuned::call(&bytes(A), &mut short), 9 * 65_536 + 25);
    assert_eq!(short, [0xaa; 24]);

    let steps = read_plan(4, 4, &expected, 4, 4, 4).unwrap();
    let (order, drops, loads) = (steps.order(), steps.drops(), steps.loads());
    assert_eq!(drops, sets(&[&[], &[0], &[2], &[1]]));
    assert_eq!(loads, sets(&[&[0, 1], &[2], &[0], &[3]]));
    assert_eq!(order, as_listed(4));
    assert_eq!(steps.end_set(), sets(&[&[0, 3]])[0]);
    let check = |end: u64| check_plan(2, 0, 4, &a_wants(), 0, &order, &drops, &loads, end);
    assert_eq!(check(0x09), Ok(5));
    for end in [
        0,
        0x01,
        0x08,
        0x0a,
        0x0b,
        0x0d,
        0x19,
        1 << 63 | 0x09,
        u64::MAX,
    ] {
        assert_eq!(check(end), Err(no(12, 4)));
    }
    for (position, part) in [
        (0, (0, 4)),
        (1, (4, 6)),
        (3, (16, 6)),
        (4, (22, 3)),
        (5, (25, 0)),
        (6, (25, 0)),
    ] {
        assert_eq!(step_bytes(4, 4, &expected, position), part);
    }
    assert_eq!(step_bytes(4, 5, &expected, 0), (25, 0));
    assert_eq!(step_bytes(4, 3, &expected, 0), (25, 0));
    assert_eq!(step_bytes(0, 4, &expected, 0), (25, 0));
    // Without its end step the plan reads, but something is left in the drive.
    let base = bytes(A_STEPS);
    assert_eq!(read_plan(4, 4, &base, 4, 4, 4).unwrap().end_set(), 0);
    assert_eq!(step_bytes(4, 4, &base, 3), (16, 6));
    assert_eq!(step_bytes(4, 4, &base, 4), (22, 0));
    let left = audit(&bytes(A), &base);
    assert_eq!(left, Err(Refused::Plan(no(12, 4))));
    assert_eq!(audit_text(&left), "plan refused 12 at 4\n");
    let whole = audit(&bytes(A), &expected);
    assert_eq!(audit_text(&whole), "loads 5\nfewest 5\nshorter by 0\n");
}

#[test]
fn refusals_of_the_end_of_job_a() {
    // Behind the 22 bytes of its steps, and the offset from there.
    for (end, figure) in [
        ("00", 0),
        ("00 01 09", 0),
        ("02 01 09", 0),
        ("03 01 09 01 01", 0),
        ("04 00", 0),
        ("05 01 09 00", 0),
        ("06 01 09 00", 0),
        ("07 01 09 01 01 00", 0),
        ("08 01 09", 0),
        ("09 01 09", 0),
        ("11 01 09", 0),
        ("80 01 09", 0),
        ("81 01 09", 0),
        ("ff 01 09", 0),
        ("01", 1),
        ("01 00", 1),
        ("01 00 09", 1),
        ("01 01", 2),
        ("01 01 00", 2),
        ("01 01 10", 2),
        ("01 01 ff", 2),
        ("01 02", 2),
        ("01 02 01", 2),
        ("01 03 09", 3),
        ("01 03 09 00", 3),
        ("01 03 09 01", 3),
        ("01 01 09 00", 3),
        ("01 01 09 01", 3),
        ("01 01 09 01 01 09", 3),
        ("01 01 09 04 00", 3),
    ] {
        let plan = [bytes(A_STEPS), bytes(end)].concat();
        let refused = no(11, 22 + figure);
        assert_eq!(read_plan(4, 4, &plan, 4, 4, 4), Err(refused), "{end}");
        assert_eq!(read_plan(4, 4, &plan, 4, 4, 3), Err(refused), "{end}");
        for position in 0..7 {
            assert_eq!(step_bytes(4, 4, &plan, position), (plan.len(), 0));
        }
        assert_eq!(audit(&bytes(A), &plan), Err(Refused::Plan(refused)));
    }
    // Any curves of the job read, and the check decides.
    for (end, set) in [("01 01 01", 1), ("01 01 02", 2), ("01 01 0f", 15)] {
        let plan = [bytes(A_STEPS), bytes(end)].concat();
        assert_eq!(read_plan(4, 4, &plan, 4, 4, 4).unwrap().end_set(), set);
        assert_eq!(step_bytes(4, 4, &plan, 4), (22, 3));
        assert_eq!(audit(&bytes(A), &plan), Err(Refused::Plan(no(12, 4))));
    }
    // An end step before the last step has no test.
    for (start, steps) in [(0, 0), (4, 1), (10, 2), (16, 3)] {
        let mut plan = a_plan();
        drop(plan.splice(start..start, bytes(A_END)));
        let refused = no(11, start as u64);
        assert_eq!(read_plan(4, 4, &plan, 4, 4, 4), Err(refused), "{steps}");
    }
}

#[test]
fn job_a_orders() {
    for (method, expected) in [(0, [0, 1, 2, 3]), (1, [2, 0, 1, 3]), (3, [0, 2, 1, 3])] {
        let order = order_tests(2, 0, 4, method, &a_wants(), 4).unwrap();
        assert_eq!(order, expected);
        let made = plan(2, 0, 4, &a_wants(), 0, &order, 4, 4).unwrap();
        assert_eq!(made.count, if method == 0 { 5 } else { 4 });
        // Test 3 runs last, with curve 3.
        assert_eq!(set_of(made.end).len(), 2);
        assert!(set_of(made.end).contains(&3));
        assert_eq!(
            check_plan(
                2,
                0,
                4,
                &a_wants(),
                0,
                &order,
                &made.drops,
                &made.loads,
                made.end
            ),
            Ok(made.count)
        );
    }
}

#[test]
fn never_used_again_goes_first() {
    let wants = sets(&[&[0], &[1], &[2], &[0]]);
    let made = plan(2, 0, 3, &wants, 0, &as_listed(4), 4, 4).unwrap();
    assert_eq!(made.drops, sets(&[&[], &[], &[1], &[]]));
    assert_eq!(made.end, sets(&[&[0, 2]])[0]);
    assert_eq!(made.count, 3);
}

/// Drops, end set and load count of the list as it stands, under a tie rule. The plan passes, and its
/// bytes do.
fn dropped(rule: TieRule, places: usize, wants: &[&[u8]]) -> (Vec<u64>, u64, u64) {
    let (wants, order) = (sets(wants), as_listed(wants.len()));
    let room = wants.len();
    let made = plan_by(rule, places, 0, 64, &wants, 0, &order, room, room).unwrap();
    let (drops, loads, end) = (&made.drops, &made.loads, made.end);
    let checked = check_plan(places, 0, 64, &wants, 0, &order, drops, loads, end);
    assert_eq!(checked, Ok(made.count));
    let job = write_job(places, 0, 64, 0, &wants, 999).unwrap();
    let plan = plan_bytes(&order, drops, loads, end);
    assert_eq!(audit(&job, &plan).unwrap().fewest, made.count);
    assert_eq!(call_bytes(&job, 999) == Ok(plan), rule == TieRule::Highest);
    (made.drops, made.end, made.count)
}

/// A list whose plan depends on the tie rule: its drops and end set under the highest, under the
/// lowest, and the load count of both.
fn tie(
    places: usize,
    wants: &[&[u8]],
    highest: (&[&[u8]], &[u8]),
    lowest: (&[&[u8]], &[u8]),
    count: u64,
) {
    for (rule, (drops, end)) in [(TieRule::Highest, highest), (TieRule::Lowest, lowest)] {
        let expected = (sets(drops), sets(&[end])[0], count);
        assert_eq!(dropped(rule, places, wants), expected, "{rule:?}");
    }
}

#[test]
fn ties_of_curves_never_used_again() {
    // One goes.
    tie(
        2,
        &[&[0, 63], &[1]],
        (&[&[], &[63]], &[0, 1]),
        (&[&[], &[0]], &[1, 63]),
        3,
    );
    // In two groups of eight.
    tie(
        2,
        &[&[7, 8], &[0]],
        (&[&[], &[8]], &[0, 7]),
        (&[&[], &[7]], &[0, 8]),
        3,
    );
    // Two of four go.
    tie(
        4,
        &[&[1, 3, 5, 7], &[0, 2]],
        (&[&[], &[5, 7]], &[0, 1, 2, 3]),
        (&[&[], &[1, 3]], &[0, 2, 5, 7]),
        6,
    );
    // More go than stay, and a curve that the test wants is not among them.
    tie(
        5,
        &[&[1, 3, 5, 7, 9], &[0, 2, 4, 9]],
        (&[&[], &[3, 5, 7]], &[0, 1, 2, 4, 9]),
        (&[&[], &[1, 3, 5]], &[0, 2, 4, 7, 9]),
        8,
    );
    // One in each of two steps: what the first tie left is in the second.
    tie(
        3,
        &[&[1, 2, 3], &[4], &[0]],
        (&[&[], &[3], &[4]], &[0, 1, 2]),
        (&[&[], &[1], &[2]], &[0, 3, 4]),
        5,
    );
}

#[test]
fn ties_of_curves_next_used_in_one_later_step() {
    // One goes and comes back.
    tie(
        2,
        &[&[4, 6], &[0], &[4, 6]],
        (&[&[], &[6], &[0]], &[4, 6]),
        (&[&[], &[4], &[0]], &[4, 6]),
        4,
    );
    // Two of four.
    tie(
        4,
        &[&[1, 3, 5, 7], &[0, 2], &[1, 3, 5, 7]],
        (&[&[], &[5, 7], &[0, 2]], &[1, 3, 5, 7]),
        (&[&[], &[1, 3], &[0, 2]], &[1, 3, 5, 7]),
        8,
    );
    // More go than stay.
    tie(
        6,
        &[&[0, 1, 2, 3, 4, 5], &[6, 7, 8, 9], &[0, 1, 2, 3, 4, 5]],
        (&[&[], &[2, 3, 4, 5], &[6, 7, 8, 9]], &[0, 1, 2, 3, 4, 5]),
        (&[&[], &[0, 1, 2, 3], &[6, 7, 8, 9]], &[0, 1, 2, 3, 4, 5]),
        14,
    );
}

#[test]
fn a_higher_curve_that_is_used_sooner_stays() {
    // Step 2 drops 0, which is used in step 4, and not 3, which is used in step 3, whatever the rule.
    // In step 4 both 1 and 3 are never used again.
    tie(
        2,
        &[&[0], &[3], &[1], &[3], &[0]],
        (&[&[], &[], &[0], &[], &[3]], &[0, 1]),
        (&[&[], &[], &[0], &[], &[1]], &[0, 3]),
        4,
    );
    // Of 3 and 5, which are used in step 3; 9 is used in step 2 already.
    tie(
        3,
        &[&[3, 5, 9], &[0], &[9], &[3, 5]],
        (&[&[], &[5], &[], &[9]], &[0, 3, 5]),
        (&[&[], &[3], &[], &[0]], &[3, 5, 9]),
        5,
    );
}

#[test]
fn the_furthest_goes_first_then_the_highest() {
    // Step 1 drops 1, which is never used again, then one of 2 and 3, which are used in step 3;
    // 0 and 4 are used in step 2. In step 3 the curves 0, 4, 5 and 6 are never used again.
    tie(
        5,
        &[&[0, 1, 2, 3, 4], &[5, 6], &[0, 4], &[2, 3]],
        (&[&[], &[1, 3], &[], &[6]], &[0, 2, 3, 4, 5]),
        (&[&[], &[1, 2], &[], &[0]], &[2, 3, 4, 5, 6]),
        8,
    );
    // Step 1 drops four: 0 and 5, never used again, then two of 1, 4 and 6, which are used in step 3;
    // 2 and 3 are used in step 2. Step 3 drops two of those never used again.
    tie(
        7,
        &[&[0, 1, 2, 3, 4, 5, 6], &[8, 9, 10, 11], &[2, 3], &[1, 4, 6]],
        (
            &[&[], &[0, 4, 5, 6], &[], &[10, 11]],
            &[1, 2, 3, 4, 6, 8, 9],
        ),
        (
            &[&[], &[0, 1, 4, 5], &[], &[2, 3]],
            &[1, 4, 6, 8, 9, 10, 11],
        ),
        13,
    );
}

/// Tests and packages still tie to the lowest and the earlier.
#[test]
fn ties_of_tests_and_packages_stay() {
    // No test has a neighbour, and all degrees are 0: the list is in rising order, then reversed.
    let apart = sets(&[&[0], &[1], &[2]]);
    assert_eq!(order_tests(2, 0, 3, 1, &apart, 3), Ok(vec![2, 1, 0]));
    // All weights are 0, or all 1.
    let alike = sets(&[&[0], &[0], &[0]]);
    for wants in [&apart, &alike] {
        assert_eq!(order_tests(2, 0, 3, 3, wants, 3), Ok(vec![0, 1, 2]));
    }
}

#[test]
fn places_are_not_compared_with_loads_so_far() {
    let wants = sets(&[&[0, 1], &[0, 2], &[0, 2]]);
    let made = plan(2, 0, 3, &wants, 0, &as_listed(3), 3, 3).unwrap();
    assert_eq!(made.drops[2], 0);
    assert_eq!(made.end, sets(&[&[0, 2]])[0]);
    assert_eq!(made.count, 3);
}

#[test]
fn one_test_without_wants() {
    let job = bytes("04 01 00 00");
    assert_eq!(read_job(&job, 1).unwrap().wants, vec![0]);
    assert_eq!(call(&job, 2), (2, bytes("04 00")));
    assert_eq!(tuned::call(&job, &mut [0; 2]), 2);
    assert_eq!(
        sheet(&job),
        "1 tests, 8 places, method 0\n0: test 0 drop none load none\nloads 0\n"
    );
    // Nothing is held, so there is no end step, and none passes.
    assert_eq!(plan(8, 0, 64, &[0], 0, &[0], 1, 1).unwrap().end, 0);
    assert_eq!(check_plan(8, 0, 64, &[0], 0, &[0], &[0], &[0], 0), Ok(0));
    assert_eq!(
        check_plan(8, 0, 64, &[0], 0, &[0], &[0], &[0], 1),
        Err(no(12, 1))
    );
    assert_eq!(step_bytes(64, 1, &bytes("04 00"), 1), (2, 0));
}

/// Wish 3's example.
#[test]
fn a_list_without_tests() {
    let job = bytes("00");
    let read = Job {
        places: 8,
        booked: 0,
        curves: 64,
        tests: 0,
        method: 0,
        wants: vec![],
    };
    assert_eq!(read_job(&job, 0), Ok(read));
    assert_eq!(write_job(8, 0, 64, 0, &[], 1), Ok(job.clone()));
    assert_eq!(write_job(8, 0, 64, 0, &[], 0), Err(no(9, 1)));
    for method in [0, 1, 3] {
        assert_eq!(order_tests(8, 0, 64, method, &[], 0), Ok(vec![]));
        assert_eq!(order_tests(8, 0, 64, method, &[], 9), Ok(vec![]));
    }
    let nothing = Plan {
        drops: vec![],
        loads: vec![],
        end: 0,
        count: 0,
    };
    for rule in [TieRule::Lowest, TieRule::Highest] {
        let made = plan_by(rule, 8, 0, 64, &[], 0, &[], 0, 0);
        assert_eq!(made, Ok(nothing.clone()));
    }
    assert_eq!(plan(8, 0, 64, &[], 0, &[], 3, 0), Ok(nothing));
    assert_eq!(check_plan(8, 0, 64, &[], 0, &[], &[], &[], 0), Ok(0));
    assert!(passes(8, 0, 64, &[], 0, &[], &[], &[], 0));
    assert_eq!(least_loads(8, 0, 10, &[], 0, &[]), Some(0));
    assert_eq!(fewest_loads(8, 0, &[], 0, &[]), 0);
    let written = write_plan(8, 0, 64, &[], 0, &[], &[], &[], 0, 0);
    assert_eq!(written, Ok(vec![]));
    let steps = read_plan(64, 0, &[], 0, 0, 0).unwrap();
    assert_eq!((steps.tests.len(), steps.end_set()), (0, 0));
    for position in [0, 1, 256, usize::MAX] {
        assert_eq!(step_bytes(64, 0, &[], position), (0, 0));
    }
    for length in [0, 1, 5_121] {
        assert_eq!(call(&job, length), (0, vec![]));
    }
    assert_eq!(sheet(&job), "0 tests, 8 places, method 0\nloads 0\n");
    let audited = audit(&job, &[]);
    assert_eq!(audit_text(&audited), "loads 0\nfewest 0\nshorter by 0\n");
}

/// Heads without a tests field: places, curves and method.
const WITHOUT_TESTS: [(&str, usize, usize, usize); 8] = [
    ("00", 8, 64, 0),
    ("01 02", 2, 64, 0),
    ("02 04", 8, 4, 0),
    ("03 02 04", 2, 4, 0),
    ("08 03", 8, 64, 3),
    ("09 40 01", 64, 64, 1),
    ("0a 3f 01", 8, 63, 1),
    ("0b 02 04 03", 2, 4, 3),
];

#[test]
fn heads_without_tests() {
    for (head, places, curves, method) in WITHOUT_TESTS {
        let job = bytes(head);
        let read = read_job(&job, 0).unwrap();
        assert_eq!((read.tests, read.wants), (0, vec![]));
        assert_eq!(
            (read.places, read.curves, read.method),
            (places, curves, method)
        );
        assert_eq!(
            write_job(places, 0, curves, method, &[], 4),
            Ok(job.clone())
        );
        assert_eq!(call(&job, 0), (0, vec![]));
        assert_eq!(
            sheet(&job),
            format!("0 tests, {places} places, method {method}\nloads 0\n")
        );
        // Every byte is needed, and none may stand behind.
        for length in 0..job.len() {
            assert_eq!(read_job(&job[..length], 0), Err(no(1, length as u64)));
        }
        for surplus in [0, 1, 4, 0xff] {
            let longer = [&job[..], &[surplus]].concat();
            assert_eq!(read_job(&longer, 0), Err(no(6, job.len() as u64)));
        }
    }
}

/// Job bytes that give no tests and do not read.
const WITHOUT_TESTS_REFUSED: [(&str, u64, u64); 12] = [
    ("00 ff", 6, 1),
    ("00 00", 6, 1),
    ("00 00 00 ff", 6, 1),
    ("03 02 04 01 01", 6, 3),
    ("04 00 00", 2, 1),
    ("05 02 00 00", 2, 2),
    ("07 02 04 00 00 01", 2, 3),
    ("0c 00 00 01", 2, 1),
    ("0b 02 04", 1, 3),
    ("0b 02 40 04 ff", 2, 2),
    ("09 02 04 00", 2, 2),
    ("20", 2, 0),
];

#[test]
fn refusals_of_job_bytes_without_tests() {
    for (job, number, figure) in WITHOUT_TESTS_REFUSED {
        let job = bytes(job);
        assert_eq!(read_job(&job, 0), Err(no(number, figure)), "{job:x?}");
        assert_eq!(call(&job, 0), (number * 65_536 + figure, vec![]));
        assert_eq!(sheet(&job), format!("refused {number} at {figure}\n"));
        // Whatever the plan is.
        for plan in ["", "01 01 01", "04 00"] {
            let audited = audit(&job, &bytes(plan));
            assert_eq!(audited, Err(Refused::Job(no(number, figure))));
        }
    }
}

#[test]
fn refusals_of_lists_without_tests() {
    for (places, curves, method, figure) in [
        (0, 0, 9, 0),
        (65, 65, 4, 0),
        (usize::MAX, 64, 0, 0),
        (8, 0, 9, 1),
        (8, 65, 0, 1),
        (8, 64, 2, 3),
        (8, 64, 4, 3),
        (8, 64, usize::MAX, 3),
    ] {
        let refused = no(10, figure);
        assert_eq!(write_job(places, 0, curves, method, &[], 0), Err(refused));
        assert_eq!(order_tests(places, 0, curves, method, &[], 0), Err(refused));
        assert_eq!(examine_by(places, 0, curves, method, &[]), Err(refused));
        if figure == 3 {
            continue; // the others are not handed a method
        }
        assert_eq!(examine(places, 0, curves, &[]), Err(refused));
        // 10 goes before everything else.
        for order in [&[][..], &[0]] {
            assert_eq!(plan(places, 0, curves, &[], 0, order, 0, 0), Err(refused));
            for list in [&[][..], &[1]] {
                let checked = check_plan(places, 0, curves, &[], 0, order, list, list, 1);
                assert_eq!(checked, Err(refused));
                let written = write_plan(places, 0, curves, &[], 0, order, list, list, 1, 0);
                assert_eq!(written, Err(refused));
            }
        }
    }
    for curves in [0, 65, usize::MAX] {
        assert_eq!(examine_counts(curves, 0), Err(no(10, 1)));
        for plan in ["", "01 01 01", "04 00"] {
            let plan = bytes(plan);
            assert_eq!(read_plan(curves, 0, &plan, 0, 0, 0), Err(no(10, 1)));
            assert_eq!(step_bytes(curves, 0, &plan, 0), (plan.len(), 0));
        }
    }
    assert_eq!(examine(64, 0, 64, &[]), Ok(()));
    assert_eq!(examine_by(64, 0, 64, 3, &[]), Ok(()));
    assert_eq!(examine_counts(1, 0), Ok(()));
    assert_eq!(examine_sizes(0, &[]), Ok(()));
    assert!(package_order(0, &[]).is_empty());
    // An order with an entry; the lists and the end set come behind it.
    for order in [&[0][..], &[1], &[u16::MAX], &[0, 0]] {
        assert_eq!(plan(8, 0, 64, &[], 0, order, 0, 0), Err(no(8, 0)));
        for (drops, loads, end) in [(&[][..], &[][..], 0), (&[0], &[1], 1)] {
            let checked = check_plan(8, 0, 64, &[], 0, order, drops, loads, end);
            assert_eq!(checked, Err(no(8, 0)));
            let written = write_plan(8, 0, 64, &[], 0, order, drops, loads, end, 0);
            assert_eq!(written, Err(no(8, 0)));
        }
    }
    // Drops or loads with an entry, or an end set, though nothing is held.
    for end in [0, 1, 1 << 63, u64::MAX] {
        for (drops, loads) in [
            (&[][..], &[][..]),
            (&[0], &[]),
            (&[], &[0]),
            (&[0], &[1]),
            (&[], &[1, 2]),
        ] {
            let sound = drops.is_empty() && loads.is_empty() && end == 0;
            let checked = check_plan(8, 0, 64, &[], 0, &[], drops, loads, end);
            assert_eq!(checked, if sound { Ok(0) } else { Err(no(12, 0)) });
            let written = write_plan(8, 0, 64, &[], 0, &[], drops, loads, end, 0);
            assert_eq!(written, if sound { Ok(vec![]) } else { Err(no(12, 0)) });
        }
    }
}

/// The curves of the job are 0 to 3.
#[test]
fn plan_bytes_without_tests() {
    let job = bytes("02 04");
    for (plan, figure) in [
        ("00", 0),
        ("02 01 01", 0),
        ("04", 0),
        ("04 00", 0),
        ("05 01 01 00", 0),
        ("81 01 01", 0),
        ("ff", 0),
        ("01", 1),
        ("01 00", 1),
        ("01 01", 2),
        ("01 01 00", 2),
        ("01 01 10", 2),
        ("01 02 01", 2),
        ("01 03 01", 3),
        ("01 01 01 00", 3),
        ("01 01 01 01 01 01", 3),
        ("01 01 01 04 00", 3),
    ] {
        let plan = bytes(plan);
        assert_eq!(read_plan(4, 0, &plan, 0, 0, 0), Err(no(11, figure)));
        for position in [0, 1] {
            assert_eq!(step_bytes(4, 0, &plan, position), (plan.len(), 0));
        }
        let audited = audit(&job, &plan);
        let printed = format!("plan refused 11 at {figure}\n");
        assert_eq!(audit_text(&audited), printed);
    }
    // An end step alone reads, and its check from an empty drive fails.
    for (plan, end) in [("01 01 01", 1), ("01 01 0a", 10), ("01 01 0f", 15)] {
        let plan = bytes(plan);
        let steps = read_plan(4, 0, &plan, 0, 0, 0).unwrap();
        assert_eq!((steps.tests.len(), steps.end_set()), (0, end));
        assert_eq!(step_bytes(4, 0, &plan, 0), (0, 3));
        assert_eq!(step_bytes(4, 0, &plan, 1), (3, 0));
        assert_eq!(
            check_plan(8, 0, 4, &[], 0, &[], &[], &[], end),
            Err(no(12, 0))
        );
        let audited = audit(&job, &plan);
        assert_eq!(audit_text(&audited), "plan refused 12 at 0\n");
    }
}

#[test]
fn fast_calls_without_tests() {
    let sound = WITHOUT_TESTS.map(|(job, ..)| (job, 0));
    let refused =
        WITHOUT_TESTS_REFUSED.map(|(job, number, figure)| (job, number * 65_536 + figure));
    for (job, answer) in sound.into_iter().chain(refused) {
        for call in [tuned::call, fast::call] {
            for length in [0, 1, 9] {
                let mut out = vec![0xaa; length];
                assert_eq!(call(&bytes(job), &mut out), answer, "{job}");
                assert_eq!(out, vec![0xaa; length]);
            }
        }
    }
}

#[test]
fn nothing_is_held_where_all_was_dropped_before() {
    // A plan of two tests, the last without wants, that leaves nothing for the end.
    let (wants, order) = ([1, 0], [0, 1]);
    let check = |end: u64| check_plan(1, 0, 1, &wants, 0, &order, &[0, 1], &[1, 0], end);
    assert_eq!(check(0), Ok(1));
    assert_eq!(check(1), Err(no(12, 2)));
    let written = write_plan(1, 0, 1, &wants, 0, &order, &[0, 1], &[1, 0], 0, 8);
    assert_eq!(written, Ok(bytes("06 01 01 00 05 01 01 01")));
    // Ours keeps the curve until the end.
    let ours = plan(1, 0, 1, &wants, 0, &order, 2, 2).unwrap();
    assert_eq!((ours.drops, ours.end), (vec![0, 0], 1));
}

#[test]
fn one_test_with_three_curves() {
    let wants = sets(&[&[0, 1, 2]]);
    assert_eq!(plan(2, 0, 3, &wants, 0, &[0], 1, 1), Err(no(7, 0)));
    assert_eq!(order_tests(2, 0, 3, 0, &wants, 1), Err(no(7, 0)));
    let job = write_job(2, 0, 3, 0, &wants, 99).unwrap();
    assert_eq!(call(&job, 99), (7 * 65_536, vec![]));
    assert_eq!(sheet(&job), "refused 7 at 0\n");
    let made = plan(3, 0, 3, &wants, 0, &[0], 1, 1).unwrap();
    assert_eq!((made.count, made.end), (3, 7));
}

#[test]
fn refusals_of_job_bytes() {
    for (job, number, figure) in [
        ("", 1, 0),
        ("01", 1, 1),
        ("01 00", 2, 1),
        ("01 08", 2, 1),
        ("01 41", 2, 1),
        ("04 01 00 01 00", 3, 4),
        ("04 01 00 00 00", 6, 4),
        ("06 04 01 00 01 10", 4, 5),
        // Not in the paper's list, but in its words.
        ("10", 1, 1),
        ("20", 2, 0),
        ("80", 2, 0),
        ("02 40", 2, 1),
        ("02 00", 2, 1),
        ("04 00", 1, 2),
        ("04 00 00", 2, 1),
        ("04 01 01", 2, 1),
        ("04 00 01", 1, 3),
        ("08 00", 2, 1),
        ("08 04", 2, 1),
        ("03 02 40", 2, 2),
        ("06 04 01 00 02", 1, 5),
        ("06 04 01 00 02 00", 3, 5),
        ("06 04 01 00 02 01", 4, 5),
    ] {
        let job = bytes(job);
        assert_eq!(read_job(&job, 0), Err(no(number, figure)), "{job:x?}");
        assert_eq!(call(&job, 0), (number * 65_536 + figure, vec![]));
        assert_eq!(tuned::call(&job, &mut []), number * 65_536 + figure);
        assert_eq!(sheet(&job), format!("refused {number} at {figure}\n"));
    }
    let job = read_job(&bytes("06 04 01 00 01 08"), 1).unwrap();
    assert_eq!(job.wants, sets(&[&[3]]));
}

#[test]
fn refusals_of_orders() {
    let wants = [0, 0, 0];
    for order in [&[0, 1, 1][..], &[0, 1]] {
        assert_eq!(plan(1, 0, 1, &wants, 0, order, 3, 3), Err(no(8, 2)));
        assert_eq!(
            check_plan(1, 0, 1, &wants, 0, order, &[], &[], 1),
            Err(no(8, 2))
        );
    }
    assert_eq!(plan(1, 0, 1, &wants, 0, &[0, 1, 2, 0], 3, 3), Err(no(8, 3)));
    assert_eq!(plan(1, 0, 1, &wants, 0, &[0, 3, 2, 0], 3, 3), Err(no(8, 1)));
    assert_eq!(plan(1, 0, 1, &wants, 0, &[], 3, 3), Err(no(8, 0)));
}

#[test]
fn refusals_of_handed_numbers() {
    let wants = vec![1u64; 257];
    assert_eq!(order_tests(0, 0, 0, 9, &wants, 0), Err(no(10, 0)));
    assert_eq!(order_tests(65, 0, 1, 0, &wants, 0), Err(no(10, 0)));
    assert_eq!(order_tests(usize::MAX, 0, 1, 0, &wants, 0), Err(no(10, 0)));
    assert_eq!(order_tests(64, 0, 65, 9, &wants, 0), Err(no(10, 1)));
    assert_eq!(order_tests(64, 0, 64, 9, &wants, 0), Err(no(10, 2)));
    assert_eq!(order_tests(64, 0, 64, 2, &wants[..256], 0), Err(no(10, 3)));
    assert_eq!(order_tests(64, 0, 64, 4, &wants[..256], 0), Err(no(10, 3)));
    assert_eq!(order_tests(64, 0, 1, 3, &[1, 0, 2, 4], 0), Err(no(10, 6)));
    assert_eq!(
        order_tests(64, 0, 1, 3, &wants[..256], 255),
        Err(no(9, 256))
    );
    assert_eq!(write_job(1, 0, 3, 0, &[7, 7], 0), Err(no(9, 9)));
    assert_eq!(read_plan(65, 257, &[], 0, 0, 0), Err(no(10, 1)));
    assert_eq!(read_plan(64, 257, &[], 0, 0, 0), Err(no(10, 2)));
    assert_eq!(read_plan(64, 256, &[], 0, 0, 0), Err(no(11, 0)));
}

#[test]
fn refusals_of_plan_bytes() {
    for (plan, curves, tests, figure) in [
        ("", 4, 1, 0),
        ("04", 4, 1, 1),
        ("00 00", 4, 1, 0),
        ("03 01 01 01 01", 4, 1, 0),
        ("0c 00", 4, 1, 0),
        ("84 00", 4, 1, 0),
        ("05 00 00", 4, 1, 1),
        ("05 01 00 00", 4, 1, 2),
        ("05 01 10 00", 4, 1, 2),
        ("05 02 01 00", 4, 1, 2),
        ("05 02", 4, 1, 2),
        ("06 01 01", 4, 1, 3),
        ("04 01", 4, 1, 1),
        ("04 00 00", 4, 1, 2),
        ("04 00", 4, 2, 2),
        // An end step before the last test's step.
        ("01 01 01", 4, 1, 0),
        ("01 01 01 04 00", 4, 1, 0),
        ("04 00 01 01 01", 4, 2, 2),
    ] {
        let plan = bytes(plan);
        assert_eq!(
            read_plan(curves, tests, &plan, 0, 0, 0),
            Err(no(11, figure))
        );
        assert_eq!(step_bytes(curves, tests, &plan, 0), (plan.len(), 0));
    }
    // Repeats are left to the check.
    assert_eq!(
        read_plan(1, 2, &bytes("04 00 04 00"), 2, 2, 2)
            .unwrap()
            .order(),
        [0, 0]
    );
    assert_eq!(
        read_plan(1, 2, &bytes("04 00 04 00"), 2, 1, 2),
        Err(no(9, 2))
    );
}

#[test]
fn refusals_of_the_check() {
    let wants = sets(&[&[0], &[1]]);
    let order = [0, 1];
    let check =
        |drops: &[u64], loads: &[u64]| check_plan(1, 0, 2, &wants, 0, &order, drops, loads, 2);
    assert_eq!(check(&[0, 1], &[1, 2]), Ok(2));
    assert_eq!(check(&[0], &[1, 2, 3]), Err(no(12, 1)));
    assert_eq!(check(&[0, 1, 0], &[1, 2]), Err(no(12, 2)));
    assert_eq!(check(&[0, 1, 0], &[]), Err(no(12, 0)));
    assert_eq!(check(&[2, 1], &[1, 2]), Err(no(12, 0))); // a drop not held
    assert_eq!(check(&[0, 0], &[1, 2]), Err(no(12, 1))); // more than the places
    assert_eq!(check(&[0, 1], &[0, 2]), Err(no(12, 0))); // wants not held
    assert_eq!(check(&[0, 1], &[1 << 2, 2]), Err(no(12, 0))); // a foreign load
    let again = check_plan(1, 0, 1, &[1, 1], 0, &order, &[0, 1], &[1, 1], 1);
    assert_eq!(again, Ok(2)); // leaves and comes back in one step
    let held = check_plan(1, 0, 1, &[1, 1], 0, &order, &[0, 0], &[1, 1], 1);
    assert_eq!(held, Err(no(12, 1)));
    // Another end set, alone and beside the faults above.
    let ended = |drops: &[u64], loads: &[u64], end: u64| {
        check_plan(1, 0, 2, &wants, 0, &order, drops, loads, end)
    };
    for end in [0, 1, 3, 4, 6, u64::MAX] {
        assert_eq!(ended(&[0, 1], &[1, 2], end), Err(no(12, 2)));
        assert_eq!(ended(&[0], &[1, 2, 3], end), Err(no(12, 1)));
        assert_eq!(ended(&[0, 1, 0], &[1, 2], end), Err(no(12, 2)));
        assert_eq!(ended(&[0, 1, 0], &[], end), Err(no(12, 0)));
        assert_eq!(ended(&[2, 1], &[1, 2], end), Err(no(12, 0)));
        assert_eq!(ended(&[0, 0], &[1, 2], end), Err(no(12, 1)));
        // 12 goes before 9.
        let written = write_plan(1, 0, 2, &wants, 0, &order, &[0, 1], &[1, 2], end, 0);
        assert_eq!(written, Err(no(12, 2)));
    }
    let written = write_plan(1, 0, 2, &wants, 0, &order, &[0, 1], &[1, 2], 2, 12);
    assert_eq!(written, Err(no(9, 13)));
    // Behind 8 and 10.
    let order_first = check_plan(1, 0, 2, &wants, 0, &[0, 0], &[0, 1], &[1, 2], 9);
    assert_eq!(order_first, Err(no(8, 1)));
    let numbers_first = check_plan(1, 0, 0, &wants, 0, &[0, 0], &[0, 1], &[1, 2], 9);
    assert_eq!(numbers_first, Err(no(10, 1)));
}

#[test]
fn full_size() {
    // 256 tests, 64 curves, 64 places, every curve wanted by every test.
    let wants = vec![u64::MAX; 256];
    let job = write_job(64, 0, 64, 0, &wants, usize::MAX).unwrap();
    assert_eq!(job.len(), 1 + 1 + 2 + 256 * 9);
    let longest = write_job(63, 0, 63, 3, &vec![u64::MAX >> 1; 256], usize::MAX).unwrap();
    assert_eq!(longest.len(), 2_310);
    assert_eq!(read_job(&longest, 256).unwrap().tests, 256);
    assert_eq!(call(&job, 5_121).0, 11 + 255 * 2 + 10);
    assert_eq!(
        plan(64, 0, 64, &wants, 0, &as_listed(256), 256, 256)
            .unwrap()
            .end,
        u64::MAX
    );
    // Half of the curves and the other half in turns, with curves of all groups in each.
    let half = 0x5555_5555_5555_5555;
    let wants: Vec<u64> = (0..256).map(|test| half << (test % 2)).collect();
    let job = write_job(32, 0, 64, 0, &wants, usize::MAX).unwrap();
    let plan = call_bytes(&job, 5_121).unwrap();
    assert_eq!(plan.len(), 5_121);
    assert_eq!(call(&job, 5_120), (9 * 65_536 + 5_121, vec![]));
    assert_eq!(audit(&job, &plan).unwrap().loads, 8_192);
    assert_eq!(sheet(&job).len(), 52_577);
    // The first step may drop as well, for reading.
    let order = as_listed(256);
    let longest = plan_bytes(&order, &[u64::MAX; 256], &[u64::MAX; 256], u64::MAX);
    assert_eq!(longest.len(), 5_130);
    let steps = read_plan(64, 256, &longest, 256, 256, 256).unwrap();
    assert_eq!(steps.end_set(), u64::MAX);
    assert_eq!(step_bytes(64, 256, &longest, 255), (5_100, 20));
    assert_eq!(step_bytes(64, 256, &longest, 256), (5_120, 10));
    assert_eq!(step_bytes(64, 256, &longest, 257), (5_130, 0));
    let longer = [&longest[..], &[0]].concat();
    let refused = Err(no(11, 5_130));
    assert_eq!(read_plan(64, 256, &longer, 256, 256, 256), refused);
}
