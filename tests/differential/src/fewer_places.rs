//! Places less booked (wish 5): every head, the sequence of the refusals, and that a drive with booked
//! places is one with fewer places and none booked.

use crate::booked;
use crate::fast;
use crate::generate::{self, permutation, Case, Size, FUNCTIONS, JOB, PLAN_MADE};
use crate::random::Random;
use crate::reference::*;
use crate::states::Made;
use crate::tuned;
use crate::withdrawn::HANDED;
use std::collections::BTreeSet;

fn bytes(text: &str) -> Vec<u8> {
    text.split_whitespace()
        .map(|byte| u8::from_str_radix(byte, 16).unwrap())
        .collect()
}

// ---------------------------------------------------------------------------------------------
// Examples

/// Job A in a drive with 3 places of which 1 is booked.
const A_BOOKED: &str = "17 03 04 04 00 01 01 03 01 06 01 03 01 08";
const A_PLAN: &str = "06 01 03 00 07 01 01 01 04 01 07 01 04 01 01 02 07 01 02 01 08 03 01 01 09";

/// A plan of job A that holds three curves from step 1 on.
const A_WIDE_PLAN: &str = "06 01 03 00 06 01 04 01 04 02 07 01 04 01 08 03 01 01 0b";

#[test]
fn job_a_with_a_booked_place() {
    let wants = [0b0011, 0b0110, 0b0011, 0b1000];
    let job = read_job(&bytes(A_BOOKED), 4).unwrap();
    assert_eq!((job.places, job.booked, job.curves), (3, 1, 4));
    assert_eq!((job.tests, job.method), (4, 0));
    assert_eq!(job.wants, wants);
    assert_eq!(write_job(3, 1, 4, 0, &wants, 14), Ok(bytes(A_BOOKED)));
    assert_eq!(write_job(3, 1, 4, 0, &wants, 13), Err(refusal(9, 14)));
    assert_eq!(
        sheet(&bytes(A_BOOKED)),
        "4 tests, 2 places, method 0\n\
         0: test 0 drop none load 0 1\n\
         1: test 1 drop 0 load 2\n\
         2: test 2 drop 2 load 0\n\
         3: test 3 drop 1 load 3\n\
         4: end drop 0 3\n\
         loads 5\n"
    );
    assert_eq!(call(&bytes(A_BOOKED), 25), (25, bytes(A_PLAN)));
    let audited = |job: &str, plan: &str| audit_text(&audit(&bytes(job), &bytes(plan)));
    let passed = "loads 5\nfewest 5\nshorter by 0\n";
    assert_eq!(audited(A_BOOKED, A_PLAN), passed);
    // A plan for three places.
    let wide = "loads 4\nfewest 4\nshorter by 0\n";
    assert_eq!(
        audited("07 03 04 04 00 01 03 01 06 01 03 01 08", A_WIDE_PLAN),
        wide
    );
    assert_eq!(audited(A_BOOKED, A_WIDE_PLAN), "plan refused 12 at 1\n");
    // All booked, or more.
    for (booked, job) in [(3, "17 03 04 04 00 03"), (4, "17 03 04 04 00 04 ff")] {
        assert_eq!(read_job(&bytes(job), 4), Err(refusal(13, 5)));
        assert_eq!(call(&bytes(job), 99), (13 * 65_536 + 5, vec![]));
        assert_eq!(sheet(&bytes(job)), "refused 13 at 5\n");
        assert_eq!(audited(job, A_PLAN), "refused 13 at 5\n");
        assert_eq!(write_job(3, booked, 4, 0, &wants, 99), Err(refusal(13, 0)));
    }
}

/// One test with three curves: too wide where 2 places are left of 3.
#[test]
fn too_wide_by_the_booked_place() {
    let wants = [7];
    assert_eq!(order_tests(3, 1, 3, 0, &wants, 1), Err(refusal(7, 0)));
    assert_eq!(plan(3, 1, 3, &wants, 0, &[0], 1, 1), Err(refusal(7, 0)));
    assert_eq!(
        check_plan(3, 1, 3, &wants, 0, &[0], &[0], &[7], 7),
        Err(refusal(12, 0))
    );
    assert_eq!(check_plan(4, 1, 3, &wants, 0, &[0], &[0], &[7], 7), Ok(3));
    assert_eq!(plan(4, 1, 3, &wants, 0, &[0], 1, 1).unwrap().count, 3);
    assert_eq!(sheet(&bytes("15 03 01 00 01 01 07")), "refused 7 at 0\n");
    assert_eq!(
        call(&bytes("15 03 01 00 01 01 07"), 99),
        (7 * 65_536, vec![])
    );
    // The lowest that is too wide: by all places it would be test 1.
    let wants = [0b0111, 0b1111];
    assert_eq!(order_tests(3, 1, 4, 1, &wants, 0), Err(refusal(7, 0)));
    assert_eq!(order_tests(3, 0, 4, 1, &wants, 0), Err(refusal(7, 1)));
}

/// What reading answers: places and booked places, or the refusal.
type Read = Result<(usize, usize), (u64, usize)>;

const HEADS: [(&str, Read); 61] = [
    ("10 01", Ok((8, 1))),
    ("10 07", Ok((8, 7))),
    ("11 02 01", Ok((2, 1))),
    ("11 07 06", Ok((7, 6))),
    ("11 09 08", Ok((9, 8))),
    ("11 40 3f", Ok((64, 63))),
    ("1b 40 3f 03 3f", Ok((64, 63))),
    // Owed, 0, or above 63.
    ("10", Err((1, 1))),
    ("11 02", Err((1, 2))),
    ("14 01", Err((1, 2))),
    ("14 01 00", Err((1, 3))),
    ("1f 02 04 01 00 03", Err((1, 6))),
    ("10 00", Err((2, 1))),
    ("10 40", Err((2, 1))),
    ("10 41", Err((2, 1))),
    ("10 ff", Err((2, 1))),
    ("11 40 40", Err((2, 2))),
    ("11 01 00", Err((2, 2))),
    // Not below the places, which are 8 where they are absent.
    ("10 08", Err((13, 1))),
    ("10 09", Err((13, 1))),
    ("10 3f", Err((13, 1))),
    ("11 01 01", Err((13, 2))),
    ("11 02 02", Err((13, 2))),
    ("11 02 03", Err((13, 2))),
    ("11 3f 3f", Err((13, 2))),
    ("11 07 08", Err((13, 2))),
    ("11 01 3f", Err((13, 2))),
    ("1f 02 04 01 00 03 02", Err((13, 6))),
    // The range goes before 13: 64 is below no places.
    ("11 02 40", Err((2, 2))),
    ("11 01 ff", Err((2, 2))),
    // What stands before goes first: the map, and each field.
    ("30 08", Err((2, 0))),
    ("50 00", Err((2, 0))),
    ("90", Err((2, 0))),
    ("11 00 40", Err((2, 1))),
    ("11 00 01", Err((2, 1))),
    ("11 08 08", Err((2, 1))),
    ("11 08 07", Err((2, 1))),
    ("11 41 3f", Err((2, 1))),
    ("12 00 08", Err((2, 1))),
    ("12 40 00", Err((2, 1))),
    ("14 00 00 08", Err((2, 1))),
    ("14 01 01 40", Err((2, 1))),
    ("18 00 08", Err((2, 1))),
    ("18 04 40", Err((2, 1))),
    ("18 04", Err((2, 1))),
    ("1a 40 04 08", Err((2, 1))),
    // The records and what is behind them come later.
    ("14 01 00 08", Err((13, 3))),
    ("14 01 00 08 01", Err((13, 3))),
    ("14 01 00 08 01 00", Err((13, 3))),
    ("16 04 01 00 08 01 10", Err((13, 4))),
    ("14 01 00 08 00 ff", Err((13, 3))),
    ("10 08 ff", Err((13, 1))),
    ("14 01 00 40", Err((2, 3))),
    ("14 01 00 00 01 00", Err((2, 3))),
    ("16 04 01 00 00 01 10", Err((2, 4))),
    ("10 40 ff", Err((2, 1))),
    ("14 01 00 07", Err((1, 4))),
    ("14 01 00 07 01 00", Err((3, 5))),
    ("16 04 01 00 07 01 10", Err((4, 6))),
    ("14 01 00 07 00 ff", Err((6, 5))),
    ("10 07 ff", Err((6, 2))),
];

#[test]
fn heads_with_booked_places() {
    for (job, expected) in HEADS {
        let job = bytes(job);
        let answer = read_job(&job, 1);
        let no = match expected {
            Ok((places, booked)) => {
                let read = answer.unwrap();
                assert_eq!((read.places, read.booked), (places, booked), "{job:x?}");
                assert_eq!(call(&job, 0), (0, vec![]));
                let first = format!("0 tests, {} places, method", places - booked);
                assert!(sheet(&job).starts_with(&first), "{job:x?}");
                continue;
            }
            Err((number, figure)) => refusal(number, figure),
        };
        assert_eq!(answer, Err(no), "{job:x?}");
        assert_eq!(read_job(&job, 0), Err(no), "{job:x?}");
        let number = no.number * 65_536 + no.figure;
        assert_eq!(call(&job, 0), (number, vec![]));
        for call in [tuned::call, fast::call] {
            assert_eq!(call(&job, &mut []), number, "{job:x?}");
        }
        let text = format!("refused {} at {}\n", no.number, no.figure);
        assert_eq!(sheet(&job), text);
        for plan in ["", "04 00", "ff"] {
            assert_eq!(audit_text(&audit(&job, &bytes(plan))), text);
        }
    }
}

// ---------------------------------------------------------------------------------------------
// Every head

/// A field of a head: its bytes, none where it is absent, what it stands for, and whether it is sound.
type Field = (Vec<u8>, usize, bool);

fn fields(absent: usize, sound: &[u8], others: &[u8]) -> Vec<Field> {
    let mut fields = vec![(vec![], absent, true)];
    fields.extend(sound.iter().map(|&byte| (vec![byte], byte as usize, true)));
    fields.extend(
        others
            .iter()
            .map(|&byte| (vec![byte], byte as usize, false)),
    );
    fields
}

/// What is refused of a head: its faults by offset, of which the first is answered. A field that has
/// none of its bytes, or not all, is cut.
fn first_fault(map: u8, head: &[&Field], length: usize) -> Option<Refusal> {
    let mut faults = Vec::new();
    if map >= 32 {
        faults.push((0, 2));
    }
    let mut offset = 1;
    for (at, (bytes, value, sound)) in head.iter().enumerate() {
        if bytes.is_empty() {
            continue;
        }
        if offset + bytes.len() > length {
            faults.push((offset, 1));
        } else if !sound {
            faults.push((offset, 2));
        } else if at == 4 && *value >= head[0].1 {
            faults.push((offset, 13));
        }
        offset += bytes.len();
    }
    let &(offset, number) = faults.iter().min()?;
    Some(refusal(number, if number == 1 { length } else { offset }))
}

/// All heads of these values, each whole and cut everywhere, with and without records, with a fault in
/// these, and with bytes behind.
#[test]
fn every_head() {
    let places = fields(8, &[1, 2, 7, 9, 63, 64], &[0, 8, 65, 255]);
    let curves = fields(64, &[1, 63], &[0, 64]);
    let mut tests = fields(0, &[], &[]);
    tests.extend([
        (vec![2, 0], 2, true),
        (vec![0, 0], 0, false),
        (vec![1, 1], 257, false),
    ]);
    let mut methods = fields(0, &[1, 3], &[0, 4]);
    methods.push((vec![2], 1, true));
    let bookeds = fields(0, &[1, 6, 7, 8, 62, 63], &[0, 64, 255]);
    let mut outcomes = [0; 14];
    let mut read = BTreeSet::new();
    for places in &places {
        for curves in &curves {
            for tests in &tests {
                for method in &methods {
                    for booked in &bookeds {
                        let head = [places, curves, tests, method, booked];
                        for high in [0, 32, 128] {
                            one_head(&head, high, &mut outcomes, &mut read);
                        }
                    }
                }
            }
        }
    }
    assert_eq!(outcomes[5], 0);
    for number in [0, 1, 2, 3, 4, 6, 13] {
        assert!(outcomes[number] > 100, "{outcomes:?}");
    }
    // Every places and booked of the lists with booked below places, and no others.
    let sound = |field: &&Field| field.2;
    let mut expected = BTreeSet::new();
    for places in places.iter().filter(sound) {
        for booked in bookeds.iter().filter(sound) {
            if booked.1 < places.1 {
                expected.insert((places.1, booked.1));
            }
        }
    }
    assert_eq!(read, expected);
}

fn one_head(
    head: &[&Field; 5],
    high: u8,
    outcomes: &mut [u64; 14],
    read: &mut BTreeSet<(usize, usize)>,
) {
    let mut map = high;
    let mut all = vec![0];
    for (bit, field) in head.iter().enumerate() {
        if !field.0.is_empty() {
            map |= 1 << bit;
        }
        all.extend(&field.0);
    }
    all[0] = map;
    let mut tell = |job: &[u8], expected: Answer<()>| {
        let answer = read_job(job, 2);
        let number = expected.map_or_else(|no| no.number as usize, |()| 0);
        outcomes[number] += 1;
        if let Ok(job) = &answer {
            let numbers = [job.places, job.curves, job.tests, job.method, job.booked];
            assert_eq!(numbers, head.map(|field| field.1));
            read.insert((job.places, job.booked));
        }
        assert_eq!(answer.map(|_| ()), expected, "{job:x?}");
    };
    for length in 0..all.len() {
        let fault = match length {
            0 => refusal(1, 0),
            _ => first_fault(map, head, length).expect("a field is cut"),
        };
        tell(&all[..length], Err(fault));
    }
    let whole = all.len();
    let fault = first_fault(map, head, whole);
    let two = head[2].1 == 2;
    // Behind the head: two records without wants, or with curve 0; faulty ones; and a byte more.
    for (records, no) in [
        (&[][..], two.then(|| refusal(1, whole))),
        (&[0, 0], None),
        (&[1, 1, 1, 1], None),
        (&[0], Some(refusal(1, whole + 1))),
        (&[0, 1, 0], Some(refusal(3, whole + 2))),
        (
            &[0x80, 0x80, 0],
            (head[1].1 < 64).then(|| refusal(4, whole + 1)),
        ),
        (&[0, 0, 0], Some(refusal(6, whole + 2))),
    ] {
        let job = [&all[..], records].concat();
        let behind = match no {
            _ if !two && !records.is_empty() => Some(refusal(6, whole)),
            no => no,
        };
        tell(&job, fault.or(behind).map_or(Ok(()), Err));
    }
}

// ---------------------------------------------------------------------------------------------
// The sequence of the refusals of handed numbers and lists

/// What is handed over with a list: sound at first.
#[derive(Clone, Debug)]
struct Handed {
    places: usize,
    booked: usize,
    curves: usize,
    method: usize,
    wants: Vec<u64>,
    held: u64,
    order: Vec<u16>,
    drops: Vec<u64>,
    loads: Vec<u64>,
    end: u64,
    /// The entries of each list lent.
    lent: usize,
}

/// One fault, and its refusal, of a list with four tests.
type Fault = ((u64, u64), fn(&mut Handed));

fn no(number: u64, figure: u64) -> Refusal {
    Refusal { number, figure }
}

const PLACES: Fault = ((10, 0), |handed| handed.places = 0);
const CURVES: Fault = ((10, 1), |handed| handed.curves = 65);
const TESTS: Fault = ((10, 2), |handed| handed.wants.resize(257, 0));
const METHOD: Fault = ((10, 3), |handed| handed.method = 4);
const METHOD_2: Fault = ((10, 3), |handed| handed.method = 2);
const FOREIGN: Fault = ((10, 6), |handed| handed.wants[2] |= 1 << 63);
const RANGE: Fault = ((10, 260), |handed| handed.booked = 64);
const BOOKED: Fault = ((13, 0), |handed| handed.booked = handed.booked.max(5));
const HELD: Fault = ((14, 6), |handed| handed.held |= 0b1100_0010);
const ORDER: Fault = ((8, 1), |handed| handed.order[1] = 0);
const WIDE: Fault = ((7, 3), |handed| handed.wants[3] |= 0b11_1111);
const LENGTHS: Fault = ((12, 3), |handed| handed.drops.truncate(3));
const STEP: Fault = ((12, 0), |handed| handed.drops[0] = 2);
const END: Fault = ((12, 4), |handed| handed.end ^= 1 << 5);

/// Whatever faults there are together, the first of this sequence is answered, and without any there is
/// an answer.
fn sequence(faults: &[Fault], answer: impl Fn(&Handed) -> Answer<()>) {
    let wants = vec![0b0011, 0b0110, 0b0011, 0b1000];
    let order = vec![0, 1, 2, 3];
    // More is held than fits.
    let held = 0b11_0001;
    let made = plan(5, 3, 6, &wants, held, &order, 4, 4).unwrap();
    let sound = Handed {
        places: 5,
        booked: 3,
        curves: 6,
        method: 1,
        wants,
        held,
        order,
        drops: made.drops,
        loads: made.loads,
        end: made.end,
        lent: 99,
    };
    for chosen in 0..1u32 << faults.len() {
        let mut handed = sound.clone();
        let mut expected = Ok(());
        for (at, ((number, figure), spoil)) in faults.iter().enumerate().rev() {
            if chosen >> at & 1 == 1 {
                spoil(&mut handed);
                expected = Err(no(*number, *figure));
            }
        }
        assert_eq!(answer(&handed), expected, "{handed:x?}");
    }
}

#[test]
fn the_sequence_of_handed_numbers() {
    let short = |number| -> Fault { ((9, number), |handed| handed.lent = 1) };
    sequence(&[PLACES, CURVES, TESTS, FOREIGN, RANGE, BOOKED], |h| {
        examine(h.places, h.booked, h.curves, &h.wants)
    });
    for method in [METHOD, METHOD_2] {
        let numbers = [PLACES, CURVES, TESTS, method, FOREIGN, RANGE, BOOKED];
        sequence(&numbers, |h| {
            examine_by(h.places, h.booked, h.curves, h.method, &h.wants)
        });
        // Map, five fields, and two bytes for each test.
        sequence(&[&numbers[..], &[short(15)]].concat(), |h| {
            write_job(h.places, h.booked, h.curves, h.method, &h.wants, h.lent).map(|_| ())
        });
        sequence(&[&numbers[..], &[WIDE, short(4)]].concat(), |h| {
            order_tests(h.places, h.booked, h.curves, h.method, &h.wants, h.lent).map(|_| ())
        });
    }
    let numbers = [PLACES, CURVES, TESTS, FOREIGN, RANGE, BOOKED, HELD];
    sequence(&[&numbers[..], &[ORDER, WIDE, short(4)]].concat(), |h| {
        let (places, booked, curves, held) = (h.places, h.booked, h.curves, h.held);
        plan(
            places, booked, curves, &h.wants, held, &h.order, h.lent, h.lent,
        )
        .map(|_| ())
    });
    // Nothing is lent for a state.
    sequence(&[&numbers[..], &[ORDER, WIDE]].concat(), |h| {
        let (places, booked, curves, held) = (h.places, h.booked, h.curves, h.held);
        Made::new(places, booked, curves, &h.wants, held, &h.order).map(|_| ())
    });
    let checked = [&numbers[..], &[ORDER, LENGTHS, STEP, END]].concat();
    sequence(&checked, |h| {
        let (places, booked, curves, end) = (h.places, h.booked, h.curves, h.end);
        check_plan(
            places, booked, curves, &h.wants, h.held, &h.order, &h.drops, &h.loads, end,
        )
        .map(|_| ())
    });
    sequence(&[&checked[..], &[short(27)]].concat(), |h| {
        let (places, booked, curves, end) = (h.places, h.booked, h.curves, h.end);
        write_plan(
            places, booked, curves, &h.wants, h.held, &h.order, &h.drops, &h.loads, end, h.lent,
        )
        .map(|_| ())
    });
}

/// All places, and booked up to a few numbers above: 10 at 260, 13 or none; with the last test's wants as
/// the last place before 260.
#[test]
fn every_number_of_booked_places() {
    let huge = [
        127,
        128,
        255,
        256,
        257,
        1 << 32,
        (1 << 32) + 1,
        1 << 63,
        usize::MAX,
    ];
    let mut wants = vec![0; 256];
    let mut foreign = wants.clone();
    foreign[255] = 1 << 63;
    for places in 1..=64 {
        for booked in (0..=66).chain(huge) {
            let expected = match booked {
                64.. => Err(no(10, 260)),
                _ if booked >= places => Err(no(13, 0)),
                _ => Ok(()),
            };
            assert_eq!(examine(places, booked, 63, &wants), expected);
            assert_eq!(examine_by(places, booked, 63, 3, &[]), expected);
            let written = write_job(places, booked, 63, 0, &[], 5);
            assert_eq!(written.map(|_| ()), expected);
            assert_eq!(examine(places, booked, 63, &foreign), Err(no(10, 259)));
            assert_eq!(examine_by(places, booked, 63, 4, &foreign), Err(no(10, 3)));
            // Behind these 13, then all others.
            if let Err(refused) = expected {
                wants[0] = u64::MAX;
                assert_eq!(order_tests(places, booked, 64, 0, &wants, 0), Err(refused));
                assert_eq!(
                    plan(places, booked, 64, &wants, 0, &[9; 3], 0, 0),
                    Err(refused)
                );
                wants[0] = 0;
                let checked = check_plan(places, booked, 64, &wants, 0, &[], &[], &[1], 1);
                assert_eq!(checked, Err(refused));
                assert_eq!(
                    write_plan(places, booked, 64, &wants, 0, &[], &[], &[1], 1, 0),
                    Err(refused)
                );
            }
        }
    }
    for places in [0, 65, 128, usize::MAX] {
        for booked in [0, 1, 63, 64, 65, 128, usize::MAX] {
            assert_eq!(examine(places, booked, 0, &foreign), Err(no(10, 0)));
        }
    }
}

// ---------------------------------------------------------------------------------------------
// Fewer places

/// Places, of which some are booked, and as many fewer with none booked give the same order by every
/// method, the same plan, check and texts, and the same refusals.
fn alike(places: usize, booked: usize, curves: usize, wants: &[u64], random: &mut Random) {
    let fewer = places - booked;
    let tests = wants.len();
    let any_order = permutation(random, tests);
    for method in HANDED {
        let order = order_tests(places, booked, curves, method, wants, tests);
        assert_eq!(order, order_tests(fewer, 0, curves, method, wants, tests));
        let job = write_job(places, booked, curves, method, wants, JOB).unwrap();
        let other = write_job(fewer, 0, curves, method, wants, JOB).unwrap();
        assert_eq!(call(&job, PLAN_MADE), call(&other, PLAN_MADE));
        assert_eq!(sheet(&job), sheet(&other));
        let order = order.unwrap_or(any_order.clone());
        let made = plan(places, booked, curves, wants, 0, &order, tests, tests);
        assert_eq!(made, plan(fewer, 0, curves, wants, 0, &order, tests, tests));
        let Ok(made) = made else {
            continue;
        };
        let (drops, loads) = (&made.drops, &made.loads);
        for end in [made.end, !made.end] {
            let answer = check_plan(places, booked, curves, wants, 0, &order, drops, loads, end);
            let other = check_plan(fewer, 0, curves, wants, 0, &order, drops, loads, end);
            assert_eq!(answer, other);
        }
        let bytes = plan_bytes(&order, drops, loads, made.end);
        assert_eq!(audit(&job, &bytes), audit(&other, &bytes));
    }
}

#[test]
fn booked_places_are_fewer_places() {
    let mut random = Random::new(31);
    for places in 1..=64 {
        for booked in 0..places {
            let curves = random.between(1, 64);
            let tests = random.between(0, 9);
            let wants = generate::wants(&mut random, tests, places - booked, curves);
            alike(places, booked, curves, &wants, &mut random);
        }
    }
    for round in 0..2_000 {
        let size = if round < 3 { Size::Full } else { Size::Small };
        let job = match round % 2 {
            0 => booked::job(&mut random),
            _ => generate::job(&mut random, size),
        };
        alike(job.places, job.booked, job.curves, &job.wants, &mut random);
    }
}

/// The check of any plan, faulty ones too.
#[test]
fn booked_places_are_fewer_places_in_the_check() {
    let mut random = Random::new(32);
    let (mut good, mut bad, mut booked_decide) = (0, 0, 0);
    for _ in 0..20_000 {
        let Some(Case::CheckPlan {
            places,
            booked,
            curves,
            wants,
            held,
            order,
            drops,
            loads,
            end,
        }) = booked::case(4, &mut random)
        else {
            unreachable!()
        };
        let check = |places: usize, booked: usize| {
            check_plan(
                places, booked, curves, &wants, held, &order, &drops, &loads, end,
            )
        };
        let answer = check(places, booked);
        if matches!(
            answer,
            Err(Refusal {
                number: 10 | 13 | 14,
                ..
            })
        ) {
            continue;
        }
        assert_eq!(answer, check(places - booked, 0));
        let pass = passes(
            places, booked, curves, &wants, held, &order, &drops, &loads, end,
        );
        assert_eq!(answer.is_ok(), pass);
        match answer {
            Ok(_) => good += 1,
            Err(_) => bad += 1,
        }
        booked_decide += (answer != check(places, 0)) as usize;
    }
    assert!(good > 2_000 && bad > 2_000, "{good} good, {bad} bad");
    assert!(booked_decide > 500, "{booked_decide}");
}

/// Every list of up to three tests with three curves, or of four with two, with up to five places and any
/// number of them booked: no plan that fits what is left has fewer loads than ours, and none fits exactly where a test
/// is too wide.
#[test]
fn every_small_list_loads_least() {
    let mut more_by_booked = 0;
    for (tests, curves) in [(0, 1), (1, 3), (2, 3), (3, 3), (4, 2)] {
        let order: Vec<u16> = (0..tests as u16).collect();
        for list in 0..1u64 << (curves * tests) {
            let all = generate::all_curves(curves);
            let wants: Vec<u64> = (0..tests)
                .map(|test| list >> (curves * test) & all)
                .collect();
            for places in 1..=5 {
                for booked in 0..places {
                    let least = least_loads(places, booked, curves, &wants, 0, &order);
                    let made = plan(places, booked, curves, &wants, 0, &order, tests, tests);
                    let wide = wants
                        .iter()
                        .position(|want| want.count_ones() as usize + booked > places);
                    match (made, wide) {
                        (Ok(made), None) => {
                            assert_eq!(least, Some(made.count));
                            let unbooked = least_loads(places, 0, curves, &wants, 0, &order);
                            more_by_booked += (unbooked < least) as usize;
                        }
                        (Err(refused), Some(test)) => {
                            assert_eq!((refused, least), (refusal(7, test), None));
                        }
                        (made, wide) => panic!("{made:?}, {wide:?}"),
                    }
                }
            }
        }
    }
    assert!(more_by_booked > 100, "{more_by_booked}");
}

// ---------------------------------------------------------------------------------------------
// Bytes

/// All places and booked places: the byte stands last in the head, and nowhere where none is booked.
#[test]
fn every_booked_byte_round_trips() {
    for places in 1..=64usize {
        for booked in 0..places {
            for (curves, method, wants) in [
                (64, 0, &[][..]),
                (64, 3, &[]),
                (5, 0, &[0b1_0001]),
                (63, 1, &[0, 1 << 62, 1]),
            ] {
                let written = write_job(places, booked, curves, method, wants, JOB).unwrap();
                let read = read_job(&written, wants.len()).unwrap();
                assert_eq!((read.places, read.booked), (places, booked));
                assert_eq!((read.curves, read.method), (curves, method));
                assert_eq!(read.wants, wants);
                // The same with none booked, and the bit and the byte beside.
                let mut expected = write_job(places, 0, curves, method, wants, JOB).unwrap();
                if booked > 0 {
                    let places = (places != 8) as usize;
                    let curves = (curves != 64) as usize;
                    let tests = 2 * !wants.is_empty() as usize;
                    let method = (method != 0) as usize;
                    expected[0] += 16;
                    expected.insert(1 + places + curves + tests + method, booked as u8);
                }
                assert_eq!(written, expected);
                let needed = written.len();
                let short = write_job(read.places, booked, curves, method, wants, needed - 1);
                assert_eq!(short, Err(refusal(9, needed)));
            }
        }
    }
}

/// Map, places, curves, two bytes of tests, method, booked places, and nine bytes for each of 256 tests.
#[test]
fn the_longest_job_has_booked_places() {
    assert_eq!(JOB, 1 + 1 + 1 + 2 + 1 + 1 + 256 * 9);
    let mut random = Random::new(33);
    for round in 0..3 {
        let job = booked::longest_job(&mut random);
        let bytes = generate::job_bytes(&job);
        assert_eq!(bytes.len(), JOB);
        let read = read_job(&bytes, 256).unwrap();
        assert_eq!((read.places, read.booked), (job.places, job.booked));
        assert_eq!(read.wants, job.wants);
        assert!(call_bytes(&bytes, PLAN_MADE).is_ok());
        for surplus in [0, 1, 255] {
            let longer = [&bytes[..], &[surplus]].concat();
            assert_eq!(read_job(&longer, 256), Err(refusal(6, JOB)));
        }
        // Cut everywhere.
        for length in (0..JOB).step_by(1 + 7 * round) {
            assert_eq!(read_job(&bytes[..length], 256), Err(refusal(1, length)));
        }
        // 13 goes before all of it.
        let mut booked = bytes.clone();
        booked[6] = job.places.min(63) as u8;
        if job.places < 64 {
            assert_eq!(read_job(&booked, 256), Err(refusal(13, 6)));
            assert_eq!(read_job(&booked[..7], 256), Err(refusal(13, 6)));
        }
    }
}

// ---------------------------------------------------------------------------------------------
// What is told of cases

/// The order of method 3 is made alike in two ways, for any number of places.
#[test]
fn packages_are_made_alike() {
    let mut random = Random::new(34);
    let mut raw = BTreeSet::new();
    for round in 0..4_000 {
        let job = match round {
            0..=2 => generate::job(&mut random, Size::Full),
            _ => booked::job(&mut random),
        };
        let (wants, capacity) = (&job.wants, job.capacity());
        let order = package_order(capacity, wants);
        assert_eq!(booked::packages(capacity, capacity, wants), order);
        let any = random.pick(&[0, 1, 2, 3, 5, 64, 65, usize::MAX]);
        assert_eq!(booked::packages(any, any, wants), package_order(any, wants));
        if examine_sizes(capacity, wants).is_ok() {
            raw.extend(booked::order_kinds(job.places, job.booked, wants, &order));
        }
    }
    assert_eq!(raw, BTreeSet::from(booked::ORDERS));
}

/// Each function that is handed booked places, or job bytes, gets cases with them; and all that is told
/// of job bytes is reached.
#[test]
fn cases_with_booked_places() {
    let mut random = Random::new(35);
    let mut functions = Vec::new();
    for (function, name) in FUNCTIONS.iter().enumerate() {
        for _ in 0..300 {
            let Some(case) = booked::case(function, &mut random) else {
                break;
            };
            assert_eq!(case.function(), function);
            if functions.last() != Some(name) {
                functions.push(*name);
            }
        }
    }
    let expected = [
        "read_job",
        "write_job",
        "order_tests",
        "plan_order",
        "check_plan",
        "write_plan",
        "plan",
        "sheet",
        "audit",
        "examine",
        "examine_by",
        "make_state",
    ];
    assert_eq!(functions, expected);
    let mut kinds = BTreeSet::new();
    for _ in 0..6_000 {
        kinds.extend(booked::job_kinds(&booked::any_bytes(&mut random)));
    }
    assert_eq!(kinds, BTreeSet::from(booked::JOBS));
}

#[test]
fn what_is_told_of_job_bytes() {
    for (job, kinds) in [
        ("00", &[][..]),
        ("11 02 01", &["read", "read:one-below"]),
        ("10 07", &["read", "read:places-absent", "read:one-below"]),
        ("11 40 3f", &["read", "read:one-below", "read:63"]),
        ("10 08", &["13:places", "13:places-absent", "13-alone"]),
        ("11 02 03", &["13:one-above", "13-alone"]),
        ("11 02 3f", &["13:63", "13-alone"]),
        ("10 00", &["2:0"]),
        ("10 40 00", &["2:64", "2+6"]),
        ("14 01 00 ff", &["2:65-to-255", "2+1"]),
        ("14 01 00 08", &["13:places", "13:places-absent", "13+1"]),
        ("15 03 01 00 03 01 00", &["13:places", "13+3"]),
        ("17 03 04 01 00 03 01 10", &["13:places", "13+4"]),
        ("11 03 03 00", &["13:places", "13+6"]),
        ("10", &["cut"]),
        ("18 00", &["before+cut"]),
        ("30 08", &["map+13"]),
        ("30 40", &["map+2"]),
        ("11 00 01", &["places+13"]),
        ("12 40 08", &["curves+13"]),
        ("14 00 00 08", &["tests+13"]),
        ("18 04 08", &["method+13"]),
        ("18 04 00", &["method+2"]),
        ("18 04 07", &[]),
    ] {
        assert_eq!(booked::job_kinds(&bytes(job)), kinds, "{job}");
    }
    assert_eq!(
        booked::behind_13(&bytes("15 02 01 00 02 01 07"), 0),
        ["13+9", "13+7"]
    );
    assert!(booked::behind_13(&bytes("15 02 01 00 02 01 03"), 1).is_empty());
}
