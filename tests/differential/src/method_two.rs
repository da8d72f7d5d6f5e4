//! Method 2 goes (wish 8): its byte reads as method 1 and is written back as 1, and handed over it is
//! refused.

use crate::booked;
use crate::degrees;
use crate::empty;
use crate::fast;
use crate::generate::{self, Case, Size, FUNCTIONS, JOB, PLAN_MADE};
use crate::random::Random;
use crate::reference::*;
use crate::tuned;
use crate::withdrawn::{self, field, field_of_2, with_2, written_back, HANDED};
use std::collections::BTreeSet;

fn bytes(text: &str) -> Vec<u8> {
    text.split_whitespace()
        .map(|byte| u8::from_str_radix(byte, 16).unwrap())
        .collect()
}

/// All three calls answer the same, and leave the same in the buffer.
fn calls_alike(job: &[u8], length: usize) -> (u64, Vec<u8>) {
    let (number, bytes) = call(job, length);
    let mut expected = vec![0x5a; length];
    expected[..bytes.len()].copy_from_slice(&bytes);
    for fast in [tuned::call, fast::call] {
        let mut out = vec![0x5a; length];
        assert_eq!(fast(job, &mut out), number, "{job:x?}");
        assert_eq!(out, expected, "{job:x?}");
    }
    (number, bytes)
}

// ---------------------------------------------------------------------------------------------
// Examples

const A_WITH_2: &str = "0f 02 04 04 00 02 01 03 01 06 01 03 01 08";
const A_WITH_1: &str = "0f 02 04 04 00 01 01 03 01 06 01 03 01 08";
const A_PLAN: &str = "06 01 03 02 04 00 07 01 01 01 04 01 07 01 04 01 08 03 01 01 0a";
const A_SHEET: &str = "4 tests, 2 places, method 1\n\
    0: test 2 drop none load 0 1\n\
    1: test 0 drop none load none\n\
    2: test 1 drop 0 load 2\n\
    3: test 3 drop 2 load 3\n\
    4: end drop 1 3\n\
    loads 4\n";

/// The plan of job A as listed.
const A_LISTED: &str = "06 01 03 00 07 01 01 01 04 01 07 01 04 01 01 02 07 01 02 01 08 03 01 01 09";

#[test]
fn job_a_with_method_2() {
    let job = bytes(A_WITH_2);
    let wants = vec![0b0011, 0b0110, 0b0011, 0b1000];
    let read = Job {
        places: 2,
        booked: 0,
        curves: 4,
        tests: 4,
        method: 1,
        wants: wants.clone(),
    };
    assert_eq!(read_job(&job, 4), Ok(read));
    assert_eq!(read_job(&job, 3), Err(refusal(9, 4)));
    assert_eq!(order_tests(2, 0, 4, 1, &wants, 4), Ok(vec![2, 0, 1, 3]));
    assert_eq!(planned_job(&job).unwrap().1, [2, 0, 1, 3]);
    assert_eq!(sheet(&job), A_SHEET);
    assert_eq!(calls_alike(&job, 21), (21, bytes(A_PLAN)));
    assert_eq!(calls_alike(&job, 20), (9 * 65_536 + 21, vec![]));
    let audited = |plan: &str| audit_text(&audit(&job, &bytes(plan)));
    assert_eq!(audited(A_PLAN), "loads 4\nfewest 4\nshorter by 0\n");
    // A plan has an order of its own.
    assert_eq!(audited(A_LISTED), "loads 5\nfewest 5\nshorter by 0\n");
    assert_eq!(audited("04 00"), "plan refused 11 at 2\n");
    assert_eq!(write_job(2, 0, 4, 1, &wants, 14), Ok(bytes(A_WITH_1)));
    assert_eq!(written_back(&job), bytes(A_WITH_1));
    assert_eq!(sheet(&bytes(A_WITH_1)), A_SHEET);
    // The other methods have other orders.
    assert_eq!(order_tests(2, 0, 4, 0, &wants, 4), Ok(vec![0, 1, 2, 3]));
    assert_eq!(order_tests(2, 0, 4, 3, &wants, 4), Ok(vec![0, 2, 1, 3]));
    // With a place of three booked.
    let booked = bytes("1f 03 04 04 00 02 01 01 03 01 06 01 03 01 08");
    assert_eq!(sheet(&booked), A_SHEET);
    assert_eq!(calls_alike(&booked, 99), (21, bytes(A_PLAN)));
    // Handed over.
    let refused = refusal(10, 3);
    assert_eq!(order_tests(2, 0, 4, 2, &wants, 4), Err(refused));
    assert_eq!(write_job(2, 0, 4, 2, &wants, 99), Err(refused));
    assert_eq!(examine_by(2, 0, 4, 2, &wants), Err(refused));
    assert_eq!(examine(2, 0, 4, &wants), Ok(()));
}

/// Job bytes with a method byte of 2 that do not read, and job A's faults among them.
#[test]
fn refusals_of_job_bytes_with_2() {
    for (job, number, figure) in [
        ("0f 02 04 04 00 02", 1, 6),
        ("0f 02 04 04 00 02 01 03 01 06 01 03 01", 1, 13),
        ("0f 02 04 04 00 02 01 00", 3, 7),
        ("0f 02 04 04 00 02 01 10", 4, 7),
        ("0f 02 04 04 00 02 01 03 01 06 01 03 01 08 02", 6, 14),
        ("0f 08 04 04 00 02 01 00", 2, 1),
        ("0f 02 40 04 00 02 01 00", 2, 2),
        ("0f 02 04 00 00 02 01 00", 2, 3),
        ("2f 02 04 04 00 02 01 00", 2, 0),
        ("1f 02 04 04 00 02 00 01 00", 2, 6),
        ("1f 02 04 04 00 02 40 01 00", 2, 6),
        ("1f 02 04 04 00 02 02 01 00", 13, 6),
        ("1f 02 04 04 00 02 3f", 13, 6),
        ("1f 02 04 04 00 02", 1, 6),
        ("18 02 08", 13, 2),
        ("18 02", 1, 2),
        ("08 02 02", 6, 2),
        ("08 02 00", 6, 2),
    ] {
        let (job, no) = (bytes(job), refusal(number, figure));
        assert_eq!(read_job(&job, 256), Err(no), "{job:x?}");
        assert_eq!(read_job(&written_back(&job), 256), Err(no));
        let number = no.number * 65_536 + no.figure;
        assert_eq!(calls_alike(&job, 99), (number, vec![]));
        let text = format!("refused {} at {}\n", no.number, no.figure);
        assert_eq!(sheet(&job), text);
        assert_eq!(audit_text(&audit(&job, &bytes(A_PLAN))), text);
    }
    // A test that is too wide for the places, and for those less booked.
    for job in ["0d 02 01 00 02 01 07", "1d 40 01 00 02 3e 01 07"] {
        assert!(read_job(&bytes(job), 1).is_ok());
        assert_eq!(calls_alike(&bytes(job), 99), (7 * 65_536, vec![]));
        assert_eq!(sheet(&bytes(job)), "refused 7 at 0\n");
    }
}

/// Heads with a method byte of 2 and without tests: places, booked places, curves, and what is written
/// back.
#[test]
fn empty_lists_with_2() {
    for (head, places, booked, curves, back) in [
        ("08 02", 8, 0, 64, "08 01"),
        ("09 02 02", 2, 0, 64, "09 02 01"),
        ("0a 02 02", 8, 0, 2, "0a 02 01"),
        ("0b 02 02 02", 2, 0, 2, "0b 02 02 01"),
        ("18 02 02", 8, 2, 64, "18 01 02"),
        ("19 40 02 3f", 64, 63, 64, "19 40 01 3f"),
        ("1a 3f 02 07", 8, 7, 63, "1a 3f 01 07"),
        ("1b 03 02 02 02", 3, 2, 2, "1b 03 02 01 02"),
    ] {
        let job = bytes(head);
        let read = Job {
            places,
            booked,
            curves,
            tests: 0,
            method: 1,
            wants: vec![],
        };
        assert_eq!(read_job(&job, 0), Ok(read));
        assert_eq!(
            write_job(places, booked, curves, 1, &[], 9),
            Ok(bytes(back))
        );
        assert_eq!(order_tests(places, booked, curves, 1, &[], 0), Ok(vec![]));
        assert_eq!(calls_alike(&job, 0), (0, vec![]));
        let left = places - booked;
        let text = format!("0 tests, {left} places, method 1\nloads 0\n");
        assert_eq!(sheet(&job), text);
        assert_eq!(sheet(&bytes(back)), text);
        let audited = audit_text(&audit(&job, &[]));
        assert_eq!(audited, "loads 0\nfewest 0\nshorter by 0\n");
        for length in 0..job.len() {
            assert_eq!(read_job(&job[..length], 0), Err(refusal(1, length)));
        }
        for surplus in [0, 1, 2, 0xff] {
            let longer = [&job[..], &[surplus]].concat();
            assert_eq!(read_job(&longer, 0), Err(refusal(6, job.len())));
        }
        for handed in [
            order_tests(places, booked, curves, 2, &[], 0).map(|_| ()),
            write_job(places, booked, curves, 2, &[], 0).map(|_| ()),
            examine_by(places, booked, curves, 2, &[]),
        ] {
            assert_eq!(handed, Err(refusal(10, 3)));
        }
    }
}

/// Whatever the byte is, in every map that has it.
#[test]
fn every_method_byte() {
    for map in (0..32u8).filter(|map| map & 8 != 0) {
        for byte in 0..=255 {
            let mut job = vec![map];
            for (bit, field) in [
                (1, &[3][..]),
                (2, &[2]),
                (4, &[1, 0]),
                (8, &[byte]),
                (16, &[2]),
            ] {
                if map & bit != 0 {
                    job.extend(field);
                }
            }
            if map & 4 != 0 {
                job.extend([1, 2]);
            }
            let at = field(&job).unwrap();
            let answer = read_job(&job, 1).map(|read| read.method);
            let expected = match byte {
                1 | 2 => Ok(1),
                3 => Ok(3),
                _ => Err(refusal(2, at)),
            };
            assert_eq!(answer, expected, "{job:x?}");
            // Whatever is behind it, and if it is the last.
            let mut longer = job.clone();
            longer.extend([0, 255]);
            for other in [&job[..=at], &longer] {
                let answer = read_job(other, 1);
                match expected {
                    Err(no) => assert_eq!(answer, Err(no)),
                    Ok(_) if other.len() > job.len() => {
                        assert_eq!(answer, Err(refusal(6, job.len())));
                    }
                    Ok(_) => assert!(answer.is_ok() == (at + 1 == job.len())),
                }
            }
        }
    }
}

// ---------------------------------------------------------------------------------------------
// Beside every other field

/// The bytes of a field, none where it is absent, or of records.
type Bytes = Vec<u8>;

fn fields(values: &[u8]) -> Vec<Bytes> {
    let mut fields = vec![vec![]];
    fields.extend(values.iter().map(|&value| vec![value]));
    fields
}

/// What stands behind the head: records for so many tests, sound ones first, then faulty ones.
fn records(tests: usize) -> Vec<Bytes> {
    let mut all = vec![
        vec![0; tests],
        [1, 1].repeat(tests),
        [1, 3].repeat(tests),
        [0x80, 0x80].repeat(tests),
        [1, 0].repeat(tests),
        [3, 1, 0].repeat(tests),
    ];
    // A byte fewer, and one or two more.
    let mut fewer = [1, 1].repeat(tests);
    if fewer.pop().is_some() {
        all.push(fewer);
    }
    all.push([&[1, 1].repeat(tests)[..], &[2]].concat());
    all.push([&vec![0; tests][..], &[0, 2]].concat());
    all
}

/// What is read of job bytes, the call, and the texts.
type Told = (Answer<Job>, (u64, Vec<u8>), String, String);

fn told(job: &[u8]) -> Told {
    let plan = call_bytes(job, PLAN_MADE).unwrap_or(vec![4, 0]);
    (
        read_job(job, usize::MAX),
        call(job, 9),
        sheet(job),
        audit_text(&audit(job, &plan)),
    )
}

/// All heads of these values, with records of each kind, whole and cut everywhere: with a method byte of 2
/// all is answered as with 1, and what reads is written back with 1. Where there is no method byte, a 2
/// elsewhere stays.
#[test]
fn beside_every_other_field() {
    let places = fields(&[1, 2, 3, 64, 0, 8]);
    let curves = fields(&[2, 63, 0, 64]);
    let mut tests = fields(&[]);
    tests.extend([vec![1, 0], vec![2, 0], vec![0, 0], vec![2, 2]]);
    let bookeds = fields(&[1, 2, 7, 63, 0, 64]);
    let mut outcomes = [0; 15];
    let mut maps = BTreeSet::new();
    for places in &places {
        for curves in &curves {
            for tests in &tests {
                for booked in &bookeds {
                    for method in [&[][..], &[2]] {
                        let head: [&[u8]; 5] = [places, curves, tests, method, booked];
                        maps.extend(one_head(head, &mut outcomes));
                    }
                }
            }
        }
    }
    assert_eq!(maps, (0..32).collect::<BTreeSet<u8>>());
    for number in [0, 1, 2, 3, 4, 6, 7, 9, 13] {
        assert!(outcomes[number] > 50, "{outcomes:?}");
    }
}

/// Answers the map if something with it reads.
fn one_head(head: [&[u8]; 5], outcomes: &mut [u64; 15]) -> Option<u8> {
    let mut map = 0;
    for (bit, field) in head.iter().enumerate() {
        if !field.is_empty() {
            map |= 1 << bit;
        }
    }
    let all = [&[map][..], &head.concat()].concat();
    let at = 1 + head[..3].concat().len();
    let tests = match head[2] {
        [low, 0] => *low as usize,
        _ => 0,
    };
    let mut read_any = None;
    for (kind, records) in records(tests).into_iter().enumerate() {
        let job = [&all[..], &records].concat();
        let shortest = if kind == 0 { 0 } else { all.len() };
        for length in shortest..=job.len() {
            let job = &job[..length];
            let old = !head[3].is_empty() && length > at;
            let mut other = job.to_vec();
            if old {
                other[at] = 1;
            }
            assert_eq!(field_of_2(job), old.then_some(at));
            assert_eq!(written_back(job), other);
            for wants_len in [tests, tests.saturating_sub(1), 0] {
                let answer = read_job(job, wants_len);
                let number = answer.as_ref().map_or_else(|no| no.number, |_| 0);
                outcomes[number as usize] += 1;
                assert_eq!(answer, read_job(&other, wants_len), "{job:x?}");
            }
            let told_of = told(job);
            assert_eq!(told_of, told(&other), "{job:x?}");
            outcomes[7] += (told_of.1 .0 >> 16 == 7) as u64;
            if let Ok(read) = told_of.0 {
                assert_eq!(read.method, old as usize);
                read_any = Some(map);
                let (places, booked, curves) = (read.places, read.booked, read.curves);
                let again = write_job(places, booked, curves, read.method, &read.wants, length);
                assert_eq!(again, Ok(other));
            }
        }
    }
    read_any
}

// ---------------------------------------------------------------------------------------------
// Random jobs

/// Bytes of every kind: sound, damaged, crafted, without tests, with booked places.
fn any_bytes(random: &mut Random, round: usize) -> Vec<u8> {
    let size = match round {
        0..=60 => Size::Full,
        _ => random.pick(&[Size::Tiny, Size::Tiny, Size::Small]),
    };
    match round % 6 {
        0 => booked::any_bytes(random),
        1 => empty::job_bytes(random),
        2 => with_2(generate::any_job_bytes(random, size)),
        3 => generate::any_job_bytes(random, size),
        _ => withdrawn::any_bytes(random),
    }
}

/// With a method byte of 2 all is answered as with 1, by all three calls.
#[test]
fn with_2_as_with_1() {
    let mut random = Random::new(81);
    let (mut read, mut refused, mut others) = (0, 0, 0);
    for round in 0..12_000 {
        let job = any_bytes(&mut random, round);
        if field_of_2(&job).is_none() {
            others += 1;
            continue;
        }
        let with_1 = written_back(&job);
        let answer = read_job(&job, 256);
        assert_eq!(answer, read_job(&with_1, 256), "{job:x?}");
        let short = random.below(9);
        assert_eq!(read_job(&job, short), read_job(&with_1, short));
        let length = random.pick(&[PLAN_MADE, PLAN_MADE, 40, 9, 0]);
        let called = calls_alike(&job, length);
        assert_eq!(called, calls_alike(&with_1, length));
        assert_eq!(planned_job(&job), planned_job(&with_1));
        let printed = sheet(&job);
        assert_eq!(printed, sheet(&with_1));
        let some_plan = [&called.1[..], &[4, 0]][random.below(2)];
        assert_eq!(audit(&job, some_plan), audit(&with_1, some_plan));
        match answer {
            Ok(_) => {
                read += 1;
                let first = printed.lines().next().unwrap();
                assert!(first.ends_with(" method 1") || first.starts_with("refused 7 "));
            }
            Err(_) => refused += 1,
        }
    }
    println!("with a method byte of 2: {read} read, {refused} refused; {others} others");
    assert!(read > 2_500 && refused > 1_500 && others > 2_500);
}

/// The order of such a job is that of method 1, made in another way here.
#[test]
fn the_order_of_2_is_that_of_1() {
    let mut random = Random::new(82);
    let mut kinds = BTreeSet::new();
    for round in 0..3_000 {
        let size = if round < 6 { Size::Full } else { Size::Small };
        let job = generate::Job {
            method: 1,
            ..generate::job(&mut random, size)
        };
        let bytes = with_2(generate::job_bytes(&job));
        assert!(field_of_2(&bytes).is_some());
        let Ok((read, order, _)) = planned_job(&bytes) else {
            assert!(examine_sizes(job.capacity(), &job.wants).is_err());
            continue;
        };
        let degrees = degrees::degrees(&job.wants);
        let degrees: Vec<i64> = degrees.iter().map(|&degree| degree as i64).collect();
        assert_eq!(order, degrees::order_by(&job.wants, &degrees));
        assert_eq!((read.method, read.wants), (1, job.wants));
        kinds.extend(withdrawn::order_kinds(&bytes, &order));
    }
    assert_eq!(kinds, BTreeSet::from(withdrawn::ORDERS));
}

/// What reads is written back byte by byte, but for a method byte of 2. No job comes out with 2, and no
/// such byte is written.
#[test]
fn bytes_to_job_to_bytes() {
    let mut random = Random::new(83);
    let mut read = [0; 4];
    for round in 0..30_000 {
        let job = any_bytes(&mut random, 61 + round);
        let Ok(made) = read_job(&job, 256) else {
            continue;
        };
        let byte = field(&job).map_or(0, |at| job[at]);
        read[byte as usize] += 1;
        let method = [0, 1, 1, 3][byte as usize];
        assert_eq!(made.method, method, "{job:x?}");
        let (places, booked, curves) = (made.places, made.booked, made.curves);
        let again = write_job(places, booked, curves, method, &made.wants, JOB).unwrap();
        assert_eq!(again.len(), job.len());
        let others: Vec<usize> = (0..job.len()).filter(|&at| job[at] != again[at]).collect();
        match byte {
            2 => {
                assert_eq!(others, [field(&job).unwrap()]);
                assert_eq!(again[others[0]], 1);
            }
            _ => assert!(others.is_empty(), "{job:x?}"),
        }
        assert_eq!(field_of_2(&again), None);
        // Once more nothing changes.
        assert_eq!(read_job(&again, 256), Ok(made));
        assert_eq!(written_back(&again), again);
    }
    println!("read, by method byte: {read:?}");
    assert!(read.iter().all(|&count| count > 800), "{read:?}");
}

/// What is handed over with any method is read back as it was.
#[test]
fn job_to_bytes_to_job() {
    let mut random = Random::new(84);
    for round in 0..4_000 {
        let job = match round {
            0..=9 => booked::longest_job(&mut random),
            10..=29 => generate::job(&mut random, Size::Full),
            _ => generate::job(&mut random, Size::Tiny),
        };
        let (places, booked, curves) = (job.places, job.booked, job.curves);
        for method in HANDED {
            let bytes = write_job(places, booked, curves, method, &job.wants, JOB).unwrap();
            let at = field(&bytes);
            assert_eq!(at.map_or(0, |at| bytes[at] as usize), method);
            let read = read_job(&bytes, job.wants.len()).unwrap();
            let numbers = [read.places, read.booked, read.curves, read.method];
            assert_eq!(numbers, [places, booked, curves, method]);
            assert_eq!((read.tests, &read.wants), (job.wants.len(), &job.wants));
        }
        for method in [2, 4] {
            let written = write_job(places, booked, curves, method, &job.wants, JOB);
            assert_eq!(written, Err(refusal(10, 3)));
        }
    }
}

// ---------------------------------------------------------------------------------------------
// Handed over

/// What the functions that are handed a method answer.
fn answers(
    [places, booked, curves, method]: [usize; 4],
    wants: &[u64],
    lent: usize,
) -> [Answer<()>; 3] {
    [
        examine_by(places, booked, curves, method, wants),
        write_job(places, booked, curves, method, wants, lent).map(|_| ()),
        order_tests(places, booked, curves, method, wants, lent).map(|_| ()),
    ]
}

#[test]
fn every_handed_method() {
    let mut methods: Vec<usize> = (0..=300).collect();
    for bit in 9..64 {
        methods.extend([0, 1, 2, 3].map(|low| (1usize << bit) + low));
    }
    methods.extend([usize::MAX - 1, usize::MAX]);
    let lists = [vec![], vec![0b0011, 0b0110, 0b0011, 0b1000], vec![1; 256]];
    for method in methods {
        let expected = match method {
            0 | 1 | 3 => Ok(()),
            _ => Err(refusal(10, 3)),
        };
        for wants in &lists {
            for (places, booked) in [(2, 0), (64, 0), (64, 62)] {
                if method == 3 && wants.len() == 256 && places == 64 {
                    continue; // the order takes long
                }
                let found = answers([places, booked, 4, method], wants, JOB);
                assert_eq!(found, [expected; 3], "{method}");
            }
        }
    }
}

/// A number that is no method's beside one more fault, and beside one before and one behind it: places,
/// curves and tests are refused before it, all else behind it.
#[test]
fn two_faults_around_the_method() {
    // Sound numbers: 5 places, 3 booked, 6 curves, 4 tests.
    type Fault = fn(&mut [usize; 4], &mut Vec<u64>, &mut usize);
    let before: [(usize, Fault); 6] = [
        (0, |numbers, _, _| numbers[0] = 0),
        (0, |numbers, _, _| numbers[0] = 65),
        (1, |numbers, _, _| numbers[2] = 0),
        (1, |numbers, _, _| numbers[2] = usize::MAX),
        (2, |_, wants, _| wants.resize(257, 0)),
        (2, |_, wants, _| wants.resize(300, 1)),
    ];
    // What examining, writing and ordering refuse without the other fault; 0 is nothing.
    type Behind = ([(u64, usize); 3], Fault);
    let behind: [Behind; 9] = [
        ([(0, 0); 3], |_, _, _| {}),
        ([(10, 4); 3], |_, wants, _| wants[0] |= 1 << 6),
        ([(10, 7); 3], |_, wants, _| wants[3] |= 1 << 63),
        ([(10, 260); 3], |numbers, _, _| numbers[1] = 64),
        ([(10, 260); 3], |numbers, _, _| numbers[1] = usize::MAX),
        ([(13, 0); 3], |numbers, _, _| numbers[1] = 5),
        ([(13, 0); 3], |numbers, _, _| numbers[1] = 63),
        ([(0, 0), (0, 0), (7, 2)], |_, wants, _| wants[2] = 0b11_1111),
        ([(0, 0), (9, 15), (9, 4)], |_, _, lent| *lent = 3),
    ];
    let sound = |method: usize| ([5, 3, 6, method], vec![0b0011, 0b0110, 0b0011, 0b1000], 99);
    for method in [2, 4, 258, (1 << 32) + 2, usize::MAX] {
        for (expected, spoil) in behind {
            // Without the method's fault.
            let (mut numbers, mut wants, mut lent) = sound(1);
            spoil(&mut numbers, &mut wants, &mut lent);
            let found = answers(numbers, &wants, lent);
            for (found, (number, figure)) in found.into_iter().zip(expected) {
                let alone = match number {
                    0 => Ok(()),
                    _ => Err(Refusal {
                        number,
                        figure: figure as u64,
                    }),
                };
                assert_eq!(found, alone);
            }
            // With it.
            let (mut numbers, mut wants, mut lent) = sound(method);
            spoil(&mut numbers, &mut wants, &mut lent);
            let found = answers(numbers, &wants, lent);
            assert_eq!(found, [Err(refusal(10, 3)); 3], "{method}");
            // And with one before both.
            for (place, spoil) in before {
                let (mut numbers, mut wants, mut lent) = (numbers, wants.clone(), lent);
                spoil(&mut numbers, &mut wants, &mut lent);
                let found = answers(numbers, &wants, lent);
                assert_eq!(found, [Err(refusal(10, place)); 3], "{method}");
            }
        }
    }
}

// ---------------------------------------------------------------------------------------------
// What is told of cases

/// Each function that takes job bytes or a method gets cases with the withdrawn one, and all that is told
/// of them is reached.
#[test]
fn cases_with_the_withdrawn_method() {
    let mut random = Random::new(85);
    let mut functions = Vec::new();
    let (mut jobs, mut orders) = (BTreeSet::new(), BTreeSet::new());
    for (function, name) in FUNCTIONS.iter().enumerate() {
        let (mut twice, mut numbers) = (BTreeSet::new(), BTreeSet::new());
        for _ in 0..3_000 {
            let Some(case) = withdrawn::case(function, &mut random) else {
                break;
            };
            assert_eq!(case.function(), function);
            if functions.last() != Some(name) {
                functions.push(*name);
            }
            twice.extend(withdrawn::twice(&case));
            numbers.extend(withdrawn::handed(&case).map(withdrawn::number_kind));
            if let Case::ReadJob { job, wants_len } = &case {
                jobs.extend(withdrawn::job_kinds(job, *wants_len));
                if let Ok((_, order, _)) = planned_job(job) {
                    orders.extend(withdrawn::order_kinds(job, &order));
                }
            }
        }
        let refusals: &[&str] = match *name {
            "write_job" => &["9"],
            "order_tests" => &["7", "9"],
            "examine_by" => &[],
            _ => {
                assert!(twice.is_empty() && numbers.is_empty());
                continue;
            }
        };
        let expected: BTreeSet<&str> = withdrawn::twice_names(refusals).into_iter().collect();
        assert_eq!(twice, expected, "{name}");
        assert_eq!(numbers, BTreeSet::from(["2", "4-to-255", "256-and-more"]));
    }
    let expected = [
        "read_job",
        "write_job",
        "order_tests",
        "plan",
        "sheet",
        "audit",
        "examine_by",
    ];
    assert_eq!(functions, expected);
    let mut expected = BTreeSet::from(withdrawn::JOBS);
    expected.insert(withdrawn::SHORT);
    assert_eq!(jobs, expected);
    assert_eq!(orders, BTreeSet::from(withdrawn::ORDERS));
}

#[test]
fn what_is_told_of_job_bytes() {
    for (job, kinds) in [
        ("", &[][..]),
        ("00", &[]),
        ("08", &[]),
        ("08 01", &[]),
        ("08 03 02", &[]),
        ("01 02", &[]),
        ("08 02", &["done", "done:without-tests"]),
        ("18 02 01", &["done", "done:without-tests", "done:booked"]),
        ("0c 01 00 02 00", &["done"]),
        ("0c 02 00 02 00 00", &["refused", "refused:9"]),
        ("0c 01 00 02", &["refused", "refused:1"]),
        ("18 02", &["refused", "refused:1"]),
        ("09 08 02", &["refused", "refused:2-before"]),
        ("28 02", &["refused", "refused:2-before"]),
        ("0c 00 00 02 00", &["refused", "refused:2-before"]),
        (
            "09 08 02 00",
            &["refused", "refused:2-before", "two-faults:around"],
        ),
        (
            "1d 00 01 00 02 40 00",
            &["refused", "refused:2-before", "two-faults:around"],
        ),
        ("18 02 00", &["refused", "refused:2-behind"]),
        (
            "1c 01 00 02 40 01 00",
            &["refused", "refused:2-behind", "two-faults:behind"],
        ),
        ("0c 01 00 02 01 00", &["refused", "refused:3"]),
        ("0e 04 01 00 02 01 10", &["refused", "refused:4"]),
        ("08 02 02", &["refused", "refused:6"]),
        ("18 02 08", &["refused", "refused:13"]),
        (
            "18 02 08 00",
            &["refused", "refused:13", "two-faults:behind"],
        ),
    ] {
        assert_eq!(withdrawn::job_kinds(&bytes(job), 1), kinds, "{job}");
    }
    let mut random = Random::new(86);
    let longest = with_2(generate::job_bytes(&booked::longest_job(&mut random)));
    assert_eq!(
        withdrawn::job_kinds(&longest, 256),
        ["done", "done:booked", "done:2311-bytes"]
    );
}
