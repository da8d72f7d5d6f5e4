//! Two bytes hold every degree of method 1, and the order is the same as with wider ones (wish 4).

use crate::degrees::{self, order_by, LARGEST};
use crate::fast;
use crate::generate::{self, all_curves, Size, PLAN_MADE};
use crate::parts;
use crate::random::Random;
use crate::reference;
use crate::tuned;
use std::collections::BTreeMap;

const ALL: u64 = u64::MAX;

/// The degrees in eight bytes, curve by curve: each counts once for every other test that wants it.
fn degrees_by_curves(wants: &[u64]) -> Vec<u64> {
    let has = |want: u64, curve: usize| want >> curve & 1;
    let mut wanting = [0u64; 64];
    for &want in wants {
        for (curve, number) in wanting.iter_mut().enumerate() {
            *number += has(want, curve);
        }
    }
    let degree = |&want: &u64| -> u64 {
        let counted = |curve: usize| has(want, curve) * wanting[curve].saturating_sub(1);
        (0..64).map(counted).sum()
    };
    wants.iter().map(degree).collect()
}

/// The degrees in two bytes. They are those in eight bytes, told in two ways, and within the bounds.
fn degrees_of(wants: &[u64]) -> Vec<u16> {
    let found = reference::degrees(wants);
    let wide: Vec<u64> = found.iter().map(|&degree| degree as u64).collect();
    assert_eq!(wide, degrees::degrees(wants));
    assert_eq!(wide, degrees_by_curves(wants));
    for (&want, &degree) in wants.iter().zip(&wide) {
        let others = wants.len() as u64 - 1;
        assert!(degree <= others * parts::size(want));
        assert!(degree <= others * 64 && degree <= LARGEST);
    }
    found
}

/// The order in document 01's words, with degrees in eight bytes.
fn wide_order(wants: &[u64]) -> Vec<u16> {
    let held: Vec<i64> = degrees_by_curves(wants)
        .iter()
        .map(|&degree| degree as i64)
        .collect();
    order_by(wants, &held)
}

/// The order of the reference, whose degrees take two bytes; it is the same.
fn order_of(wants: &[u64]) -> Vec<u16> {
    let order = reference::order_tests(64, 0, 64, 1, wants, wants.len()).unwrap();
    assert_eq!(order, wide_order(wants));
    order
}

/// Tests in falling order.
fn falling(tests: impl DoubleEndedIterator<Item = u16>) -> Vec<u16> {
    tests.rev().collect()
}

// ---------------------------------------------------------------------------------------------
// The bound

#[test]
fn no_degree_is_above_the_bound() {
    let mut random = Random::new(21);
    for round in 0..3_000 {
        let size = match round {
            0..=19 => random.pick(&[Size::Full, Size::Edge]),
            _ => random.pick(&[Size::Tiny, Size::Small]),
        };
        degrees_of(&generate::job(&mut random, size).wants);
        if round % 6 == 0 {
            degrees_of(&degrees::job(&mut random).wants);
        }
    }
}

/// Without a curve that a test wants, no degree is larger: the test loses one for every other that wants
/// the curve, and each of these loses one.
#[test]
fn a_curve_less_lowers_degrees() {
    let mut random = Random::new(22);
    for _ in 0..2_000 {
        let mut wants = degrees::job(&mut random).wants;
        let before = degrees_by_curves(&wants);
        let test = random.below(wants.len());
        let curve = random.below(64);
        if !parts::has(wants[test], curve) {
            continue;
        }
        wants[test] = parts::without(wants[test], parts::single(curve));
        let after = degrees_by_curves(&wants);
        let mut lost: Vec<u64> = wants
            .iter()
            .map(|&want| parts::has(want, curve) as u64)
            .collect();
        lost[test] = lost.iter().sum();
        for other in 0..wants.len() {
            assert_eq!(after[other] + lost[other], before[other]);
        }
    }
}

/// Only the list of 256 tests that all want all 64 curves reaches 16,320. Without one curve of one test
/// no degree does, and without further ones none is larger, as told above. Of 255 tests, or fewer, none
/// is above 16,256.
#[test]
fn the_bound_is_reached_by_one_list() {
    let full = vec![ALL; 256];
    assert_eq!(degrees_of(&full), [16_320; 256]);
    assert_eq!(LARGEST, 16_320);
    assert_eq!(order_of(&full), falling(0..256));
    for test in 0..256 {
        for curve in 0..64 {
            let mut wants = full.clone();
            wants[test] ^= 1 << curve;
            // Each of the others loses one, and the test itself 255.
            let found = degrees_by_curves(&wants);
            let largest = found.iter().copied().max();
            assert_eq!(largest, Some(16_319));
            assert_eq!(found[test], 255 * 63);
        }
    }
    assert_eq!(degrees_of(&full[..255]), [16_256; 255]);
    for tests in [1, 2, 3, 5, 64, 65, 128, 129, 130, 254, 255] {
        let largest = 64 * (tests as u16 - 1);
        assert_eq!(degrees_of(&full[..tests]), vec![largest; tests]);
        assert_eq!(order_of(&full[..tests]), falling(0..tests as u16));
        assert!(largest < 16_320);
    }
}

// ---------------------------------------------------------------------------------------------
// Lists at the bound

/// All curves in 255 tests, and fewer in one: this one comes first, the others have equal degrees.
#[test]
fn full_but_one_test() {
    for (number, degree, of_others) in [
        (63, 16_065, 16_319),
        (32, 8_160, 16_288),
        (33, 8_415, 16_289),
        (2, 510, 16_258),
        (1, 255, 16_257),
        (0, 0, 16_256),
    ] {
        for test in [0u16, 100, 255] {
            let mut wants = vec![ALL; 256];
            wants[test as usize] = all_curves(number);
            let mut expected = vec![of_others; 256];
            expected[test as usize] = degree;
            assert_eq!(degrees_of(&wants), expected);
            let mut order = falling((0..256).filter(|&other| other != test));
            order.push(test);
            assert_eq!(order_of(&wants), order);
        }
    }
}

/// The tests without curves have no neighbours and degree 0: each is appended as the remaining one of
/// smallest degree, before the full ones.
#[test]
fn full_and_empty_in_turn() {
    for (tests, first, degree) in [(256, 0, 8_128), (256, 1, 8_128), (255, 0, 8_128)] {
        let full = |test: &u16| test % 2 == first;
        let wants: Vec<u64> = (0..tests)
            .map(|test| if full(&test) { ALL } else { 0 })
            .collect();
        let expected: Vec<u16> = (0..tests)
            .map(|test| if full(&test) { degree } else { 0 })
            .collect();
        assert_eq!(degrees_of(&wants), expected);
        let mut order = falling((0..tests).filter(full));
        order.extend(falling((0..tests).filter(|test| !full(test))));
        assert_eq!(order_of(&wants), order);
    }
}

/// Every test lacks one curve.
#[test]
fn all_but_one_curve_in_each() {
    let lacking = |curve: fn(usize) -> usize| -> Vec<u64> {
        (0..256).map(|test| ALL ^ 1 << curve(test)).collect()
    };
    // The same one.
    let wants = lacking(|_| 63);
    assert_eq!(degrees_of(&wants), [255 * 63; 256]);
    assert_eq!(order_of(&wants), falling(0..256));
    // Each curve four times.
    for wants in [lacking(|test| test % 64), lacking(|test| test / 4)] {
        assert_eq!(degrees_of(&wants), [3 * 63 + 252 * 62; 256]);
        assert_eq!(order_of(&wants), falling(0..256));
    }
    // Curve 0 in 100 tests, and curve 1 in 156.
    let wants = lacking(|test| (test >= 100) as usize);
    let degrees = degrees_of(&wants);
    assert_eq!(degrees[..100], [99 * 63 + 156 * 62; 100]);
    assert_eq!(degrees[100..], [155 * 63 + 100 * 62; 156]);
    assert_eq!(order_of(&wants), falling(0..256));
    // The other way about: the last 100 have the smaller degrees, and come first.
    let wants = lacking(|test| (test < 156) as usize);
    let mut order = falling(0..156);
    order.extend(falling(156..256));
    assert_eq!(order_of(&wants), order);
}

/// The last 64 tests lack a curve each, the others none.
#[test]
fn all_but_one_curve_in_some() {
    let wants: Vec<u64> = (0..256)
        .map(|test| {
            if test < 192 {
                ALL
            } else {
                ALL ^ 1 << (test - 192)
            }
        })
        .collect();
    let degrees = degrees_of(&wants);
    assert_eq!(degrees[..192], [191 * 64 + 64 * 63; 192]);
    assert_eq!(degrees[192..], [192 * 63 + 63 * 62; 64]);
    let mut order = falling(0..192);
    order.extend(falling(192..256));
    assert_eq!(order_of(&wants), order);
}

/// 129 full tests and 127 with fewer curves, which come first: the degrees of the full ones are 8,192
/// or more, those of the others less. Modulo 8,192 the full ones have the smaller ones, or all the same.
#[test]
fn around_half_of_the_bound() {
    for number in [0, 1, 10, 31] {
        let mut wants = vec![ALL; 129];
        wants.resize(256, all_curves(number));
        let few = number as u16;
        let degrees = degrees_of(&wants);
        assert_eq!(degrees[..129], [8_192 + 127 * few; 129]);
        assert_eq!(degrees[129..], [255 * few; 127]);
        let mut order = falling(0..129);
        order.extend(falling(129..256));
        assert_eq!(order_of(&wants), order);
        let kinds = degrees::kinds(&wants, &order);
        assert!(kinds.contains(&"modulo-8192"), "{number}");
    }
}

// ---------------------------------------------------------------------------------------------
// Two bytes and eight

/// Lists of every length: with many curves in common, and with any sets that have more than half of the
/// curves in the mean.
#[test]
fn two_bytes_order_as_eight() {
    let mut random = Random::new(23);
    for tests in 0..=256 {
        // Of long lists one: the reference takes long for them.
        let rounds = if tests < 64 { 0..12 } else { tests..tests + 1 };
        for round in rounds {
            let wants = match round % 3 {
                0 | 1 => degrees::wants(&mut random, tests, 64),
                _ => (0..tests)
                    .map(|_| random.word() | (random.word() & random.word()))
                    .collect(),
            };
            order_of(&wants);
        }
    }
}

/// Every list of so many tests that want some of these parts of the curves, each test so often, one
/// behind the other. Answers the largest degree.
fn every_list(tests: u32, parts: &[u64], times: usize) -> u64 {
    let sets: Vec<u64> = (0..1usize << parts.len())
        .map(|chosen| {
            let part = |k: usize| parts[k] * (chosen as u64 >> k & 1);
            (0..parts.len()).map(part).sum()
        })
        .collect();
    let lists = (sets.len() as u64).pow(tests);
    let mut largest = 0;
    for list in 0..lists {
        let set = |test: u32| sets[(list / (sets.len() as u64).pow(test)) as usize % sets.len()];
        let wants: Vec<u64> = (0..tests).flat_map(|test| vec![set(test); times]).collect();
        assert_eq!(order_of(&wants).len(), wants.len());
        largest = largest.max(*degrees_by_curves(&wants).iter().max().unwrap());
    }
    largest
}

#[test]
fn every_short_list() {
    let parts = |borders: &[usize]| -> Vec<u64> {
        let both = borders.windows(2);
        both.map(|both| all_curves(both[1]) ^ all_curves(both[0]))
            .collect()
    };
    // One curve each.
    assert_eq!(every_list(5, &[1, 2, 4], 1), 4 * 3);
    // Large parts.
    assert_eq!(every_list(5, &parts(&[0, 1, 22, 64]), 1), 4 * 64);
    assert_eq!(every_list(3, &parts(&[0, 4, 16, 32, 64]), 1), 2 * 64);
    assert_eq!(every_list(6, &parts(&[0, 21, 64]), 1), 5 * 64);
    assert_eq!(every_list(11, &[ALL], 1), 10 * 64);
    // Many tests alike.
    assert_eq!(every_list(3, &parts(&[0, 5, 64]), 8), 23 * 64);
    assert_eq!(every_list(2, &parts(&[0, 31, 64]), 128), LARGEST);
}

// ---------------------------------------------------------------------------------------------
// Other numbers

/// So many full tests, and then one with this set.
fn full_and_one(tests: usize, last: u64) -> Vec<u64> {
    let mut wants = vec![ALL; tests];
    wants.push(last);
    wants
}

fn kinds_of(wants: &[u64]) -> Vec<&'static str> {
    degrees::kinds(wants, &order_of(wants))
}

/// For each of them a list with another order, and for most a shorter one without.
#[test]
fn wrong_numbers_give_other_orders() {
    // The full ones have the degree 256, 512, and so on, and the last one 0.
    for (full, name) in [
        (5, "modulo-256"),
        (9, "modulo-512"),
        (17, "modulo-1024"),
        (33, "modulo-2048"),
        (65, "modulo-4096"),
        (129, "modulo-8192"),
    ] {
        assert!(kinds_of(&full_and_one(full, 0)).contains(&name));
        assert!(!kinds_of(&full_and_one(full - 1, 0)).contains(&name));
    }
    // 5 × 63 = 315 and 4 × 64 + 63 = 319; 132 × 63 = 8,316 and 131 × 64 + 63 = 8,447.
    let lacking = ALL >> 1;
    for (full, name) in [(5, "at-most-255"), (132, "at-most-8191")] {
        assert!(kinds_of(&full_and_one(full, lacking)).contains(&name));
        assert!(!kinds_of(&full_and_one(full - 2, lacking)).contains(&name));
    }
    // 0 and 128.
    let wants = [0, ALL, ALL, ALL];
    for name in ["signed-byte", "signed-low-byte"] {
        assert!(kinds_of(&wants).contains(&name));
        assert!(!kinds_of(&wants[..3]).contains(&name));
    }
    // 320 + 1 and 6: the low bytes 65 and 6. 256 + 1 and 5: the low bytes 1 and 5.
    assert!(!kinds_of(&full_and_one(6, 1)).contains(&"low-byte-first"));
    assert!(kinds_of(&full_and_one(5, 1)).contains(&"low-byte-first"));
    // 64 and 0.
    assert!(kinds_of(&full_and_one(2, 0)).contains(&"high-byte"));
    // 256 and 0 are alike modulo 256; 257 and 5 are not.
    assert!(kinds_of(&full_and_one(5, 0)).contains(&"alike-modulo-256"));
    let kinds = kinds_of(&full_and_one(5, 1));
    assert!(kinds.contains(&"modulo-256") && !kinds.contains(&"alike-modulo-256"));
    // Curve 0 in 256 tests and in 255.
    assert!(kinds_of(&full_and_one(255, 1)).contains(&"wanted-by-256"));
    assert!(!kinds_of(&full_and_one(255, 0)).contains(&"wanted-by-256"));
    assert!(!kinds_of(&full_and_one(254, 1)).contains(&"wanted-by-256"));
    assert!(!kinds_of(&full_and_one(255, ALL)).contains(&"wanted-by-256"));
}

/// What else holds every degree: 14 bits, and two bytes with a sign.
#[test]
fn fourteen_bits_are_enough() {
    let mut random = Random::new(24);
    for _ in 0..600 {
        let wants = degrees::job(&mut random).wants;
        let degrees = degrees_by_curves(&wants);
        let order = wide_order(&wants);
        let numbers: [fn(u64) -> i64; 2] = [
            |degree| (degree % 16_384) as i64,
            |degree| degree as i16 as i64,
        ];
        for number in numbers {
            let held: Vec<i64> = degrees.iter().map(|&degree| number(degree)).collect();
            assert_eq!(order_by(&wants, &held), order);
        }
    }
}

// ---------------------------------------------------------------------------------------------
// Jobs with large degrees

/// They are jobs within the bounds whose tests fit, and of every kind.
#[test]
fn jobs_of_every_kind() {
    let mut random = Random::new(25);
    let mut met: BTreeMap<&str, u64> = BTreeMap::new();
    for _ in 0..2_000 {
        let job = degrees::job(&mut random);
        assert_eq!(job.method, 1);
        assert_eq!(
            reference::examine(job.places, job.booked, job.curves, &job.wants),
            Ok(())
        );
        assert_eq!(reference::examine_sizes(job.capacity(), &job.wants), Ok(()));
        for kind in degrees::kinds(&job.wants, &wide_order(&job.wants)) {
            *met.entry(kind).or_default() += 1;
        }
    }
    println!("kinds of 2000 jobs with large degrees: {met:?}");
    for name in degrees::names() {
        assert!(met.get(name).is_some_and(|&count| count > 40), "{name}");
    }
    assert_eq!(met.len(), degrees::names().len());
}

#[test]
fn fast_calls_with_large_degrees() {
    let mut random = Random::new(26);
    for _ in 0..250 {
        let job = generate::job_bytes(&degrees::job(&mut random));
        let (number, bytes) = reference::call(&job, PLAN_MADE);
        let mut expected = vec![0x5a; PLAN_MADE];
        expected[..bytes.len()].copy_from_slice(&bytes);
        for call in [tuned::call, fast::call] {
            let mut out = vec![0x5a; PLAN_MADE];
            assert_eq!(call(&job, &mut out), number);
            assert_eq!(out, expected);
        }
    }
}
