//! The papers, sentence by sentence, on ordered sets and plain lists. Slow on purpose: nothing in
//! here is arranged for speed, so that each function can be compared with the papers by eye.
//!
//! Handed numbers may be anything; each answer is the result or the refusal.

// Steps, tests and sets are named by their numbers here, as in the papers.
#![allow(clippy::needless_range_loop)]

use std::collections::BTreeSet;

/// A refusal with its number and its figure. Number 5 is withdrawn by wish 3, and never answered.
#[derive(Clone, Copy, Debug, PartialEq, Eq, PartialOrd, Ord)]
pub struct Refusal {
    pub number: u64,
    pub figure: u64,
}

pub type Answer<T> = Result<T, Refusal>;

/// A set of curves.
pub type Curves = BTreeSet<u8>;

pub fn refusal(number: u64, figure: usize) -> Refusal {
    Refusal {
        number,
        figure: figure as u64,
    }
}

fn refuse<T>(number: u64, figure: usize) -> Answer<T> {
    Err(refusal(number, figure))
}

// ---------------------------------------------------------------------------------------------
// Sets

/// The set that a 64-bit number stands for: bit k for curve k.
pub fn set_of(bits: u64) -> Curves {
    let mut set = Curves::new();
    let mut rest = bits;
    let mut curve = 0;
    while rest > 0 {
        if rest % 2 == 1 {
            set.insert(curve);
        }
        rest /= 2;
        curve += 1;
    }
    set
}

pub fn bits_of(set: &Curves) -> u64 {
    let mut bits = 0;
    for &curve in set {
        bits += 2u64.pow(curve as u32);
    }
    bits
}

fn union(a: &Curves, b: &Curves) -> Curves {
    a.union(b).copied().collect()
}

fn common(a: &Curves, b: &Curves) -> usize {
    a.intersection(b).count()
}

fn sets_of(list: &[u64]) -> Vec<Curves> {
    list.iter().map(|&bits| set_of(bits)).collect()
}

// ---------------------------------------------------------------------------------------------
// Methods

/// A method: its number, under which it is handed over and written; the bytes of job bytes that read as
/// it; and its order of a list for so many places less booked.
struct Method {
    number: usize,
    bytes: &'static [usize],
    order: fn(usize, &[Curves], &mut Flips) -> Vec<usize>,
}

/// The number 2 is no method's any more, and its byte reads as 1 (wish 8). Method 0 has no byte.
const METHODS: [Method; 3] = [
    Method {
        number: 0,
        bytes: &[],
        order: |_, wants, _| (0..wants.len()).collect(),
    },
    Method {
        number: 1,
        bytes: &[1, 2],
        order: |_, wants, _| reverse_cuthill_mckee(wants),
    },
    Method {
        number: 3,
        bytes: &[3],
        order: packages,
    },
];

// ---------------------------------------------------------------------------------------------
// Job bytes

/// A job as it was read.
#[derive(Clone, Debug, PartialEq, Eq)]
pub struct Job {
    pub places: usize,
    /// Of the places.
    pub booked: usize,
    pub curves: usize,
    pub tests: usize,
    /// 0, 1 or 3.
    pub method: usize,
    pub wants: Vec<u64>,
}

/// What a drive can hold of a list's curves: places less booked (wish 5). It stands wherever document
/// 01 says places. It is only asked where fewer are booked than there are.
pub fn less_booked(places: usize, booked: usize) -> usize {
    let capacity = places.checked_sub(booked);
    capacity.expect("booked is below places")
}

/// The byte owed at this offset of a job.
fn owed(job: &[u8], offset: usize) -> Answer<usize> {
    match job.get(offset) {
        Some(&byte) => Ok(byte as usize),
        None => refuse(1, job.len()),
    }
}

fn in_field(value: usize, low: usize, high: usize, absent: usize, offset: usize) -> Answer<usize> {
    if value < low || value > high || value == absent {
        refuse(2, offset)
    } else {
        Ok(value)
    }
}

/// One record: its wants and the offset behind it.
fn read_record(job: &[u8], start: usize, curves: usize) -> Answer<(Curves, usize)> {
    let map = owed(job, start)?;
    let mut wants = Curves::new();
    let mut offset = start + 1;
    for group in 0..8 {
        if set_of(map as u64).contains(&(group as u8)) {
            let byte = owed(job, offset)?;
            if byte == 0 {
                return refuse(3, offset);
            }
            for bit in set_of(byte as u64) {
                let curve = 8 * group + bit as usize;
                if curve >= curves {
                    return refuse(4, offset);
                }
                wants.insert(curve as u8);
            }
            offset += 1;
        }
    }
    Ok((wants, offset))
}

pub fn read_job(job: &[u8], wants_len: usize) -> Answer<Job> {
    let map = owed(job, 0)?;
    if map >= 32 {
        return refuse(2, 0);
    }
    let stands = |bit: u8| set_of(map as u64).contains(&bit);
    let (mut places, mut curves, mut tests, mut method, mut booked) = (8, 64, 0, 0, 0);
    let mut offset = 1;
    if stands(0) {
        places = in_field(owed(job, offset)?, 1, 64, 8, offset)?;
        offset += 1;
    }
    if stands(1) {
        curves = in_field(owed(job, offset)?, 1, 64, 64, offset)?;
        offset += 1;
    }
    if stands(2) {
        let low = owed(job, offset)?;
        let high = owed(job, offset + 1)?;
        tests = in_field(low + 256 * high, 1, 256, 0, offset)?;
        offset += 2;
    }
    if stands(3) {
        let byte = owed(job, offset)?;
        method = match METHODS.iter().find(|method| method.bytes.contains(&byte)) {
            Some(method) => method.number,
            None => return refuse(2, offset),
        };
        offset += 1;
    }
    if stands(4) {
        booked = in_field(owed(job, offset)?, 1, 63, 0, offset)?;
        if booked >= places {
            return refuse(13, offset);
        }
        offset += 1;
    }
    let mut wants = Vec::new();
    for _ in 0..tests {
        let (set, behind) = read_record(job, offset, curves)?;
        wants.push(bits_of(&set));
        offset = behind;
    }
    if offset < job.len() {
        return refuse(6, offset);
    }
    if wants_len < tests {
        return refuse(9, tests);
    }
    Ok(Job {
        places,
        booked,
        curves,
        tests,
        method,
        wants,
    })
}

/// A set as group map and group bytes.
fn groups(set: &Curves) -> Vec<u8> {
    let mut map = 0;
    let mut bytes = Vec::new();
    for group in 0..8u8 {
        let mut byte = 0u8;
        for bit in 0..8u8 {
            if set.contains(&(8 * group + bit)) {
                byte += 2u8.pow(bit as u32);
            }
        }
        if byte != 0 {
            map += 2u8.pow(group as u32);
            bytes.push(byte);
        }
    }
    let mut all = vec![map];
    all.extend(bytes);
    all
}

pub fn write_job(
    places: usize,
    booked: usize,
    curves: usize,
    method: usize,
    wants: &[u64],
    out_len: usize,
) -> Answer<Vec<u8>> {
    handed(places, booked, curves, Some(method), wants)?;
    let mut map = 0;
    let mut fields = Vec::new();
    if places != 8 {
        map += 1;
        fields.push(places as u8);
    }
    if curves != 64 {
        map += 2;
        fields.push(curves as u8);
    }
    if !wants.is_empty() {
        map += 4;
        fields.push((wants.len() % 256) as u8);
        fields.push((wants.len() / 256) as u8);
    }
    if method != 0 {
        map += 8;
        fields.push(method as u8);
    }
    if booked != 0 {
        map += 16;
        fields.push(booked as u8);
    }
    let mut bytes = vec![map];
    bytes.extend(fields);
    for &want in wants {
        bytes.extend(groups(&set_of(want)));
    }
    if out_len < bytes.len() {
        return refuse(9, bytes.len());
    }
    Ok(bytes)
}

// ---------------------------------------------------------------------------------------------
// Handed lists and counts

/// Refusal 10 of a handed list, which may be empty, then 13.
fn handed(
    places: usize,
    booked: usize,
    curves: usize,
    method: Option<usize>,
    wants: &[u64],
) -> Answer<()> {
    if !(1..=64).contains(&places) {
        return refuse(10, 0);
    }
    if !(1..=64).contains(&curves) {
        return refuse(10, 1);
    }
    if wants.len() > 256 {
        return refuse(10, 2);
    }
    if let Some(number) = method {
        if METHODS.iter().all(|method| method.number != number) {
            return refuse(10, 3);
        }
    }
    for (test, &want) in wants.iter().enumerate() {
        if set_of(want).iter().any(|&curve| curve as usize >= curves) {
            return refuse(10, 4 + test);
        }
    }
    // One behind the last place that a test's wants can have: 4 + 255 = 259.
    if booked > 63 {
        return refuse(10, 260);
    }
    if booked >= places {
        return refuse(13, 0);
    }
    Ok(())
}

/// Refusal 7.
fn none_too_wide(capacity: usize, wants: &[Curves]) -> Answer<()> {
    for (test, want) in wants.iter().enumerate() {
        if want.len() > capacity {
            return refuse(7, test);
        }
    }
    Ok(())
}

/// Refusal 14: the drive holds a curve that the job does not have; the lowest such.
fn none_foreign(curves: usize, held: &Curves) -> Answer<()> {
    for &curve in held {
        if curve as usize >= curves {
            return refuse(14, curve as usize);
        }
    }
    Ok(())
}

/// 10 and 13 of places, booked places, curves and wants.
pub fn examine(places: usize, booked: usize, curves: usize, wants: &[u64]) -> Answer<()> {
    handed(places, booked, curves, None, wants)
}

/// 10 and 13 of places, booked places, curves, method and wants.
pub fn examine_by(
    places: usize,
    booked: usize,
    curves: usize,
    method: usize,
    wants: &[u64],
) -> Answer<()> {
    handed(places, booked, curves, Some(method), wants)
}

/// 10 of curves and a number of tests.
pub fn examine_counts(curves: usize, tests: usize) -> Answer<()> {
    handed_counts(curves, tests)
}

/// 7 alone, of any list and any number of places less booked.
pub fn examine_sizes(capacity: usize, wants: &[u64]) -> Answer<()> {
    none_too_wide(capacity, &sets_of(wants))
}

/// Refusal 8.
pub(crate) fn each_test_once(tests: usize, order: &[u16]) -> Answer<()> {
    let mut faults = Vec::new();
    for (position, &test) in order.iter().enumerate() {
        if test as usize >= tests || order[..position].contains(&test) {
            faults.push(position);
            break;
        }
    }
    if order.len() < tests {
        faults.push(order.len()); // first missing
    }
    if order.len() > tests {
        faults.push(tests); // first surplus
    }
    match faults.iter().min() {
        Some(&position) => refuse(8, position),
        None => Ok(()),
    }
}

// ---------------------------------------------------------------------------------------------
// Orders

pub fn order_tests(
    places: usize,
    booked: usize,
    curves: usize,
    method: usize,
    wants: &[u64],
    order_len: usize,
) -> Answer<Vec<u16>> {
    let (order, _) = order_and_flips(places, booked, curves, method, wants, order_len)?;
    Ok(order)
}

/// How often each comparison of method 3's second round won: tail-head, tail-tail, head-head,
/// head-tail.
pub type Flips = [u64; 4];

/// The order, and the flips on the way to it.
pub fn order_and_flips(
    places: usize,
    booked: usize,
    curves: usize,
    method: usize,
    wants: &[u64],
    order_len: usize,
) -> Answer<(Vec<u16>, Flips)> {
    handed(places, booked, curves, Some(method), wants)?;
    let capacity = less_booked(places, booked);
    let sets = sets_of(wants);
    none_too_wide(capacity, &sets)?;
    if order_len < wants.len() {
        return refuse(9, wants.len());
    }
    let mut flips = Flips::default();
    let known = METHODS.iter().find(|known| known.number == method);
    let known = known.expect("another number is refused");
    let order = (known.order)(capacity, &sets, &mut flips);
    Ok((order.iter().map(|&test| test as u16).collect(), flips))
}

/// The order of method 3 alone, of any list of tests and any number of places less booked.
pub fn package_order(capacity: usize, wants: &[u64]) -> Vec<u16> {
    let order = packages(capacity, &sets_of(wants), &mut Flips::default());
    order.iter().map(|&test| test as u16).collect()
}

/// The weight of every two tests; a test has none with itself.
fn weights(wants: &[Curves]) -> Vec<Vec<usize>> {
    let mut table = vec![vec![0; wants.len()]; wants.len()];
    for (s, a) in wants.iter().enumerate() {
        for (t, b) in wants[..s].iter().enumerate() {
            let weight = common(a, b);
            table[s][t] = weight;
            table[t][s] = weight;
        }
    }
    table
}

/// Each test's degree: its row of the weights, summed. It is held in two bytes (wish 4); a sum that
/// they cannot hold ends the run.
fn row_sums(weight: &[Vec<usize>]) -> Vec<u16> {
    let mut sums = Vec::new();
    for row in weight {
        let mut sum = 0u16;
        for &entry in row {
            let entry = u16::try_from(entry).expect("a weight is at most 64");
            sum = sum.checked_add(entry).expect("two bytes hold a degree");
        }
        sums.push(sum);
    }
    sums
}

/// The degrees of a list.
pub fn degrees(wants: &[u64]) -> Vec<u16> {
    row_sums(&weights(&sets_of(wants)))
}

fn reverse_cuthill_mckee(wants: &[Curves]) -> Vec<usize> {
    let weight = weights(wants);
    let degree = row_sums(&weight);
    // By rising degree, ties to the lowest test number.
    let rising = |mut tests: Vec<usize>| -> Vec<usize> {
        tests.sort_by_key(|&test| (degree[test], test));
        tests
    };
    let unlisted = |list: &[usize]| -> Vec<usize> {
        (0..wants.len())
            .filter(|test| !list.contains(test))
            .collect()
    };
    let mut list: Vec<usize> = Vec::new();
    let mut along = 0;
    while list.len() < wants.len() {
        if along == list.len() {
            let remaining = rising(unlisted(&list));
            list.push(remaining[0]);
        }
        let present = list[along];
        let neighbours = unlisted(&list)
            .into_iter()
            .filter(|&test| weight[present][test] >= 1)
            .collect();
        list.extend(rising(neighbours));
        along += 1;
    }
    list.reverse();
    list
}

fn curves_of(package: &[usize], wants: &[Curves]) -> Curves {
    let mut set = Curves::new();
    for &test in package {
        set.extend(&wants[test]);
    }
    set
}

/// Of all pairs (of those whose union is at most the bound, if there is one) the pair with most
/// common curves; the earlier first, then the earlier second package on ties.
fn best_pair(curves: &[Curves], bound: Option<usize>) -> Option<(usize, usize)> {
    let mut best: Option<(usize, usize, usize)> = None;
    for first in 0..curves.len() {
        for second in first + 1..curves.len() {
            let shared = common(&curves[first], &curves[second]);
            if let Some(bound) = bound {
                let together = curves[first].len() + curves[second].len() - shared;
                if together > bound {
                    continue;
                }
            }
            let better = match best {
                None => true,
                Some((_, _, so_far)) => shared > so_far,
            };
            if better {
                best = Some((first, second, shared));
            }
        }
    }
    best.map(|(first, second, _)| (first, second))
}

/// The curves of the longest run of these tests, from their start, whose union is at most the
/// places less booked. A longer run never has a smaller union, so the first that is too large ends
/// it.
fn opening(tests: &[usize], capacity: usize, wants: &[Curves]) -> Curves {
    let mut run = Curves::new();
    for &test in tests {
        let longer = union(&run, &wants[test]);
        if longer.len() > capacity {
            break;
        }
        run = longer;
    }
    run
}

fn reversed(package: &[usize]) -> Vec<usize> {
    package.iter().rev().copied().collect()
}

fn packages(capacity: usize, wants: &[Curves], flips: &mut Flips) -> Vec<usize> {
    let mut packages: Vec<Vec<usize>> = (0..wants.len()).map(|test| vec![test]).collect();
    let mut curves: Vec<Curves> = wants.to_vec();

    // First round.
    while let Some((first, second)) = best_pair(&curves, Some(capacity)) {
        let behind = packages.remove(second);
        packages[first].extend(behind);
        curves.remove(second);
        curves[first] = curves_of(&packages[first], wants);
    }

    // Second round.
    while packages.len() > 1 {
        let (first, second) = best_pair(&curves, None).unwrap();
        let mut front = packages[first].clone();
        let mut behind = packages.remove(second);
        let front_head = opening(&front, capacity, wants);
        let front_tail = opening(&reversed(&front), capacity, wants);
        let behind_head = opening(&behind, capacity, wants);
        let behind_tail = opening(&reversed(&behind), capacity, wants);
        // (common curves, first's head joins, second's tail joins)
        let joints = [
            (common(&front_tail, &behind_head), false, false),
            (common(&front_tail, &behind_tail), false, true),
            (common(&front_head, &behind_head), true, false),
            (common(&front_head, &behind_tail), true, true),
        ];
        let most = joints.iter().map(|joint| joint.0).max().unwrap();
        let earliest = joints.iter().position(|joint| joint.0 == most).unwrap();
        let won = joints[earliest];
        flips[earliest] += 1;
        if won.1 {
            front.reverse();
        }
        if won.2 {
            behind.reverse();
        }
        front.extend(behind);
        packages[first] = front;
        curves.remove(second);
        curves[first] = curves_of(&packages[first], wants);
    }
    // One is left, or there was none from the start.
    packages.concat()
}

// ---------------------------------------------------------------------------------------------
// Plans

/// Drops, loads, what the end step drops (0: there is none) and the load count.
#[derive(Clone, Debug, PartialEq, Eq)]
pub struct Plan {
    pub drops: Vec<u64>,
    pub loads: Vec<u64>,
    pub end: u64,
    pub count: u64,
}

/// Which of several curves with equally distant next use is dropped first.
#[derive(Clone, Copy, Debug, PartialEq, Eq)]
pub enum TieRule {
    /// As in document 01, before wish 2.
    Lowest,
    /// Our plan's, by wish 2.
    Highest,
}

/// Our plan, from what the drive holds at the start (wish 6).
#[allow(clippy::too_many_arguments)]
pub fn plan(
    places: usize,
    booked: usize,
    curves: usize,
    wants: &[u64],
    held: u64,
    order: &[u16],
    drops_len: usize,
    loads_len: usize,
) -> Answer<Plan> {
    let rule = TieRule::Highest;
    plan_by(
        rule, places, booked, curves, wants, held, order, drops_len, loads_len,
    )
}

/// The plan under either tie rule.
#[allow(clippy::too_many_arguments)]
pub fn plan_by(
    rule: TieRule,
    places: usize,
    booked: usize,
    curves: usize,
    wants: &[u64],
    held: u64,
    order: &[u16],
    drops_len: usize,
    loads_len: usize,
) -> Answer<Plan> {
    handed(places, booked, curves, None, wants)?;
    let mut held = set_of(held);
    none_foreign(curves, &held)?;
    each_test_once(wants.len(), order)?;
    let capacity = less_booked(places, booked);
    let sets = sets_of(wants);
    none_too_wide(capacity, &sets)?;
    if drops_len < wants.len() || loads_len < wants.len() {
        return refuse(9, wants.len());
    }
    let steps: Vec<Curves> = order
        .iter()
        .map(|&test| sets[test as usize].clone())
        .collect();
    let mut all_drops = Vec::new();
    let mut all_loads = Vec::new();
    let mut count = 0;
    for (step, wanted) in steps.iter().enumerate() {
        let mut drops = Curves::new();
        // In the first step also what is held above the places less booked.
        while union(&held, wanted).len() > capacity {
            let curve = furthest(rule, &held, wanted, &steps[step + 1..]);
            held.remove(&curve);
            drops.insert(curve);
        }
        let loads: Curves = wanted.difference(&held).copied().collect();
        count += loads.len() as u64;
        held = union(&held, &loads);
        all_drops.push(bits_of(&drops));
        all_loads.push(bits_of(&loads));
    }
    // After the last test, all that is held is dropped.
    Ok(Plan {
        drops: all_drops,
        loads: all_loads,
        end: bits_of(&held),
        count,
    })
}

/// Of the held curves that the test does not want, the one whose next use is furthest; of several
/// such the one that the tie rule names.
fn furthest(rule: TieRule, held: &Curves, wanted: &Curves, later: &[Curves]) -> u8 {
    // How many later steps lie before the next use. Never is further than any.
    let distance = |curve: u8| {
        let next = later.iter().position(|wants| wants.contains(&curve));
        next.unwrap_or(usize::MAX)
    };
    let candidates: Vec<(u8, usize)> = held
        .difference(wanted)
        .map(|&curve| (curve, distance(curve)))
        .collect();
    let most = candidates.iter().map(|candidate| candidate.1).max();
    let equals = candidates
        .iter()
        .filter(|candidate| Some(candidate.1) == most)
        .map(|candidate| candidate.0);
    let curve = match rule {
        TieRule::Lowest => equals.min(),
        TieRule::Highest => equals.max(),
    };
    curve.expect("a test is never wider than the places less booked here")
}

/// What is held behind these steps, whatever they are, if this is held before them: step after step,
/// the drops are taken out and the loads put in.
pub fn held_behind(held: u64, drops: &[u64], loads: &[u64]) -> u64 {
    let mut held = set_of(held);
    for (&dropped, &loaded) in drops.iter().zip(loads) {
        for curve in set_of(dropped) {
            held.remove(&curve);
        }
        held.extend(set_of(loaded));
    }
    bits_of(&held)
}

#[allow(clippy::too_many_arguments)]
pub fn check_plan(
    places: usize,
    booked: usize,
    curves: usize,
    wants: &[u64],
    held: u64,
    order: &[u16],
    drops: &[u64],
    loads: &[u64],
    end: u64,
) -> Answer<u64> {
    handed(places, booked, curves, None, wants)?;
    // At the start it may be more than the places less booked.
    let mut held = set_of(held);
    none_foreign(curves, &held)?;
    each_test_once(wants.len(), order)?;
    let mut length_faults = Vec::new();
    for list in [drops, loads] {
        if list.len() < wants.len() {
            length_faults.push(list.len());
        }
        if list.len() > wants.len() {
            length_faults.push(wants.len());
        }
    }
    if let Some(&position) = length_faults.iter().min() {
        return refuse(12, position);
    }
    let mut count = 0;
    for step in 0..wants.len() {
        let wanted = set_of(wants[order[step] as usize]);
        let dropped = set_of(drops[step]);
        let loaded = set_of(loads[step]);
        let every_drop_held = dropped.is_subset(&held);
        let left: Curves = held.difference(&dropped).copied().collect();
        let no_load_held = loaded.is_disjoint(&left);
        let every_load_of_the_job = loaded.iter().all(|&curve| (curve as usize) < curves);
        let after = union(&left, &loaded);
        let passes = every_drop_held
            && no_load_held
            && every_load_of_the_job
            && wanted.is_subset(&after)
            && after.len() <= less_booked(places, booked);
        if !passes {
            return refuse(12, step);
        }
        count += loaded.len() as u64;
        held = after;
    }
    // The end set is what is held; one with a foreign curve never is.
    if set_of(end) != held {
        return refuse(12, wants.len());
    }
    Ok(count)
}

// ---------------------------------------------------------------------------------------------
// Plan bytes

/// The bytes of steps, whatever they hold, and of the end step, if it drops something. Tests are
/// below 256.
pub fn plan_bytes(order: &[u16], drops: &[u64], loads: &[u64], end: u64) -> Vec<u8> {
    let mut bytes = Vec::new();
    for step in 0..order.len() {
        let dropped = set_of(drops[step]);
        let loaded = set_of(loads[step]);
        let mut map = 4;
        if !dropped.is_empty() {
            map += 1;
        }
        if !loaded.is_empty() {
            map += 2;
        }
        bytes.push(map);
        if !dropped.is_empty() {
            bytes.extend(groups(&dropped));
        }
        if !loaded.is_empty() {
            bytes.extend(groups(&loaded));
        }
        bytes.push(order[step] as u8);
    }
    // Drops alone: bit 0 stands, bits 1 and 2 do not.
    let dropped_last = set_of(end);
    if !dropped_last.is_empty() {
        bytes.push(1);
        bytes.extend(groups(&dropped_last));
    }
    bytes
}

#[allow(clippy::too_many_arguments)]
pub fn write_plan(
    places: usize,
    booked: usize,
    curves: usize,
    wants: &[u64],
    held: u64,
    order: &[u16],
    drops: &[u64],
    loads: &[u64],
    end: u64,
    out_len: usize,
) -> Answer<Vec<u8>> {
    check_plan(
        places, booked, curves, wants, held, order, drops, loads, end,
    )?;
    let bytes = plan_bytes(order, drops, loads, end);
    if out_len < bytes.len() {
        return refuse(9, bytes.len());
    }
    Ok(bytes)
}

/// One test's step as it was read, with the part of the bytes it takes.
#[derive(Clone, Debug, PartialEq, Eq)]
pub struct Step {
    pub test: u16,
    pub drops: u64,
    pub loads: u64,
    pub start: usize,
    pub behind: usize,
}

/// The end step as it was read, with the part of the bytes it takes.
#[derive(Clone, Debug, PartialEq, Eq)]
pub struct EndStep {
    pub drops: u64,
    pub start: usize,
    pub behind: usize,
}

/// A plan as it was read: a step for each test, then perhaps an end step.
#[derive(Clone, Debug, Default, PartialEq, Eq)]
pub struct Steps {
    pub tests: Vec<Step>,
    pub end: Option<EndStep>,
}

impl Steps {
    pub fn order(&self) -> Vec<u16> {
        self.tests.iter().map(|step| step.test).collect()
    }

    pub fn drops(&self) -> Vec<u64> {
        self.tests.iter().map(|step| step.drops).collect()
    }

    pub fn loads(&self) -> Vec<u64> {
        self.tests.iter().map(|step| step.loads).collect()
    }

    /// 0 where there is no end step.
    pub fn end_set(&self) -> u64 {
        match &self.end {
            None => 0,
            Some(step) => step.drops,
        }
    }
}

/// The plan byte at this offset.
fn planned(plan: &[u8], offset: usize) -> Answer<usize> {
    match plan.get(offset) {
        Some(&byte) => Ok(byte as usize),
        None => refuse(11, plan.len()),
    }
}

/// A set of a plan and the offset behind it.
fn read_set(plan: &[u8], start: usize, curves: usize) -> Answer<(Curves, usize)> {
    let map = planned(plan, start)?;
    if map == 0 {
        return refuse(11, start);
    }
    let mut set = Curves::new();
    let mut offset = start + 1;
    for group in set_of(map as u64) {
        let byte = planned(plan, offset)?;
        if byte == 0 {
            return refuse(11, offset);
        }
        for bit in set_of(byte as u64) {
            let curve = 8 * group + bit;
            if curve as usize >= curves {
                return refuse(11, offset);
            }
            set.insert(curve);
        }
        offset += 1;
    }
    Ok((set, offset))
}

fn read_step(plan: &[u8], start: usize, curves: usize, tests: usize) -> Answer<Step> {
    let map = planned(plan, start)?;
    if !(4..8).contains(&map) {
        return refuse(11, start);
    }
    let mut offset = start + 1;
    let mut drops = Curves::new();
    let mut loads = Curves::new();
    if map % 2 == 1 {
        (drops, offset) = read_set(plan, offset, curves)?;
    }
    if map / 2 % 2 == 1 {
        (loads, offset) = read_set(plan, offset, curves)?;
    }
    let test = planned(plan, offset)?;
    if test >= tests {
        return refuse(11, offset);
    }
    Ok(Step {
        test: test as u16,
        drops: bits_of(&drops),
        loads: bits_of(&loads),
        start,
        behind: offset + 1,
    })
}

/// What stands behind the last test's step: nothing, or the end step alone. It has drops, and
/// neither loads nor a test, so its map is 1.
fn read_end_step(plan: &[u8], start: usize, curves: usize) -> Answer<Option<EndStep>> {
    if start == plan.len() {
        return Ok(None);
    }
    if planned(plan, start)? != 1 {
        return refuse(11, start);
    }
    let (drops, behind) = read_set(plan, start + 1, curves)?;
    if behind < plan.len() {
        return refuse(11, behind);
    }
    Ok(Some(EndStep {
        drops: bits_of(&drops),
        start,
        behind,
    }))
}

/// All steps of a plan: 10, then 11.
pub fn read_steps(curves: usize, tests: usize, plan: &[u8]) -> Answer<Steps> {
    handed_counts(curves, tests)?;
    let mut steps: Vec<Step> = Vec::new();
    let mut offset = 0;
    while steps.len() < tests {
        let step = read_step(plan, offset, curves, tests)?;
        offset = step.behind;
        steps.push(step);
    }
    let end = read_end_step(plan, offset, curves)?;
    Ok(Steps { tests: steps, end })
}

fn handed_counts(curves: usize, tests: usize) -> Answer<()> {
    if !(1..=64).contains(&curves) {
        return refuse(10, 1);
    }
    if tests > 256 {
        return refuse(10, 2);
    }
    Ok(())
}

pub fn read_plan(
    curves: usize,
    tests: usize,
    plan: &[u8],
    order_len: usize,
    drops_len: usize,
    loads_len: usize,
) -> Answer<Steps> {
    let steps = read_steps(curves, tests, plan)?;
    if order_len < tests || drops_len < tests || loads_len < tests {
        return refuse(9, tests);
    }
    Ok(steps)
}

/// Start and count of the bytes of one of these steps; the empty part at the plan's end where there
/// is no such step. The end step stands behind all others.
pub fn part(steps: &Steps, plan: &[u8], position: usize) -> (usize, usize) {
    let mut parts = Vec::new();
    for step in &steps.tests {
        parts.push((step.start, step.behind - step.start));
    }
    if let Some(step) = &steps.end {
        parts.push((step.start, step.behind - step.start));
    }
    match parts.get(position) {
        None => (plan.len(), 0),
        Some(&part) => part,
    }
}

pub fn step_bytes(curves: usize, tests: usize, plan: &[u8], position: usize) -> (usize, usize) {
    let steps = read_steps(curves, tests, plan).unwrap_or_default();
    part(&steps, plan, position)
}

// ---------------------------------------------------------------------------------------------
// The call of the C host, and the sheet

/// Room for every list of a job.
const LIST: usize = 256;

/// What the drive holds at the start where no holding is handed over.
const EMPTY: u64 = 0;

/// A job as read, its order and our plan.
pub type PlannedJob = (Job, Vec<u16>, Plan);

pub fn planned_job(job: &[u8]) -> Answer<PlannedJob> {
    let job = read_job(job, LIST)?;
    let (places, booked) = (job.places, job.booked);
    let order = order_tests(places, booked, job.curves, job.method, &job.wants, LIST)?;
    let (curves, wants) = (job.curves, &job.wants);
    let plan = plan(places, booked, curves, wants, EMPTY, &order, LIST, LIST)?;
    Ok((job, order, plan))
}

/// The plan's bytes, or the refusal.
pub fn call_bytes(job: &[u8], plan_len: usize) -> Answer<Vec<u8>> {
    planned_bytes(&planned_job(job), plan_len)
}

pub fn planned_bytes(planned: &Answer<PlannedJob>, plan_len: usize) -> Answer<Vec<u8>> {
    let (job, order, plan) = planned.as_ref().map_err(|no| *no)?;
    write_plan(
        job.places,
        job.booked,
        job.curves,
        &job.wants,
        EMPTY,
        order,
        &plan.drops,
        &plan.loads,
        plan.end,
        plan_len,
    )
}

/// The number that the C host gets, and the bytes that fill the start of its buffer.
pub fn call(job: &[u8], plan_len: usize) -> (u64, Vec<u8>) {
    match call_bytes(job, plan_len) {
        Ok(bytes) => (bytes.len() as u64, bytes),
        Err(no) => (no.number * 65_536 + no.figure, Vec::new()),
    }
}

fn curve_list(bits: u64) -> String {
    let names: Vec<String> = set_of(bits).iter().map(|curve| curve.to_string()).collect();
    if names.is_empty() {
        "none".to_string()
    } else {
        names.join(" ")
    }
}

pub(crate) fn refused_text(no: &Refusal) -> String {
    format!("refused {} at {}\n", no.number, no.figure)
}

/// A text in a buffer of this length.
pub fn written(text: &str, out_len: usize) -> Answer<Vec<u8>> {
    if out_len < text.len() {
        return refuse(9, text.len());
    }
    Ok(text.as_bytes().to_vec())
}

pub fn sheet(job: &[u8]) -> String {
    planned_sheet(&planned_job(job))
}

pub fn planned_sheet(planned: &Answer<PlannedJob>) -> String {
    match planned {
        Err(no) => refused_text(no),
        Ok((job, order, plan)) => {
            let mut text = format!(
                "{} tests, {} places, method {}\n",
                job.tests,
                less_booked(job.places, job.booked),
                job.method
            );
            for step in 0..job.tests {
                text += &format!(
                    "{}: test {} drop {} load {}\n",
                    step,
                    order[step],
                    curve_list(plan.drops[step]),
                    curve_list(plan.loads[step])
                );
            }
            if plan.end != 0 {
                text += &format!("{}: end drop {}\n", job.tests, curve_list(plan.end));
            }
            text + &format!("loads {}\n", plan.count)
        }
    }
}

// ---------------------------------------------------------------------------------------------
// The audit of a plan

/// The load count of a plan, and the fewest loads of any plan in the same order.
#[derive(Clone, Debug, PartialEq, Eq)]
pub struct Audit {
    pub loads: u64,
    pub fewest: u64,
    /// Whether every plan was tried for the fewest.
    pub tried: bool,
}

/// Which of the two an audit refuses.
#[derive(Clone, Copy, Debug, PartialEq, Eq)]
pub enum Refused {
    Job(Refusal),
    Plan(Refusal),
}

/// The job is read, then the plan's bytes, then the plan is checked.
pub fn audit(job: &[u8], plan: &[u8]) -> Result<Audit, Refused> {
    let job = read_job(job, LIST).map_err(Refused::Job)?;
    audit_of(&job, plan).map_err(Refused::Plan)
}

fn audit_of(job: &Job, plan: &[u8]) -> Answer<Audit> {
    let steps = read_plan(job.curves, job.tests, plan, LIST, LIST, LIST)?;
    let order = steps.order();
    let count = check_plan(
        job.places,
        job.booked,
        job.curves,
        &job.wants,
        EMPTY,
        &order,
        &steps.drops(),
        &steps.loads(),
        steps.end_set(),
    )?;
    let fewest = fewest_loads(job.places, job.booked, &job.wants, EMPTY, &order);
    let tried = job.curves <= 5 && job.tests <= 8;
    if tried {
        let (places, booked, curves) = (job.places, job.booked, job.curves);
        let least = least_loads(places, booked, curves, &job.wants, EMPTY, &order);
        assert_eq!(Some(fewest), least, "{job:?}, order {order:?}");
    }
    Ok(Audit {
        loads: count,
        fewest,
        tried,
    })
}

/// The fewest loads in this order, told without any plan: each use of a curve takes a load unless
/// the curve stays in the drive since its last use. To stay it takes one of the places that the
/// booked ones and the tests between leave free. The stay that ends first is granted first: a later
/// one that it shuts out would take, from the step on where they compete, every place that it takes.
/// What is held at the start stays in the same way until its first use.
/// No test is wider than the places less booked.
pub fn fewest_loads(places: usize, booked: usize, wants: &[u64], held: u64, order: &[u16]) -> u64 {
    let steps: Vec<Curves> = order
        .iter()
        .map(|&test| set_of(wants[test as usize]))
        .collect();
    let taken = |wanted: &Curves| booked + wanted.len();
    let mut free: Vec<usize> = steps.iter().map(|wanted| places - taken(wanted)).collect();
    let mut loads = 0;
    let mut stays = Vec::new();
    for curve in 0..64 {
        let uses: Vec<usize> = (0..steps.len())
            .filter(|&step| steps[step].contains(&curve))
            .collect();
        loads += uses.len() as u64;
        // The use that ends a stay, and the first step between.
        stays.extend(uses.windows(2).map(|pair| (pair[1], pair[0] + 1)));
        if set_of(held).contains(&curve) {
            stays.extend(uses.first().map(|&first| (first, 0)));
        }
    }
    stays.sort();
    for (end, start) in stays {
        let between = &mut free[start..end];
        if between.iter().all(|&places| places > 0) {
            between.iter_mut().for_each(|places| *places -= 1);
            loads -= 1;
        }
    }
    loads
}

pub fn audit_text(answer: &Result<Audit, Refused>) -> String {
    match answer {
        Err(Refused::Job(no)) => refused_text(no),
        Err(Refused::Plan(no)) => format!("plan {}", refused_text(no)),
        Ok(audit) => format!(
            "loads {}\nfewest {}\nshorter by {}\n",
            audit.loads,
            audit.fewest,
            audit.loads - audit.fewest
        ),
    }
}

// ---------------------------------------------------------------------------------------------
// Two more ways to say what a plan is, for small jobs

/// Whether a plan passes the check, told curve by curve: each curve of the 64 goes through the
/// steps on its own, and the steps only count how many places are taken: those booked, and one for
/// each curve they hold. Behind the last test a curve is in the end set exactly if it is inside. What is
/// held at the start names only curves of the job.
#[allow(clippy::too_many_arguments)]
pub fn passes(
    places: usize,
    booked: usize,
    curves: usize,
    wants: &[u64],
    held: u64,
    order: &[u16],
    drops: &[u64],
    loads: &[u64],
    end: u64,
) -> bool {
    let tests = wants.len();
    let mut named: Vec<usize> = order.iter().map(|&test| test as usize).collect();
    named.sort();
    let each_once = named == (0..tests).collect::<Vec<usize>>();
    if !each_once || drops.len() != tests || loads.len() != tests {
        return false;
    }
    let mut taken = vec![booked; tests];
    for curve in 0..64 {
        let has = |set: u64| (set >> curve) & 1 == 1;
        let mut inside = has(held);
        for step in 0..tests {
            let wanted = has(wants[order[step] as usize]);
            match (inside, has(drops[step]), has(loads[step])) {
                (false, true, _) => return false,     // dropped, not held
                (true, false, true) => return false,  // loaded, held after the drops
                (_, true, loaded) => inside = loaded, // out, and perhaps in again
                (false, false, loaded) => inside = loaded,
                (true, false, false) => {}
            }
            if has(loads[step]) && curve >= curves {
                return false;
            }
            if wanted && !inside {
                return false;
            }
            if inside {
                taken[step] += 1;
            }
        }
        if inside != has(end) {
            return false;
        }
    }
    taken.iter().all(|&number| number <= places)
}

/// The fewest loads of ANY plan for this job and order that passes the check from what is held at the
/// start, by trying every drop set and every load set from every set that can be held, and behind the
/// last test every end set. So only plans that end empty are compared. What a step holds and the booked
/// places fit the places; what is held at the start need not. `None`: no plan passes.
/// For small jobs: curves up to about 8.
pub fn least_loads(
    places: usize,
    booked: usize,
    curves: usize,
    wants: &[u64],
    held: u64,
    order: &[u16],
) -> Option<u64> {
    let all = 1usize << curves;
    // fewest[h]: fewest loads so far with h held.
    let mut fewest: Vec<Option<u64>> = vec![None; all];
    fewest[held as usize] = Some(0);
    for &test in order {
        let wanted = wants[test as usize] as usize;
        let mut then: Vec<Option<u64>> = vec![None; all];
        for held in 0..all {
            let Some(so_far) = fewest[held] else { continue };
            for drops in (0..all).filter(|&drops| drops & !held == 0) {
                let left = held & !drops;
                for loads in (0..all).filter(|&loads| loads & left == 0) {
                    let after = left | loads;
                    let taken = booked + after.count_ones() as usize;
                    let runs = wanted & !after == 0 && taken <= places;
                    if !runs {
                        continue;
                    }
                    let total = so_far + loads.count_ones() as u64;
                    if then[after].is_none_or(|known| total < known) {
                        then[after] = Some(total);
                    }
                }
            }
        }
        fewest = then;
    }
    let mut least = None;
    for held in 0..all {
        let Some(total) = fewest[held] else { continue };
        for end in (0..all).filter(|&end| end & !held == 0) {
            let left = held & !end;
            if left == 0 && least.is_none_or(|known| total < known) {
                least = Some(total);
            }
        }
    }
    least
}

#[cfg(test)]
mod tests {
    use super::*;
    use crate::generate;
    use crate::random::Random;

    #[test]
    fn opening_is_the_longest_run() {
        let mut random = Random::new(11);
        for _ in 0..2_000 {
            let job = generate::job(&mut random, generate::Size::Small);
            let capacity = less_booked(job.places, job.booked);
            let wants = sets_of(&job.wants);
            let tests: Vec<usize> = (0..wants.len()).collect();
            let longest = (0..=tests.len())
                .rev()
                .find(|&length| curves_of(&tests[..length], &wants).len() <= capacity)
                .unwrap();
            let expected = curves_of(&tests[..longest], &wants);
            assert_eq!(opening(&tests, capacity, &wants), expected);
        }
    }

    #[test]
    fn the_largest_sum_of_two_bytes() {
        let mut row = vec![64; 1_023];
        row.push(63);
        assert_eq!(row_sums(&[row, vec![], vec![0, 1]]), [u16::MAX, 0, 1]);
    }

    #[test]
    #[should_panic(expected = "two bytes hold a degree")]
    fn a_larger_sum_ends_the_run() {
        row_sums(&[vec![64; 1_024]]);
    }
}
