//! Booked places (wish 5): cases with them for every function that takes them, in job bytes or handed
//! over; what is told of such cases; and where the raw places, the booked ones among them, would give
//! another answer than places less booked.

use crate::generate::{
    self, all_curves, any_booked, damage, enough, fitting_or_not, flipping_job, lent, one_of,
    permutation, random_set, spoil_end, spoil_order, spoil_plan, spoil_tests, spoil_wants, Case,
    Job, Size, SomePlan, FUNCTIONS, JOB, PLAN_MADE, PLAN_ORDER, SHEET, WILD, WILD_BOOKED,
    WILD_METHODS,
};
use crate::holding;
use crate::random::Random;
use crate::reference::{self, less_booked, Answer, Plan, PlannedJob, Refusal};
use crate::states::Made;
use crate::walks;
use crate::withdrawn::old_or_new;

// ---------------------------------------------------------------------------------------------
// Jobs and cases

/// A small job of which some places are booked.
pub fn job(random: &mut Random) -> Job {
    loop {
        let job = match random.below(8) {
            0 => flipping_job(random),
            1 => generate::job(random, Size::Small),
            _ => generate::job(random, Size::Tiny),
        };
        if job.booked > 0 {
            return job;
        }
    }
}

/// A job whose bytes are as many as can be: all fields, 256 tests, and all eight groups in each
/// record. Its tests fit.
pub fn longest_job(random: &mut Random) -> Job {
    let curves = random.between(57, 63);
    let mut wants = Vec::new();
    for _ in 0..256 {
        let groups = (0..8).map(|group| all_curves(curves) & (0xff_u64 << (8 * group)));
        wants.push(groups.map(|group| one_of(random, group)).sum());
    }
    let places = random.between(9, 64);
    Job {
        places,
        booked: random.between(1, places - 8),
        curves,
        method: 1,
        wants,
    }
}

/// Where the booked places stand in job bytes with this map.
fn field(map: u8) -> usize {
    let before = [(1, 1), (2, 1), (4, 2), (8, 1)];
    let lengths = before.map(|(bit, length)| if map & bit != 0 { length } else { 0 });
    1 + lengths.iter().sum::<usize>()
}

/// A byte of booked places: not below these places, 0, out of range, or any.
fn any_byte(random: &mut Random, places: usize) -> u8 {
    let any = random.byte();
    let above = random.between(places.min(63), 63) as u8;
    let places = places as u8;
    random.pick(&[
        places,
        places,
        places + 1,
        above,
        above,
        63,
        0,
        64,
        65,
        255,
        any,
    ])
}

/// Job bytes with booked places: sound, with another byte in their place, with a fault before or behind
/// them, or with both; at times the longest, or that with a byte behind it.
pub fn any_bytes(random: &mut Random) -> Vec<u8> {
    if random.chance(1, 32) {
        let job = longest_job(random);
        let mut bytes = old_or_new(random, &job);
        if random.chance(1, 2) {
            bytes.push(random.pick(&[0, 1, 255]));
        }
        return bytes;
    }
    let mut job = job(random);
    widen(random, &mut job);
    let mut bytes = old_or_new(random, &job);
    if random.chance(1, 4) {
        return bytes;
    }
    let at = field(bytes[0]);
    if random.chance(3, 4) {
        bytes[at] = any_byte(random, job.places);
    }
    match random.below(12) {
        0..=3 => spoil_before(random, &mut bytes),
        4 => bytes.truncate(at),
        5 => bytes.truncate(at + 1),
        6 => {
            let length = random.between(at, bytes.len());
            bytes.truncate(length);
        }
        7 => bytes.push(random.pick(&[0, 1, 255])),
        8 | 9 => spoil_records(random, &mut bytes),
        10 => {
            spoil_before(random, &mut bytes);
            damage(random, &mut bytes);
        }
        _ => {}
    }
    bytes
}

/// A fault in the map or in a field before the booked places; at times the bytes end behind it.
fn spoil_before(random: &mut Random, bytes: &mut Vec<u8>) {
    let map = bytes[0];
    let fields: [(u8, &[u8]); 4] = [
        (1, &[0, 0, 8, 8, 65, 255]),
        (2, &[0, 64, 65, 255]),
        (4, &[0]),
        (8, &[0, 4, 255]),
    ];
    let there: Vec<(u8, &[u8])> = fields.into_iter().filter(|f| map & f.0 != 0).collect();
    if there.is_empty() || random.chance(1, 5) {
        bytes[0] |= 1 << random.between(5, 7);
        return;
    }
    let (bit, values) = random.pick(&there);
    let at = field(map & (bit - 1));
    bytes[at] = random.pick(values);
    if bit == 4 {
        // 0, or more than 256.
        (bytes[at], bytes[at + 1]) = random.pick(&[(0, 0), (1, 1), (255, 255)]);
    }
    if random.chance(1, 6) {
        bytes.truncate(field(map));
    }
}

/// A fault in the first record: a group byte that is zero or names a curve that the job may lack.
fn spoil_records(random: &mut Random, bytes: &mut Vec<u8>) {
    let behind = field(bytes[0]) + 1;
    let record: &[u8] = random.pick(&[&[1, 0], &[0x80, 0], &[1, 0xff], &[0x80, 0x80], &[3, 1, 0]]);
    drop(bytes.splice(
        behind..(behind + 1).min(bytes.len()),
        record.iter().copied(),
    ));
}

/// A job with faults in what is handed over, mostly one in the booked places and one elsewhere.
fn spoilt_job(random: &mut Random) -> Job {
    let mut job = job(random);
    match random.below(10) {
        0 | 1 => job.places = random.pick(&WILD),
        2 => job.curves = random.pick(&WILD),
        3 => spoil_tests(random, &mut job.wants),
        4 => job.method = random.pick(&WILD_METHODS),
        5 | 6 => spoil_wants(random, job.curves, &mut job.wants),
        _ => {}
    }
    match random.below(8) {
        0 => {}
        1..=3 => job.booked = random.pick(&[job.places, job.places.saturating_add(1), 63]),
        4 | 5 => job.booked = random.pick(&WILD_BOOKED),
        _ => job.booked = any_booked(random, job.places),
    }
    job
}

/// At times all curves for one of the tests, and for a lower one more than places less booked take, but
/// perhaps not more than the places.
fn widen(random: &mut Random, job: &mut Job) {
    if job.wants.is_empty() || !random.chance(1, 4) {
        return;
    }
    // Both may be any numbers.
    let (places, curves) = (job.places.clamp(1, 64), job.curves.clamp(1, 64));
    let test = random.below(job.wants.len());
    job.wants[test] = all_curves(curves);
    if test > 0 && random.chance(1, 2) {
        let least = places.saturating_sub(job.booked) + 1;
        let number = random.between(least.min(places), places);
        job.wants[random.below(test)] = random_set(random, curves, number);
    }
}

fn any_order(random: &mut Random, tests: usize) -> Vec<u16> {
    let mut order = permutation(random, tests);
    for _ in 0..3 {
        spoil_order(random, &mut order, tests);
    }
    order
}

/// A job, a holding and a plan for them: all sound, or with faults. Mostly nothing is held.
fn planned(random: &mut Random) -> (Job, u64, SomePlan) {
    let sound = job(random);
    let held = match random.below(4) {
        0 => holding::any(random, &sound),
        _ => 0,
    };
    let mut made = fitting_or_not(random, &sound, held);
    if random.chance(1, 3) {
        return (sound, held, made);
    }
    let mut spoilt = spoilt_job(random);
    if random.chance(2, 3) {
        // The same list.
        spoilt.wants = sound.wants;
        spoilt.curves = sound.curves;
    }
    match random.below(4) {
        0 => made.order = any_order(random, spoilt.wants.len()),
        1 => {
            spoil_plan(random, &mut made.drops, &mut made.loads, sound.curves);
            made.end = reference::held_behind(held, &made.drops, &made.loads);
        }
        2 => spoil_end(random, &mut made.end, sound.curves),
        _ => {}
    }
    (spoilt, held, made)
}

/// A case with booked places. `None`: the function does not take them.
pub fn case(function: usize, random: &mut Random) -> Option<Case> {
    Some(match FUNCTIONS[function] {
        "read_job" => {
            let job = any_bytes(random);
            let tests = reference::read_job(&job, usize::MAX).map_or(4, |read| read.tests);
            Case::ReadJob {
                job,
                wants_len: lent(random, tests),
            }
        }
        "write_job" => {
            let job = match random.below(20) {
                0 => longest_job(random),
                _ => spoilt_job(random),
            };
            let needed = generate::job_written(&job).map_or(6, |bytes| bytes.len());
            Case::WriteJob {
                places: job.places,
                booked: job.booked,
                curves: job.curves,
                method: job.method,
                wants: job.wants,
                out_len: lent(random, needed),
            }
        }
        "order_tests" => {
            let mut job = match random.below(3) {
                0 => spoilt_job(random),
                1 => job(random),
                _ => Job {
                    method: 3,
                    ..job(random)
                },
            };
            widen(random, &mut job);
            let order_len = match random.below(3) {
                0 => lent(random, job.wants.len()),
                _ => enough(random, job.wants.len()),
            };
            Case::OrderTests {
                places: job.places,
                booked: job.booked,
                curves: job.curves,
                method: job.method,
                wants: job.wants,
                order_len,
            }
        }
        "plan_order" => {
            let mut job = match random.below(3) {
                0 => job(random),
                _ => spoilt_job(random),
            };
            widen(random, &mut job);
            let tests = job.wants.len();
            let held = match random.below(3) {
                0 => holding::any(random, &job),
                _ => 0,
            };
            Case::PlanOrder {
                places: job.places,
                booked: job.booked,
                curves: job.curves,
                wants: job.wants,
                held,
                order: match random.below(2) {
                    0 => permutation(random, tests),
                    _ => any_order(random, tests),
                },
                drops_len: lent(random, tests),
                loads_len: enough(random, tests),
            }
        }
        "check_plan" => {
            let (job, held, made) = planned(random);
            Case::CheckPlan {
                places: job.places,
                booked: job.booked,
                curves: job.curves,
                wants: job.wants,
                held,
                order: made.order,
                drops: made.drops,
                loads: made.loads,
                end: made.end,
            }
        }
        "write_plan" => {
            let (job, held, made) = planned(random);
            let tests = made.order.len();
            let written = (made.drops.len(), made.loads.len()) == (tests, tests);
            let needed = if written { made.bytes().len() } else { 20 };
            Case::WritePlan {
                places: job.places,
                booked: job.booked,
                curves: job.curves,
                wants: job.wants,
                held,
                order: made.order,
                drops: made.drops,
                loads: made.loads,
                end: made.end,
                out_len: lent(random, needed),
            }
        }
        "plan" => Case::Call {
            job: any_bytes(random),
            plan_len: random.pick(&[PLAN_MADE, PLAN_MADE, PLAN_MADE, 12]),
        },
        "sheet" => Case::Sheet {
            job: any_bytes(random),
            out_len: random.pick(&[SHEET, SHEET, SHEET, 14]),
        },
        "audit" => {
            let job = any_bytes(random);
            let plan = match reference::call_bytes(&job, usize::MAX) {
                Ok(bytes) => bytes,
                Err(_) => vec![4, 0],
            };
            Case::Audit {
                job,
                plan,
                ending: None,
                out_len: random.pick(&[128, 128, 128, 14]),
            }
        }
        "examine" => {
            let job = spoilt_job(random);
            Case::Examine {
                places: job.places,
                booked: job.booked,
                curves: job.curves,
                wants: job.wants,
            }
        }
        "examine_by" => {
            let job = spoilt_job(random);
            Case::ExamineBy {
                places: job.places,
                booked: job.booked,
                curves: job.curves,
                method: job.method,
                wants: job.wants,
            }
        }
        "make_state" => return case(PLAN_ORDER, random).map(walks::instead_of_planning),
        _ => return None,
    })
}

// ---------------------------------------------------------------------------------------------
// Job bytes

/// What is told of job bytes whose map has bit 4. That they read, and with which booked places; 13, 2 or
/// 1 for these; a fault before them beside one of theirs (`cut`: they are owed); and one of theirs beside
/// a fault behind, by its number.
pub const JOBS: [&str; 32] = [
    "read",
    "read:places-absent",
    "read:one-below",
    "read:63",
    "13:places",
    "13:one-above",
    "13:63",
    "13:places-absent",
    "2:0",
    "2:64",
    "2:65-to-255",
    "cut",
    "map+13",
    "places+13",
    "curves+13",
    "tests+13",
    "method+13",
    "map+2",
    "places+2",
    "curves+2",
    "tests+2",
    "method+2",
    "before+cut",
    "13-alone",
    "13+1",
    "13+3",
    "13+4",
    "13+6",
    "2+1",
    "2+3",
    "2+4",
    "2+6",
];

/// The names of what is told of these bytes.
pub fn job_kinds(job: &[u8]) -> Vec<&'static str> {
    let map = match job.first() {
        Some(&map) if map & 16 != 0 => map,
        _ => return vec![],
    };
    let at = field(map);
    let answer = reference::read_job(job, usize::MAX);
    let Some(&booked) = job.get(at) else {
        return match answer {
            Err(no) if no == reference::refusal(1, at) => vec!["cut"],
            Err(no) if no.number == 2 => vec!["before+cut"],
            _ => vec![],
        };
    };
    let places = if map & 1 != 0 { job[1] } else { 8 };
    let mut kinds = Vec::new();
    let mut note = |told: bool, name: &str| {
        if told {
            let known = JOBS.iter().find(|known| **known == name);
            kinds.push(*known.unwrap_or_else(|| panic!("{name} is unforeseen: {job:x?}")));
        }
    };
    // The fault of the booked places, whatever else is faulty.
    let own = match booked {
        0 | 64.. => "2",
        _ if booked >= places => "13",
        _ => "",
    };
    match answer {
        Ok(_) => {
            note(true, "read");
            note(map & 1 == 0, "read:places-absent");
            note(booked + 1 == places, "read:one-below");
            note(booked == 63, "read:63");
        }
        Err(no) if no.figure == at as u64 && (no.number == 2 || no.number == 13) => {
            assert_eq!(no.number.to_string(), own);
            note(booked == 0, "2:0");
            note(booked == 64, "2:64");
            note(booked > 64, "2:65-to-255");
            if own == "13" {
                note(booked == places, "13:places");
                note(booked == places + 1, "13:one-above");
                note(booked == 63, "13:63");
                note(map & 1 == 0, "13:places-absent");
            }
            match reference::read_job(&unbooked(job, at), usize::MAX) {
                Ok(_) => note(own == "13", "13-alone"),
                Err(behind) => note(true, &format!("{own}+{}", behind.number)),
            }
        }
        Err(no) if no.number == 2 && !own.is_empty() => {
            let fields = ["places", "curves", "tests", "method"];
            let before = match no.figure {
                0 => "map",
                figure => {
                    let starts = [1, 2, 4, 8].map(|bit| (map & bit != 0, field(map & (bit - 1))));
                    let found = starts
                        .iter()
                        .position(|start| *start == (true, figure as usize));
                    fields[found.expect("a field stands there")]
                }
            };
            note(true, &format!("{before}+{own}"));
        }
        _ => {}
    }
    kinds
}

/// The same bytes without the field of the booked places, which stands at this offset.
fn unbooked(job: &[u8], at: usize) -> Vec<u8> {
    let mut bytes = job.to_vec();
    bytes[0] -= 16;
    bytes.remove(at);
    bytes
}

/// Job bytes that get 13, and what would be told of them if none were booked: beside the records' faults
/// that a test is too wide, or that a list for so many entries is too short.
pub fn behind_13(job: &[u8], wants_len: usize) -> Vec<&'static str> {
    let at = match (reference::read_job(job, usize::MAX), job) {
        (Err(Refusal { number: 13, figure }), _) => figure as usize,
        _ => return vec![],
    };
    let unbooked = unbooked(job, at);
    let mut kinds = Vec::new();
    if let Ok(read) = reference::read_job(&unbooked, usize::MAX) {
        if wants_len < read.tests {
            kinds.push("13+9");
        }
        if reference::examine_sizes(read.places, &read.wants).is_err() {
            kinds.push("13+7");
        }
    }
    kinds
}

/// The longest job that reads, and one byte more.
pub const LONGEST: [&str; 2] = ["2311-bytes", "2312-bytes"];

pub fn longest_kinds(job: &[u8]) -> Vec<&'static str> {
    if job.len() < JOB {
        return vec![];
    }
    match reference::read_job(job, usize::MAX) {
        Ok(_) => vec!["2311-bytes"],
        Err(no) if no == reference::refusal(6, JOB) && job.len() == JOB + 1 => vec!["2312-bytes"],
        _ => vec![],
    }
}

// ---------------------------------------------------------------------------------------------
// Handed numbers

/// A handed number of booked places, beside the places.
pub const NUMBERS: [&str; 9] = [
    "0",
    "below",
    "one-below",
    "places",
    "one-above",
    "63",
    "64",
    "65-to-255",
    "256-and-more",
];

pub fn number_kinds(places: usize, booked: usize) -> Vec<&'static str> {
    let mut kinds = Vec::new();
    let mut note = |told: bool, name: &'static str| {
        if told {
            kinds.push(name);
        }
    };
    let in_range = (1..=64).contains(&places);
    note(booked == 0, "0");
    note(in_range && booked > 0 && booked < places, "below");
    note(in_range && booked > 0 && booked == places - 1, "one-below");
    note(in_range && booked == places, "places");
    note(in_range && booked == places + 1, "one-above");
    note(booked == 63, "63");
    note(booked == 64, "64");
    note((65..256).contains(&booked), "65-to-255");
    note(booked > 255, "256-and-more");
    kinds
}

/// The numbers that a case hands over: places and booked places.
pub fn handed(case: &Case) -> Option<(usize, usize)> {
    match case {
        Case::WriteJob { places, booked, .. }
        | Case::OrderTests { places, booked, .. }
        | Case::PlanOrder { places, booked, .. }
        | Case::CheckPlan { places, booked, .. }
        | Case::WritePlan { places, booked, .. }
        | Case::Examine { places, booked, .. }
        | Case::ExamineBy { places, booked, .. }
        | Case::MakeState { places, booked, .. } => Some((*places, *booked)),
        _ => None,
    }
}

/// What a case with handed numbers would be refused for if none were booked.
fn refused_unbooked(case: &Case) -> Option<Refusal> {
    fn no<T>(answer: Answer<T>) -> Option<Refusal> {
        answer.err()
    }
    match case {
        Case::WriteJob {
            places,
            curves,
            method,
            wants,
            out_len,
            ..
        } => no(reference::write_job(
            *places, 0, *curves, *method, wants, *out_len,
        )),
        Case::OrderTests {
            places,
            curves,
            method,
            wants,
            order_len,
            ..
        } => no(reference::order_tests(
            *places, 0, *curves, *method, wants, *order_len,
        )),
        Case::PlanOrder {
            places,
            curves,
            wants,
            held,
            order,
            drops_len,
            loads_len,
            ..
        } => no(reference::plan(
            *places, 0, *curves, wants, *held, order, *drops_len, *loads_len,
        )),
        Case::CheckPlan {
            places,
            curves,
            wants,
            held,
            order,
            drops,
            loads,
            end,
            ..
        } => no(reference::check_plan(
            *places, 0, *curves, wants, *held, order, drops, loads, *end,
        )),
        Case::WritePlan {
            places,
            curves,
            wants,
            held,
            order,
            drops,
            loads,
            end,
            out_len,
            ..
        } => no(reference::write_plan(
            *places, 0, *curves, wants, *held, order, drops, loads, *end, *out_len,
        )),
        Case::Examine {
            places,
            curves,
            wants,
            ..
        } => no(reference::examine(*places, 0, *curves, wants)),
        Case::ExamineBy {
            places,
            curves,
            method,
            wants,
            ..
        } => no(reference::examine_by(*places, 0, *curves, *method, wants)),
        Case::MakeState {
            places,
            curves,
            wants,
            held,
            order,
            ..
        } => no(Made::new(*places, 0, *curves, wants, *held, order)),
        _ => None,
    }
}

/// The fault of the booked places and another one, the one that is answered first; a name of this
/// list, of which a function has those that it can refuse.
pub const TWICE: [&str; 20] = [
    "10:0+10:260",
    "10:1+10:260",
    "10:2+10:260",
    "10:3+10:260",
    "10:4+t+10:260",
    "10:0+13",
    "10:1+13",
    "10:2+13",
    "10:3+13",
    "10:4+t+13",
    "10:260+7",
    "10:260+8",
    "10:260+9",
    "10:260+12",
    "10:260+14",
    "13+7",
    "13+8",
    "13+9",
    "13+12",
    "13+14",
];

/// Those of them that a function with such refusals can have.
pub fn twice_names(refusals: &[&str]) -> Vec<&'static str> {
    let can = |name: &&&'static str| {
        let (first, other) = match name.strip_suffix("+10:260") {
            Some(first) => (first, "10:260"),
            None => name.rsplit_once('+').expect("two faults"),
        };
        [first, other].iter().all(|fault| refusals.contains(fault))
    };
    TWICE.iter().filter(can).copied().collect()
}

pub fn twice(case: &Case) -> Option<&'static str> {
    let (places, booked) = handed(case)?;
    let own = match booked {
        64.. => "10:260",
        _ if booked >= places => "13",
        _ => return None,
    };
    let other = refused_unbooked(case)?;
    let name = match (other.number, other.figure) {
        (10, figure @ 0..=3) => format!("10:{figure}+{own}"),
        (10, _) => format!("10:4+t+{own}"),
        (number, _) => format!("{own}+{number}"),
    };
    let known = TWICE.iter().find(|known| **known == name);
    Some(known.unwrap_or_else(|| panic!("{name} is unforeseen")))
}

// ---------------------------------------------------------------------------------------------
// Raw places instead

/// The order of method 3 where the first round joins up to `bound` curves, and heads and tails have
/// up to `run`.
pub fn packages(bound: usize, run: usize, wants: &[u64]) -> Vec<u16> {
    let size = |set: u64| set.count_ones() as usize;
    let mut list: Vec<(u64, Vec<u16>)> = Vec::new();
    for (test, &want) in wants.iter().enumerate() {
        list.push((want, vec![test as u16]));
    }
    let best = |list: &[(u64, Vec<u16>)], bound: usize| {
        let mut best = None;
        for (first, (a, _)) in list.iter().enumerate() {
            for (second, (b, _)) in list.iter().enumerate().skip(first + 1) {
                if size(a | b) <= bound && best.is_none_or(|(most, _, _)| size(a & b) > most) {
                    best = Some((size(a & b), first, second));
                }
            }
        }
        best.map(|(_, first, second)| (first, second))
    };
    let opening = |tests: &mut dyn Iterator<Item = &u16>| {
        let mut all = 0;
        for &test in tests {
            let more = all | wants[test as usize];
            if size(more) > run {
                break;
            }
            all = more;
        }
        all
    };
    while let Some((first, second)) = best(&list, bound) {
        let (curves, tests) = list.remove(second);
        list[first].0 |= curves;
        list[first].1.extend(tests);
    }
    while let Some((first, second)) = best(&list, 64) {
        let (curves, mut tests) = list.remove(second);
        let front = &mut list[first];
        let ends = |tests: &[u16]| (opening(&mut tests.iter()), opening(&mut tests.iter().rev()));
        let ((head, tail), (second_head, second_tail)) = (ends(&front.1), ends(&tests));
        let joints = [
            (tail & second_head, false, false),
            (tail & second_tail, false, true),
            (head & second_head, true, false),
            (head & second_tail, true, true),
        ];
        let mut won = joints[0];
        for joint in joints {
            if size(joint.0) > size(won.0) {
                won = joint;
            }
        }
        if won.1 {
            front.1.reverse();
        }
        if won.2 {
            tests.reverse();
        }
        front.0 |= curves;
        front.1.extend(tests);
    }
    list.into_iter().flat_map(|(_, tests)| tests).collect()
}

/// Whether the raw places give another order by method 3: in the first round alone, in the heads and
/// tails alone, or in both.
pub const ORDERS: [&str; 4] = ["same", "first-round", "heads-and-tails", "both"];

/// Of an order by method 3, which has to be the same when it is made here.
pub fn order_kinds(
    places: usize,
    booked: usize,
    wants: &[u64],
    order: &[u16],
) -> Vec<&'static str> {
    if booked == 0 {
        return vec![];
    }
    let capacity = less_booked(places, booked);
    assert_eq!(packages(capacity, capacity, wants), order, "{wants:x?}");
    let bounds = [(places, capacity), (capacity, places), (places, places)];
    let mut kinds = Vec::new();
    for ((bound, run), name) in bounds.into_iter().zip(&ORDERS[1..]) {
        if packages(bound, run, wants) != order {
            kinds.push(*name);
        }
    }
    if kinds.is_empty() {
        kinds.push(ORDERS[0]);
    }
    kinds
}

/// What 7 would be with the raw places.
pub const WIDE: [&str; 3] = ["same", "none", "another-test"];

/// Of a list with a test that is too wide, the lowest such being `test`.
pub fn wide_kinds(places: usize, booked: usize, wants: &[u64], test: u64) -> Vec<&'static str> {
    match reference::examine_sizes(places, wants) {
        _ if booked == 0 => vec![],
        Ok(()) => vec!["none"],
        Err(no) if no.figure == test => vec!["same"],
        Err(_) => vec!["another-test"],
    }
}

/// What else a plan has with the raw places.
pub const PLANS: [&str; 5] = ["same", "drops", "loads", "end", "count"];

fn plan_kinds_of(ours: &Plan, raw: &Plan) -> Vec<&'static str> {
    let others = [
        ours.drops != raw.drops,
        ours.loads != raw.loads,
        ours.end != raw.end,
        ours.count != raw.count,
    ];
    assert!(raw.count <= ours.count, "more places never mean more loads");
    let mut kinds = Vec::new();
    for (other, name) in others.into_iter().zip(&PLANS[1..]) {
        if other {
            kinds.push(*name);
        }
    }
    if kinds.is_empty() {
        kinds.push(PLANS[0]);
    }
    kinds
}

/// Of our plan for a list, holding and order.
pub fn plan_kinds(
    places: usize,
    booked: usize,
    curves: usize,
    wants: &[u64],
    held: u64,
    order: &[u16],
    ours: &Plan,
) -> Vec<&'static str> {
    if booked == 0 {
        return vec![];
    }
    let tests = wants.len();
    let raw = reference::plan(places, 0, curves, wants, held, order, tests, tests);
    plan_kinds_of(ours, &raw.expect("more places refuse no more"))
}

/// What the check would tell with the raw places: the same; that the plan passes; 12 at a later step;
/// or 12 at the end.
pub const CHECKS: [&str; 4] = ["same", "passes", "later-step", "end"];

/// Of a plan that was checked so, with booked places below the places.
pub fn check_kinds<T>(answer: &Answer<T>, raw: &Answer<u64>, tests: usize) -> Option<&'static str> {
    let no = match answer {
        Ok(_) => {
            assert!(raw.is_ok(), "more places refuse no more");
            return Some("same");
        }
        Err(no) if no.number == 12 => no,
        _ => return None,
    };
    Some(match raw {
        Err(other) if other == no => "same",
        Ok(_) => "passes",
        Err(other) => {
            assert!(other.number == 12 && other.figure > no.figure);
            let at_end = other.figure == tests as u64;
            ["later-step", "end"][at_end as usize]
        }
    })
}

/// What the C call would answer with the raw places: the same bytes, others, and these perhaps by
/// another order.
pub const CALLS: [&str; 3] = ["same", "other-bytes", "other-order"];

/// What the sheet would have with the raw places: always another first line, which is all; or other
/// lines too.
pub const SHEETS: [&str; 2] = ["first-line-alone", "other-lines"];

/// The raw places' order and plan of a planned job.
fn raw_planned(planned: &PlannedJob) -> (Vec<u16>, Plan) {
    let (job, order, _) = planned;
    let order = match job.method {
        3 => packages(job.places, job.places, &job.wants),
        _ => order.clone(),
    };
    let (curves, tests) = (job.curves, job.tests);
    let plan = reference::plan(job.places, 0, curves, &job.wants, 0, &order, tests, tests);
    (order, plan.expect("more places refuse no more"))
}

/// Whether the raw places give another order, and another plan.
fn raw_others(planned: &PlannedJob) -> (bool, bool) {
    let (_, order, ours) = planned;
    let (raw_order, raw) = raw_planned(planned);
    (raw_order != *order, raw != *ours)
}

pub fn call_kinds(planned: &Answer<PlannedJob>) -> Vec<&'static str> {
    let planned = match planned {
        Ok(planned) if planned.0.booked > 0 => planned,
        _ => return vec![],
    };
    match raw_others(planned) {
        (true, _) => vec!["other-order", "other-bytes"],
        (false, true) => vec!["other-bytes"],
        (false, false) => vec!["same"],
    }
}

pub fn sheet_kinds(planned: &Answer<PlannedJob>) -> Vec<&'static str> {
    match planned {
        Ok(planned) if planned.0.booked > 0 => match raw_others(planned) {
            (false, false) => vec!["first-line-alone"],
            _ => vec!["other-lines"],
        },
        _ => vec![],
    }
}

/// Of job bytes whose lowest test that is too wide is `test`.
pub fn wide_job_kinds(job: &[u8], test: u64) -> Vec<&'static str> {
    match reference::read_job(job, usize::MAX) {
        Ok(read) => wide_kinds(read.places, read.booked, &read.wants, test),
        Err(_) => vec![],
    }
}

/// What the audit would tell with the raw places: the same; fewer loads as the fewest; and of a plan
/// that is refused what the check would tell.
pub const AUDITS: [&str; 6] = [
    "same",
    "fewest",
    "refused:same",
    "refused:passes",
    "refused:later-step",
    "refused:end",
];

/// Of job bytes and plan bytes with this audit.
pub fn audit_kinds(
    job: &[u8],
    plan: &[u8],
    audit: &Result<reference::Audit, reference::Refused>,
) -> Option<&'static str> {
    let read = reference::read_job(job, usize::MAX).ok()?;
    if read.booked == 0 {
        return None;
    }
    let steps = reference::read_steps(read.curves, read.tests, plan).ok()?;
    let (order, wants) = (steps.order(), &read.wants);
    Some(match audit {
        Ok(audit) => {
            let fewest = reference::fewest_loads(read.places, 0, wants, 0, &order);
            assert!(fewest <= audit.fewest, "more places never mean more loads");
            ["same", "fewest"][(fewest < audit.fewest) as usize]
        }
        Err(reference::Refused::Job(_)) => return None,
        Err(reference::Refused::Plan(no)) => {
            let raw = reference::check_plan(
                read.places,
                0,
                read.curves,
                wants,
                0,
                &order,
                &steps.drops(),
                &steps.loads(),
                steps.end_set(),
            );
            match check_kinds::<u64>(&Err(*no), &raw, read.tests)? {
                "same" => "refused:same",
                "passes" => "refused:passes",
                "later-step" => "refused:later-step",
                _ => "refused:end",
            }
        }
    })
}
