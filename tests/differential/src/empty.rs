//! Lists without tests (wish 3): cases of them for every function that has to do with a list of
//! tests, and what is faulty in such a case.

use crate::drives;
use crate::generate::{
    self, any_booked, any_number, any_set, lent, with_booked, with_ending, Case, Ending, Job, Size,
    SomePlan, ENDINGS, FUNCTIONS, PLAN_ORDER, WILD, WILD_METHODS,
};
use crate::holding;
use crate::parts;
use crate::random::Random;
use crate::reference;
use crate::states::Any;
use crate::walks;
use crate::withdrawn;

/// Whether the list of a case has no tests. `None`: its function has to do with no list of tests.
pub fn without_tests(case: &Case) -> Option<bool> {
    match case {
        Case::ReadJob { job, .. }
        | Case::Call { job, .. }
        | Case::Sheet { job, .. }
        | Case::Audit { job, .. }
        | Case::SizeTable { job, .. } => Some(gives_no_tests(job)),
        Case::WriteJob { wants, .. }
        | Case::OrderTests { wants, .. }
        | Case::PlanOrder { wants, .. }
        | Case::CheckPlan { wants, .. }
        | Case::WritePlan { wants, .. }
        | Case::Examine { wants, .. }
        | Case::ExamineBy { wants, .. }
        | Case::ExamineSizes { wants, .. }
        | Case::PackageOrder { wants, .. }
        | Case::MakeState { wants, .. }
        | Case::AllSizes { wants, .. }
        | Case::FewestPlaces { wants, .. } => Some(wants.is_empty()),
        Case::Walk { list, .. } => Some(list.wants.is_empty()),
        Case::Look { state } | Case::Commit { state, .. } => Some(Any::new(state).tests == 0),
        Case::ReadPlan { tests, .. }
        | Case::StepBytes { tests, .. }
        | Case::ExamineCounts { tests, .. }
        | Case::ListedOrder { tests, .. } => Some(*tests == 0),
        Case::Reverse { length } => Some(*length == 0),
        Case::ReadGroup { .. }
        | Case::GroupMap { .. }
        | Case::SetLen { .. }
        | Case::PutSet { .. }
        | Case::Sets { .. } => None,
    }
}

/// Whether job bytes give no tests: they have a map, and no such field or one that holds 0.
fn gives_no_tests(job: &[u8]) -> bool {
    match job.first() {
        None => false,
        Some(map) if map & 4 == 0 => true,
        Some(map) => {
            let field = 1 + (map & 3).count_ones() as usize;
            job.get(field..field + 2) == Some(&[0, 0])
        }
    }
}

// ---------------------------------------------------------------------------------------------
// Cases

/// The other fields before the booked places: bit, sound values and others.
const FIELDS: [(u8, &[u8], &[u8]); 3] = [
    (1, &[1, 2, 7, 9, 63, 64], &[0, 8, 65, 255]),
    (2, &[1, 2, 8, 9, 62, 63], &[0, 64, 65, 255]),
    (8, &[1, 2, 3], &[0, 4, 255]),
];

/// Job bytes that give no tests: sound, with faulty fields, with booked places not below the places,
/// cut, with a tests field of 0, with a bit of the map that has no field, with bytes behind, or with
/// two of these faults.
pub fn job_bytes(random: &mut Random) -> Vec<u8> {
    let mut map = random.pick(&[0, 1, 2, 3, 8, 9, 10, 11]);
    if random.chance(1, 2) {
        map |= 16;
    }
    let fault = random.below(10);
    let mut bytes = vec![map];
    for (bit, sound, others) in FIELDS {
        if map & bit != 0 {
            let faulty = fault == 5 && random.chance(2, 3);
            bytes.push(random.pick(if faulty { others } else { sound }));
        }
    }
    if map & 16 != 0 {
        let places = if map & 1 != 0 { bytes[1] } else { 8 };
        let booked = match fault {
            5 if random.chance(1, 2) => random.pick(&[0, 64, 65, 255]),
            4 => random.pick(&[places, places.saturating_add(1), 63]),
            // One place has none to book.
            _ if places > 1 => random.between(1, places as usize - 1) as u8,
            _ => 1,
        };
        bytes.push(booked);
    }
    match fault {
        6 => bytes.truncate(random.between(1, bytes.len())),
        7 => {
            let field = 1 + (map & 3).count_ones() as usize;
            bytes[0] |= 4;
            drop(bytes.splice(field..field, [0, 0]));
        }
        _ => {}
    }
    if random.chance(1, 16) {
        bytes[0] |= 1 << random.between(5, 7);
    }
    if fault > 7 || fault > 3 && random.chance(1, 3) {
        for _ in 0..random.between(1, 3) {
            let byte = random.byte();
            bytes.push(random.pick(&[0, 1, 4, 255, byte]));
        }
    }
    bytes
}

/// Out of range one time in three, at times what an absent field stands for.
fn number(random: &mut Random, low: usize, high: usize, absent: usize, wild: &[usize]) -> usize {
    match random.below(6) {
        0 | 1 => random.pick(wild),
        2 => absent,
        _ => random.between(low, high),
    }
}

/// Places, booked places, curves and method, faulty each for itself. Half of the time none is booked.
fn numbers(random: &mut Random) -> (usize, usize, usize, usize) {
    let places = number(random, 1, 64, 8, &WILD);
    let booked = match random.below(2) {
        0 => 0,
        _ => any_booked(random, places),
    };
    (
        places,
        booked,
        number(random, 1, 64, 64, &WILD),
        match random.below(3) {
            0 => random.pick(&WILD_METHODS),
            _ => random.pick(&withdrawn::HANDED),
        },
    )
}

/// A job within the bounds.
fn job(random: &mut Random) -> Job {
    let capacity = random.between(1, 64);
    let (places, booked) = with_booked(random, capacity);
    Job {
        places,
        booked,
        curves: random.between(1, 64),
        method: random.pick(&withdrawn::HANDED),
        wants: vec![],
    }
}

/// The length of a lent list of which nothing is needed.
fn any_length(random: &mut Random) -> usize {
    random.pick(&[0, 0, 0, 1, 2, 9, 256, 300])
}

/// No entries; one time in three there are some, though none belongs there.
fn entries<T>(random: &mut Random, entry: impl Fn(&mut Random) -> T) -> Vec<T> {
    let number = random.pick(&[0, 0, 0, 0, 1, 3]);
    (0..number).map(|_| entry(random)).collect()
}

fn order(random: &mut Random) -> Vec<u16> {
    entries(random, |random| {
        random.pick(&[0, 0, 1, 2, 255, 256, u16::MAX])
    })
}

/// What is held: half of the time nothing, else some curves of a job with so many, at times with others.
fn held(random: &mut Random, curves: usize) -> u64 {
    if random.chance(1, 2) {
        return 0;
    }
    let job = Job {
        places: 8,
        booked: 0,
        curves,
        method: 0,
        wants: vec![],
    };
    match random.below(3) {
        0 => holding::foreign(random, &job),
        _ => holding::own(random, &job),
    }
}

/// What is held, or anything, or nothing.
fn end(random: &mut Random, held: u64) -> u64 {
    match random.below(8) {
        0 | 1 => any_set(random),
        2 => 0,
        _ => held,
    }
}

fn sets(random: &mut Random) -> Vec<u64> {
    entries(random, |random| match random.below(2) {
        0 => 0,
        _ => any_set(random),
    })
}

/// A job without tests and plan bytes for it: with an end made on purpose, which is all there is; or
/// with tests' steps, or any few bytes.
fn planned(random: &mut Random) -> (Job, Vec<u8>, Option<Ending>) {
    let bytes = match random.below(12) {
        0 => {
            let other = generate::job(random, Size::Tiny);
            let made = generate::some_plan(random, &other);
            made.bytes()
        }
        1 => {
            let length = random.below(6);
            let any = |_| random.pick(&[0, 1, 1, 2, 4, 4, 5, 6, 7, 8, 255]);
            (0..length).map(any).collect()
        }
        _ => {
            let endings: Vec<Ending> = ENDINGS
                .iter()
                .map(|(ending, _)| *ending)
                .filter(|ending| ending.without_tests())
                .collect();
            let ending = random.pick(&endings);
            let nothing = SomePlan {
                order: vec![],
                drops: vec![],
                loads: vec![],
                end: 0,
            };
            loop {
                let mut job = job(random);
                if ending == Ending::All64 {
                    job.curves = 64;
                }
                if let Some((plan, _)) = with_ending(random, &job, &nothing, ending) {
                    return (job, plan, Some(ending));
                }
            }
        }
    };
    (job(random), bytes, None)
}

/// Plan bytes, handed over with a number of curves that is at times out of range.
fn handed_plan(random: &mut Random) -> (usize, Vec<u8>, Option<Ending>) {
    let (job, plan, ending) = planned(random);
    let wild = random.chance(1, 6);
    let curves = if wild { random.pick(&WILD) } else { job.curves };
    (curves, plan, ending)
}

/// A case of this function whose list has no tests. `None`: it has to do with no list of tests.
pub fn case(function: usize, random: &mut Random) -> Option<Case> {
    Some(match FUNCTIONS[function] {
        "read_job" => Case::ReadJob {
            job: job_bytes(random),
            wants_len: any_length(random),
        },
        "write_job" => {
            let (places, booked, curves, method) = numbers(random);
            let written = reference::write_job(places, booked, curves, method, &[], usize::MAX);
            let needed = match written {
                Ok(bytes) => bytes.len(),
                Err(_) => random.between(1, 5),
            };
            Case::WriteJob {
                places,
                booked,
                curves,
                method,
                wants: vec![],
                out_len: lent(random, needed),
            }
        }
        "order_tests" => {
            let (places, booked, curves, method) = numbers(random);
            Case::OrderTests {
                places,
                booked,
                curves,
                method,
                wants: vec![],
                order_len: any_length(random),
            }
        }
        "plan_order" => {
            let (places, booked, curves, _) = numbers(random);
            Case::PlanOrder {
                places,
                booked,
                curves,
                wants: vec![],
                held: held(random, curves),
                order: order(random),
                drops_len: any_length(random),
                loads_len: any_length(random),
            }
        }
        "check_plan" => {
            let (places, booked, curves, _) = numbers(random);
            let held = held(random, curves);
            Case::CheckPlan {
                places,
                booked,
                curves,
                wants: vec![],
                held,
                order: order(random),
                drops: sets(random),
                loads: sets(random),
                end: end(random, held),
            }
        }
        "write_plan" => {
            let (places, booked, curves, _) = numbers(random);
            let held = held(random, curves);
            let end = end(random, held);
            Case::WritePlan {
                places,
                booked,
                curves,
                wants: vec![],
                held,
                order: order(random),
                drops: sets(random),
                loads: sets(random),
                end,
                out_len: match random.below(2) {
                    0 => lent(random, end_length(end)),
                    _ => any_length(random),
                },
            }
        }
        "read_plan" => {
            let (curves, plan, ending) = handed_plan(random);
            Case::ReadPlan {
                curves,
                tests: 0,
                plan,
                ending,
                order_len: any_length(random),
                drops_len: any_length(random),
                loads_len: any_length(random),
            }
        }
        "step_bytes" => {
            let (curves, plan, ending) = handed_plan(random);
            Case::StepBytes {
                curves,
                tests: 0,
                plan,
                ending,
                further: any_number(random),
            }
        }
        "plan" => Case::Call {
            job: job_bytes(random),
            plan_len: any_length(random),
        },
        "sheet" => {
            let job = job_bytes(random);
            let needed = reference::sheet(&job).len();
            Case::Sheet {
                job,
                out_len: lent(random, needed),
            }
        }
        "audit" => {
            let (job, plan, mut ending) = planned(random);
            let mut bytes = withdrawn::old_or_new(random, &job);
            if random.chance(1, 3) {
                bytes = job_bytes(random);
                ending = None; // of another job
            }
            let needed = reference::audit_text(&reference::audit(&bytes, &plan)).len();
            Case::Audit {
                job: bytes,
                plan,
                ending,
                out_len: lent(random, needed),
            }
        }
        "examine" => {
            let (places, booked, curves, _) = numbers(random);
            Case::Examine {
                places,
                booked,
                curves,
                wants: vec![],
            }
        }
        "examine_by" => {
            let (places, booked, curves, method) = numbers(random);
            Case::ExamineBy {
                places,
                booked,
                curves,
                method,
                wants: vec![],
            }
        }
        "examine_counts" => Case::ExamineCounts {
            curves: number(random, 1, 64, 64, &WILD),
            tests: 0,
        },
        "examine_sizes" => Case::ExamineSizes {
            capacity: any_number(random),
            wants: vec![],
        },
        "reverse" => Case::Reverse { length: 0 },
        "listed_order" => Case::ListedOrder {
            tests: 0,
            order_len: any_length(random),
        },
        "package_order" => Case::PackageOrder {
            capacity: any_number(random),
            wants: vec![],
            order_len: any_length(random),
        },
        "make_state" => return case(PLAN_ORDER, random).map(walks::instead_of_planning),
        "all_sizes" => Case::AllSizes {
            curves: number(random, 1, 64, 64, &WILD),
            wants: vec![],
            order: order(random),
        },
        "fewest_places" => Case::FewestPlaces {
            curves: number(random, 1, 64, 64, &WILD),
            wants: vec![],
            order: order(random),
            loads: vec![0, any_number(random), usize::MAX],
        },
        "size_table" => {
            let job = job_bytes(random);
            drives::table_of(random, job)
        }
        _ => return None,
    })
}

// ---------------------------------------------------------------------------------------------
// What is faulty

fn outside(number: usize) -> bool {
    !(1..=64).contains(&number)
}

/// The bytes of a job without tests: the map and the fields that do not hold their absent value.
pub fn job_length(places: usize, booked: usize, curves: usize, method: usize) -> usize {
    let fields = [places != 8, curves != 64, method != 0, booked != 0];
    1 + fields.iter().filter(|stands| **stands).count()
}

/// The bytes of a plan without tests: an end step, if it drops something.
pub fn end_length(end: u64) -> usize {
    match end {
        0 => 0,
        _ => 1 + parts::set_bytes(end).len(),
    }
}

/// All that is faulty in a case without tests, in the sequence of the papers, so that the first is
/// answered: 10 with its figure; 13 wherever booked is not below places; 14 wherever a curve is held
/// that is not below curves; 12 for entries in the drops or loads, or for an end set that is not what
/// is held; the others by their number. Faults in job bytes and what a text tells are left out.
pub fn faults(case: &Case) -> Vec<&'static str> {
    let mut faults = Vec::new();
    let mut note = |faulty: bool, name: &'static str| {
        if faulty {
            faults.push(name);
        }
    };
    match case {
        Case::WriteJob { places, curves, .. }
        | Case::OrderTests { places, curves, .. }
        | Case::PlanOrder { places, curves, .. }
        | Case::CheckPlan { places, curves, .. }
        | Case::WritePlan { places, curves, .. }
        | Case::MakeState { places, curves, .. }
        | Case::Examine { places, curves, .. }
        | Case::ExamineBy { places, curves, .. } => {
            note(outside(*places), "10:0");
            note(outside(*curves), "10:1");
        }
        Case::ReadPlan { curves, .. }
        | Case::StepBytes { curves, .. }
        | Case::ExamineCounts { curves, .. }
        | Case::AllSizes { curves, .. }
        | Case::FewestPlaces { curves, .. } => note(outside(*curves), "10:1"),
        _ => {}
    }
    match case {
        Case::WriteJob { method, .. }
        | Case::OrderTests { method, .. }
        | Case::ExamineBy { method, .. } => {
            note(!withdrawn::HANDED.contains(method), "10:3");
        }
        _ => {}
    }
    match case {
        Case::WriteJob { places, booked, .. }
        | Case::OrderTests { places, booked, .. }
        | Case::PlanOrder { places, booked, .. }
        | Case::CheckPlan { places, booked, .. }
        | Case::WritePlan { places, booked, .. }
        | Case::MakeState { places, booked, .. }
        | Case::Examine { places, booked, .. }
        | Case::ExamineBy { places, booked, .. } => {
            note(*booked > 63, "10:260");
            note(booked >= places, "13");
        }
        _ => {}
    }
    match case {
        Case::PlanOrder {
            curves,
            held,
            order,
            ..
        }
        | Case::CheckPlan {
            curves,
            held,
            order,
            ..
        }
        | Case::WritePlan {
            curves,
            held,
            order,
            ..
        }
        | Case::MakeState {
            curves,
            held,
            order,
            ..
        } => {
            note(!parts::inside(*held, parts::below(*curves)), "14");
            note(!order.is_empty(), "8");
        }
        Case::AllSizes { order, .. } | Case::FewestPlaces { order, .. } => {
            note(!order.is_empty(), "8");
        }
        _ => {}
    }
    match case {
        Case::CheckPlan {
            held,
            drops,
            loads,
            end,
            ..
        }
        | Case::WritePlan {
            held,
            drops,
            loads,
            end,
            ..
        } => {
            note(!(drops.is_empty() && loads.is_empty()), "12:lengths");
            note(end != held, "12:end");
        }
        Case::ReadPlan { curves, plan, .. } | Case::StepBytes { curves, plan, .. } => {
            let read = reference::read_steps((*curves).clamp(1, 64), 0, plan);
            note(read.is_err(), "11");
        }
        Case::WriteJob {
            places,
            booked,
            curves,
            method,
            out_len,
            ..
        } => {
            let needed = job_length(*places, *booked, *curves, *method);
            note(*out_len < needed, "9");
        }
        _ => {}
    }
    if let Case::WritePlan { end, out_len, .. } = case {
        note(*out_len < end_length(*end), "9");
    }
    faults
}
