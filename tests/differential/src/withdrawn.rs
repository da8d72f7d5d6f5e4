//! The withdrawn method 2 (wish 8): job bytes with its byte, which read as method 1, and cases that hand
//! it over, which are refused; and what is told of these.

use crate::booked;
use crate::empty;
use crate::generate::{
    self, all_curves, any_booked, damage, enough, job_bytes, lent, spoil_tests, spoil_wants, Case,
    Job, Size, FUNCTIONS, JOB, PLAN_MADE, SHEET, WILD, WILD_BOOKED, WILD_METHODS,
};
use crate::random::Random;
use crate::reference::{self, less_booked, Answer, Refusal};

/// The methods that may be handed over.
pub const HANDED: [usize; 3] = [0, 1, 3];

// ---------------------------------------------------------------------------------------------
// The method byte

/// Where the method byte stands in job bytes, whatever the fields before it hold. `None`: the map has
/// none, or the bytes end before it.
pub fn field(job: &[u8]) -> Option<usize> {
    let map = *job.first()?;
    let before = [(1, 1), (2, 1), (4, 2)];
    let lengths = before.map(|(bit, length)| if map & bit != 0 { length } else { 0 });
    let at = 1 + lengths.iter().sum::<usize>();
    (map & 8 != 0 && at < job.len()).then_some(at)
}

/// Where the method byte stands, if it is 2.
pub fn field_of_2(job: &[u8]) -> Option<usize> {
    field(job).filter(|&at| job[at] == 2)
}

/// What job bytes that read are written back as: the same, but 1 for a method byte of 2.
pub fn written_back(job: &[u8]) -> Vec<u8> {
    let mut bytes = job.to_vec();
    if let Some(at) = field_of_2(job) {
        bytes[at] = 1;
    }
    bytes
}

/// The same bytes with a method byte of 2, if it is 1.
pub fn with_2(mut job: Vec<u8>) -> Vec<u8> {
    if let Some(at) = field(&job).filter(|&at| job[at] == 1) {
        job[at] = 2;
    }
    job
}

/// The bytes of a job; half of those of method 1 are as old files have them, with 2.
pub fn old_or_new(random: &mut Random, job: &Job) -> Vec<u8> {
    let bytes = job_bytes(job);
    match random.below(2) {
        0 => with_2(bytes),
        _ => bytes,
    }
}

// ---------------------------------------------------------------------------------------------
// Cases

/// A job of method 1.
fn job(random: &mut Random) -> Job {
    let job = match random.below(8) {
        0 => generate::flipping_job(random),
        1 | 2 => booked::job(random),
        3 => generate::job(random, Size::Small),
        _ => generate::job(random, Size::Tiny),
    };
    Job { method: 1, ..job }
}

/// Job bytes with a method byte of 2: sound, or with a fault before it, behind it, or both. At times
/// without tests, or the longest.
pub fn any_bytes(random: &mut Random) -> Vec<u8> {
    let mut bytes = match random.below(48) {
        0 => with_2(job_bytes(&booked::longest_job(random))),
        1..=5 => loop {
            let bytes = with_2(empty::job_bytes(random));
            if field_of_2(&bytes).is_some() {
                return bytes;
            }
        },
        _ => with_2(job_bytes(&job(random))),
    };
    let at = field_of_2(&bytes).expect("its byte is there");
    match random.below(16) {
        0 => spoil_before(random, &mut bytes),
        1 => {
            spoil_before(random, &mut bytes);
            spoil_behind(random, &mut bytes, at);
        }
        2..=4 => spoil_behind(random, &mut bytes, at),
        5 => {
            spoil_behind(random, &mut bytes, at);
            spoil_behind(random, &mut bytes, at);
        }
        6 => damage(random, &mut bytes),
        7 => {
            damage(random, &mut bytes);
            damage(random, &mut bytes);
        }
        _ => {}
    }
    bytes
}

/// A bit of the map that has no field, or a field before the method that is out of range or holds its
/// absent value.
fn spoil_before(random: &mut Random, bytes: &mut [u8]) {
    let map = bytes[0];
    let curves = 1 + (map & 1) as usize;
    let tests = curves + (map >> 1 & 1) as usize;
    match random.below(4) {
        0 if map & 1 != 0 => bytes[1] = random.pick(&[0, 8, 65, 255]),
        1 if map & 2 != 0 => bytes[curves] = random.pick(&[0, 64, 65, 255]),
        2 if map & 4 != 0 => {
            let value: [u8; 2] = random.pick(&[[0, 0], [1, 1], [255, 255]]);
            bytes[tests..tests + 2].copy_from_slice(&value);
        }
        _ => bytes[0] |= 1 << random.between(5, 7),
    }
}

/// A fault behind the method byte, which stands there: cut, with another byte of booked places or a
/// faulty record at the front, or with bytes behind the last.
fn spoil_behind(random: &mut Random, bytes: &mut Vec<u8>, at: usize) {
    let booked = (bytes[0] >> 4 & 1) as usize;
    match random.below(5) {
        0 => {
            let length = random.between(at + 1, bytes.len());
            bytes.truncate(length);
        }
        1 | 2 if booked == 1 && at + 1 < bytes.len() => {
            let places = if bytes[0] & 1 != 0 { bytes[1] } else { 8 };
            bytes[at + 1] = random.pick(&[places, places, 63, 0, 64, 255]);
        }
        1 | 2 if bytes[0] & 4 != 0 => {
            let front = (at + 1 + booked).min(bytes.len());
            let behind = (front + 1).min(bytes.len());
            let record: &[u8] = random.pick(&[&[1, 0], &[0x80, 0], &[0x80, 0x80], &[3, 1, 0]]);
            drop(bytes.splice(front..behind, record.iter().copied()));
        }
        _ => bytes.push(random.pick(&[0, 1, 2, 255])),
    }
}

/// A job that hands method 2 over, or at times another number that is none of the methods'; mostly with
/// a second fault.
fn spoilt_job(random: &mut Random) -> Job {
    let mut job = job(random);
    job.method = match random.below(6) {
        0 => random.pick(&WILD_METHODS),
        _ => 2,
    };
    match random.below(12) {
        0 => job.places = random.pick(&WILD),
        1 => job.curves = random.pick(&WILD),
        2 => spoil_tests(random, &mut job.wants),
        3 | 4 => spoil_wants(random, job.curves, &mut job.wants),
        5 => job.booked = random.pick(&WILD_BOOKED),
        6 => job.booked = random.between(job.places.min(63), 63),
        7 => job.booked = any_booked(random, job.places),
        8 | 9 if !job.wants.is_empty() => {
            // Too wide for one place, unless there is one curve.
            (job.places, job.booked) = (1, 0);
            let test = random.below(job.wants.len());
            job.wants[test] = all_curves(job.curves);
        }
        _ => {}
    }
    job
}

/// A case with the withdrawn method. `None`: the function takes neither job bytes nor a method.
pub fn case(function: usize, random: &mut Random) -> Option<Case> {
    Some(match FUNCTIONS[function] {
        "read_job" => {
            let job = any_bytes(random);
            let tests = reference::read_job(&job, usize::MAX).map_or(4, |read| read.tests);
            Case::ReadJob {
                job,
                wants_len: lent(random, tests),
            }
        }
        "write_job" => {
            let job = spoilt_job(random);
            Case::WriteJob {
                places: job.places,
                booked: job.booked,
                curves: job.curves,
                method: job.method,
                wants: job.wants,
                out_len: random.pick(&[JOB, JOB, JOB, 7, 0]),
            }
        }
        "order_tests" => {
            let job = spoilt_job(random);
            let order_len = match random.below(3) {
                0 => lent(random, job.wants.len()),
                _ => enough(random, job.wants.len()),
            };
            Case::OrderTests {
                places: job.places,
                booked: job.booked,
                curves: job.curves,
                method: job.method,
                wants: job.wants,
                order_len,
            }
        }
        "examine_by" => {
            let job = spoilt_job(random);
            Case::ExamineBy {
                places: job.places,
                booked: job.booked,
                curves: job.curves,
                method: job.method,
                wants: job.wants,
            }
        }
        "plan" => Case::Call {
            job: any_bytes(random),
            plan_len: random.pick(&[PLAN_MADE, PLAN_MADE, PLAN_MADE, 12]),
        },
        "sheet" => Case::Sheet {
            job: any_bytes(random),
            out_len: random.pick(&[SHEET, SHEET, SHEET, 14]),
        },
        "audit" => {
            let job = any_bytes(random);
            // Its own plan, perhaps damaged.
            let mut plan = reference::call_bytes(&job, usize::MAX).unwrap_or(vec![4, 0]);
            if random.chance(1, 6) {
                damage(random, &mut plan);
            }
            Case::Audit {
                job,
                plan,
                ending: None,
                out_len: random.pick(&[128, 128, 128, 14]),
            }
        }
        _ => return None,
    })
}

// ---------------------------------------------------------------------------------------------
// Job bytes

/// What is told of job bytes with a method byte of 2: that they read, and of which kind; the refusal, that
/// of a field by where it stands; and that there is a fault on each side of the byte, or one of the booked
/// places beside another behind it.
pub const JOBS: [&str; 14] = [
    "done",
    "done:without-tests",
    "done:booked",
    "done:2311-bytes",
    "refused",
    "refused:1",
    "refused:2-before",
    "refused:2-behind",
    "refused:3",
    "refused:4",
    "refused:6",
    "refused:13",
    "two-faults:around",
    "two-faults:behind",
];

/// What is told where the wants are lent too few entries.
pub const SHORT: &str = "refused:9";

/// The names of what is told of these bytes. With a method byte of 1 the answer has to be the same.
pub fn job_kinds(job: &[u8], wants_len: usize) -> Vec<&'static str> {
    let Some(at) = field_of_2(job) else {
        return vec![];
    };
    let answer = reference::read_job(job, wants_len);
    let with_1 = reference::read_job(&written_back(job), wants_len);
    assert_eq!(answer, with_1, "{job:x?}");
    let no = match answer {
        Ok(read) => {
            assert_eq!(read.method, 1);
            let mut kinds = vec!["done"];
            if read.tests == 0 {
                kinds.push("done:without-tests");
            }
            if read.booked > 0 {
                kinds.push("done:booked");
            }
            if job.len() == JOB {
                kinds.push("done:2311-bytes");
            }
            return kinds;
        }
        Err(no) => no,
    };
    let before = no.figure < at as u64;
    let name = match no.number {
        1 => "refused:1",
        2 if before => "refused:2-before",
        2 => "refused:2-behind",
        3 => "refused:3",
        4 => "refused:4",
        6 => "refused:6",
        13 => "refused:13",
        9 => SHORT,
        _ => panic!("{no:?} is unforeseen: {job:x?}"),
    };
    let mut kinds = vec!["refused", name];
    match no.number {
        2 if before && faulty_behind(job, at, true) => kinds.push("two-faults:around"),
        2 | 13 if !before && faulty_behind(job, at, false) => kinds.push("two-faults:behind"),
        _ => {}
    }
    kinds
}

/// Whether job bytes are faulty behind the method byte, at this offset, taken for themselves: with 64
/// places and curves, and with the booked places or without. Records are only read where the number of
/// tests is sound.
fn faulty_behind(job: &[u8], at: usize, with_booked: bool) -> bool {
    let map = job[0];
    let mut bytes = vec![1 | map & 12, 64];
    if map & 4 != 0 {
        let tests = job[at - 2] as usize + 256 * job[at - 1] as usize;
        if !(1..=256).contains(&tests) {
            return false;
        }
        bytes.extend(&job[at - 2..at]);
    }
    bytes.push(1);
    let mut rest = &job[at + 1..];
    if map & 16 != 0 {
        if with_booked {
            bytes[0] |= 16;
        } else {
            rest = &rest[1..];
        }
    }
    bytes.extend(rest);
    reference::read_job(&bytes, usize::MAX).is_err()
}

/// What comes of a call, sheet or audit of such job bytes: done; what is refused, the job when it is read,
/// a test that is too wide, or the plan; or a buffer that is too short.
pub const CALLS: [&str; 4] = ["done", "refused:job", "refused:7", "short"];
pub const AUDITS: [&str; 4] = ["done", "refused:job", "refused:plan", "short"];

/// By the outcome's name.
pub fn outcome_kind(job: &[u8], outcome: &str) -> Option<&'static str> {
    field_of_2(job)?;
    Some(match outcome {
        "ok" | "ok:more" => "done",
        "7" => "refused:7",
        _ if outcome.starts_with("plan:") => "refused:plan",
        _ if outcome == "9" || outcome.starts_with("9:") => "short",
        _ => "refused:job",
    })
}

/// Whether the order of method 1 is another than that of method 0, of method 3, or of each.
pub const ORDERS: [&str; 4] = ["same", "other-than-0", "other-than-3", "other-than-both"];

/// Of job bytes with a method byte of 2 that are ordered so.
pub fn order_kinds(job: &[u8], order: &[u16]) -> Vec<&'static str> {
    let read = match reference::read_job(job, usize::MAX) {
        Ok(read) if field_of_2(job).is_some() => read,
        _ => return vec![],
    };
    let capacity = less_booked(read.places, read.booked);
    let listed = order.iter().zip(0..).all(|(test, at)| *test == at);
    let packed = booked::packages(capacity, capacity, &read.wants) == order;
    match (listed, packed) {
        (true, true) => vec!["same"],
        (false, true) => vec!["other-than-0"],
        (true, false) => vec!["other-than-3"],
        (false, false) => vec!["other-than-0", "other-than-3", "other-than-both"],
    }
}

/// Whether an audited plan runs the tests in the order of method 1.
pub const AUDITED: [&str; 2] = ["plan-by-1", "plan-by-another"];

/// The order of method 1 for job bytes with a method byte of 2 that are audited, and whether the plan
/// bytes have it.
pub fn audited_order(job: &[u8], plan: &[u8]) -> Option<(Vec<u16>, &'static str)> {
    field_of_2(job)?;
    let read = reference::read_job(job, usize::MAX).ok()?;
    let steps = reference::read_steps(read.curves, read.tests, plan).ok()?;
    let (places, booked, curves) = (read.places, read.booked, read.curves);
    let order = reference::order_tests(places, booked, curves, 1, &read.wants, read.tests).ok()?;
    let kind = AUDITED[(steps.order() != order) as usize];
    Some((order, kind))
}

// ---------------------------------------------------------------------------------------------
// Handed methods

/// A handed number of a method.
pub const NUMBERS: [&str; 6] = ["0", "1", "2", "3", "4-to-255", "256-and-more"];

/// The method that a case hands over.
pub fn handed(case: &Case) -> Option<usize> {
    match case {
        Case::WriteJob { method, .. }
        | Case::OrderTests { method, .. }
        | Case::ExamineBy { method, .. } => Some(*method),
        _ => None,
    }
}

pub fn number_kind(method: usize) -> &'static str {
    match method {
        0..=3 => NUMBERS[method],
        4..=255 => NUMBERS[4],
        _ => NUMBERS[5],
    }
}

/// What a case would be refused for if it handed over this method.
fn refused_by(case: &Case, method: usize) -> Option<Refusal> {
    fn no<T>(answer: Answer<T>) -> Option<Refusal> {
        answer.err()
    }
    match case {
        Case::WriteJob {
            places,
            booked,
            curves,
            wants,
            out_len,
            ..
        } => no(reference::write_job(
            *places, *booked, *curves, method, wants, *out_len,
        )),
        Case::OrderTests {
            places,
            booked,
            curves,
            wants,
            order_len,
            ..
        } => no(reference::order_tests(
            *places, *booked, *curves, method, wants, *order_len,
        )),
        Case::ExamineBy {
            places,
            booked,
            curves,
            wants,
            ..
        } => no(reference::examine_by(
            *places, *booked, *curves, method, wants,
        )),
        _ => None,
    }
}

/// What is told of a handed 2: that it is refused 10 at 3, with no other fault or before another one, and
/// that another one is refused before it. A function has those that it can refuse.
pub const TWICE: [&str; 10] = [
    "10:3",
    "10:3-alone",
    "10:0+10:3",
    "10:1+10:3",
    "10:2+10:3",
    "10:3+10:4+t",
    "10:3+10:260",
    "10:3+13",
    "10:3+7",
    "10:3+9",
];

/// Those of them that a function with such refusals behind 13 can have.
pub fn twice_names(refusals: &[&str]) -> Vec<&'static str> {
    let can = |name: &&&'static str| match name.strip_prefix("10:3+") {
        Some(other @ ("7" | "9")) => refusals.contains(&other),
        _ => true,
    };
    TWICE.iter().filter(can).copied().collect()
}

pub fn twice(case: &Case) -> Vec<&'static str> {
    if handed(case) != Some(2) {
        return vec![];
    }
    let own = reference::refusal(10, 3);
    let answer = refused_by(case, 2).expect("it is refused");
    // As listed, which refuses all else alike; a written method has a byte, though.
    let instead = matches!(case, Case::WriteJob { .. }) as usize;
    let Some(other) = refused_by(case, instead) else {
        assert_eq!(answer, own);
        return vec!["10:3", "10:3-alone"];
    };
    let before = other.number == 10 && other.figure < 3;
    assert_eq!(answer, if before { other } else { own });
    let name = match (other.number, other.figure) {
        (10, figure) if before => format!("10:{figure}+10:3"),
        (10, 260) => "10:3+10:260".to_string(),
        (10, _) => "10:3+10:4+t".to_string(),
        (number, _) => format!("10:3+{number}"),
    };
    let known = TWICE.iter().find(|known| **known == name);
    let known = *known.unwrap_or_else(|| panic!("{name} is unforeseen"));
    match before {
        true => vec![known],
        false => vec!["10:3", known],
    }
}
