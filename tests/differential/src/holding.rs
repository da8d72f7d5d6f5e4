//! Holdings (wish 6), what the drive holds at the start: cases with them for the four functions that take
//! one, lists cut halfway among them; what is told of such cases; and where an empty drive would give
//! another answer.

use crate::generate::{
    self, all_curves, any_booked, any_set, around, enough, lent, one_of, permutation, plan_by,
    random_set, some_of, some_plan_from, spoil_end, spoil_order, spoil_plan, spoil_tests,
    spoil_wants, Case, Job, Size, SomePlan, FUNCTIONS, PLAN_ORDER, PLAN_READ, WILD, WILD_BOOKED,
};
use crate::parts;
use crate::random::Random;
use crate::reference::{self, held_behind, Answer, Plan, Refusal, TieRule};
use crate::states::Made;
use crate::walks;

// ---------------------------------------------------------------------------------------------
// Holdings

/// The curves of a job, whatever its number is.
fn all(job: &Job) -> u64 {
    all_curves(job.curves.min(64))
}

/// Places less booked, whatever the numbers are.
fn capacity(job: &Job) -> usize {
    job.places.saturating_sub(job.booked).min(64)
}

/// A holding of the job's own curves: all, one, any; as many as fit, or more; what a test wants, a part
/// of it, or it with others.
pub fn own(random: &mut Random, job: &Job) -> u64 {
    let all = all(job);
    let curves = parts::size(all) as usize;
    if curves == 0 {
        return 0;
    }
    let capacity = capacity(job).min(curves);
    let first = job.wants.first().copied().unwrap_or(0);
    let want = match random.below(2) {
        0 => first,
        _ if job.wants.is_empty() => first,
        _ => random.pick(&job.wants),
    };
    let held = match random.below(10) {
        0 => all,
        1 => one_of(random, all),
        2 => random.word(),
        3 => random_set(random, curves, capacity),
        4 | 5 => {
            let number = random.between(capacity, curves);
            random_set(random, curves, number)
        }
        6 => want,
        7 => some_of(random, want),
        _ => want | some_of(random, all),
    };
    held & all
}

/// Curves that the job lacks, if there are any: the lowest or the highest of these, any one, several, or
/// all of them.
fn lacking(random: &mut Random, job: &Job) -> u64 {
    let lacking = !all(job);
    match random.below(5) {
        0 => lacking & lacking.wrapping_neg(),
        1 => lacking & (1 << 63),
        2 => one_of(random, lacking),
        3 => one_of(random, lacking) | (lacking & random.word()),
        _ => lacking,
    }
}

/// A holding with such curves, alone or beside own ones; or all ones.
pub fn foreign(random: &mut Random, job: &Job) -> u64 {
    let lacking = lacking(random, job);
    match random.below(8) {
        0 => u64::MAX,
        1 | 2 => lacking,
        _ => lacking | own(random, job),
    }
}

/// Nothing, or one of the two, or any.
pub fn any(random: &mut Random, job: &Job) -> u64 {
    match random.below(24) {
        0..=10 => 0,
        11..=21 => own(random, job),
        22 => foreign(random, job),
        _ => any_set(random),
    }
}

// ---------------------------------------------------------------------------------------------
// Lists cut halfway

/// The rest of a list behind some steps of a plan: a list of its own, what is held there, and the plan's
/// steps from there on.
#[derive(Clone, Debug)]
pub struct Rest {
    pub wants: Vec<u64>,
    pub held: u64,
    pub plan: SomePlan,
}

/// The rest behind this many steps, with its tests numbered from 0 in any way.
pub fn rest(random: &mut Random, wants: &[u64], held: u64, made: &SomePlan, steps: usize) -> Rest {
    let numbers = permutation(random, made.order.len() - steps);
    let mut rest = vec![0; numbers.len()];
    for (number, test) in numbers.iter().zip(&made.order[steps..]) {
        rest[*number as usize] = wants[*test as usize];
    }
    Rest {
        wants: rest,
        held: held_behind(held, &made.drops[..steps], &made.loads[..steps]),
        plan: SomePlan {
            order: numbers,
            drops: made.drops[steps..].to_vec(),
            loads: made.loads[steps..].to_vec(),
            end: made.end,
        },
    }
}

/// A job that is the rest of another, its holding and the old plan's steps for it. Often the rest is
/// changed: other wants, more tests or fewer, other booked places.
fn halfway(random: &mut Random) -> (Job, u64, SomePlan) {
    let mut job = small(random);
    let before = match random.below(3) {
        0 => own(random, &job),
        _ => 0,
    };
    let made = some_plan_from(random, &job, before);
    let steps = random.between(0, made.order.len());
    let Rest { wants, held, plan } = rest(random, &job.wants, before, &made, steps);
    job.wants = wants;
    if random.chance(1, 2) {
        return (job, held, plan);
    }
    if random.chance(1, 2) {
        job.booked = random.between(0, job.places - 1);
    }
    if random.chance(1, 2) {
        let number = random.between(0, job.capacity());
        let want = random_set(random, job.curves, number);
        match random.below(3) {
            0 => job.wants.push(want),
            1 => drop(job.wants.pop()),
            _ if job.wants.is_empty() => {}
            _ => {
                let test = random.below(job.wants.len());
                job.wants[test] = want;
            }
        }
    }
    (job, held, plan)
}

/// A small job, at times one of medium size or on the bounds.
fn small(random: &mut Random) -> Job {
    let size = match random.below(64) {
        0..=43 => Size::Tiny,
        44..=61 => Size::Small,
        62 => Size::Medium,
        _ => Size::Edge,
    };
    generate::job(random, size)
}

/// A job, a holding and a plan as long as any: the first step drops curves of all groups as well.
pub fn longest(random: &mut Random) -> (Job, u64, SomePlan) {
    let each = random.between(1, 4);
    let job = generate::longest_job(random, each);
    let mut held = 0;
    for group in 0..8 {
        let of_group = all(&job) & (0xff_u64 << (8 * group)) & !job.wants[0];
        held |= one_of(random, of_group);
    }
    // As many as fit, so that all have to go.
    while parts::size(held) < 8 * each as u64 {
        held |= one_of(random, all(&job) & !job.wants[0]);
    }
    let listed: Vec<u16> = (0..256).collect();
    let plan = plan_by(TieRule::Highest, &job, held, &listed).expect("its tests fit");
    assert_eq!(plan.bytes().len(), PLAN_READ);
    (job, held, plan)
}

// ---------------------------------------------------------------------------------------------
// Cases

/// The fault of a plan that comes from what is held. There may be none.
fn spoil(random: &mut Random, job: &Job, held: u64, made: &mut SomePlan) {
    let tests = made.order.len();
    match random.below(9) {
        // A curve that is held from the start and wanted is loaded again.
        0 => {
            let mut kept = held;
            for step in 0..tests {
                kept &= !made.drops[step];
                let want = job.wants.get(made.order[step] as usize);
                let again = one_of(random, kept & want.copied().unwrap_or(0));
                if again != 0 && random.chance(2, 3) {
                    made.loads[step] |= again;
                    return;
                }
            }
        }
        // What is not held is dropped.
        1 if tests > 0 => {
            let step = match random.below(2) {
                0 => 0,
                _ => random.below(tests),
            };
            let before = held_behind(held, &made.drops[..step], &made.loads[..step]);
            made.drops[step] |= one_of(random, all(job) & !before);
        }
        // The end set without the holding.
        2 => made.end &= !held,
        // A plan for an empty drive, for another holding, or for more places.
        3 | 4 => {
            let other = match random.below(2) {
                0 => 0,
                _ => own(random, job),
            };
            *made = some_plan_from(random, job, other);
        }
        5 => *made = some_plan_from(random, &job.unbooked(), held),
        // The first step drops a curve less.
        6 if tests > 0 => {
            made.drops[0] &= !one_of(random, made.drops[0]);
            made.end = held_behind(held, &made.drops, &made.loads);
        }
        7 => {
            spoil_plan(random, &mut made.drops, &mut made.loads, job.curves);
            if random.chance(1, 2) {
                made.end = held_behind(held, &made.drops, &made.loads);
            }
        }
        _ => spoil_end(random, &mut made.end, job.curves),
    }
}

/// A fault in the numbers or the list that are handed over.
fn spoil_job(random: &mut Random, job: &mut Job) {
    match random.below(8) {
        0 => job.places = random.pick(&WILD),
        1 => job.curves = random.pick(&[0, 0, 65, usize::MAX]),
        2 => spoil_tests(random, &mut job.wants),
        3 => spoil_wants(random, job.curves, &mut job.wants),
        4 => job.booked = random.pick(&WILD_BOOKED),
        5 => job.booked = random.pick(&[job.places, job.places.saturating_add(1)]),
        6 => job.booked = any_booked(random, job.places),
        // Too wide.
        _ if job.wants.is_empty() => {}
        _ => {
            let test = random.below(job.wants.len());
            job.wants[test] = all(job);
        }
    }
}

/// A job, a holding and a plan for them, sound or not.
fn planned(random: &mut Random) -> (Job, u64, SomePlan) {
    let (mut job, mut held, mut made) = match random.below(3) {
        0 => halfway(random),
        _ => {
            let job = small(random);
            let held = own(random, &job);
            let made = some_plan_from(random, &job, held);
            (job, held, made)
        }
    };
    if random.chance(1, 3) {
        // A new plan for what may have been changed.
        made = some_plan_from(random, &job, held);
    } else if random.chance(1, 2) {
        spoil(random, &job, held, &mut made);
    }
    match random.below(6) {
        0 => held = foreign(random, &job),
        1 => held |= lacking(random, &job),
        _ => {}
    }
    if random.chance(1, 4) {
        spoil_job(random, &mut job);
    }
    if random.chance(1, 4) {
        spoil_order(random, &mut made.order, job.wants.len());
    }
    (job, held, made)
}

/// A case with a holding, about one time in three. `None`: another one, or the function takes none.
pub fn case(function: usize, random: &mut Random) -> Option<Case> {
    let name = FUNCTIONS[function];
    if name == "make_state" {
        return case(PLAN_ORDER, random).map(walks::instead_of_planning);
    }
    if !["plan_order", "check_plan", "write_plan"].contains(&name) || !random.chance(1, 3) {
        return None;
    }
    if name == "write_plan" && random.chance(1, 96) {
        let (job, held, made) = longest(random);
        return Some(Case::WritePlan {
            places: job.places,
            booked: job.booked,
            curves: job.curves,
            wants: job.wants,
            held,
            order: made.order,
            drops: made.drops,
            loads: made.loads,
            end: made.end,
            out_len: around(random, PLAN_READ),
        });
    }
    let (job, held, made) = planned(random);
    let Job {
        places,
        booked,
        curves,
        wants,
        ..
    } = job;
    let SomePlan {
        order,
        drops,
        loads,
        end,
    } = made;
    Some(match name {
        "plan_order" => {
            let tests = wants.len();
            let (drops_len, loads_len) = match random.below(6) {
                0 => (lent(random, tests), lent(random, tests)),
                1 => (enough(random, tests), tests.saturating_sub(1)),
                _ => (enough(random, tests), enough(random, tests)),
            };
            Case::PlanOrder {
                places,
                booked,
                curves,
                wants,
                held,
                order,
                drops_len,
                loads_len,
            }
        }
        "check_plan" => Case::CheckPlan {
            places,
            booked,
            curves,
            wants,
            held,
            order,
            drops,
            loads,
            end,
        },
        _ => {
            let written = (drops.len(), loads.len()) == (order.len(), order.len());
            let needed = match written {
                true => reference::plan_bytes(&order, &drops, &loads, end).len(),
                false => 20,
            };
            Case::WritePlan {
                places,
                booked,
                curves,
                wants,
                held,
                order,
                drops,
                loads,
                end,
                out_len: lent(random, needed),
            }
        }
    })
}

// ---------------------------------------------------------------------------------------------
// What is told of them

/// What a case hands over that its holding is told by.
struct Handed<'a> {
    places: usize,
    booked: usize,
    curves: usize,
    wants: &'a [u64],
    held: u64,
    order: &'a [u16],
}

fn handed(case: &Case) -> Option<Handed<'_>> {
    match case {
        Case::PlanOrder {
            places,
            booked,
            curves,
            wants,
            held,
            order,
            ..
        }
        | Case::CheckPlan {
            places,
            booked,
            curves,
            wants,
            held,
            order,
            ..
        }
        | Case::WritePlan {
            places,
            booked,
            curves,
            wants,
            held,
            order,
            ..
        }
        | Case::MakeState {
            places,
            booked,
            curves,
            wants,
            held,
            order,
        } => Some(Handed {
            places: *places,
            booked: *booked,
            curves: *curves,
            wants,
            held: *held,
            order,
        }),
        _ => None,
    }
}

/// The kinds of a holding, of a case whose numbers get no 10 and no 13. Those of the job's own curves by
/// how many are held and what the first test wants of them; those that get 14 by the curves that the
/// job lacks.
pub const HOLDINGS: [&str; 17] = [
    "empty",
    "below-capacity",
    "capacity",
    "above-capacity",
    "above-capacity:answered",
    "all-curves",
    "all-64",
    "first-wants",
    "first-wants:in-part",
    "first-wants:and-others",
    "none-of-first-wants",
    "14:one",
    "14:several",
    "14:lowest-lacking",
    "14:only-63",
    "14:beside-own",
    "14:all-ones",
];

/// Whether or not the case is answered without a refusal.
pub fn kinds(case: &Case, answered: bool) -> Vec<&'static str> {
    let Some(handed) = handed(case) else {
        return vec![];
    };
    let Handed {
        places,
        booked,
        curves,
        wants,
        held,
        order,
    } = handed;
    if reference::examine(places, booked, curves, wants).is_err() {
        return vec![];
    }
    let mut kinds = Vec::new();
    let mut note = |told: bool, name: &'static str| {
        if told {
            kinds.push(name);
        }
    };
    let all = all_curves(curves);
    let lacking = parts::without(held, all);
    if lacking != 0 {
        note(parts::size(lacking) == 1, "14:one");
        note(parts::size(lacking) > 1, "14:several");
        note(parts::has(lacking, curves), "14:lowest-lacking");
        note(curves < 63 && lacking == 1 << 63, "14:only-63");
        note(held != lacking, "14:beside-own");
        note(held == u64::MAX, "14:all-ones");
        return kinds;
    }
    let capacity = (places - booked) as u64;
    let number = parts::size(held);
    note(held == 0, "empty");
    note(held != 0 && number < capacity, "below-capacity");
    note(number == capacity, "capacity");
    note(number > capacity, "above-capacity");
    note(number > capacity && answered, "above-capacity:answered");
    note(held == all, "all-curves");
    note(held == u64::MAX, "all-64");
    let first = order.first().and_then(|&test| wants.get(test as usize));
    if let (Some(&first), true) = (first, held != 0) {
        let (both, others) = (parts::common(held, first), parts::without(held, first));
        note(held == first, "first-wants");
        note(held != first && others == 0, "first-wants:in-part");
        note(both != 0 && others != 0, "first-wants:and-others");
        note(both == 0, "none-of-first-wants");
    }
    kinds
}

/// The answer of a case if this were held, whatever the result.
fn refused_from(case: &Case, held: u64) -> Option<Refusal> {
    fn no<T>(answer: Answer<T>) -> Option<Refusal> {
        answer.err()
    }
    match case {
        Case::PlanOrder {
            places,
            booked,
            curves,
            wants,
            order,
            drops_len,
            loads_len,
            ..
        } => no(reference::plan(
            *places, *booked, *curves, wants, held, order, *drops_len, *loads_len,
        )),
        Case::CheckPlan {
            places,
            booked,
            curves,
            wants,
            order,
            drops,
            loads,
            end,
            ..
        } => no(reference::check_plan(
            *places, *booked, *curves, wants, held, order, drops, loads, *end,
        )),
        Case::WritePlan {
            places,
            booked,
            curves,
            wants,
            order,
            drops,
            loads,
            end,
            out_len,
            ..
        } => no(reference::write_plan(
            *places, *booked, *curves, wants, held, order, drops, loads, *end, *out_len,
        )),
        Case::MakeState {
            places,
            booked,
            curves,
            wants,
            order,
            ..
        } => no(Made::new(*places, *booked, *curves, wants, held, order)),
        _ => None,
    }
}

/// 14 alone, or with another fault, the one that is answered first; of 12 which rule is broken. A function
/// has those that it can refuse.
pub const TWICE: [&str; 13] = [
    "14-alone",
    "10:0+14",
    "10:1+14",
    "10:2+14",
    "10:4+t+14",
    "10:260+14",
    "13+14",
    "14+8",
    "14+7",
    "14+12:lengths",
    "14+12:step",
    "14+12:end",
    "14+9",
];

/// Of these what a function has.
pub fn twice_names(function: &str) -> Vec<&'static str> {
    let has = |name: &&&'static str| match function {
        "plan_order" => !name.contains("12:"),
        "make_state" => !name.contains("12:") && **name != "14+9",
        "check_plan" => !["14+7", "14+9"].contains(name),
        _ => **name != "14+7",
    };
    TWICE.iter().filter(has).copied().collect()
}

/// The other fault is the one that is answered if only the own curves are held.
pub fn twice(case: &Case) -> Option<&'static str> {
    let Handed {
        curves,
        wants,
        held,
        ..
    } = handed(case)?;
    let own = parts::common(held, parts::below(curves));
    if own == held {
        return None;
    }
    let Some(other) = refused_from(case, own) else {
        return Some("14-alone");
    };
    let lengths = match case {
        Case::CheckPlan { drops, loads, .. } | Case::WritePlan { drops, loads, .. } => {
            (drops.len(), loads.len())
        }
        _ => (0, 0),
    };
    let tests = wants.len();
    let name = match (other.number, other.figure) {
        (10, figure @ (0..=3 | 260)) => format!("10:{figure}+14"),
        (10, _) => "10:4+t+14".to_string(),
        (13, _) => "13+14".to_string(),
        (12, _) if lengths != (tests, tests) => "14+12:lengths".to_string(),
        (12, figure) if figure < tests as u64 => "14+12:step".to_string(),
        (12, _) => "14+12:end".to_string(),
        (number, _) => format!("14+{number}"),
    };
    let known = TWICE.iter().find(|known| **known == name);
    Some(known.unwrap_or_else(|| panic!("{name} is unforeseen")))
}

// ---------------------------------------------------------------------------------------------
// An empty drive instead

/// What else the plan from an empty drive has, which is always another; or that 14 is refused, or the same
/// as from there.
pub const PLANS: [&str; 7] = [
    "another-plan",
    "drops",
    "loads",
    "end",
    "count",
    "14",
    "same-refusal",
];

/// Of our plan from a holding, or the refusal, beside that from an empty drive.
pub fn plan_kinds(answer: &Answer<Plan>, empty: &Answer<Plan>) -> Vec<&'static str> {
    let (ours, other) = match (answer, empty) {
        (Ok(ours), Ok(other)) => (ours, other),
        (Err(no), _) if no.number == 14 => return vec!["14"],
        _ => {
            assert_eq!(answer, empty, "a holding makes no plan missing");
            return vec!["same-refusal"];
        }
    };
    assert!(ours.count <= other.count, "a holding needs no more loads");
    let others = [
        ours.drops != other.drops,
        ours.loads != other.loads,
        ours.end != other.end,
        ours.count != other.count,
    ];
    let mut kinds = vec!["another-plan"];
    for (other, name) in others.into_iter().zip(&PLANS[1..]) {
        if other {
            kinds.push(*name);
        }
    }
    assert!(kinds.len() > 1, "no plan passes from two holdings");
    kinds
}

/// What a check tells from an empty drive: the same; that the plan passes; that it fails, though it passes
/// from the holding; 12 with another figure; or not 14.
pub const CHECKS: [&str; 5] = ["same", "passes", "fails", "another-step", "14"];

/// Of a plan checked, or written, from a holding.
pub fn check_kind<T>(answer: &Answer<T>, empty: &Answer<T>) -> &'static str {
    // 9 is behind the check.
    let passes = |answer: &Answer<T>| match answer {
        Ok(_) => true,
        Err(no) => no.number == 9,
    };
    match (answer, empty) {
        (Err(no), _) if no.number == 14 => "14",
        _ if passes(answer) => {
            assert!(!passes(empty), "no plan passes from two holdings");
            "fails"
        }
        _ if passes(empty) => "passes",
        (Err(no), Err(other)) if no != other => {
            assert_eq!((no.number, other.number), (12, 12));
            "another-step"
        }
        _ => "same",
    }
}

/// What is told of a plan beside a holding that is not empty: that it passes; that it would from an empty
/// drive, or from another holding; that a curve held from the start and wanted is loaded again; that the
/// first step drops what is not held, or leaves more of the holding than fits; that its end set leaves out
/// what is still held of the holding.
pub const SORTS: [&str; 7] = [
    "passes",
    "of-an-empty-drive",
    "of-another-holding",
    "loaded-again",
    "dropped-not-held",
    "left-above-capacity",
    "end-without-holding",
];

/// The only holding from which steps with this end set may pass: the curves that are dropped before they
/// are loaded, and those of the end set that no step names.
pub fn holding_of(drops: &[u64], loads: &[u64], end: u64) -> u64 {
    let (mut holding, mut named) = (0, 0);
    for (&dropped, &loaded) in drops.iter().zip(loads) {
        holding |= dropped & !named;
        named |= dropped | loaded;
    }
    holding | (end & !named)
}

/// Of a case with a plan, which was refused or not.
pub fn sorts(case: &Case, refused: Option<Refusal>) -> Vec<&'static str> {
    let (Case::CheckPlan {
        drops, loads, end, ..
    }
    | Case::WritePlan {
        drops, loads, end, ..
    }) = case
    else {
        return vec![];
    };
    let Some(Handed {
        places,
        booked,
        curves,
        wants,
        held,
        order,
    }) = handed(case)
    else {
        return vec![];
    };
    let tests = wants.len();
    let check = |held: u64| {
        reference::check_plan(
            places, booked, curves, wants, held, order, drops, loads, *end,
        )
    };
    let step = match refused {
        _ if held == 0 => return vec![],
        None => return vec!["passes"],
        Some(no) if no.number == 12 => no.figure as usize,
        _ => return vec![],
    };
    if (drops.len(), loads.len()) != (tests, tests) {
        return vec![];
    }
    let mut kinds = Vec::new();
    let mut note = |told: bool, name: &'static str| {
        if told {
            kinds.push(name);
        }
    };
    let from = holding_of(drops, loads, *end);
    if from != held && check(from).is_ok() {
        note(from == 0, "of-an-empty-drive");
        note(from != 0, "of-another-holding");
    }
    if step == tests {
        let behind = held_behind(held, drops, loads);
        let still = parts::common(behind, held);
        let without = parts::without(behind, held);
        note(still != 0 && *end == without, "end-without-holding");
        return kinds;
    }
    let before = held_behind(held, &drops[..step], &loads[..step]);
    let left = parts::without(before, drops[step]);
    let want = wants[order[step] as usize];
    let from_start = drops[..step].iter().fold(held, |kept, drops| kept & !drops);
    let again = left & loads[step] & want & from_start;
    note(again != 0, "loaded-again");
    if step == 0 {
        let capacity = (places - booked) as u64;
        note(drops[0] & !held != 0, "dropped-not-held");
        note(parts::size(left) > capacity, "left-above-capacity");
    }
    kinds
}
