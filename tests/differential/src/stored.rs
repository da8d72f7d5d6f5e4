//! The stored cases of the sheet, audit and sizes programs, as the papers have them. None prints the number
//! of the withdrawn refusal.

use crate::generate::{JOB, PLAN_MADE, PLAN_READ, SHEET};
use crate::reference::*;
use crate::sizes::{printed, Table};
use crate::ties::both_plans;
use crate::withdrawn::{field_of_2, written_back};
use std::collections::BTreeSet;
use std::fs;
use std::path::PathBuf;

/// The cases of a program.
fn folder(program: &str) -> PathBuf {
    PathBuf::from(env!("CARGO_MANIFEST_DIR")).join(format!("../{program}/cases"))
}

/// The stored bytes of a case: its job, its plan or what is printed.
fn stored(program: &str, name: &str, ending: &str) -> Vec<u8> {
    let file = folder(program).join(format!("{name}.{ending}"));
    fs::read(&file).unwrap_or_else(|fault| panic!("{}: {fault}", file.display()))
}

/// The names of a program's cases; each has all its files, and there are no others.
fn names(program: &str, endings: &[&str]) -> BTreeSet<String> {
    let mut names = BTreeSet::new();
    let mut files = 0;
    for file in fs::read_dir(folder(program)).unwrap() {
        let file = file.unwrap().file_name().into_string().unwrap();
        let (name, ending) = file.split_once('.').unwrap();
        assert!(endings.contains(&ending), "{file}");
        names.insert(name.to_string());
        files += 1;
    }
    assert!(files > 0 && files == names.len() * endings.len());
    names
}

#[test]
fn sheets() {
    for name in names("sheet", &["job", "out"]) {
        let printed = String::from_utf8(stored("sheet", &name, "out")).unwrap();
        assert_eq!(sheet(&stored("sheet", &name, "job")), printed, "{name}");
        assert!(!printed.contains("refused 5 "), "{name}");
    }
}

#[test]
fn audits() {
    for name in names("audit", &["job", "plan", "out"]) {
        let answer = audit(
            &stored("audit", &name, "job"),
            &stored("audit", &name, "plan"),
        );
        let printed = String::from_utf8(stored("audit", &name, "out")).unwrap();
        assert_eq!(audit_text(&answer), printed, "{name}");
        assert!(!printed.contains("refused 5 "), "{name}");
    }
}

/// The cases of the sizes program; some have an argument, which is one line.
#[test]
fn tables() {
    let (mut names, mut arguments) = (BTreeSet::new(), BTreeSet::new());
    let mut outputs = BTreeSet::new();
    for file in fs::read_dir(folder("sizes")).unwrap() {
        let file = file.unwrap().file_name().into_string().unwrap();
        let (name, ending) = file.split_once('.').unwrap();
        match ending {
            "args" => arguments.insert(name.to_string()),
            "job" => names.insert(name.to_string()),
            _ => outputs.insert((name.to_string(), ending.to_string())),
        };
    }
    assert!(arguments.is_subset(&names));
    let output = |name: &String| (name.clone(), "out".to_string());
    assert_eq!(outputs, names.iter().map(output).collect());
    let mut told = BTreeSet::new();
    for name in &names {
        let job = stored("sizes", name, "job");
        let argument = arguments.contains(name).then(|| {
            let line = stored("sizes", name, "args");
            line.strip_suffix(b"\n").expect("one line").to_vec()
        });
        let text = String::from_utf8(stored("sizes", name, "out")).unwrap();
        assert_eq!(printed(argument.as_deref(), &job), text, "{name}");
        assert!(!text.contains("refused 5 "), "{name}");
        told.insert(match text.split(' ').next().unwrap() {
            "sizes" => "usage".to_string(),
            "refused" => text.split(" at ").next().unwrap().to_string(),
            _ => format!("method {}", Table::new(&job).unwrap().method),
        });
    }
    let refusals = [1, 2, 3, 4, 6, 7, 13].map(|number| format!("refused {number}"));
    let mut expected: BTreeSet<String> = refusals.into_iter().collect();
    expected.extend(["usage", "method 0", "method 1", "method 3"].map(str::to_string));
    assert_eq!(told, expected);
}

/// The lists without tests: the shortest job, its sheet of two lines, and its plan without bytes.
#[test]
fn empty_lists() {
    for program in ["sheet", "audit"] {
        assert_eq!(stored(program, "empty_list", "job"), [0]);
        assert_eq!(stored(program, "empty_list_head", "job"), [3, 2, 4]);
        assert_eq!(stored(program, "refused_6_empty_list", "job"), [0, 0xff]);
    }
    let lines = String::from_utf8(stored("sheet", "empty_list", "out")).unwrap();
    let lines: Vec<&str> = lines.lines().collect();
    assert_eq!(lines, ["0 tests, 8 places, method 0", "loads 0"]);
    for name in ["empty_list", "empty_list_head"] {
        let job = stored("audit", name, "job");
        assert_eq!(call_bytes(&job, 0), Ok(stored("audit", name, "plan")));
    }
}

/// The plan that is named ours, and the one of document 01's tie rule, for the same job.
#[test]
fn our_plan() {
    let job = stored("audit", "our_plan", "job");
    let plan = stored("audit", "our_plan", "plan");
    assert_eq!(call_bytes(&job, PLAN_MADE), Ok(plan.clone()));
    assert_eq!(stored("audit", "lowest_on_ties", "job"), job);
    let (job, order, _) = planned_job(&job).unwrap();
    let plans = both_plans(job.places, job.booked, job.curves, &job.wants, 0, &order);
    let (lowest, _) = plans.unwrap();
    let bytes = plan_bytes(&order, &lowest.drops, &lowest.loads, lowest.end);
    assert_eq!(stored("audit", "lowest_on_ties", "plan"), bytes);
    assert_ne!(bytes, plan);
}

/// All fields, 256 tests, and all eight groups in each record: first without booked places, then with 32
/// of 64 booked, so that as many are left.
#[test]
fn the_longest_job() {
    let job = stored("sheet", "longest_job", "job");
    assert_eq!(job.len(), 1 + 1 + 1 + 2 + 1 + 256 * (1 + 8));
    assert_eq!(job.len(), 2_310);
    let mut longer = job.clone();
    longer.push(0);
    assert_eq!(stored("sheet", "longest_job_surplus", "job"), longer);
    let mut booked = job;
    (booked[0], booked[1]) = (booked[0] + 16, 64);
    booked.insert(6, 32);
    assert_eq!(booked.len(), JOB);
    longer = booked.clone();
    longer.push(0);
    for program in ["sheet", "audit"] {
        assert_eq!(stored(program, "longest_job_booked", "job"), booked);
        let surplus = stored(program, "longest_job_booked_surplus", "job");
        assert_eq!(surplus, longer);
    }
    let plan = stored("audit", "longest_job_booked", "plan");
    assert_eq!(call_bytes(&booked, PLAN_MADE), Ok(plan));
}

/// A drive of which some places are booked prints what one with as many fewer prints; with all of them
/// something else is printed.
#[test]
fn booked_places() {
    for (name, fewer) in [
        ("job_a_booked", "job_a"),
        ("job_a_booked_most", "job_a"),
        ("job_a_booked_method_3", "job_a_method_3"),
        ("longest_job_booked", "longest_job"),
    ] {
        let printed = stored("sheet", name, "out");
        assert_eq!(printed, stored("sheet", fewer, "out"), "{name}");
    }
    let read = |program: &str, name: &str| read_job(&stored(program, name, "job"), 256).unwrap();
    let unbooked = |job: &Job| {
        let (places, curves) = (job.places, job.curves);
        write_job(places, 0, curves, job.method, &job.wants, JOB).unwrap()
    };
    for name in [
        "job_a_booked",
        "booked_absent_places",
        "booked_packages",
        "booked_packages_flipped",
        "empty_list_booked",
    ] {
        let job = read("sheet", name);
        assert!(job.booked > 0);
        let raw = sheet(&unbooked(&job)).into_bytes();
        let printed = stored("sheet", name, "out");
        assert_ne!(raw, printed, "{name}");
        if name.starts_with("booked_packages") {
            // It is the order that differs.
            let test = |text: &[u8], line: usize| {
                let text = String::from_utf8(text.to_vec()).unwrap();
                let line = text.lines().nth(line).unwrap().to_string();
                line.split(' ').nth(2).unwrap().to_string()
            };
            assert!((1..=3).any(|line| test(&raw, line) != test(&printed, line)));
        }
    }
    for name in ["our_plan_booked", "refused_12_booked"] {
        let job = unbooked(&read("audit", name));
        let raw = audit_text(&audit(&job, &stored("audit", name, "plan")));
        assert_ne!(raw.into_bytes(), stored("audit", name, "out"), "{name}");
    }
    // Places that are absent are 8.
    for program in ["sheet", "audit"] {
        assert_eq!(stored(program, "refused_13_absent_places", "job"), [16, 8]);
        assert_eq!(stored(program, "empty_list_booked", "job"), [16, 7]);
    }
}

/// Old jobs with a method byte of 2 print what they print with 1; job A's is another order than the other
/// methods'.
#[test]
fn method_2() {
    let mut old = 0;
    for name in names("sheet", &["job", "out"]) {
        let job = stored("sheet", &name, "job");
        if field_of_2(&job).is_some() {
            old += 1;
            let printed = String::from_utf8(stored("sheet", &name, "out")).unwrap();
            assert_eq!(sheet(&written_back(&job)), printed, "{name}");
            assert!(!printed.contains("method 2"), "{name}");
        }
    }
    assert!(old > 1, "{old}");
    for (old, new) in [
        ("job_a_method_2", "job_a_method_1"),
        ("empty_list_method_2", "empty_list_method_1"),
    ] {
        let job = stored("sheet", old, "job");
        assert_eq!(written_back(&job), stored("sheet", new, "job"));
        assert_eq!(stored("sheet", old, "out"), stored("sheet", new, "out"));
    }
    for other in ["job_a", "job_a_method_3"] {
        let printed = stored("sheet", "job_a_method_2", "out");
        assert_ne!(printed, stored("sheet", other, "out"));
    }
}

/// A step of our plan names no curve twice: what it drops is not wanted, what it loads is. So no curve
/// is loaded more often than in every second step, and each load is dropped again in a step or at the
/// end. With 32 places half of the curves and the other half can take turns; then only the first step
/// drops none.
#[test]
fn the_longest_sheet() {
    let numbers: usize = (0..256).map(|number: u16| number.to_string().len()).sum();
    let curves: usize = (0..64).map(|curve: u8| 1 + curve.to_string().len()).sum();
    let longest = "256 tests, 32 places, method 0\n".len()
        + 256 * ": test  drop load\n".len()
        + 2 * numbers
        + " none".len()
        + 2 * 128 * curves
        + "256: end drop\n".len()
        + "loads 8192\n".len();
    assert_eq!(stored("sheet", "longest_sheet", "out").len(), longest);
    assert_eq!(longest, SHEET);
}

/// A step's bytes are its map, two sets of at most nine bytes and its test; the first of a plan that
/// passes drops nothing. The end step's are its map and a set.
#[test]
fn the_longest_plan() {
    let job = stored("audit", "longest_plan", "job");
    let plan = stored("audit", "longest_plan", "plan");
    assert_eq!(plan.len(), (1 + 9 + 1) + 255 * (1 + 9 + 9 + 1) + (1 + 9));
    assert_eq!(plan.len(), PLAN_MADE);
    assert_eq!(call_bytes(&job, PLAN_MADE), Ok(plan.clone()));
    for fault in ["8", "11", "12", "12_end"] {
        let faulty = stored("audit", &format!("longest_plan_refused_{fault}"), "plan");
        assert_eq!(faulty.len(), PLAN_MADE);
        assert_eq!(faulty[..5_011], plan[..5_011]);
    }
    let mut longer = plan;
    longer.push(0);
    assert_eq!(stored("audit", "longest_plan_surplus", "plan"), longer);
    // The longest that reads, but does not pass, and one byte more.
    let mut longest = stored("audit", "dropped_from_empty", "plan");
    assert_eq!(longest.len(), 256 * (1 + 9 + 9 + 1) + (1 + 9));
    assert_eq!(longest.len(), PLAN_READ);
    longest.push(0);
    assert_eq!(
        stored("audit", "dropped_from_empty_surplus", "plan"),
        longest
    );
}
