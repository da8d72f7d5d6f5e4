//! Compares every public function with the reference on random, damaged and boundary inputs.
//!
//!     differential [seed] [cases]      or SEED=… CASES=…
//!     ONLY=number SEED=… differential  one case again, with its input printed
//!     FUNCTION=name                    all cases for this one function
//!
//! Without the feature `product` the tuned implementation of the C call is compared, and the
//! other functions are only counted. Ends with 1 at the first difference, with 2 if some outcome
//! that a function can have was never reached, or something else that is counted: one of method 3's
//! flips, one of the audit's two kinds of refusal, a kind of end set or of plan's end, a wrong end
//! set beside another fault, a length on its bound, a kind of tie that the tie rule decides, an
//! outcome, a kind or two faults of a list without tests, of booked places a kind of byte or handed
//! number, two faults, or a way in which the raw places would give another answer, of what is held at
//! the start a kind, 14 beside another fault, a way in which an empty drive would give another answer, or
//! a place where a list is cut halfway, of states a kind of made ones, two faults, a kind of move, step
//! or wrong position of a walk, or a kind of numbers that were not made, or of commits of these, or of the
//! withdrawn method 2 a kind of job bytes or handed number, two faults, or a way in which another method
//! gives another order, of all drive sizes a kind of list, fault, wanted count or table; also if a kind of
//! degrees, of looks and commits, of the withdrawn method, or of all drive sizes was reached too seldom.

use differential::booked;
use differential::degrees;
use differential::drives;
use differential::empty;
use differential::generate::{
    self, Case, Ending, SetFunction, SomePlan, ENDINGS, FUNCTIONS, JOB, PLAN_MADE, PLAN_READ, SHEET,
};
use differential::holding;
use differential::parts::{self, GroupRead};
use differential::random::{mix, Random};
use differential::reference::{self, PlannedJob, Refusal, Refused};
use differential::sizes::{self, Table, MARK, SIZES};
use differential::states::{self, Any, Made, Shown};
use differential::ties;
use differential::tuned;
use differential::walks::{self, List, Move};
use differential::withdrawn;
use std::collections::BTreeMap;
use std::env;
use std::fmt::Debug;
use std::mem::replace;
use std::process::exit;
use std::sync::LazyLock;
use std::time::Instant;

#[cfg(feature = "product")]
use differential::product;

// ---------------------------------------------------------------------------------------------
// What is compared

/// An implementation under test. `None`: it does not offer the function.
#[allow(clippy::too_many_arguments)]
#[rustfmt::skip]
trait Subject {
    fn name(&self) -> &'static str;
    /// The answer, and places, booked places, curves, tests and method.
    fn read_job(&self, _job: &[u8], _wants: &mut [u64]) -> Option<(u64, [usize; 5])> { None }
    fn write_job(&self, _places: usize, _booked: usize, _curves: usize, _method: usize,
        _wants: &[u64], _out: &mut [u8]) -> Option<u64> { None }
    fn order_tests(&self, _places: usize, _booked: usize, _curves: usize, _method: usize,
        _wants: &[u64], _order: &mut [u16]) -> Option<u64> { None }
    fn plan_order(&self, _places: usize, _booked: usize, _curves: usize, _wants: &[u64],
        _held: u64, _order: &[u16], _drops: &mut [u64], _loads: &mut [u64], _end: &mut u64)
        -> Option<u64> { None }
    fn check_plan(&self, _places: usize, _booked: usize, _curves: usize, _wants: &[u64],
        _held: u64, _order: &[u16], _drops: &[u64], _loads: &[u64], _end: u64) -> Option<u64> { None }
    fn write_plan(&self, _places: usize, _booked: usize, _curves: usize, _wants: &[u64],
        _held: u64, _order: &[u16], _drops: &[u64], _loads: &[u64], _end: u64, _out: &mut [u8])
        -> Option<u64> { None }
    fn read_plan(&self, _curves: usize, _tests: usize, _plan: &[u8], _order: &mut [u16],
        _drops: &mut [u64], _loads: &mut [u64], _end: &mut u64) -> Option<u64> { None }
    /// Start and count.
    fn step_bytes(&self, _curves: usize, _tests: usize, _plan: &[u8], _position: usize)
        -> Option<(usize, usize)> { None }
    fn call(&self, _job: &[u8], _plan: &mut [u8]) -> Option<u64> { None }
    fn sheet(&self, _job: &[u8], _out: &mut [u8]) -> Option<u64> { None }
    fn audit(&self, _job: &[u8], _plan: &[u8], _out: &mut [u8]) -> Option<u64> { None }
    fn examine(&self, _places: usize, _booked: usize, _curves: usize, _wants: &[u64])
        -> Option<u64> { None }
    fn examine_by(&self, _places: usize, _booked: usize, _curves: usize, _method: usize,
        _wants: &[u64]) -> Option<u64> { None }
    fn examine_counts(&self, _curves: usize, _tests: usize) -> Option<u64> { None }
    fn examine_sizes(&self, _capacity: usize, _wants: &[u64]) -> Option<u64> { None }
    fn read_group(&self, _rest: &[u8], _at: usize, _group: usize, _curves: usize,
        _set: &mut u64) -> Option<u64> { None }
    fn group_map(&self, _set: u64) -> Option<u64> { None }
    fn set_len(&self, _set: u64) -> Option<u64> { None }
    fn put_set(&self, _set: u64, _out: &mut [u8]) -> Option<u64> { None }
    fn reverse(&self, _xs: &mut [u16]) -> Option<()> { None }
    fn listed_order(&self, _tests: usize, _order: &mut [u16]) -> Option<()> { None }
    fn package_order(&self, _capacity: usize, _wants: &[u64], _order: &mut [u16])
        -> Option<()> { None }
    fn sets(&self, _function: SetFunction, _a: u64, _b: u64, _k: usize) -> Option<u64> { None }
    /// A state is lent as its 260 numbers.
    fn make_state(&self, _places: usize, _booked: usize, _curves: usize, _wants: &[u64],
        _held: u64, _order: &[u16], _state: &mut [u64]) -> Option<u64> { None }
    /// The answer, drops and loads; of a commit too.
    fn look(&self, _state: &mut [u64]) -> Option<[u64; 3]> { None }
    fn commit(&self, _state: &mut [u64], _position: usize) -> Option<[u64; 3]> { None }
    /// 64 counts are lent.
    fn all_sizes(&self, _curves: usize, _wants: &[u64], _order: &[u16], _counts: &mut [u16])
        -> Option<u64> { None }
    fn fewest_places(&self, _curves: usize, _wants: &[u64], _order: &[u16], _loads: usize)
        -> Option<u64> { None }
    fn size_table(&self, _job: &[u8], _asked: usize, _loads: usize, _out: &mut [u8])
        -> Option<u64> { None }
}

struct Tuned;

impl Subject for Tuned {
    fn name(&self) -> &'static str {
        "tuned"
    }
    fn call(&self, job: &[u8], plan: &mut [u8]) -> Option<u64> {
        Some(tuned::call(job, plan))
    }
    /// It examines nothing.
    fn all_sizes(
        &self,
        curves: usize,
        wants: &[u64],
        order: &[u16],
        counts: &mut [u16],
    ) -> Option<u64> {
        sizes::examined(curves, wants, order).ok()?;
        counts.copy_from_slice(&tuned::all_sizes(wants, order));
        Some(0)
    }
}

#[cfg(feature = "product")]
struct Product;

#[cfg(feature = "product")]
#[rustfmt::skip]
impl Subject for Product {
    fn name(&self) -> &'static str {
        "product"
    }
    fn read_job(&self, job: &[u8], wants: &mut [u64]) -> Option<(u64, [usize; 5])> {
        let head = product::read_job(job, wants);
        let numbers = [head.places, head.booked, head.curves, head.tests, head.method];
        Some((head.answer, numbers))
    }
    fn write_job(&self, places: usize, booked: usize, curves: usize, method: usize,
        wants: &[u64], out: &mut [u8]) -> Option<u64> {
        Some(product::write_job(places, booked, curves, method, wants, out))
    }
    fn order_tests(&self, places: usize, booked: usize, curves: usize, method: usize,
        wants: &[u64], order: &mut [u16]) -> Option<u64> {
        Some(product::order_tests(places, booked, curves, method, wants, order))
    }
    fn plan_order(&self, places: usize, booked: usize, curves: usize, wants: &[u64],
        held: u64, order: &[u16], drops: &mut [u64], loads: &mut [u64], end: &mut u64)
        -> Option<u64> {
        Some(product::plan_order(places, booked, curves, wants, held, order, drops, loads, end))
    }
    fn check_plan(&self, places: usize, booked: usize, curves: usize, wants: &[u64],
        held: u64, order: &[u16], drops: &[u64], loads: &[u64], end: u64) -> Option<u64> {
        Some(product::check_plan(places, booked, curves, wants, held, order, drops, loads, end))
    }
    fn write_plan(&self, places: usize, booked: usize, curves: usize, wants: &[u64],
        held: u64, order: &[u16], drops: &[u64], loads: &[u64], end: u64, out: &mut [u8])
        -> Option<u64> {
        Some(product::write_plan(places, booked, curves, wants, held, order, drops, loads, end, out))
    }
    fn read_plan(&self, curves: usize, tests: usize, plan: &[u8], order: &mut [u16],
        drops: &mut [u64], loads: &mut [u64], end: &mut u64) -> Option<u64> {
        Some(product::read_plan(curves, tests, plan, order, drops, loads, end))
    }
    fn step_bytes(&self, curves: usize, tests: usize, plan: &[u8], position: usize)
        -> Option<(usize, usize)> {
        let part = product::step_bytes(curves, tests, plan, position);
        Some((part.start, part.count))
    }
    fn call(&self, job: &[u8], plan: &mut [u8]) -> Option<u64> {
        Some(product::call(job, plan))
    }
    fn sheet(&self, job: &[u8], out: &mut [u8]) -> Option<u64> {
        Some(product::sheet(job, out))
    }
    fn audit(&self, job: &[u8], plan: &[u8], out: &mut [u8]) -> Option<u64> {
        Some(product::audit(job, plan, out))
    }
    fn examine(&self, places: usize, booked: usize, curves: usize, wants: &[u64])
        -> Option<u64> {
        Some(product::examine(places, booked, curves, wants))
    }
    fn examine_by(&self, places: usize, booked: usize, curves: usize, method: usize,
        wants: &[u64]) -> Option<u64> {
        Some(product::examine_by(places, booked, curves, method, wants))
    }
    fn examine_counts(&self, curves: usize, tests: usize) -> Option<u64> {
        Some(product::examine_counts(curves, tests))
    }
    fn examine_sizes(&self, capacity: usize, wants: &[u64]) -> Option<u64> {
        Some(product::examine_sizes(capacity, wants))
    }
    fn read_group(&self, rest: &[u8], at: usize, group: usize, curves: usize,
        set: &mut u64) -> Option<u64> {
        Some(product::read_group(rest, at, group, curves, set))
    }
    fn group_map(&self, set: u64) -> Option<u64> {
        Some(product::group_map(set))
    }
    fn set_len(&self, set: u64) -> Option<u64> {
        Some(product::set_len(set))
    }
    fn put_set(&self, set: u64, out: &mut [u8]) -> Option<u64> {
        Some(product::put_set(set, out))
    }
    fn reverse(&self, xs: &mut [u16]) -> Option<()> {
        product::reverse(xs);
        Some(())
    }
    fn listed_order(&self, tests: usize, order: &mut [u16]) -> Option<()> {
        product::listed_order(tests, order);
        Some(())
    }
    fn package_order(&self, capacity: usize, wants: &[u64], order: &mut [u16]) -> Option<()> {
        product::package_order(capacity, wants, order);
        Some(())
    }
    fn sets(&self, function: SetFunction, a: u64, b: u64, k: usize) -> Option<u64> {
        Some(product::sets(function, a, b, k))
    }
    fn make_state(&self, places: usize, booked: usize, curves: usize, wants: &[u64],
        held: u64, order: &[u16], state: &mut [u64]) -> Option<u64> {
        let state = product::State::of(state);
        Some(product::make_state(places, booked, curves, wants, held, order, state))
    }
    fn look(&self, state: &mut [u64]) -> Option<[u64; 3]> {
        let step = product::look_lent(product::State::of(state));
        Some([step.answer, step.drops, step.loads])
    }
    fn commit(&self, state: &mut [u64], position: usize) -> Option<[u64; 3]> {
        let step = product::commit(product::State::of(state), position);
        Some([step.answer, step.drops, step.loads])
    }
    fn all_sizes(&self, curves: usize, wants: &[u64], order: &[u16], counts: &mut [u16])
        -> Option<u64> {
        let counts = counts.try_into().expect("64 counts are lent");
        Some(product::all_sizes(curves, wants, order, counts))
    }
    fn fewest_places(&self, curves: usize, wants: &[u64], order: &[u16], loads: usize)
        -> Option<u64> {
        Some(product::fewest_places(curves, wants, order, loads))
    }
    fn size_table(&self, job: &[u8], asked: usize, loads: usize, out: &mut [u8]) -> Option<u64> {
        Some(product::size_table(job, asked, loads, out))
    }
}

// ---------------------------------------------------------------------------------------------
// Lent lists

/// Entries kept on both sides of a lent list; they must not change either.
const MARGIN: usize = 8;

trait Entry: Copy + PartialEq + std::fmt::LowerHex {
    fn pattern(value: u64) -> Self;
}

impl Entry for u8 {
    fn pattern(value: u64) -> u8 {
        value as u8
    }
}
impl Entry for u16 {
    fn pattern(value: u64) -> u16 {
        value as u16
    }
}
impl Entry for u64 {
    fn pattern(value: u64) -> u64 {
        value
    }
}

/// A list lent for writing, filled with a pattern, and what it has to hold afterwards.
struct Lent<T> {
    name: &'static str,
    found: Vec<T>,
    expected: Vec<T>,
}

impl<T: Entry> Lent<T> {
    /// `result`: the first entries after the call; empty under a refusal.
    fn new(name: &'static str, random: &mut Random, length: usize, result: &[T]) -> Lent<T> {
        let key = random.word();
        let found: Vec<T> = if length > 20_000 {
            // Large and often: a cheaper pattern.
            (0..length + 2 * MARGIN)
                .map(|i| T::pattern(key.wrapping_add(i as u64 * 0x9d)))
                .collect()
        } else {
            (0..length + 2 * MARGIN)
                .map(|i| T::pattern(mix(key ^ i as u64)))
                .collect()
        };
        let mut expected = found.clone();
        expected[MARGIN..MARGIN + result.len()].copy_from_slice(result);
        Lent {
            name,
            found,
            expected,
        }
    }

    /// A list that holds these entries, and has to keep them.
    fn holding(name: &'static str, random: &mut Random, entries: &[T]) -> Lent<T> {
        let mut lent = Lent::new(name, random, entries.len(), entries);
        lent.found.clone_from(&lent.expected);
        lent
    }

    fn part(&mut self) -> &mut [T] {
        let end = self.found.len() - MARGIN;
        &mut self.found[MARGIN..end]
    }

    /// From now on these entries have to stand in it.
    fn expect(&mut self, entries: &[T]) {
        let end = self.expected.len() - MARGIN;
        self.expected[MARGIN..end].copy_from_slice(entries);
    }

    /// The entries are expected in reverse.
    fn reversed(mut self) -> Lent<T> {
        let end = self.expected.len() - MARGIN;
        self.expected[MARGIN..end].reverse();
        self
    }

    fn difference(&self) -> Option<String> {
        if self.found == self.expected {
            return None;
        }
        let at = (0..self.found.len())
            .find(|&i| self.found[i] != self.expected[i])
            .unwrap();
        let hex = |list: &[T]| -> String {
            let part: Vec<String> = list.iter().map(|entry| format!("{entry:x}")).collect();
            part.join(" ")
        };
        let inner = MARGIN..self.found.len() - MARGIN;
        Some(format!(
            "{} differs first at entry {} (of {} lent): expected {:x}, found {:x}\n  expected {}\n  found    {}",
            self.name,
            at as i64 - MARGIN as i64,
            inner.len(),
            self.expected[at],
            self.found[at],
            hex(&self.expected[inner.clone()]),
            hex(&self.found[inner]),
        ))
    }
}

// ---------------------------------------------------------------------------------------------
// One case

/// The one rule for an outcome as one number: a count, or a refusal's number and figure.
fn number_of<T>(answer: &Result<T, Refusal>, count: impl Fn(&T) -> u64) -> u64 {
    match answer {
        Ok(result) => count(result),
        Err(no) => refused(no.number, no.figure),
    }
}

fn refused(number: u64, figure: u64) -> u64 {
    number << 48 | figure
}

/// The outcome's name in the histogram.
fn outcome<T>(answer: &Result<T, Refusal>) -> String {
    match answer {
        Ok(_) => "ok".to_string(),
        Err(no) => named(no),
    }
}

fn named(no: &Refusal) -> String {
    match (no.number, no.figure) {
        (10, 0..=3 | 260) => format!("10:{}", no.figure),
        (10, _) => "10:4+".to_string(),
        (number, _) => number.to_string(),
    }
}

/// The outcome's name of a check: which rule of 12 was broken.
fn check_outcome<T>(answer: &Result<T, Refusal>, tests: usize, lengths: [usize; 2]) -> String {
    match answer {
        Err(no) if no.number == 12 && lengths != [tests, tests] => "12:lengths".to_string(),
        Err(no) if no.number == 12 && no.figure < tests as u64 => "12:step".to_string(),
        Err(no) if no.number == 12 => "12:end".to_string(),
        _ => outcome(answer),
    }
}

/// How a handed end set stands to what is held.
fn kind_of_end(held: u64, end: u64, curves: usize) -> &'static str {
    let more = parts::without(end, held);
    let fewer = parts::without(held, end);
    match (parts::size(more), parts::size(fewer)) {
        (0, 0) if held == 0 => "nothing-held",
        (0, 0) => "held",
        _ if end == 0 => "zero",
        _ if end == u64::MAX => "all-ones",
        _ if !parts::inside(end, parts::below(curves)) => "foreign",
        (1, 0) => "one-more",
        (0, 1) => "one-fewer",
        _ => "others",
    }
}

/// The refusal that a plan with another end set than what is held gets for another fault.
fn before_end(outcome: &str) -> Option<&'static str> {
    match outcome {
        "8" => Some("8"),
        "14" => Some("14"),
        "12:lengths" => Some("12:lengths"),
        "12:step" => Some("12:step"),
        _ if outcome.starts_with("10:") => Some("10"),
        _ => None,
    }
}

/// The outcome's name of a text in a buffer of this length: what the text tells, or 9 and what
/// kind of text did not fit.
fn text_outcome(text: &str, out_len: usize) -> String {
    let number = |rest: &str| rest.split(' ').next().unwrap().to_string();
    let (kind, told) = if let Some(rest) = text.strip_prefix("refused ") {
        ("job", number(rest))
    } else if let Some(rest) = text.strip_prefix("plan refused ") {
        ("plan", format!("plan:{}", number(rest)))
    } else {
        ("ok", "ok".to_string())
    };
    if out_len < text.len() {
        format!("9:{kind}")
    } else {
        told
    }
}

fn kind_of_set(bits: u64) -> &'static str {
    match bits {
        0 => "empty",
        u64::MAX => "full",
        _ => "some",
    }
}

fn kind_of_number(k: usize) -> &'static str {
    match k {
        0 => "at0",
        1..=62 => "at1-62",
        63 => "at63",
        64 => "at64",
        65 => "at65",
        usize::MAX => "at-most",
        _ => "at66+",
    }
}

/// The answer of a function on sets, and the outcome's name.
fn set_answer(function: SetFunction, a: u64, b: u64, k: usize) -> (u64, String) {
    let yes = |answer: bool| if answer { "yes" } else { "no" };
    let (answer, name) = match function {
        SetFunction::Size => (parts::size(a), kind_of_set(a)),
        SetFunction::Lowest => {
            let answer = parts::lowest(a);
            (answer, kind_of_number(answer as usize))
        }
        SetFunction::Union | SetFunction::Common | SetFunction::Without => {
            let answer = match function {
                SetFunction::Union => parts::union(a, b),
                SetFunction::Common => parts::common(a, b),
                _ => parts::without(a, b),
            };
            (answer, kind_of_set(answer))
        }
        SetFunction::Single => (parts::single(k), kind_of_number(k)),
        SetFunction::Has => {
            let answer = parts::has(a, k);
            return (
                answer as u64,
                format!("{}:{}", kind_of_number(k), yes(answer)),
            );
        }
        SetFunction::WithoutLowest => (parts::without_lowest(a), kind_of_set(a)),
        SetFunction::Inside => {
            let answer = parts::inside(a, b);
            (answer as u64, yes(answer))
        }
        SetFunction::Below => (parts::below(k), kind_of_number(k)),
    };
    (answer, name.to_string())
}

struct Verdict {
    outcome: String,
    /// What else was met.
    notes: Vec<Note>,
    /// For each subject: not offered, alike, or the difference.
    results: Vec<Option<Result<(), String>>>,
}

/// Answers are compared whole: refusal number, figure and all.
fn compare<T: PartialEq + Debug>(
    expected: T,
    found: T,
    lists: &[Option<String>],
) -> Result<(), String> {
    let mut text = String::new();
    if expected != found {
        text +=
            &format!("answer differs: expected {expected:x?}, found {found:x?} (hexadecimal)\n");
    }
    for difference in lists.iter().flatten() {
        text += difference;
        text += "\n";
    }
    if text.is_empty() {
        Ok(())
    } else {
        Err(text)
    }
}

fn run(case: &Case, random: &mut Random, subjects: &[Box<dyn Subject>]) -> Verdict {
    let mut results = Vec::new();
    let mut notes = Vec::new();
    let outcome = match case {
        Case::ReadJob { job, wants_len } => {
            let answer = reference::read_job(job, *wants_len);
            let number = number_of(&answer, |read| read.tests as u64);
            // Under a refusal the five numbers are 0.
            let (wants, head) = match &answer {
                Ok(read) => (
                    read.wants.clone(),
                    [
                        read.places,
                        read.booked,
                        read.curves,
                        read.tests,
                        read.method,
                    ],
                ),
                Err(_) => (vec![], [0; 5]),
            };
            let behind = booked::behind_13(job, *wants_len);
            let behind = behind.iter().filter(|kind| **kind == "13+9");
            notes.extend(behind.map(|kind| (READ_BOOKED, *kind, 1)));
            notes.extend(kinds_of_bytes(READ_BOOKED, READ_LENGTHS, job));
            notes.extend(all(READ_OLD, withdrawn::job_kinds(job, *wants_len)));
            // What was read is written back, and ordered where the method byte is 2.
            let again = answer.as_ref().ok().map(|read| ReadAgain::new(job, read));
            notes.extend(again.iter().flat_map(|again| again.notes(job)));
            for subject in subjects {
                let mut wants = Lent::new("wants", random, *wants_len, &wants);
                let found = subject.read_job(job, wants.part());
                let mut result =
                    found.map(|found| compare((number, head), found, &[wants.difference()]));
                if let (Some(Ok(())), Ok(read), Some(again)) = (&result, &answer, &again) {
                    let wants = &wants.part()[..read.tests];
                    result = again.compared(subject.as_ref(), random, read, wants);
                }
                results.push(result);
            }
            outcome(&answer)
        }
        Case::WriteJob {
            places,
            booked,
            curves,
            method,
            wants,
            out_len,
        } => {
            let answer = reference::write_job(*places, *booked, *curves, *method, wants, *out_len);
            let number = number_of(&answer, |bytes| bytes.len() as u64);
            let bytes = answer.clone().unwrap_or_default();
            for subject in subjects {
                let mut out = Lent::new("out", random, *out_len, &bytes);
                let found =
                    subject.write_job(*places, *booked, *curves, *method, wants, out.part());
                let mut result = found.map(|found| compare(number, found, &[out.difference()]));
                if let (Some(Ok(())), Ok(bytes)) = (&result, &answer) {
                    // Read back it is the job that was handed over.
                    let numbers = [*places, *booked, *curves, wants.len(), *method];
                    let expected = (wants.len() as u64, numbers);
                    let mut again = Lent::new("wants", random, wants.len(), wants);
                    let found = subject.read_job(&out.part()[..bytes.len()], again.part());
                    result = found.map(|found| {
                        compare(expected, found, &[again.difference()])
                            .map_err(|text| format!("{text}of reading what was written\n"))
                    });
                }
                results.push(result);
            }
            notes.extend(on_bound(JOBS_WRITTEN, &answer, JOB, LONGEST_JOB));
            if answer.is_ok() {
                notes.push((JOBS_READ_BACK, withdrawn::number_kind(*method), 1));
            }
            outcome(&answer)
        }
        Case::OrderTests {
            places,
            booked,
            curves,
            method,
            wants,
            order_len,
        } => {
            let answer =
                reference::order_and_flips(*places, *booked, *curves, *method, wants, *order_len);
            let number = number_of(&answer, |(order, _)| order.len() as u64);
            let (result, flips) = answer.clone().unwrap_or_default();
            notes.extend((0..4).map(|won| (FLIPS_WON, FLIPS[won], flips[won])));
            if answer.is_ok() && *method == 1 {
                notes.extend(all(ORDERED_DEGREES, degrees::kinds(wants, &result)));
            }
            if answer.is_ok() && *method == 3 {
                let kinds = booked::order_kinds(*places, *booked, wants, &result);
                notes.extend(all(ORDERED_RAW, kinds));
            }
            if let Some(test) = too_wide(&answer) {
                let kinds = booked::wide_kinds(*places, *booked, wants, test);
                notes.extend(all(ORDERED_WIDE, kinds));
            }
            for subject in subjects {
                let mut order = Lent::new("order", random, *order_len, &result);
                let found =
                    subject.order_tests(*places, *booked, *curves, *method, wants, order.part());
                results.push(found.map(|found| compare(number, found, &[order.difference()])));
            }
            outcome(&answer)
        }
        Case::PlanOrder {
            places,
            booked,
            curves,
            wants,
            held,
            order,
            drops_len,
            loads_len,
        } => {
            let plan_from = |held: u64| {
                reference::plan(
                    *places, *booked, *curves, wants, held, order, *drops_len, *loads_len,
                )
            };
            let answer = plan_from(*held);
            let number = number_of(&answer, |plan| plan.count);
            let (new_drops, new_loads, new_end) = match &answer {
                Ok(plan) => (plan.drops.clone(), plan.loads.clone(), vec![plan.end]),
                Err(_) => (vec![], vec![], vec![]),
            };
            for &end in &new_end {
                notes.push((PLANNED_ENDS, kind_of_set(end), 1));
            }
            if let Ok(plan) = &answer {
                let kinds = ties::kinds(*places, *booked, *curves, wants, *held, order, plan);
                notes.extend(all(PLANNED_TIES, kinds));
                let kinds =
                    booked::plan_kinds(*places, *booked, *curves, wants, *held, order, plan);
                notes.extend(all(PLANNED_RAW, kinds));
            }
            if *held != 0 {
                let kinds = holding::plan_kinds(&answer, &plan_from(0));
                notes.extend(all(PLANNED_EMPTY, kinds));
            }
            // The rest of the list, planned from what is held there, has the rest of the plan.
            let rest = answer.as_ref().ok().map(|plan| {
                let made = SomePlan {
                    order: order.clone(),
                    drops: plan.drops.clone(),
                    loads: plan.loads.clone(),
                    end: plan.end,
                };
                let steps = random.below(order.len() + 1);
                notes.extend(all(PLANNED_RESTS, cut_kinds(order.len(), steps)));
                holding::rest(random, wants, *held, &made, steps)
            });
            if let Some(test) = too_wide(&answer) {
                let kinds = booked::wide_kinds(*places, *booked, wants, test);
                notes.extend(all(PLANNED_WIDE, kinds));
            }
            for subject in subjects {
                let mut drops = Lent::new("drops", random, *drops_len, &new_drops);
                let mut loads = Lent::new("loads", random, *loads_len, &new_loads);
                let mut end = Lent::new("end", random, 1, &new_end);
                let found = subject.plan_order(
                    *places,
                    *booked,
                    *curves,
                    wants,
                    *held,
                    order,
                    drops.part(),
                    loads.part(),
                    &mut end.part()[0],
                );
                let mut result = found.map(|found| {
                    compare(
                        number,
                        found,
                        &[drops.difference(), loads.difference(), end.difference()],
                    )
                });
                if let (Some(Ok(())), Some(rest)) = (&result, &rest) {
                    let (plan, tests) = (&rest.plan, rest.wants.len());
                    let mut drops = Lent::new("drops", random, tests, &plan.drops);
                    let mut loads = Lent::new("loads", random, tests, &plan.loads);
                    let mut end = Lent::new("end", random, 1, &[plan.end]);
                    let count = plan.loads.iter().map(|&loads| parts::size(loads)).sum();
                    let found = subject.plan_order(
                        *places,
                        *booked,
                        *curves,
                        &rest.wants,
                        rest.held,
                        &plan.order,
                        drops.part(),
                        loads.part(),
                        &mut end.part()[0],
                    );
                    result = found.map(|found| {
                        compare::<u64>(
                            count,
                            found,
                            &[drops.difference(), loads.difference(), end.difference()],
                        )
                        .map_err(|text| format!("{text}of the rest of the list: {rest:x?}\n"))
                    });
                }
                results.push(result);
            }
            outcome(&answer)
        }
        Case::CheckPlan {
            places,
            booked,
            curves,
            wants,
            held,
            order,
            drops,
            loads,
            end,
        } => {
            let check = |booked: usize, held: u64| {
                reference::check_plan(
                    *places, booked, *curves, wants, held, order, drops, loads, *end,
                )
            };
            let answer = check(*booked, *held);
            let number = number_of(&answer, |count| *count);
            if *booked > 0 {
                let kind = booked::check_kinds(&answer, &check(0, *held), wants.len());
                notes.extend(all(CHECKED_RAW, kind));
            }
            if *held != 0 {
                let kind = holding::check_kind(&answer, &check(*booked, 0));
                notes.push((CHECKED_EMPTY, kind, 1));
            }
            let sorts = holding::sorts(case, answer.as_ref().err().copied());
            notes.extend(all(CHECKED_SORTS, sorts));
            for subject in subjects {
                let found = subject.check_plan(
                    *places, *booked, *curves, wants, *held, order, drops, loads, *end,
                );
                results.push(found.map(|found| compare(number, found, &[])));
            }
            let name = check_outcome(&answer, wants.len(), [drops.len(), loads.len()]);
            let left = reference::held_behind(*held, drops, loads);
            notes.push((CHECKED_ENDS, kind_of_end(left, *end, *curves), 1));
            if *end != left {
                notes.extend(before_end(&name).map(|fault| (CHECKED_TWICE, fault, 1)));
            }
            name
        }
        Case::WritePlan {
            places,
            booked,
            curves,
            wants,
            held,
            order,
            drops,
            loads,
            end,
            out_len,
        } => {
            let write_from = |held: u64| {
                reference::write_plan(
                    *places, *booked, *curves, wants, held, order, drops, loads, *end, *out_len,
                )
            };
            let answer = write_from(*held);
            let number = number_of(&answer, |bytes| bytes.len() as u64);
            let bytes = answer.clone().unwrap_or_default();
            for subject in subjects {
                let mut out = Lent::new("out", random, *out_len, &bytes);
                let found = subject.write_plan(
                    *places,
                    *booked,
                    *curves,
                    wants,
                    *held,
                    order,
                    drops,
                    loads,
                    *end,
                    out.part(),
                );
                results.push(found.map(|found| compare(number, found, &[out.difference()])));
            }
            let name = check_outcome(&answer, wants.len(), [drops.len(), loads.len()]);
            let left = reference::held_behind(*held, drops, loads);
            notes.push((WRITTEN_ENDS, kind_of_end(left, *end, *curves), 1));
            if *end != left {
                notes.extend(before_end(&name).map(|fault| (WRITTEN_TWICE, fault, 1)));
            }
            if *held != 0 {
                let kind = holding::check_kind(&answer, &write_from(0));
                notes.push((WRITTEN_EMPTY, kind, 1));
            }
            let sorts = holding::sorts(case, answer.as_ref().err().copied());
            notes.extend(all(WRITTEN_SORTS, sorts));
            if name == "12:end" {
                let needed = reference::plan_bytes(order, drops, loads, *end).len();
                notes.push((WRITTEN_TWICE, "short", (*out_len < needed) as u64));
            }
            notes.extend(on_bound(WRITTEN_LENGTHS, &answer, PLAN_MADE, LONGEST));
            notes.extend(on_bound(WRITTEN_LENGTHS, &answer, PLAN_READ, LONGEST_HELD));
            if *booked > 0 {
                let raw = reference::check_plan(
                    *places, 0, *curves, wants, *held, order, drops, loads, *end,
                );
                let kind = booked::check_kinds(&answer, &raw, wants.len());
                notes.extend(all(WRITTEN_RAW, kind));
            }
            name
        }
        Case::ReadPlan {
            curves,
            tests,
            plan,
            ending,
            order_len,
            drops_len,
            loads_len,
        } => {
            let answer =
                reference::read_plan(*curves, *tests, plan, *order_len, *drops_len, *loads_len);
            let number = number_of(&answer, |steps| steps.tests.len() as u64);
            let steps = answer.clone().unwrap_or_default();
            let new_end = match &answer {
                Ok(steps) => vec![steps.end_set()],
                Err(_) => vec![],
            };
            for &end in &new_end {
                notes.push((READ_ENDS, kind_of_set(end), 1));
            }
            for subject in subjects {
                let mut order = Lent::new("order", random, *order_len, &steps.order());
                let mut drops = Lent::new("drops", random, *drops_len, &steps.drops());
                let mut loads = Lent::new("loads", random, *loads_len, &steps.loads());
                let mut end = Lent::new("end", random, 1, &new_end);
                let found = subject.read_plan(
                    *curves,
                    *tests,
                    plan,
                    order.part(),
                    drops.part(),
                    loads.part(),
                    &mut end.part()[0],
                );
                results.push(found.map(|found| {
                    compare(
                        number,
                        found,
                        &[
                            order.difference(),
                            drops.difference(),
                            loads.difference(),
                            end.difference(),
                        ],
                    )
                }));
            }
            let name = outcome(&answer);
            if let Some(ending) = ending {
                notes.push((READ_ENDINGS, ending.name(), 1));
                let short = [*order_len, *drops_len, *loads_len]
                    .iter()
                    .any(|length| length < tests);
                notes.extend(beside_ending(*ending, &name, short));
            }
            name
        }
        Case::StepBytes {
            curves,
            tests,
            plan,
            ending,
            further,
        } => {
            let answer = reference::read_steps(*curves, *tests, plan);
            let steps = answer.clone().unwrap_or_default();
            if let Some(ending) = ending {
                notes.push((FETCHED_ENDINGS, ending.name(), 1));
            }
            let kind = match (&answer, ending) {
                (Ok(steps), _) if steps.end.is_some() => Some("end-step"),
                (Ok(_), _) => Some("no-end-step"),
                (Err(no), Some(ending)) if no.number == 11 && !ending.reads() => Some("refused"),
                _ => None,
            };
            notes.extend(kind.map(|kind| (FETCHED_BEHIND, kind, 1)));
            for subject in subjects {
                let mut result = None;
                for position in (0..=(*tests).min(256) + 2).chain([*further]) {
                    let expected = reference::part(&steps, plan, position);
                    let found = subject.step_bytes(*curves, *tests, plan, position);
                    result = found.map(|found| {
                        compare(expected, found, &[])
                            .map_err(|text| format!("at position {position}: {text}"))
                    });
                    if !matches!(result, Some(Ok(()))) {
                        break;
                    }
                }
                results.push(result);
            }
            outcome(&answer)
        }
        Case::Call { job, plan_len } => {
            let planned = reference::planned_job(job);
            let answer = reference::planned_bytes(&planned, *plan_len);
            let number = match &answer {
                Ok(bytes) => bytes.len() as u64,
                Err(no) => no.number * 65_536 + no.figure,
            };
            let bytes = answer.clone().unwrap_or_default();
            for subject in subjects {
                let mut plan = Lent::new("plan", random, *plan_len, &bytes);
                let found = subject.call(job, plan.part());
                results.push(found.map(|found| compare(number, found, &[plan.difference()])));
            }
            notes.extend(on_bound(CALL_LENGTHS, &answer, PLAN_MADE, LONGEST));
            if answer.is_ok() {
                notes.extend(kinds_of_ties(CALL_TIES, &planned));
                notes.extend(kinds_of_degrees(CALL_DEGREES, &planned));
                notes.extend(all(CALL_RAW, booked::call_kinds(&planned)));
                notes.extend(kinds_of_orders(CALL_ORDERS, job, &planned));
            }
            if let Some(test) = too_wide(&answer) {
                notes.extend(all(CALL_WIDE, booked::wide_job_kinds(job, test)));
            }
            notes.extend(all(CALL_BOOKED, booked::behind_13(job, usize::MAX)));
            notes.extend(kinds_of_bytes(CALL_BOOKED, CALL_JOB_LENGTHS, job));
            let name = outcome(&answer);
            notes.extend(all(CALL_OLD, withdrawn::outcome_kind(job, &name)));
            name
        }
        Case::Sheet { job, out_len } => {
            let planned = reference::planned_job(job);
            let text = reference::planned_sheet(&planned);
            let answer = reference::written(&text, *out_len);
            let number = number_of(&answer, |bytes| bytes.len() as u64);
            let bytes = answer.unwrap_or_default();
            for subject in subjects {
                let mut out = Lent::new("out", random, *out_len, &bytes);
                let found = subject.sheet(job, out.part());
                results.push(found.map(|found| compare(number, found, &[out.difference()])));
            }
            let name = text_outcome(&text, *out_len);
            if name == "ok" {
                let ended = text.contains(": end drop ");
                notes.push((SHEETS, if ended { "end-line" } else { "no-end-line" }, 1));
                notes.extend(kinds_of_ties(SHEET_TIES, &planned));
                notes.extend(kinds_of_degrees(SHEET_DEGREES, &planned));
                notes.extend(all(SHEET_RAW, booked::sheet_kinds(&planned)));
                notes.extend(kinds_of_orders(SHEET_ORDERS, job, &planned));
            }
            if let Some(test) = too_wide(&planned) {
                notes.extend(all(SHEET_WIDE, booked::wide_job_kinds(job, test)));
            }
            notes.extend(all(SHEET_BOOKED, booked::behind_13(job, usize::MAX)));
            notes.extend(kinds_of_bytes(SHEET_BOOKED, SHEET_JOB_LENGTHS, job));
            notes.extend(all(SHEET_OLD, withdrawn::outcome_kind(job, &name)));
            if text.len() == SHEET {
                let short = *out_len < SHEET;
                notes.push((SHEETS, if short { "longest-short" } else { "longest" }, 1));
            }
            name
        }
        Case::Audit {
            job,
            plan,
            ending,
            out_len,
        } => {
            let audit = reference::audit(job, plan);
            let text = reference::audit_text(&audit);
            let answer = reference::written(&text, *out_len);
            let number = number_of(&answer, |bytes| bytes.len() as u64);
            let bytes = answer.unwrap_or_default();
            for subject in subjects {
                let mut out = Lent::new("out", random, *out_len, &bytes);
                let found = subject.audit(job, plan, out.part());
                results.push(found.map(|found| compare(number, found, &[out.difference()])));
            }
            if let Some(ending) = ending {
                notes.push((AUDITED_ENDINGS, ending.name(), 1));
            }
            notes.extend(all(AUDITED_RAW, booked::audit_kinds(job, plan, &audit)));
            notes.extend(kinds_of_bytes(AUDITED_BOOKED, AUDITED_LENGTHS, job));
            let fits = text.len() <= *out_len;
            match &audit {
                Err(Refused::Job(_)) => notes.push((AUDITS_REFUSED, "job", fits as u64)),
                Err(Refused::Plan(_)) => notes.push((AUDITS_REFUSED, "plan", fits as u64)),
                Ok(audit) => notes.push((AUDITS, "every-plan-tried", audit.tried as u64)),
            }
            let name = text_outcome(&text, *out_len);
            notes.extend(all(AUDITED_OLD, withdrawn::outcome_kind(job, &name)));
            if let (Ok(_), "ok", Some((order, by))) =
                (&audit, &name[..], withdrawn::audited_order(job, plan))
            {
                notes.push((AUDITED_ORDERS, by, 1));
                notes.extend(all(AUDITED_ORDERS, withdrawn::order_kinds(job, &order)));
            }
            match audit {
                Ok(audit) if name == "ok" && audit.loads > audit.fewest => "ok:more".to_string(),
                Err(Refused::Plan(no)) if name == "plan:12" => {
                    let tests = reference::read_job(job, 256).map_or(0, |job| job.tests);
                    let at_end = no.figure == tests as u64;
                    format!("plan:12:{}", if at_end { "end" } else { "step" })
                }
                _ => name,
            }
        }
        Case::Examine {
            places,
            booked,
            curves,
            wants,
        } => {
            let answer = reference::examine(*places, *booked, *curves, wants);
            let number = number_of(&answer, |_| 0);
            for subject in subjects {
                let found = subject.examine(*places, *booked, *curves, wants);
                results.push(found.map(|found| compare(number, found, &[])));
            }
            outcome(&answer)
        }
        Case::ExamineBy {
            places,
            booked,
            curves,
            method,
            wants,
        } => {
            let answer = reference::examine_by(*places, *booked, *curves, *method, wants);
            let number = number_of(&answer, |_| 0);
            for subject in subjects {
                let found = subject.examine_by(*places, *booked, *curves, *method, wants);
                results.push(found.map(|found| compare(number, found, &[])));
            }
            outcome(&answer)
        }
        Case::ExamineCounts { curves, tests } => {
            let answer = reference::examine_counts(*curves, *tests);
            let number = number_of(&answer, |_| 0);
            for subject in subjects {
                let found = subject.examine_counts(*curves, *tests);
                results.push(found.map(|found| compare(number, found, &[])));
            }
            outcome(&answer)
        }
        Case::ExamineSizes { capacity, wants } => {
            let answer = reference::examine_sizes(*capacity, wants);
            let number = number_of(&answer, |_| 0);
            for subject in subjects {
                let found = subject.examine_sizes(*capacity, wants);
                results.push(found.map(|found| compare(number, found, &[])));
            }
            outcome(&answer)
        }
        Case::ReadGroup {
            rest,
            at,
            group,
            curves,
        } => {
            let (number, result, name) = match parts::read_group(rest, *at, *group, *curves) {
                GroupRead::Curves(set) if *curves > 64 => (0, vec![set], "curves:65+"),
                GroupRead::Curves(set) => (0, vec![set], "curves"),
                GroupRead::Owed => (refused(1, 0), vec![], "owed"),
                GroupRead::Empty => (refused(2, 0), vec![], "empty"),
                GroupRead::Unknown if *group > 7 => (refused(3, 0), vec![], "unknown:8+"),
                GroupRead::Unknown => (refused(3, 0), vec![], "unknown"),
            };
            for subject in subjects {
                let mut set = Lent::new("set", random, 1, &result);
                let found = subject.read_group(rest, *at, *group, *curves, &mut set.part()[0]);
                results.push(found.map(|found| compare(number, found, &[set.difference()])));
            }
            name.to_string()
        }
        Case::GroupMap { set } => {
            let number = parts::group_map(*set) as u64;
            for subject in subjects {
                let found = subject.group_map(*set);
                results.push(found.map(|found| compare(number, found, &[])));
            }
            kind_of_set(*set).to_string()
        }
        Case::SetLen { set } => {
            let number = parts::set_bytes(*set).len() as u64;
            for subject in subjects {
                let found = subject.set_len(*set);
                results.push(found.map(|found| compare(number, found, &[])));
            }
            kind_of_set(*set).to_string()
        }
        Case::PutSet { set, out_len } => {
            // The length is answered whether or not the bytes fit.
            let number = parts::set_bytes(*set).len() as u64;
            let bytes = parts::put_set(*set, *out_len);
            for subject in subjects {
                let mut out = Lent::new("out", random, *out_len, &bytes);
                let found = subject.put_set(*set, out.part());
                results.push(found.map(|found| compare(number, found, &[out.difference()])));
            }
            if bytes.is_empty() { "short" } else { "ok" }.to_string()
        }
        Case::Reverse { length } => {
            for subject in subjects {
                let mut xs = Lent::<u16>::new("xs", random, *length, &[]).reversed();
                let found = subject.reverse(xs.part());
                results.push(found.map(|found| compare((), found, &[xs.difference()])));
            }
            if length % 2 == 0 { "even" } else { "odd" }.to_string()
        }
        Case::ListedOrder { tests, order_len } => {
            let (name, result) = tests_written(*tests, *order_len, || (0..*tests as u16).collect());
            for subject in subjects {
                let mut order = Lent::new("order", random, *order_len, &result);
                let found = subject.listed_order(*tests, order.part());
                results.push(found.map(|found| compare((), found, &[order.difference()])));
            }
            name.to_string()
        }
        Case::PackageOrder {
            capacity,
            wants,
            order_len,
        } => {
            let (name, result) = tests_written(wants.len(), *order_len, || {
                reference::package_order(*capacity, wants)
            });
            for subject in subjects {
                let mut order = Lent::new("order", random, *order_len, &result);
                let found = subject.package_order(*capacity, wants, order.part());
                results.push(found.map(|found| compare((), found, &[order.difference()])));
            }
            name.to_string()
        }
        Case::Sets { function, a, b, k } => {
            let (number, name) = set_answer(*function, *a, *b, *k);
            for subject in subjects {
                let found = subject.sets(*function, *a, *b, *k);
                results.push(found.map(|found| compare(number, found, &[])));
            }
            name
        }
        Case::MakeState {
            places,
            booked,
            curves,
            wants,
            held,
            order,
        } => {
            let answer = Made::new(*places, *booked, *curves, wants, *held, order);
            let number = number_of(&answer, |made| made.tests() as u64);
            let numbers = answer.as_ref().map_or(vec![], Made::numbers);
            let list = walks::list_of(case).expect("a state is made");
            notes.extend(all(MADE_STATES, walks::made_kinds(&list, &answer)));
            notes.extend(all(MADE_FAULTS, walks::fault_kinds(&list, &FAULT_NAMES)));
            if let Some(test) = too_wide(&answer) {
                let kinds = booked::wide_kinds(*places, *booked, wants, test);
                notes.extend(all(MADE_WIDE, kinds));
            }
            for subject in subjects {
                let mut state = Lent::new("state", random, states::NUMBERS, &numbers);
                let found = subject.make_state(
                    *places,
                    *booked,
                    *curves,
                    wants,
                    *held,
                    order,
                    state.part(),
                );
                results.push(found.map(|found| compare(number, found, &[state.difference()])));
            }
            outcome(&answer)
        }
        Case::Look { state } => {
            let any = Any::new(state);
            let shown = any.look();
            notes.extend(all(LOOKED_STATES, walks::state_kinds(&any)));
            for subject in subjects {
                let mut result = None;
                let mut state = Lent::holding("state", random, state);
                for _ in 0..2 {
                    let found = subject.look(state.part());
                    result =
                        found.map(|found| compare(shown.numbers(), found, &[state.difference()]));
                    if !matches!(result, Some(Ok(()))) {
                        break;
                    }
                }
                results.push(result);
            }
            name_of_shown(shown).to_string()
        }
        Case::Commit { state, positions } => {
            let any = Any::new(state);
            notes.extend(all(COMMITTED_STATES, walks::state_kinds(&any)));
            notes.extend(all(COMMITS, walks::commit_kinds(&any, positions)));
            for subject in subjects {
                results.push(commits(subject.as_ref(), random, &any, positions));
            }
            match any.clone().commit(positions[0]) {
                Ok(shown) => name_of_shown(shown).to_string(),
                Err(no) => named(&no),
            }
        }
        Case::Walk { list, moves } => {
            let made = list.made().expect("walks are of sound lists");
            let told = walks::told(&made, moves);
            notes.extend(all(
                WALKED_LISTS,
                walks::made_kinds(list, &Ok(made.clone())),
            ));
            notes.extend(all(WALKED_MOVES, told.moves));
            notes.extend(all(WALKED_STEPS, told.steps));
            notes.extend(all(WALKED_WRONG, told.wrong));
            notes.extend(all(WALKED_DONE, told.after_done));
            for subject in subjects {
                results.push(walk(subject.as_ref(), random, list, &made, moves));
            }
            walks::end_of(&made).to_string()
        }
        Case::AllSizes {
            curves,
            wants,
            order,
        } => {
            let list = drives::list_of(case).expect("a list is handed over");
            let answer = sizes::all_sizes(*curves, wants, order);
            notes.extend(all(
                SIZED_FAULTS,
                drives::fault_kinds(&list, &SIZED_FAULT_NAMES),
            ));
            notes.extend(all(SIZED_ORDERS, drives::position_kind(&list, &answer)));
            if let Ok(counts) = &answer {
                notes.extend(all(SIZED_LISTS, drives::kinds(&list, counts)));
                let marks = counts.iter().filter(|count| count.is_none()).count();
                notes.push((SINGLE_PLANS, "counts", (SIZES - marks) as u64));
                notes.push((SINGLE_PLANS, "refused:7", marks as u64));
            } else {
                notes.push((SINGLE_PLANS, "refused-alike", 1));
            }
            let number = number_of(&answer, |_| 0);
            let counts = answer.as_ref().map(|counts| sizes::numbers(counts));
            let result = counts.as_ref().map_or(&[][..], |counts| &counts[..]);
            for subject in subjects {
                let mut counts = Lent::new("counts", random, SIZES, result);
                let found = subject.all_sizes(*curves, wants, order, counts.part());
                let mut result = found.map(|found| compare(number, found, &[counts.difference()]));
                if let Some(Ok(())) = result {
                    let found = (number, &*counts.part());
                    result = Some(single_plans(subject.as_ref(), &list, found));
                }
                results.push(result);
            }
            outcome(&answer)
        }
        Case::FewestPlaces {
            curves,
            wants,
            order,
            loads,
        } => {
            let list = drives::list_of(case).expect("a list is handed over");
            let answer = sizes::all_sizes(*curves, wants, order);
            notes.extend(all(
                FEWEST_FAULTS,
                drives::fault_kinds(&list, &SIZED_FAULT_NAMES),
            ));
            notes.extend(all(FEWEST_ORDERS, drives::position_kind(&list, &answer)));
            for &loads in loads {
                if let Ok(counts) = &answer {
                    let kinds = drives::wanted_kinds(&list, counts, loads);
                    notes.extend(all(FEWEST_WANTED, kinds));
                }
            }
            for subject in subjects {
                let mut result = None;
                for &loads in loads {
                    // 0 for none.
                    let places = |counts: &sizes::Counts| sizes::fewest(counts, loads).unwrap_or(0);
                    let number = number_of(&answer, |counts| places(counts) as u64);
                    let found = subject.fewest_places(*curves, wants, order, loads);
                    result = found.map(|found| {
                        compare(number, found, &[])
                            .map_err(|text| format!("for {loads} loads: {text}"))
                    });
                    if !matches!(result, Some(Ok(()))) {
                        break;
                    }
                }
                results.push(result);
            }
            outcome(&answer)
        }
        Case::SizeTable {
            job,
            asked,
            loads,
            out_len,
        } => {
            let table = Table::new(job);
            let wanted = sizes::wanted(*asked, *loads);
            let text = sizes::table_text(&table, wanted);
            let answer = reference::written(&text, *out_len);
            let number = number_of(&answer, |bytes| bytes.len() as u64);
            let bytes = answer.unwrap_or_default();
            for subject in subjects {
                let mut out = Lent::new("out", random, *out_len, &bytes);
                let found = subject.size_table(job, *asked, *loads, out.part());
                results.push(found.map(|found| compare(number, found, &[out.difference()])));
            }
            let kinds = drives::table_kinds(job, &table, wanted, *asked, *out_len);
            notes.extend(all(TABLES_WRITTEN, kinds));
            let refused = table.as_ref().err();
            let short = drives::short_kind(text.len(), refused, *out_len);
            notes.extend(all(TABLES_SHORT, short));
            text_outcome(&text, *out_len)
        }
    };
    if empty::without_tests(case) == Some(true) {
        notes.extend(notes_without_tests(case, &outcome));
    }
    if let Some((places, booked)) = booked::handed(case) {
        let called = case.function();
        let table = HANDED_TABLES.iter().find(|table| table.0 == called);
        let (_, numbers, twice, _) = table.expect("all are there");
        notes.extend(all(numbers, booked::number_kinds(places, booked)));
        notes.extend(all(twice, booked::twice(case)));
    }
    if let Some(method) = withdrawn::handed(case) {
        let called = case.function();
        let table = METHOD_TABLES.iter().find(|table| table.0 == called);
        let (_, numbers, twice, _) = table.expect("all are there");
        notes.extend(all(numbers, [withdrawn::number_kind(method)]));
        notes.extend(all(twice, withdrawn::twice(case)));
    }
    let table = HELD_TABLES.iter().find(|table| table.0 == case.function());
    if let Some((_, kinds, twice)) = table {
        notes.extend(all(kinds, holding::kinds(case, outcome == "ok")));
        notes.extend(all(twice, holding::twice(case)));
    }
    Verdict {
        outcome,
        notes,
        results,
    }
}

/// What is to come of a job that was read.
struct ReadAgain {
    /// What it is written back as.
    bytes: Vec<u8>,
    /// Its order, of a job whose method byte is 2.
    order: Option<Result<Vec<u16>, Refusal>>,
}

impl ReadAgain {
    fn new(job: &[u8], read: &reference::Job) -> ReadAgain {
        let (places, booked, curves) = (read.places, read.booked, read.curves);
        let (method, wants) = (read.method, &read.wants);
        let bytes = reference::write_job(places, booked, curves, method, wants, job.len());
        let bytes = bytes.expect("a job that was read can be written");
        assert_eq!(bytes, withdrawn::written_back(job));
        let order = withdrawn::field_of_2(job)
            .map(|_| reference::order_tests(places, booked, curves, 1, wants, wants.len()));
        ReadAgain { bytes, order }
    }

    fn notes(&self, job: &[u8]) -> Vec<Note> {
        let back = WRITTEN_BACK[(self.bytes != job) as usize];
        let mut notes = vec![(READ_BACK, back, 1)];
        match &self.order {
            None => {}
            Some(Ok(order)) => {
                notes.push((READ_ORDERED, "done", 1));
                notes.extend(all(READ_ORDERED, withdrawn::order_kinds(job, order)));
            }
            Some(Err(_)) => notes.push((READ_ORDERED, "refused:7", 1)),
        }
        notes
    }

    /// The subject writes what it has read, and orders it.
    fn compared(
        &self,
        subject: &dyn Subject,
        random: &mut Random,
        read: &reference::Job,
        wants: &[u64],
    ) -> Option<Result<(), String>> {
        let (places, booked, curves) = (read.places, read.booked, read.curves);
        let count = self.bytes.len();
        let length = count + random.below(3);
        let mut out = Lent::new("out", random, length, &self.bytes);
        let found = subject.write_job(places, booked, curves, read.method, wants, out.part())?;
        let written = compare(count as u64, found, &[out.difference()]);
        if let Err(text) = written {
            return Some(Err(format!("{text}of writing what was read\n")));
        }
        let Some(answer) = &self.order else {
            return Some(Ok(()));
        };
        let number = number_of(answer, |order| order.len() as u64);
        let result = answer.clone().unwrap_or_default();
        let mut order = Lent::new("order", random, wants.len(), &result);
        let found =
            subject.order_tests(places, booked, curves, read.method, wants, order.part())?;
        let ordered = compare(number, found, &[order.difference()]);
        Some(ordered.map_err(|text| format!("{text}of ordering what was read\n")))
    }
}

/// The counts of all sizes, or the refusal, beside the single plans that the subject itself makes: the
/// same count, 7 exactly for a mark, and the same refusal whatever the places.
fn single_plans(
    subject: &dyn Subject,
    list: &drives::List,
    (answer, counts): (u64, &[u16]),
) -> Result<(), String> {
    let (wants, order) = (&list.wants, &list.order);
    let (mut drops, mut loads, mut end) = (vec![0; wants.len()], vec![0; wants.len()], 0);
    for (places, &count) in (1..).zip(counts) {
        let planned = subject.plan_order(
            places,
            0,
            list.curves,
            wants,
            0,
            order,
            &mut drops,
            &mut loads,
            &mut end,
        );
        let Some(planned) = planned else {
            break;
        };
        let wider = |want: &u64| parts::size(*want) > places as u64;
        let expected = match wants.iter().position(wider) {
            _ if answer != 0 => answer,
            Some(test) if count == MARK => refused(7, test as u64),
            _ => count as u64,
        };
        compare(expected, planned, &[]).map_err(|text| {
            format!("of all sizes (first) and the plan for {places} places: {text}")
        })?;
    }
    Ok(())
}

/// The outcome's name of a look or a commit.
fn name_of_shown(shown: Shown) -> &'static str {
    match shown {
        Shown::Done => "done",
        Shown::Step { .. } => "step",
        Shown::End { .. } => "end",
    }
}

/// Commits of a state that was not made, each behind a look; all its numbers are compared.
fn commits(
    subject: &dyn Subject,
    random: &mut Random,
    state: &Any,
    positions: &[usize],
) -> Option<Result<(), String>> {
    let mut then = state.clone();
    let mut state = Lent::holding("state", random, &then.numbers());
    for (at, &position) in positions.iter().enumerate() {
        let found = subject.look(state.part())?;
        let looked = compare(then.look().numbers(), found, &[state.difference()]);
        if let Err(text) = looked {
            return Some(Err(format!("look {at}: {text}")));
        }
        let answer = states::answered(then.commit(position));
        let found = subject.commit(state.part(), position)?;
        state.expect(&then.numbers());
        let committed = compare(answer, found, &[state.difference()]);
        if let Err(text) = committed {
            return Some(Err(format!("commit {at} of {position}: {text}")));
        }
    }
    Some(Ok(()))
}

/// A state is made, and goes through these moves to its end and beyond; all answers and numbers are
/// compared. Copies that are left behind show the same as then. What was committed is the plan that the
/// subject itself makes of the same.
fn walk(
    subject: &dyn Subject,
    random: &mut Random,
    list: &List,
    made: &Made,
    moves: &[Move],
) -> Option<Result<(), String>> {
    let List {
        places,
        booked,
        curves,
        wants,
        held,
        order,
    } = list;
    let mut then = made.clone();
    let tests = then.tests();
    let mut state = Lent::new("state", random, states::NUMBERS, &then.numbers());
    let found = subject.make_state(*places, *booked, *curves, wants, *held, order, state.part())?;
    if let Err(text) = compare(tests as u64, found, &[state.difference()]) {
        return Some(Err(format!("of making the state: {text}")));
    }
    let mut left_behind = Vec::new();
    let mut committed = Vec::new();
    for (at, &step) in moves.iter().enumerate() {
        let (expected, found) = match step {
            Move::Look => (then.look().numbers(), subject.look(state.part())?),
            Move::Commit(position) => {
                let answer = then.commit(position);
                let found = subject.commit(state.part(), position)?;
                state.expect(&then.numbers());
                if answer.is_ok() {
                    committed.push(found);
                }
                (states::answered(answer), found)
            }
            Move::Copy => {
                let copy = Lent::holding("copy", random, state.part());
                let old = replace(&mut state, copy);
                left_behind.push((then.look().numbers(), old));
                continue;
            }
        };
        if let Err(text) = compare(expected, found, &[state.difference()]) {
            return Some(Err(format!("of move {at}, {step}: {text}")));
        }
    }
    for (shown, mut old) in left_behind {
        let found = subject.look(old.part())?;
        if let Err(text) = compare(shown, found, &[old.difference()]) {
            return Some(Err(format!("of a copy left behind: {text}")));
        }
    }
    let (mut drops, mut loads, mut end) = (vec![0; tests], vec![0; tests], 0);
    let count = subject.plan_order(
        *places, *booked, *curves, wants, *held, order, &mut drops, &mut loads, &mut end,
    )?;
    let mut plan = Vec::new();
    for (&drops, &loads) in drops.iter().zip(&loads) {
        plan.push(Shown::Step { drops, loads }.numbers());
    }
    if end != 0 {
        plan.push(Shown::End { drops: end }.numbers());
    }
    let loaded = committed.iter().map(|step| parts::size(step[2])).sum();
    let planned = compare((count, plan), (loaded, committed), &[]);
    Some(planned.map_err(|text| format!("of planning (first) and commits: {text}")))
}

/// A table's title, a name in it and how often it was met.
type Note = (&'static str, &'static str, u64);

/// These names of a table, each met once.
fn all(title: &'static str, names: impl IntoIterator<Item = &'static str>) -> Vec<Note> {
    names.into_iter().map(|name| (title, name, 1)).collect()
}

/// The kinds of a planned job's first tie that the tie rule decides.
fn kinds_of_ties(title: &'static str, planned: &Result<PlannedJob, Refusal>) -> Vec<Note> {
    let Ok((job, order, plan)) = planned else {
        return Vec::new();
    };
    let (places, booked, curves) = (job.places, job.booked, job.curves);
    let kinds = ties::kinds(places, booked, curves, &job.wants, 0, order, plan);
    all(title, kinds)
}

/// The kinds of a planned job's degrees, if it is ordered by method 1.
fn kinds_of_degrees(title: &'static str, planned: &Result<PlannedJob, Refusal>) -> Vec<Note> {
    match planned {
        Ok((job, order, _)) if job.method == 1 => all(title, degrees::kinds(&job.wants, order)),
        _ => Vec::new(),
    }
}

/// The kinds of a planned job's order, if the method byte is 2.
fn kinds_of_orders(
    title: &'static str,
    job: &[u8],
    planned: &Result<PlannedJob, Refusal>,
) -> Vec<Note> {
    match planned {
        Ok((_, order, _)) => all(title, withdrawn::order_kinds(job, order)),
        Err(_) => Vec::new(),
    }
}

/// What is told of the booked places of job bytes, and of their length.
fn kinds_of_bytes(title: &'static str, lengths: &'static str, job: &[u8]) -> Vec<Note> {
    let mut notes = all(title, booked::job_kinds(job));
    notes.extend(all(lengths, booked::longest_kinds(job)));
    notes
}

/// The test that is refused as too wide.
fn too_wide<T>(answer: &Result<T, Refusal>) -> Option<u64> {
    match answer {
        Err(no) if no.number == 7 => Some(no.figure),
        _ => None,
    }
}

/// A job or a plan of the longest there are, written or too long for its buffer.
fn on_bound(
    title: &'static str,
    answer: &Result<Vec<u8>, Refusal>,
    most: usize,
    names: [&'static str; 2],
) -> Option<Note> {
    match answer {
        Ok(bytes) if bytes.len() == most => Some((title, names[0], 1)),
        Err(no) if *no == reference::refusal(9, most) => Some((title, names[1], 1)),
        _ => None,
    }
}

/// Where a list of so many tests is cut: before all steps, between them, or behind all.
fn cut_kinds(tests: usize, steps: usize) -> Vec<&'static str> {
    match steps {
        _ if tests == 0 => vec![],
        0 => vec!["before-all"],
        _ if steps == tests => vec!["behind-all"],
        _ => vec!["between"],
    }
}

/// Bytes that get 11 at their end, and what is refused before that, or would be behind it.
fn beside_ending(ending: Ending, outcome: &str, short: bool) -> Option<Note> {
    let name = match outcome {
        _ if ending.reads() => return None,
        "10:1" | "10:2" => "10-first",
        "11" if short && ending == Ending::Surplus => "surplus-short",
        "11" if short => "11-short",
        _ => return None,
    };
    Some((READ_TWICE, name, 1))
}

/// The tests that are written to a list: all, or none where there are more than 256 or too few
/// entries.
fn tests_written(
    tests: usize,
    order_len: usize,
    order: impl Fn() -> Vec<u16>,
) -> (&'static str, Vec<u16>) {
    if tests > 256 {
        ("many", Vec::new())
    } else if order_len < tests {
        ("short", Vec::new())
    } else {
        ("ok", order())
    }
}

// ---------------------------------------------------------------------------------------------
// Lists without tests

/// What is told of a case without tests, beside its outcome.
#[derive(Clone, Copy, Debug, PartialEq, Eq)]
enum Told {
    /// Of job bytes: the map of those that read, or what is faulty.
    Head,
    /// The method of an order that is answered.
    Method,
    /// How long the lists lent are beside the result's entries, of an answered case.
    Lent,
    /// Which of drops and loads have an entry.
    Lists,
    /// How the end of the plan bytes was made, if on purpose.
    End,
    /// The fault that is answered and another one.
    Twice,
}

/// The function, what is told, the title and the names.
type ToldTable = (&'static str, Told, &'static str, Vec<&'static str>);

const HEADS: [&str; 23] = [
    "00",
    "01",
    "02",
    "03",
    "08",
    "09",
    "0a",
    "0b",
    "10",
    "11",
    "12",
    "13",
    "18",
    "19",
    "1a",
    "1b",
    "00-surplus",
    "surplus",
    "cut",
    "map",
    "field",
    "tests-0",
    "booked",
];
const METHODS: [&str; 3] = ["method-0", "method-1", "method-3"];
const LENT: [&str; 2] = ["exact", "longer"];
const SEVERAL_LENT: [&str; 3] = ["exact", "longer", "mixed"];
const LISTS: [&str; 3] = ["drops", "loads", "both"];

// The faults of handed numbers, as they are asked; with a method; with a buffer too; with a holding and an
// order; with lists and an end set too; and with a buffer for these.
const PLAIN: [&str; 4] = ["10:0", "10:1", "10:260", "13"];
const WITH_METHOD: [&str; 5] = ["10:0", "10:1", "10:3", "10:260", "13"];
const WITH_BUFFER: [&str; 6] = ["10:0", "10:1", "10:3", "10:260", "13", "9"];
const WITH_ORDER: [&str; 6] = ["10:0", "10:1", "10:260", "13", "14", "8"];
const WITH_PLAN: [&str; 8] = [
    "10:0",
    "10:1",
    "10:260",
    "13",
    "14",
    "8",
    "12:lengths",
    "12:end",
];
const WITH_PLAN_AND_BUFFER: [&str; 9] = [
    "10:0",
    "10:1",
    "10:260",
    "13",
    "14",
    "8",
    "12:lengths",
    "12:end",
    "9",
];

/// The names of any two of these faults. They last as long as the run.
fn two_of(faults: &[&str]) -> Vec<&'static str> {
    let mut names: Vec<&'static str> = Vec::new();
    for (at, first) in faults.iter().enumerate() {
        for other in &faults[at + 1..] {
            names.push(format!("{first}+{other}").leak());
        }
    }
    names
}

#[rustfmt::skip]
static TOLD_TABLES: LazyLock<Vec<ToldTable>> = LazyLock::new(|| {
    let mut endings = Vec::new();
    for (ending, name) in ENDINGS {
        if ending.without_tests() {
            endings.push(name);
        }
    }
    let (two_plain, two_with_method) = (two_of(&PLAIN), two_of(&WITH_METHOD));
    let (two_with_buffer, two_with_order) = (two_of(&WITH_BUFFER), two_of(&WITH_ORDER));
    let (two_with_plan, two_with_both) = (two_of(&WITH_PLAN), two_of(&WITH_PLAN_AND_BUFFER));
    let tables: [(&str, Told, &str, &[&'static str]); 35] = [
        ("read_job", Told::Head, "jobs read, without tests", &HEADS),
        ("read_job", Told::Lent, "jobs read, without tests, list lent", &LENT),
        ("write_job", Told::Lent, "jobs written, without tests, buffer lent", &LENT),
        ("write_job", Told::Twice, "jobs written, without tests, two faults", &two_with_buffer),
        ("order_tests", Told::Method, "orders made, without tests, method", &METHODS),
        ("order_tests", Told::Lent, "orders made, without tests, list lent", &LENT),
        ("order_tests", Told::Twice, "orders made, without tests, two faults", &two_with_method),
        ("plan_order", Told::Lent, "plans made, without tests, lists lent", &SEVERAL_LENT),
        ("plan_order", Told::Twice, "plans made, without tests, two faults", &two_with_order),
        ("check_plan", Told::Lists, "plans checked, without tests, entries in", &LISTS),
        ("check_plan", Told::Twice, "plans checked, without tests, two faults", &two_with_plan),
        ("write_plan", Told::Lent, "plans written, without tests, buffer lent", &LENT),
        ("write_plan", Told::Lists, "plans written, without tests, entries in", &LISTS),
        ("write_plan", Told::Twice, "plans written, without tests, two faults", &two_with_both),
        ("read_plan", Told::End, "plans read, without tests, end of the bytes", &endings),
        ("read_plan", Told::Lent, "plans read, without tests, lists lent", &SEVERAL_LENT),
        ("read_plan", Told::Twice, "plans read, without tests, two faults", &["10:1+11"]),
        ("step_bytes", Told::End, "steps fetched, without tests, end of the bytes", &endings),
        ("step_bytes", Told::Twice, "steps fetched, without tests, two faults", &["10:1+11"]),
        ("plan", Told::Head, "C calls, without tests", &HEADS),
        ("plan", Told::Lent, "C calls, without tests, buffer lent", &LENT),
        ("sheet", Told::Head, "sheets, without tests", &HEADS),
        ("sheet", Told::Lent, "sheets, without tests, buffer lent", &LENT),
        ("audit", Told::Head, "audits, without tests", &HEADS),
        ("audit", Told::End, "plans audited, without tests, end of the bytes", &endings),
        ("audit", Told::Lent, "audits, without tests, buffer lent", &LENT),
        ("examine", Told::Twice, "numbers examined, without tests, two faults", &two_plain),
        ("examine_by", Told::Twice, "numbers with method examined, without tests, two faults", &two_with_method),
        ("listed_order", Told::Lent, "listed orders, without tests, list lent", &LENT),
        ("package_order", Told::Lent, "package orders, without tests, list lent", &LENT),
        ("make_state", Told::Twice, "states made, without tests, two faults", &two_with_order),
        ("all_sizes", Told::Twice, "all sizes, without tests, two faults", &["10:1+8"]),
        ("fewest_places", Told::Twice, "fewest places, without tests, two faults", &["10:1+8"]),
        ("size_table", Told::Head, "tables, without tests", &HEADS),
        ("size_table", Told::Lent, "tables, without tests, buffer lent", &LENT),
    ];
    tables.map(|(function, told, title, names)| (function, told, title, names.to_vec())).to_vec()
});

/// Job bytes that give no tests: the map, where they read, or what is faulty.
fn kind_of_head(job: &[u8]) -> String {
    let no = match reference::read_job(job, 0) {
        Ok(_) => return format!("{:02x}", job[0]),
        Err(no) => no,
    };
    let tests_field = 1 + (job[0] & 3).count_ones() as u64;
    let kind = match (no.number, no.figure) {
        (1, _) => "cut",
        (2, 0) => "map",
        (2, at) if job[0] & 4 != 0 && at == tests_field => "tests-0",
        (2, _) => "field",
        (6, 1) => "00-surplus",
        (6, _) => "surplus",
        (13, _) => "booked",
        _ => "unforeseen",
    };
    kind.to_string()
}

/// The entries of the result of a case without tests, if it is answered, and the lengths lent.
fn lengths_lent(case: &Case) -> Option<(usize, Vec<usize>)> {
    Some(match case {
        Case::ReadJob { wants_len, .. } => (0, vec![*wants_len]),
        Case::WriteJob {
            places,
            booked,
            curves,
            method,
            out_len,
            ..
        } => {
            let needed = empty::job_length(*places, *booked, *curves, *method);
            (needed, vec![*out_len])
        }
        Case::OrderTests { order_len, .. }
        | Case::ListedOrder { order_len, .. }
        | Case::PackageOrder { order_len, .. } => (0, vec![*order_len]),
        Case::PlanOrder {
            drops_len,
            loads_len,
            ..
        } => (0, vec![*drops_len, *loads_len]),
        Case::WritePlan { end, out_len, .. } => (empty::end_length(*end), vec![*out_len]),
        Case::ReadPlan {
            order_len,
            drops_len,
            loads_len,
            ..
        } => (0, vec![*order_len, *drops_len, *loads_len]),
        Case::Call { plan_len, .. } => (0, vec![*plan_len]),
        Case::Sheet { job, out_len } => (reference::sheet(job).len(), vec![*out_len]),
        Case::SizeTable {
            job,
            asked,
            loads,
            out_len,
        } => {
            let wanted = sizes::wanted(*asked, *loads);
            let text = sizes::table_text(&Table::new(job), wanted);
            (text.len(), vec![*out_len])
        }
        Case::Audit {
            job, plan, out_len, ..
        } => {
            let text = reference::audit_text(&reference::audit(job, plan));
            (text.len(), vec![*out_len])
        }
        _ => return None,
    })
}

/// What is told of a case without tests that came out so.
fn told_without_tests(case: &Case, outcome: &str) -> Vec<(Told, String)> {
    let mut told = Vec::new();
    match case {
        Case::ReadJob { job, .. }
        | Case::Call { job, .. }
        | Case::Sheet { job, .. }
        | Case::Audit { job, .. }
        | Case::SizeTable { job, .. } => told.push((Told::Head, kind_of_head(job))),
        Case::OrderTests { method, .. } if outcome == "ok" => {
            told.push((Told::Method, format!("method-{method}")));
        }
        Case::CheckPlan { drops, loads, .. } | Case::WritePlan { drops, loads, .. }
            if outcome == "12:lengths" =>
        {
            let name = match (drops.is_empty(), loads.is_empty()) {
                (false, false) => "both",
                (false, true) => "drops",
                _ => "loads",
            };
            told.push((Told::Lists, name.to_string()));
        }
        _ => {}
    }
    if let Case::ReadPlan { ending, .. }
    | Case::StepBytes { ending, .. }
    | Case::Audit { ending, .. } = case
    {
        told.extend(ending.map(|ending| (Told::End, ending.name().to_string())));
    }
    if outcome == "ok" {
        if let Some((entries, lengths)) = lengths_lent(case) {
            let exact = lengths.iter().filter(|length| **length == entries).count();
            let name = match exact {
                0 => "longer",
                _ if exact == lengths.len() => "exact",
                _ => "mixed",
            };
            told.push((Told::Lent, name.to_string()));
        }
    }
    if let Some((first, others)) = empty::faults(case).split_first() {
        let twice = |other: &&str| (Told::Twice, format!("{first}+{other}"));
        told.extend(others.iter().map(twice));
    }
    told
}

/// The same with the titles and names of the tables.
fn notes_without_tests(case: &Case, outcome: &str) -> Vec<Note> {
    let function = FUNCTIONS[case.function()];
    let mut notes = Vec::new();
    for (told, name) in told_without_tests(case, outcome) {
        let found = TOLD_TABLES
            .iter()
            .find(|table| (table.0, table.1) == (function, told));
        let (_, _, title, names) = found.expect("what is told has a table");
        match names.iter().find(|known| **known == name) {
            Some(known) => notes.push((*title, *known, 1)),
            None => panic!("{title}: {name} is unforeseen"),
        }
    }
    notes
}

// ---------------------------------------------------------------------------------------------
// The run

const SEED: u64 = 20_260_101;
const CASES: u64 = 180_000;

/// From this number of cases on, a run ends with 2 if something was never reached, or too seldom.
const MANY: u64 = 100_000;

/// Which comparison won in the second round of method 3.
const FLIPS: [&str; 4] = ["tail-head", "tail-tail", "head-head", "head-tail"];

/// A handed end set, beside what is held.
const ENDS: [&str; 8] = [
    "held",
    "nothing-held",
    "one-more",
    "one-fewer",
    "zero",
    "foreign",
    "all-ones",
    "others",
];

// The titles of what is counted beside the outcomes.
const FLIPS_WON: &str = "method 3, comparisons won";
/// How large the degrees are, and which wrong numbers would give another order.
const ORDERED_DEGREES: &str = "orders made by method 1, degrees";
/// Whether the order of method 3 would be another with the raw places, and 7 another.
const ORDERED_RAW: &str = "orders made by method 3, raw places give another";
const ORDERED_WIDE: &str = "orders refused 7, raw places";
const PLANNED_ENDS: &str = "plans made, end set";
/// One plan or two under the two tie rules; if two, the first tie that they decide differently.
const PLANNED_TIES: &str = "plans made, under the lowest and the highest tie rule";
const PLANNED_RAW: &str = "plans made, raw places give other";
const PLANNED_WIDE: &str = "plans refused 7, raw places";
const CHECKED_RAW: &str = "plans checked, raw places";
const WRITTEN_RAW: &str = "plans written, raw places";
/// What is different from an empty drive, of those that are not from one.
const PLANNED_EMPTY: &str = "plans made, from an empty drive other";
const CHECKED_EMPTY: &str = "plans checked, from an empty drive";
const WRITTEN_EMPTY: &str = "plans written, from an empty drive";
/// Where the list is cut whose rest has to have the rest of the plan.
const PLANNED_RESTS: &str = "plans made, rest of the list planned halfway";
const CHECKED_SORTS: &str = "plans checked, from a holding";
const WRITTEN_SORTS: &str = "plans written, from a holding";
const CHECKED_ENDS: &str = "plans checked, end set";
const CHECKED_TWICE: &str = "plans checked, another end set and refused before";
const WRITTEN_ENDS: &str = "plans written, end set";
const WRITTEN_TWICE: &str = "plans written, another end set and refused before, or too short";
const WRITTEN_LENGTHS: &str = "plans written, longest";
const READ_ENDS: &str = "plans read, end set";
const READ_ENDINGS: &str = "plans read, end of the bytes";
const READ_TWICE: &str = "plans read, a faulty end and refused before, or too short";
const FETCHED_ENDINGS: &str = "steps fetched, end of the bytes";
const FETCHED_BEHIND: &str = "steps fetched, up to two behind the end step's position";
/// Job bytes with booked places.
const READ_BOOKED: &str = "jobs read, booked places";
const READ_LENGTHS: &str = "jobs read, longest";
const JOBS_WRITTEN: &str = "jobs written, longest";
const CALL_BOOKED: &str = "C calls, booked places";
const CALL_JOB_LENGTHS: &str = "C calls, longest job";
const CALL_RAW: &str = "C calls, raw places give";
const CALL_WIDE: &str = "C calls refused 7, raw places";
const CALL_LENGTHS: &str = "C calls, longest";
const CALL_TIES: &str = "C calls, under the lowest and the highest tie rule";
const CALL_DEGREES: &str = "C calls by method 1, degrees";
const SHEETS: &str = "sheets";
const SHEET_BOOKED: &str = "sheets, booked places";
const SHEET_JOB_LENGTHS: &str = "sheets, longest job";
const SHEET_RAW: &str = "sheets, raw places give another";
const SHEET_WIDE: &str = "sheets refused 7, raw places";
const SHEET_TIES: &str = "sheets, under the lowest and the highest tie rule";
const SHEET_DEGREES: &str = "sheets by method 1, degrees";
const AUDITED_ENDINGS: &str = "plans audited, end of the bytes";
const AUDITED_BOOKED: &str = "audits, booked places";
const AUDITED_LENGTHS: &str = "audits, longest job";
const AUDITED_RAW: &str = "plans audited, raw places";
/// What an audit refused whose text was written.
const AUDITS_REFUSED: &str = "audits, refused";
/// The fewest loads of an audit were confirmed by trying every plan.
const AUDITS: &str = "audits";
/// Job bytes with the withdrawn method.
const READ_OLD: &str = "jobs read, method byte 2";
const READ_ORDERED: &str = "jobs read, method byte 2, ordered by what was read";
const CALL_OLD: &str = "C calls, method byte 2";
const CALL_ORDERS: &str = "C calls, method byte 2, order by method 1";
const SHEET_OLD: &str = "sheets, method byte 2";
const SHEET_ORDERS: &str = "sheets, method byte 2, order by method 1";
const AUDITED_OLD: &str = "audits, method byte 2";
const AUDITED_ORDERS: &str = "plans audited, method byte 2, order by method 1";
/// What every job that was read is written back as, and the methods of those written that are read back.
const READ_BACK: &str = "jobs read, written back";
const WRITTEN_BACK: [&str; 2] = ["same-bytes", "1-for-2"];
const JOBS_READ_BACK: &str = "jobs written, read back by method";
/// Faults in what a state is made of, and its kinds.
const MADE_FAULTS: &str = "states made, faults";
const MADE_STATES: &str = "states made";
const MADE_WIDE: &str = "states refused 7, raw places";
/// Numbers that were not made.
const LOOKED_STATES: &str = "states not made, looked at";
const COMMITTED_STATES: &str = "states not made, committed";
const COMMITS: &str = "states not made, commits";
const WALKED_LISTS: &str = "walks";
const WALKED_MOVES: &str = "walks, moves";
const WALKED_STEPS: &str = "walks, steps committed";
const WALKED_WRONG: &str = "walks, positions of wrong commits";
const WALKED_DONE: &str = "walks, positions of commits when done";
/// All drive sizes: faults in what is handed over, where 8 is, and kinds of lists.
const SIZED_FAULTS: &str = "all sizes, faults";
const SIZED_ORDERS: &str = "all sizes, refused 8 at";
const SIZED_LISTS: &str = "all sizes";
/// What the single plans of all sizes have to answer, if the subject makes any.
const SINGLE_PLANS: &str = "all sizes, single plans";
const FEWEST_FAULTS: &str = "fewest places, faults";
const FEWEST_ORDERS: &str = "fewest places, refused 8 at";
const FEWEST_WANTED: &str = "fewest places, wanted counts";
const TABLES_WRITTEN: &str = "tables";
const TABLES_SHORT: &str = "tables, buffer too short";

static FAULT_NAMES: LazyLock<Vec<&'static str>> = LazyLock::new(walks::fault_names);
static SIZED_FAULT_NAMES: LazyLock<Vec<&'static str>> = LazyLock::new(drives::fault_names);

/// For each function that is handed booked places: its number, the titles of their values and of a fault
/// of theirs beside another one, and what else it can refuse.
#[rustfmt::skip]
const HANDED_TABLES: [(usize, &str, &str, &[&str]); 8] = [
    (1, "jobs written, booked", "jobs written, booked and another fault",
        &["10:0", "10:1", "10:2", "10:3", "10:4+t", "9"]),
    (2, "orders made, booked", "orders made, booked and another fault",
        &["10:0", "10:1", "10:2", "10:3", "10:4+t", "7", "9"]),
    (3, "plans made, booked", "plans made, booked and another fault",
        &["10:0", "10:1", "10:2", "10:4+t", "7", "8", "9", "14"]),
    (4, "plans checked, booked", "plans checked, booked and another fault",
        &["10:0", "10:1", "10:2", "10:4+t", "8", "12", "14"]),
    (5, "plans written, booked", "plans written, booked and another fault",
        &["10:0", "10:1", "10:2", "10:4+t", "8", "9", "12", "14"]),
    (11, "numbers examined, booked", "numbers examined, booked and another fault",
        &["10:0", "10:1", "10:2", "10:4+t"]),
    (12, "numbers with method examined, booked", "numbers with method examined, booked and another fault",
        &["10:0", "10:1", "10:2", "10:3", "10:4+t"]),
    (32, "states made, booked", "states made, booked and another fault",
        &["10:0", "10:1", "10:2", "10:4+t", "7", "8", "14"]),
];

/// For each function that is handed a method: its number, the titles of its values and of a 2 beside
/// another fault, and what it can refuse behind 13.
#[rustfmt::skip]
const METHOD_TABLES: [(usize, &str, &str, &[&str]); 3] = [
    (1, "jobs written, method", "jobs written, method 2 handed", &["9"]),
    (2, "orders made, method", "orders made, method 2 handed", &["7", "9"]),
    (12, "numbers with method examined, method", "numbers with method examined, method 2 handed", &[]),
];

/// For each function that is handed a holding: its number, and the titles of its kinds and of 14 beside
/// another fault.
const HELD_TABLES: [(usize, &str, &str); 4] = [
    (3, "plans made, holding", "plans made, 14 and another fault"),
    (
        4,
        "plans checked, holding",
        "plans checked, 14 and another fault",
    ),
    (
        5,
        "plans written, holding",
        "plans written, 14 and another fault",
    ),
    (
        32,
        "states made, holding",
        "states made, 14 and another fault",
    ),
];

/// How often each name of these tables has to be met; of the others once is enough.
const LEAST: [(&str, u64); 20] = [
    (ORDERED_DEGREES, 5),
    (CALL_DEGREES, 5),
    (SHEET_DEGREES, 5),
    (READ_BACK, 500),
    (CALL_ORDERS, 20),
    (SHEET_ORDERS, 20),
    (AUDITED_ORDERS, 20),
    (LOOKED_STATES, 10),
    (COMMITTED_STATES, 10),
    (COMMITS, 20),
    (WALKED_MOVES, 1_000),
    (WALKED_STEPS, 100),
    (WALKED_WRONG, 200),
    (WALKED_DONE, 100),
    (SIZED_LISTS, 5),
    (SINGLE_PLANS, 1_000),
    (FEWEST_WANTED, 50),
    (TABLES_WRITTEN, 2),
    (TABLES_SHORT, 10),
    (SIZED_ORDERS, 20),
];

/// What is counted beside the outcomes: the function, the title and the names.
#[rustfmt::skip]
fn tables() -> Vec<(&'static str, &'static str, Vec<&'static str>)> {
    let endings = ENDINGS.map(|(_, name)| name);
    let degrees = degrees::names();
    let jobs = |more: &[&'static str]| [&booked::JOBS, more].concat();
    let (jobs_read, jobs_planned, jobs_audited) = (jobs(&["13+9"]), jobs(&["13+7"]), jobs(&[]));
    let written_lengths = [LONGEST, LONGEST_HELD].concat();
    let states_made = [&walks::MADE[..], &walks::TOO_MANY].concat();
    let jobs_old = [&withdrawn::JOBS[..], &[withdrawn::SHORT]].concat();
    let jobs_ordered = [&["done", "refused:7"][..], &withdrawn::ORDERS].concat();
    let orders_audited = [&withdrawn::ORDERS[..], &withdrawn::AUDITED].concat();
    let tables: [(&str, &str, &[&str]); 79] = [
        ("read_job", READ_BOOKED, &jobs_read),
        ("read_job", READ_LENGTHS, &booked::LONGEST),
        ("read_job", READ_OLD, &jobs_old),
        ("read_job", READ_BACK, &WRITTEN_BACK),
        ("read_job", READ_ORDERED, &jobs_ordered),
        ("write_job", JOBS_WRITTEN, &LONGEST_JOB),
        ("write_job", JOBS_READ_BACK, &["0", "1", "3"]),
        ("order_tests", ORDERED_RAW, &booked::ORDERS),
        ("order_tests", ORDERED_WIDE, &booked::WIDE),
        ("plan_order", PLANNED_RAW, &booked::PLANS),
        ("plan_order", PLANNED_WIDE, &booked::WIDE),
        ("check_plan", CHECKED_RAW, &booked::CHECKS),
        ("write_plan", WRITTEN_RAW, &booked::CHECKS),
        ("plan", CALL_BOOKED, &jobs_planned),
        ("plan", CALL_JOB_LENGTHS, &booked::LONGEST),
        ("plan", CALL_RAW, &booked::CALLS),
        ("plan", CALL_WIDE, &booked::WIDE),
        ("plan", CALL_OLD, &withdrawn::CALLS),
        ("plan", CALL_ORDERS, &withdrawn::ORDERS),
        ("sheet", SHEET_BOOKED, &jobs_planned),
        ("sheet", SHEET_JOB_LENGTHS, &booked::LONGEST),
        ("sheet", SHEET_RAW, &booked::SHEETS),
        ("sheet", SHEET_WIDE, &booked::WIDE),
        ("sheet", SHEET_OLD, &withdrawn::CALLS),
        ("sheet", SHEET_ORDERS, &withdrawn::ORDERS),
        ("audit", AUDITED_BOOKED, &jobs_audited),
        ("audit", AUDITED_LENGTHS, &booked::LONGEST),
        ("audit", AUDITED_RAW, &booked::AUDITS),
        ("audit", AUDITED_OLD, &withdrawn::AUDITS),
        ("audit", AUDITED_ORDERS, &orders_audited),
        ("order_tests", FLIPS_WON, &FLIPS),
        ("order_tests", ORDERED_DEGREES, &degrees),
        ("plan_order", PLANNED_ENDS, &SETS),
        ("plan_order", PLANNED_TIES, &ties::KINDS),
        ("check_plan", CHECKED_ENDS, &ENDS),
        ("plan_order", PLANNED_EMPTY, &holding::PLANS),
        ("plan_order", PLANNED_RESTS, &["before-all", "between", "behind-all"]),
        ("check_plan", CHECKED_EMPTY, &holding::CHECKS),
        ("check_plan", CHECKED_SORTS, &holding::SORTS),
        ("write_plan", WRITTEN_EMPTY, &holding::CHECKS),
        ("write_plan", WRITTEN_SORTS, &holding::SORTS),
        ("check_plan", CHECKED_TWICE, &["8", "10", "12:lengths", "12:step", "14"]),
        ("write_plan", WRITTEN_ENDS, &ENDS),
        ("write_plan", WRITTEN_TWICE, &["8", "10", "12:lengths", "12:step", "14", "short"]),
        ("write_plan", WRITTEN_LENGTHS, &written_lengths),
        ("read_plan", READ_ENDS, &SETS),
        ("read_plan", READ_ENDINGS, &endings),
        ("read_plan", READ_TWICE, &["10-first", "11-short", "surplus-short"]),
        ("step_bytes", FETCHED_ENDINGS, &endings),
        ("step_bytes", FETCHED_BEHIND, &["end-step", "no-end-step", "refused"]),
        ("plan", CALL_LENGTHS, &LONGEST),
        ("plan", CALL_TIES, &ties::KINDS),
        ("plan", CALL_DEGREES, &degrees),
        ("sheet", SHEETS, &["end-line", "no-end-line", "longest", "longest-short"]),
        ("sheet", SHEET_TIES, &ties::KINDS),
        ("sheet", SHEET_DEGREES, &degrees),
        ("audit", AUDITED_ENDINGS, &endings),
        ("audit", AUDITS_REFUSED, &["job", "plan"]),
        ("audit", AUDITS, &["every-plan-tried"]),
        ("make_state", MADE_STATES, &states_made),
        ("make_state", MADE_FAULTS, &FAULT_NAMES),
        ("make_state", MADE_WIDE, &booked::WIDE),
        ("look", LOOKED_STATES, &walks::STATES),
        ("commit", COMMITTED_STATES, &walks::STATES),
        ("commit", COMMITS, &walks::COMMITS),
        ("walk", WALKED_LISTS, &walks::MADE),
        ("walk", WALKED_MOVES, &walks::MOVES),
        ("walk", WALKED_STEPS, &walks::STEPS),
        ("walk", WALKED_WRONG, &walks::WRONG),
        ("walk", WALKED_DONE, &walks::AFTER_DONE),
        ("all_sizes", SIZED_FAULTS, &SIZED_FAULT_NAMES),
        ("all_sizes", SIZED_ORDERS, &drives::POSITIONS),
        ("all_sizes", SIZED_LISTS, &drives::LISTS),
        ("all_sizes", SINGLE_PLANS, &["counts", "refused:7", "refused-alike"]),
        ("fewest_places", FEWEST_FAULTS, &SIZED_FAULT_NAMES),
        ("fewest_places", FEWEST_ORDERS, &drives::POSITIONS),
        ("fewest_places", FEWEST_WANTED, &drives::WANTED),
        ("size_table", TABLES_WRITTEN, &drives::TABLES),
        ("size_table", TABLES_SHORT, &drives::SHORT),
    ];
    let told = TOLD_TABLES.iter().map(|(function, _, title, names)| (*function, *title, names.clone()));
    let tables = tables.map(|(function, title, names)| (function, title, names.to_vec()));
    let mut tables: Vec<_> = tables.into_iter().chain(told).collect();
    for (function, numbers, twice, refusals) in HANDED_TABLES {
        let refusals = [refusals, &["10:260", "13"]].concat();
        tables.push((FUNCTIONS[function], numbers, booked::NUMBERS.to_vec()));
        tables.push((FUNCTIONS[function], twice, booked::twice_names(&refusals)));
    }
    for (function, numbers, twice, behind) in METHOD_TABLES {
        tables.push((FUNCTIONS[function], numbers, withdrawn::NUMBERS.to_vec()));
        tables.push((FUNCTIONS[function], twice, withdrawn::twice_names(behind)));
    }
    for (function, kinds, twice) in HELD_TABLES {
        let name = FUNCTIONS[function];
        tables.push((name, kinds, holding::HOLDINGS.to_vec()));
        tables.push((name, twice, holding::twice_names(name)));
    }
    tables
}

/// What each function can come out with. No refusal has the number 5 any more.
#[rustfmt::skip]
const OUTCOMES: [&[&str]; FUNCTIONS.len()] = [
    &["ok", "1", "2", "3", "4", "6", "9", "13"],
    &["ok", "9", "10:0", "10:1", "10:2", "10:3", "10:4+", "10:260", "13"],
    &["ok", "7", "9", "10:0", "10:1", "10:2", "10:3", "10:4+", "10:260", "13"],
    &["ok", "7", "8", "9", "10:0", "10:1", "10:2", "10:4+", "10:260", "13", "14"],
    &["ok", "8", "10:0", "10:1", "10:2", "10:4+", "10:260", "12:lengths", "12:step", "12:end",
        "13", "14"],
    &["ok", "8", "9", "10:0", "10:1", "10:2", "10:4+", "10:260", "12:lengths", "12:step",
        "12:end", "13", "14"],
    &["ok", "9", "10:1", "10:2", "11"],
    &["ok", "10:1", "10:2", "11"],
    &["ok", "1", "2", "3", "4", "6", "7", "9", "13"],
    &["ok", "1", "2", "3", "4", "6", "7", "13", "9:ok", "9:job"],
    &["ok", "ok:more", "1", "2", "3", "4", "6", "13", "plan:8", "plan:11", "plan:12:step",
        "plan:12:end", "9:ok", "9:job", "9:plan"],
    &["ok", "10:0", "10:1", "10:2", "10:4+", "10:260", "13"],
    &["ok", "10:0", "10:1", "10:2", "10:3", "10:4+", "10:260", "13"],
    &["ok", "10:1", "10:2"],
    &["ok", "7"],
    &["curves", "curves:65+", "owed", "empty", "unknown", "unknown:8+"],
    &SETS,
    &SETS,
    &["ok", "short"],
    &["even", "odd"],
    &["ok", "short", "many"],
    &["ok", "short", "many"],
    &SETS,
    &["at0", "at1-62", "at63", "at64"],
    &SETS,
    &SETS,
    &SETS,
    &NUMBERS,
    &["at0:yes", "at0:no", "at1-62:yes", "at1-62:no", "at63:yes", "at63:no", "at64:no", "at65:no",
        "at66+:no", "at-most:no"],
    &SETS,
    &["yes", "no"],
    &NUMBERS,
    &["ok", "7", "8", "10:0", "10:1", "10:2", "10:4+", "10:260", "13", "14"],
    &["done", "step", "end"],
    &["step", "end", "15"],
    &walks::ENDS,
    &["ok", "8", "10:1", "10:2", "10:4+"],
    &["ok", "8", "10:1", "10:2", "10:4+"],
    &["ok", "1", "2", "3", "4", "6", "7", "13", "9:ok", "9:job"],
];

/// What each function can come out with where the list has no tests; nothing where a function has to
/// do with no list of tests.
#[rustfmt::skip]
const OUTCOMES_WITHOUT_TESTS: [&[&str]; FUNCTIONS.len()] = [
    &["ok", "1", "2", "6", "13"],
    &["ok", "9", "10:0", "10:1", "10:3", "10:260", "13"],
    &["ok", "10:0", "10:1", "10:3", "10:260", "13"],
    &["ok", "8", "10:0", "10:1", "10:260", "13", "14"],
    &["ok", "8", "10:0", "10:1", "10:260", "12:lengths", "12:end", "13", "14"],
    &["ok", "8", "9", "10:0", "10:1", "10:260", "12:lengths", "12:end", "13", "14"],
    &["ok", "10:1", "11"],
    &["ok", "10:1", "11"],
    &["ok", "1", "2", "6", "13"],
    &["ok", "1", "2", "6", "13", "9:ok", "9:job"],
    &["ok", "1", "2", "6", "13", "plan:11", "plan:12:end", "9:ok", "9:job", "9:plan"],
    &["ok", "10:0", "10:1", "10:260", "13"],
    &["ok", "10:0", "10:1", "10:3", "10:260", "13"],
    &["ok", "10:1"],
    &["ok"],
    &[],
    &[],
    &[],
    &[],
    &["even"],
    &["ok"],
    &["ok"],
    &[],
    &[],
    &[],
    &[],
    &[],
    &[],
    &[],
    &[],
    &[],
    &[],
    &["ok", "8", "10:0", "10:1", "10:260", "13", "14"],
    &["done", "end"],
    &["end", "15"],
    &["end-step-alone", "done-at-once"],
    &["ok", "8", "10:1"],
    &["ok", "8", "10:1"],
    &["ok", "1", "2", "6", "13", "9:ok", "9:job"],
];

const SETS: [&str; 3] = ["empty", "some", "full"];
const LONGEST: [&str; 2] = ["5121-bytes", "5121-bytes-short"];
const LONGEST_HELD: [&str; 2] = ["5130-bytes", "5130-bytes-short"];
const LONGEST_JOB: [&str; 2] = ["2311-bytes", "2311-bytes-short"];
const NUMBERS: [&str; 7] = ["at0", "at1-62", "at63", "at64", "at65", "at66+", "at-most"];

/// The counts of what a function can come out with. What was never reached is noted, and anything
/// else ends the run.
fn outcome_counts(
    name: &str,
    outcomes: &[&str],
    counts: &BTreeMap<String, u64>,
    missing: &mut Vec<String>,
) -> String {
    let mut line = String::new();
    for outcome in outcomes {
        let count = counts.get(*outcome).copied().unwrap_or(0);
        line += &format!(" {outcome}={count}");
        if count == 0 {
            missing.push(format!("{name} {outcome}"));
        }
    }
    for outcome in counts.keys() {
        if !outcomes.contains(&outcome.as_str()) {
            println!("unforeseen outcome of {name}: {outcome}");
            exit(1);
        }
    }
    line
}

fn setting(place: usize, name: &str, default: u64) -> u64 {
    let text = match env::args().nth(place) {
        Some(text) => text,
        None => match env::var(name) {
            Ok(text) => text,
            Err(_) => return default,
        },
    };
    let parsed = match text.strip_prefix("0x") {
        Some(hex) => u64::from_str_radix(hex, 16),
        None => text.parse(),
    };
    match parsed {
        Ok(number) => number,
        Err(_) => {
            eprintln!("{name}: not a number: {text}");
            exit(3);
        }
    }
}

fn main() {
    let seed = setting(1, "SEED", SEED);
    let cases = setting(2, "CASES", CASES);
    let only = env::var("ONLY")
        .ok()
        .map(|_| setting(usize::MAX, "ONLY", 0));

    let function = env::var("FUNCTION").ok().map(|name| {
        let found = FUNCTIONS.iter().position(|known| *known == name);
        found.unwrap_or_else(|| {
            eprintln!("FUNCTION is one of {}", FUNCTIONS.join(", "));
            exit(3);
        })
    });

    #[allow(unused_mut)]
    let mut subjects: Vec<Box<dyn Subject>> = vec![Box::new(Tuned)];
    #[cfg(feature = "product")]
    subjects.push(Box::new(Product));

    println!("seed {seed}, {cases} cases");
    let names: Vec<&str> = subjects.iter().map(|subject| subject.name()).collect();
    println!("compared with the reference: {}", names.join(", "));

    let start = Instant::now();
    let mut histogram: Vec<BTreeMap<String, u64>> = vec![BTreeMap::new(); FUNCTIONS.len()];
    let mut without_tests = histogram.clone();
    let mut met: BTreeMap<(&str, &str), u64> = BTreeMap::new();
    let mut compared = vec![vec![0u64; FUNCTIONS.len()]; subjects.len()];
    let mut compared_without_tests = compared.clone();
    let numbers = match only {
        Some(number) => number..number + 1,
        None => 0..cases,
    };
    for number in numbers {
        let case = generate::case(seed, number, function);
        if only.is_some() {
            println!("case {number}\n{}", case.describe());
        }
        let mut random = Random::of_case(!seed, number);
        let verdict = run(&case, &mut random, &subjects);
        let called = case.function();
        *histogram[called]
            .entry(verdict.outcome.clone())
            .or_default() += 1;
        let is_without_tests = empty::without_tests(&case) == Some(true);
        if is_without_tests {
            *without_tests[called]
                .entry(verdict.outcome.clone())
                .or_default() += 1;
        }
        for (title, name, count) in &verdict.notes {
            *met.entry((title, name)).or_default() += count;
        }
        for (s, result) in verdict.results.iter().enumerate() {
            match result {
                None => {}
                Some(Ok(())) => {
                    compared[s][called] += 1;
                    compared_without_tests[s][called] += is_without_tests as u64;
                }
                Some(Err(text)) => {
                    println!("DIFFERENCE: {} in case {number} of seed {seed}", names[s]);
                    print!("{}", case.describe());
                    println!("reference's outcome: {}", verdict.outcome);
                    print!("{text}");
                    print!("again: SEED={seed} ONLY={number}");
                    match function {
                        Some(function) => println!(" FUNCTION={}", FUNCTIONS[function]),
                        None => println!(),
                    }
                    exit(1);
                }
            }
        }
    }

    println!("{:.1} s", start.elapsed().as_secs_f64());
    let mut missing = Vec::new();
    for (s, name) in names.iter().enumerate() {
        println!("\n{name}: compared and alike, and how many of these without tests");
        for (function, count) in compared[s].iter().enumerate() {
            let mut line = format!("  {:<16}{count:>9}", FUNCTIONS[function]);
            if !OUTCOMES_WITHOUT_TESTS[function].is_empty() {
                let count = compared_without_tests[s][function];
                line += &format!("{count:>9}");
                if count == 0 && compared[s][function] > 0 {
                    missing.push(format!("{name} {} without tests", FUNCTIONS[function]));
                }
            }
            if *count > 0 {
                println!("{line}");
            }
        }
        let all = |counts: &[u64]| counts.iter().sum::<u64>();
        let (all, without) = (all(&compared[s]), all(&compared_without_tests[s]));
        println!("  {:<16}{all:>9}{without:>9}", "all");
    }
    println!(
        "\noutcomes of the reference (ok, or refusal number; 10 with its figure; 12 with what is"
    );
    println!("faulty; plan: where an audit refuses the plan; 9 of a text with what it would have");
    println!(
        "told: ok, or what is refused; for sets the kind of set, or the number asked; of a look"
    );
    println!("what is the next, of commits what the first carries out, of a walk how it ends)");
    let skipped =
        |called: usize| histogram[called].is_empty() && (function.is_some() || only.is_some());
    for (called, outcomes) in OUTCOMES.iter().enumerate() {
        if !skipped(called) {
            let (name, counts) = (FUNCTIONS[called], &histogram[called]);
            let line = outcome_counts(name, outcomes, counts, &mut missing);
            println!("  {name:<16}{line}");
        }
    }
    println!("of these without tests (of every function that has to do with a list of tests)");
    for (called, outcomes) in OUTCOMES_WITHOUT_TESTS.iter().enumerate() {
        let counts = &without_tests[called];
        let has_list = !outcomes.is_empty() || !counts.is_empty();
        if has_list && !skipped(called) {
            let name = format!("{} without tests", FUNCTIONS[called]);
            let line = outcome_counts(&name, outcomes, counts, &mut missing);
            let all: u64 = counts.values().sum();
            println!("  {:<16} all={all}{line}", FUNCTIONS[called]);
        }
    }
    for (name, title, names) in tables() {
        let called = FUNCTIONS.iter().position(|known| *known == name).unwrap();
        if histogram[called].is_empty() {
            continue;
        }
        let mut line = format!("{title}:");
        let least = LEAST.iter().find(|(known, _)| *known == title);
        let least = least.map_or(1, |(_, least)| *least);
        for name in names {
            let count = met.remove(&(title, name)).unwrap_or(0);
            line += &format!(" {name}={count}");
            if count < least {
                missing.push(format!("{title} {name}"));
            }
        }
        println!("{line}");
    }
    assert!(met.is_empty(), "counted, but in no table: {met:?}");
    if only.is_none() && cases >= MANY && !missing.is_empty() {
        println!("never reached, or too seldom: {}", missing.join(", "));
        exit(2);
    }
}
