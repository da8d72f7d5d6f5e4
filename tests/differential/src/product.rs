//! The library under test, through its C interface.
//!
//! A slice passes as pointer, then length. A count is answered as itself, a refusal as
//! `number << 48 | figure`; an examination that passes and a group that is read answer 0.
//! `curveplan_plan` is the exception: it is the C host's own call and answers
//! `number * 65536 + figure`. A text tells of the refusals of job and plan itself, so
//! `curveplan_sheet`, `curveplan_audit` and `curveplan_size_table` refuse nothing but a buffer that is
//! too short. The counts of all drive sizes are 64 numbers, lent without their length.

use crate::generate::SetFunction;
use crate::sizes::SIZES;
use crate::states::{ENTRIES, NUMBERS};
use std::mem::{offset_of, size_of};

/// What reading a job answers: the number of tests or the refusal, and the job's numbers.
#[repr(C)]
pub struct JobHead {
    pub answer: u64,
    pub places: usize,
    pub booked: usize,
    pub curves: usize,
    pub tests: usize,
    pub method: usize,
}

/// Where a step's bytes lie in the plan's.
#[repr(C)]
pub struct StepPart {
    pub start: usize,
    pub count: usize,
}

/// A list that is carried out step by step.
#[repr(C)]
pub struct State {
    pub capacity: u64,
    pub held: u64,
    pub committed: u64,
    pub tests: u64,
    pub wants: [u64; ENTRIES],
}

// Numbers at fixed places, 2,080 bytes in all.
const _: () = assert!(size_of::<State>() == 2_080 && size_of::<State>() == 8 * NUMBERS);
const _: () = assert!(offset_of!(State, capacity) == 0 && offset_of!(State, held) == 8);
const _: () = assert!(offset_of!(State, committed) == 16 && offset_of!(State, tests) == 24);
const _: () = assert!(offset_of!(State, wants) == 32);

impl Default for State {
    fn default() -> State {
        State {
            capacity: 0,
            held: 0,
            committed: 0,
            tests: 0,
            wants: [0; ENTRIES],
        }
    }
}

impl State {
    /// The state of these numbers, which stand in its order.
    pub fn of(numbers: &mut [u64]) -> &mut State {
        assert_eq!(numbers.len(), NUMBERS);
        unsafe { &mut *numbers.as_mut_ptr().cast() }
    }
}

/// What a look shows, and what a commit answers.
#[repr(C)]
pub struct ShownStep {
    pub answer: u64,
    pub drops: u64,
    pub loads: u64,
}

extern "C" {
    fn curveplan_read_job(
        job: *const u8,
        job_len: usize,
        wants: *mut u64,
        wants_len: usize,
    ) -> JobHead;
    fn curveplan_write_job(
        places: usize,
        booked: usize,
        curves: usize,
        method: usize,
        wants: *const u64,
        wants_len: usize,
        out: *mut u8,
        out_len: usize,
    ) -> u64;
    fn curveplan_order_tests(
        places: usize,
        booked: usize,
        curves: usize,
        method: usize,
        wants: *const u64,
        wants_len: usize,
        order: *mut u16,
        order_len: usize,
    ) -> u64;
    fn curveplan_plan_order(
        places: usize,
        booked: usize,
        curves: usize,
        wants: *const u64,
        wants_len: usize,
        held: u64,
        order: *const u16,
        order_len: usize,
        drops: *mut u64,
        drops_len: usize,
        loads: *mut u64,
        loads_len: usize,
        end: *mut u64,
    ) -> u64;
    fn curveplan_make_state(
        places: usize,
        booked: usize,
        curves: usize,
        wants: *const u64,
        wants_len: usize,
        held: u64,
        order: *const u16,
        order_len: usize,
        state: *mut State,
    ) -> u64;
    fn curveplan_look(state: *const State) -> ShownStep;
    fn curveplan_commit(state: *mut State, position: usize) -> ShownStep;
    fn curveplan_check_plan(
        places: usize,
        booked: usize,
        curves: usize,
        wants: *const u64,
        wants_len: usize,
        held: u64,
        order: *const u16,
        order_len: usize,
        drops: *const u64,
        drops_len: usize,
        loads: *const u64,
        loads_len: usize,
        end: u64,
    ) -> u64;
    fn curveplan_write_plan(
        places: usize,
        booked: usize,
        curves: usize,
        wants: *const u64,
        wants_len: usize,
        held: u64,
        order: *const u16,
        order_len: usize,
        drops: *const u64,
        drops_len: usize,
        loads: *const u64,
        loads_len: usize,
        end: u64,
        out: *mut u8,
        out_len: usize,
    ) -> u64;
    fn curveplan_read_plan(
        curves: usize,
        tests: usize,
        plan: *const u8,
        plan_len: usize,
        order: *mut u16,
        order_len: usize,
        drops: *mut u64,
        drops_len: usize,
        loads: *mut u64,
        loads_len: usize,
        end: *mut u64,
    ) -> u64;
    fn curveplan_step_bytes(
        curves: usize,
        tests: usize,
        plan: *const u8,
        plan_len: usize,
        position: usize,
    ) -> StepPart;
    fn curveplan_plan(job: *const u8, job_len: usize, plan: *mut u8, plan_len: usize) -> u64;
    fn curveplan_sheet(job: *const u8, job_len: usize, out: *mut u8, out_len: usize) -> u64;
    fn curveplan_audit(
        job: *const u8,
        job_len: usize,
        plan: *const u8,
        plan_len: usize,
        out: *mut u8,
        out_len: usize,
    ) -> u64;
    fn curveplan_all_sizes(
        curves: usize,
        wants: *const u64,
        wants_len: usize,
        order: *const u16,
        order_len: usize,
        counts: *mut u16,
    ) -> u64;
    fn curveplan_fewest_places(
        curves: usize,
        wants: *const u64,
        wants_len: usize,
        order: *const u16,
        order_len: usize,
        loads: usize,
    ) -> u64;
    fn curveplan_size_table(
        job: *const u8,
        job_len: usize,
        asked: usize,
        loads: usize,
        out: *mut u8,
        out_len: usize,
    ) -> u64;
    fn curveplan_examine(
        places: usize,
        booked: usize,
        curves: usize,
        wants: *const u64,
        wants_len: usize,
    ) -> u64;
    fn curveplan_examine_by(
        places: usize,
        booked: usize,
        curves: usize,
        method: usize,
        wants: *const u64,
        wants_len: usize,
    ) -> u64;
    fn curveplan_examine_counts(curves: usize, tests: usize) -> u64;
    fn curveplan_examine_sizes(capacity: usize, wants: *const u64, wants_len: usize) -> u64;
    fn curveplan_read_group(
        rest: *const u8,
        rest_len: usize,
        at: usize,
        group: usize,
        curves: usize,
        set: *mut u64,
    ) -> u64;
    fn curveplan_group_map(s: u64) -> u64;
    fn curveplan_set_len(s: u64) -> u64;
    fn curveplan_put_set(s: u64, out: *mut u8, out_len: usize) -> u64;
    fn curveplan_reverse(xs: *mut u16, xs_len: usize);
    fn curveplan_listed_order(tests: usize, order: *mut u16, order_len: usize);
    fn curveplan_package_order(
        capacity: usize,
        wants: *const u64,
        wants_len: usize,
        order: *mut u16,
        order_len: usize,
    );
    fn curveplan_size(s: u64) -> u64;
    fn curveplan_lowest(s: u64) -> u64;
    fn curveplan_union(a: u64, b: u64) -> u64;
    fn curveplan_common(a: u64, b: u64) -> u64;
    fn curveplan_without(a: u64, b: u64) -> u64;
    fn curveplan_single(k: usize) -> u64;
    fn curveplan_has(s: u64, k: usize) -> u64;
    fn curveplan_without_lowest(s: u64) -> u64;
    fn curveplan_inside(a: u64, b: u64) -> u64;
    fn curveplan_below(n: usize) -> u64;
}

// Safety of all calls below: every pointer comes from a live slice and goes with that slice's own
// length, or is that of the one number lent for a group's or an end step's set, of the numbers of a
// state, or of the 64 counts of all drive sizes; what is lent for writing is borrowed alone.

pub fn read_job(job: &[u8], wants: &mut [u64]) -> JobHead {
    unsafe { curveplan_read_job(job.as_ptr(), job.len(), wants.as_mut_ptr(), wants.len()) }
}

pub fn write_job(
    places: usize,
    booked: usize,
    curves: usize,
    method: usize,
    wants: &[u64],
    out: &mut [u8],
) -> u64 {
    unsafe {
        curveplan_write_job(
            places,
            booked,
            curves,
            method,
            wants.as_ptr(),
            wants.len(),
            out.as_mut_ptr(),
            out.len(),
        )
    }
}

pub fn order_tests(
    places: usize,
    booked: usize,
    curves: usize,
    method: usize,
    wants: &[u64],
    order: &mut [u16],
) -> u64 {
    unsafe {
        curveplan_order_tests(
            places,
            booked,
            curves,
            method,
            wants.as_ptr(),
            wants.len(),
            order.as_mut_ptr(),
            order.len(),
        )
    }
}

#[allow(clippy::too_many_arguments)]
pub fn plan_order(
    places: usize,
    booked: usize,
    curves: usize,
    wants: &[u64],
    held: u64,
    order: &[u16],
    drops: &mut [u64],
    loads: &mut [u64],
    end: &mut u64,
) -> u64 {
    unsafe {
        curveplan_plan_order(
            places,
            booked,
            curves,
            wants.as_ptr(),
            wants.len(),
            held,
            order.as_ptr(),
            order.len(),
            drops.as_mut_ptr(),
            drops.len(),
            loads.as_mut_ptr(),
            loads.len(),
            end,
        )
    }
}

pub fn make_state(
    places: usize,
    booked: usize,
    curves: usize,
    wants: &[u64],
    held: u64,
    order: &[u16],
    state: &mut State,
) -> u64 {
    unsafe {
        curveplan_make_state(
            places,
            booked,
            curves,
            wants.as_ptr(),
            wants.len(),
            held,
            order.as_ptr(),
            order.len(),
            state,
        )
    }
}

pub fn look(state: &State) -> ShownStep {
    unsafe { curveplan_look(state) }
}

/// The same of a state that is lent for writing, so that a change would be seen.
pub fn look_lent(state: &mut State) -> ShownStep {
    unsafe { curveplan_look(state as *mut State) }
}

pub fn commit(state: &mut State, position: usize) -> ShownStep {
    unsafe { curveplan_commit(state, position) }
}

#[allow(clippy::too_many_arguments)]
pub fn check_plan(
    places: usize,
    booked: usize,
    curves: usize,
    wants: &[u64],
    held: u64,
    order: &[u16],
    drops: &[u64],
    loads: &[u64],
    end: u64,
) -> u64 {
    unsafe {
        curveplan_check_plan(
            places,
            booked,
            curves,
            wants.as_ptr(),
            wants.len(),
            held,
            order.as_ptr(),
            order.len(),
            drops.as_ptr(),
            drops.len(),
            loads.as_ptr(),
            loads.len(),
            end,
        )
    }
}

#[allow(clippy::too_many_arguments)]
pub fn write_plan(
    places: usize,
    booked: usize,
    curves: usize,
    wants: &[u64],
    held: u64,
    order: &[u16],
    drops: &[u64],
    loads: &[u64],
    end: u64,
    out: &mut [u8],
) -> u64 {
    unsafe {
        curveplan_write_plan(
            places,
            booked,
            curves,
            wants.as_ptr(),
            wants.len(),
            held,
            order.as_ptr(),
            order.len(),
            drops.as_ptr(),
            drops.len(),
            loads.as_ptr(),
            loads.len(),
            end,
            out.as_mut_ptr(),
            out.len(),
        )
    }
}

pub fn read_plan(
    curves: usize,
    tests: usize,
    plan: &[u8],
    order: &mut [u16],
    drops: &mut [u64],
    loads: &mut [u64],
    end: &mut u64,
) -> u64 {
    unsafe {
        curveplan_read_plan(
            curves,
            tests,
            plan.as_ptr(),
            plan.len(),
            order.as_mut_ptr(),
            order.len(),
            drops.as_mut_ptr(),
            drops.len(),
            loads.as_mut_ptr(),
            loads.len(),
            end,
        )
    }
}

pub fn step_bytes(curves: usize, tests: usize, plan: &[u8], position: usize) -> StepPart {
    unsafe { curveplan_step_bytes(curves, tests, plan.as_ptr(), plan.len(), position) }
}

pub fn call(job: &[u8], plan: &mut [u8]) -> u64 {
    unsafe { curveplan_plan(job.as_ptr(), job.len(), plan.as_mut_ptr(), plan.len()) }
}

pub fn sheet(job: &[u8], out: &mut [u8]) -> u64 {
    unsafe { curveplan_sheet(job.as_ptr(), job.len(), out.as_mut_ptr(), out.len()) }
}

pub fn audit(job: &[u8], plan: &[u8], out: &mut [u8]) -> u64 {
    unsafe {
        curveplan_audit(
            job.as_ptr(),
            job.len(),
            plan.as_ptr(),
            plan.len(),
            out.as_mut_ptr(),
            out.len(),
        )
    }
}

pub fn all_sizes(curves: usize, wants: &[u64], order: &[u16], counts: &mut [u16; SIZES]) -> u64 {
    unsafe {
        curveplan_all_sizes(
            curves,
            wants.as_ptr(),
            wants.len(),
            order.as_ptr(),
            order.len(),
            counts.as_mut_ptr(),
        )
    }
}

pub fn fewest_places(curves: usize, wants: &[u64], order: &[u16], loads: usize) -> u64 {
    unsafe {
        curveplan_fewest_places(
            curves,
            wants.as_ptr(),
            wants.len(),
            order.as_ptr(),
            order.len(),
            loads,
        )
    }
}

pub fn size_table(job: &[u8], asked: usize, loads: usize, out: &mut [u8]) -> u64 {
    unsafe {
        curveplan_size_table(
            job.as_ptr(),
            job.len(),
            asked,
            loads,
            out.as_mut_ptr(),
            out.len(),
        )
    }
}

pub fn examine(places: usize, booked: usize, curves: usize, wants: &[u64]) -> u64 {
    unsafe { curveplan_examine(places, booked, curves, wants.as_ptr(), wants.len()) }
}

pub fn examine_by(
    places: usize,
    booked: usize,
    curves: usize,
    method: usize,
    wants: &[u64],
) -> u64 {
    unsafe { curveplan_examine_by(places, booked, curves, method, wants.as_ptr(), wants.len()) }
}

pub fn examine_counts(curves: usize, tests: usize) -> u64 {
    unsafe { curveplan_examine_counts(curves, tests) }
}

pub fn examine_sizes(capacity: usize, wants: &[u64]) -> u64 {
    unsafe { curveplan_examine_sizes(capacity, wants.as_ptr(), wants.len()) }
}

pub fn read_group(rest: &[u8], at: usize, group: usize, curves: usize, set: &mut u64) -> u64 {
    unsafe { curveplan_read_group(rest.as_ptr(), rest.len(), at, group, curves, set) }
}

pub fn group_map(s: u64) -> u64 {
    unsafe { curveplan_group_map(s) }
}

pub fn set_len(s: u64) -> u64 {
    unsafe { curveplan_set_len(s) }
}

pub fn put_set(s: u64, out: &mut [u8]) -> u64 {
    unsafe { curveplan_put_set(s, out.as_mut_ptr(), out.len()) }
}

pub fn reverse(xs: &mut [u16]) {
    unsafe { curveplan_reverse(xs.as_mut_ptr(), xs.len()) }
}

pub fn listed_order(tests: usize, order: &mut [u16]) {
    unsafe { curveplan_listed_order(tests, order.as_mut_ptr(), order.len()) }
}

pub fn package_order(capacity: usize, wants: &[u64], order: &mut [u16]) {
    unsafe {
        curveplan_package_order(
            capacity,
            wants.as_ptr(),
            wants.len(),
            order.as_mut_ptr(),
            order.len(),
        )
    }
}

pub fn sets(function: SetFunction, a: u64, b: u64, k: usize) -> u64 {
    unsafe {
        match function {
            SetFunction::Size => curveplan_size(a),
            SetFunction::Lowest => curveplan_lowest(a),
            SetFunction::Union => curveplan_union(a, b),
            SetFunction::Common => curveplan_common(a, b),
            SetFunction::Without => curveplan_without(a, b),
            SetFunction::Single => curveplan_single(k),
            SetFunction::Has => curveplan_has(a, k),
            SetFunction::WithoutLowest => curveplan_without_lowest(a),
            SetFunction::Inside => curveplan_inside(a, b),
            SetFunction::Below => curveplan_below(k),
        }
    }
}
