//! Every drive size together (wish 9): the load counts of 1 to 64 places for one order from an empty
//! drive, none booked; the fewest places for a wanted count; and the table of a job.
//!
//! No plan is made here. Each use of a curve takes a load, unless the curve stays in the drive since its
//! last use; what is counted is how many such stays a drive can grant. That these are the counts of the
//! single plans is left to the tests.

use crate::reference::{each_test_once, examine, order_tests, read_job, refused_text, Answer};

/// Drives have 1 to so many places.
pub const SIZES: usize = 64;

/// The mark of a size that is too small for some test. No count reaches it.
pub const MARK: u16 = 65_535;

/// The load count for each size, that of p places at p - 1; none where some test wants more curves.
pub type Counts = Vec<Option<u64>>;

/// Refused as in planning, but for 7; places, booked places, a holding and lists are not handed over.
pub fn examined(curves: usize, wants: &[u64], order: &[u16]) -> Answer<()> {
    // With places that are in range and none booked: 10 of the other numbers.
    examine(SIZES, 0, curves, wants)?;
    each_test_once(wants.len(), order)
}

pub fn all_sizes(curves: usize, wants: &[u64], order: &[u16]) -> Answer<Counts> {
    examined(curves, wants, order)?;
    let steps: Vec<u64> = order.iter().map(|&test| wants[test as usize]).collect();
    let uses = Uses::new(&steps);
    Ok((1..=SIZES).map(|places| uses.loads(places)).collect())
}

/// What the steps of a list want.
struct Uses {
    /// How many curves each step wants.
    widths: Vec<usize>,
    /// From behind a use of a curve up to its next one: the steps between. Those that end first come
    /// first.
    stays: Vec<(usize, usize)>,
}

impl Uses {
    fn new(steps: &[u64]) -> Uses {
        let mut widths = vec![0; steps.len()];
        let mut stays = Vec::new();
        let mut last = [None; 64];
        for (step, wanted) in steps.iter().enumerate() {
            for (curve, last) in last.iter_mut().enumerate() {
                if wanted >> curve & 1 == 1 {
                    widths[step] += 1;
                    stays.extend(last.map(|last: usize| (last + 1, step)));
                    *last = Some(step);
                }
            }
        }
        Uses { widths, stays }
    }

    /// The fewest loads with these places; none where a step wants more. A stay takes a place of each step
    /// between that the wanted curves leave free. What ends first is granted first: a later stay that it
    /// shuts out would take, from the step on where they compete, every place that it takes.
    fn loads(&self, places: usize) -> Option<u64> {
        let mut loads = 0;
        let mut free = Vec::new();
        for &width in &self.widths {
            free.push(places.checked_sub(width)?);
            loads += width as u64;
        }
        for &(start, end) in &self.stays {
            let between = &mut free[start..end];
            if !between.contains(&0) {
                between.iter_mut().for_each(|places| *places -= 1);
                loads -= 1;
            }
        }
        Some(loads)
    }
}

/// The 64 numbers that are answered.
pub fn numbers(counts: &[Option<u64>]) -> [u16; SIZES] {
    let mut numbers = [MARK; SIZES];
    for (number, count) in numbers.iter_mut().zip(counts) {
        if let Some(count) = *count {
            assert!(count < MARK as u64, "a count is the mark: {count}");
            *number = count as u16;
        }
    }
    numbers
}

/// The fewest places that need no more than these loads; none where no size does.
pub fn fewest(counts: &[Option<u64>], loads: usize) -> Option<usize> {
    (1..=SIZES).find(|places| match counts[places - 1] {
        Some(count) => count <= loads as u64,
        None => false,
    })
}

pub fn fewest_places(
    curves: usize,
    wants: &[u64],
    order: &[u16],
    loads: usize,
) -> Answer<Option<usize>> {
    let counts = all_sizes(curves, wants, order)?;
    Ok(fewest(&counts, loads))
}

/// How many different curves a list wants.
pub fn different_curves(wants: &[u64]) -> u64 {
    let wanted = |curve: &u32| wants.iter().any(|want| want >> curve & 1 == 1);
    (0..64).filter(wanted).count() as u64
}

// ---------------------------------------------------------------------------------------------
// The table of a job

/// What a table tells of a job that is not refused.
#[derive(Clone, Debug, PartialEq, Eq)]
pub struct Table {
    pub tests: usize,
    pub method: usize,
    pub order: Vec<u16>,
    pub counts: Counts,
}

impl Table {
    /// The job is read and ordered by its method, which may refuse it; 7 by its own places less booked.
    pub fn new(job: &[u8]) -> Answer<Table> {
        let job = read_job(job, usize::MAX)?;
        let (places, booked, curves) = (job.places, job.booked, job.curves);
        let order = order_tests(places, booked, curves, job.method, &job.wants, job.tests)?;
        let counts = all_sizes(curves, &job.wants, &order)?;
        Ok(Table {
            tests: job.tests,
            method: job.method,
            order,
            counts,
        })
    }

    /// How many rows there are: the last is the first with the count of 64 places.
    pub fn rows(&self) -> usize {
        let last = self.counts[SIZES - 1];
        let first = self.counts.iter().position(|count| *count == last);
        1 + first.expect("it is there")
    }
}

/// The text, with a line for a wanted count where one is asked for.
pub fn table_text(table: &Answer<Table>, wanted: Option<usize>) -> String {
    let table = match table {
        Ok(table) => table,
        Err(no) => return refused_text(no),
    };
    let mut text = format!("{} tests, method {}\n", table.tests, table.method);
    for places in 1..=table.rows() {
        text += &match table.counts[places - 1] {
            None => format!("{places} places: too few\n"),
            Some(count) => format!("{places} places: {count} loads\n"),
        };
    }
    text += "more places: no fewer loads\n";
    if let Some(loads) = wanted {
        text += &match fewest(&table.counts, loads) {
            Some(places) => format!("at most {loads} loads: {places} places\n"),
            None => format!("at most {loads} loads: none\n"),
        };
    }
    text
}

/// The wanted count as it is handed over: asked for where the first number is not 0.
pub fn wanted(asked: usize, loads: usize) -> Option<usize> {
    (asked != 0).then_some(loads)
}

/// What the program prints for this argument, if there is one, and this job.
pub fn printed(argument: Option<&[u8]>, job: &[u8]) -> String {
    let wanted = match argument {
        None => None,
        Some(digits) => {
            let plain = digits.iter().all(u8::is_ascii_digit);
            if !plain || digits.is_empty() || digits.len() > 5 {
                return "sizes [LOADS] < JOB\n".to_string();
            }
            let value = |sum: usize, digit: &u8| 10 * sum + (digit - b'0') as usize;
            Some(digits.iter().fold(0, value))
        }
    };
    table_text(&Table::new(job), wanted)
}
