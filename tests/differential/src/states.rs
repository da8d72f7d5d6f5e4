//! Look, then commit (wish 7), in two ways. A made state is the whole plan, made at once, and how many of
//! its steps were committed: the sentences of the papers. Any numbers in the form that the C header gives
//! a state are one too: the sentences of that header, bit by bit.

use crate::reference::{self, held_behind, less_booked, refusal, Answer};

/// The wants of a state have an entry for each of as many steps.
pub const ENTRIES: usize = 256;

/// The numbers of a state: capacity, held, committed, tests, and the wants.
pub const NUMBERS: usize = 4 + ENTRIES;

/// What a look shows, and what a commit answers.
#[derive(Clone, Copy, Debug, PartialEq, Eq)]
pub enum Shown {
    /// The step of a test. It may have neither drops nor loads.
    Step { drops: u64, loads: u64 },
    /// The end step.
    End { drops: u64 },
    /// No step is left.
    Done,
}

impl Shown {
    /// Which of the three, drops and loads.
    pub fn numbers(self) -> [u64; 3] {
        match self {
            Shown::Done => [0, 0, 0],
            Shown::Step { drops, loads } => [1, drops, loads],
            Shown::End { drops } => [2, drops, 0],
        }
    }
}

/// The same of a commit. A refusal is its number × 2^48 plus its figure, of which the low 48 bits count.
pub fn answered(answer: Answer<Shown>) -> [u64; 3] {
    const WHOLE: u64 = 1 << 48;
    match answer {
        Ok(shown) => shown.numbers(),
        Err(no) => [no.number * WHOLE + no.figure % WHOLE, 0, 0],
    }
}

// ---------------------------------------------------------------------------------------------
// Made states

/// A state that was made, and perhaps went on by commits.
#[derive(Clone, Debug, PartialEq, Eq)]
pub struct Made {
    capacity: usize,
    /// In the order of the steps.
    wants: Vec<u64>,
    /// All steps of the plan, its end step among them.
    steps: Vec<Shown>,
    /// What is held before each step, and behind the last.
    held: Vec<u64>,
    committed: usize,
}

impl Made {
    /// From a list, an order and a holding; refused as in planning, but that nothing is lent.
    pub fn new(
        places: usize,
        booked: usize,
        curves: usize,
        wants: &[u64],
        held: u64,
        order: &[u16],
    ) -> Answer<Made> {
        let room = usize::MAX;
        let plan = reference::plan(places, booked, curves, wants, held, order, room, room)?;
        let mut steps = Vec::new();
        for (&drops, &loads) in plan.drops.iter().zip(&plan.loads) {
            steps.push(Shown::Step { drops, loads });
        }
        if plan.end != 0 {
            steps.push(Shown::End { drops: plan.end });
        }
        let mut holdings = vec![held];
        for (at, step) in steps.iter().enumerate() {
            let [_, drops, loads] = step.numbers();
            holdings.push(held_behind(holdings[at], &[drops], &[loads]));
        }
        let in_order = order.iter().map(|&test| wants[test as usize]);
        Ok(Made {
            capacity: less_booked(places, booked),
            wants: in_order.collect(),
            steps,
            held: holdings,
            committed: 0,
        })
    }

    pub fn look(&self) -> Shown {
        match self.steps.get(self.committed) {
            Some(&step) => step,
            None => Shown::Done,
        }
    }

    pub fn commit(&mut self, position: usize) -> Answer<Shown> {
        let next = self.look();
        if next == Shown::Done || position != self.committed {
            return Err(refusal(15, self.committed));
        }
        self.committed += 1;
        Ok(next)
    }

    pub fn tests(&self) -> usize {
        self.wants.len()
    }

    pub fn capacity(&self) -> usize {
        self.capacity
    }

    /// What is held now.
    pub fn held(&self) -> u64 {
        self.held[self.committed]
    }

    /// How many steps were committed, the end step among them.
    pub fn committed(&self) -> usize {
        self.committed
    }

    /// All steps, whether they were committed or not.
    pub fn steps(&self) -> &[Shown] {
        &self.steps
    }

    /// The numbers that the C header names. There are up to 256 tests.
    pub fn numbers(&self) -> Vec<u64> {
        let mut numbers = vec![
            self.capacity as u64,
            self.held(),
            self.committed as u64,
            self.tests() as u64,
        ];
        numbers.extend(&self.wants);
        numbers.resize(NUMBERS, 0);
        numbers
    }
}

// ---------------------------------------------------------------------------------------------
// Any numbers

/// Any numbers, taken as a state.
#[derive(Clone, Debug, PartialEq, Eq)]
pub struct Any {
    pub capacity: u64,
    pub held: u64,
    pub committed: u64,
    pub tests: u64,
    /// 256 entries.
    pub wants: Vec<u64>,
}

impl Any {
    pub fn new(numbers: &[u64]) -> Any {
        assert_eq!(numbers.len(), NUMBERS);
        Any {
            capacity: numbers[0],
            held: numbers[1],
            committed: numbers[2],
            tests: numbers[3],
            wants: numbers[4..].to_vec(),
        }
    }

    pub fn numbers(&self) -> Vec<u64> {
        let mut numbers = vec![self.capacity, self.held, self.committed, self.tests];
        numbers.extend(&self.wants);
        numbers
    }

    /// More than 256 count as 256.
    pub fn counted_tests(&self) -> usize {
        self.tests.min(ENTRIES as u64) as usize
    }

    pub fn look(&self) -> Shown {
        let tests = self.counted_tests();
        if self.committed > tests as u64 {
            return Shown::Done;
        }
        let next = self.committed as usize;
        if next < tests {
            return self.step(self.wants[next], &self.wants[next + 1..tests]);
        }
        match self.held {
            0 => Shown::Done,
            drops => Shown::End { drops },
        }
    }

    /// The step of a test with these wants, and of those behind it.
    fn step(&self, wanted: u64, behind: &[u64]) -> Shown {
        let has = |set: u64, curve: u32| set >> curve & 1 == 1;
        // Held and not wanted: when it is next used, where never is behind all, and its number.
        let mut candidates = Vec::new();
        let mut loads = 0;
        let mut together = 0;
        for curve in 0..64 {
            match (has(self.held, curve), has(wanted, curve)) {
                (false, false) => continue,
                (false, true) => loads |= 1 << curve,
                (true, true) => {}
                (true, false) => {
                    let next = behind.iter().position(|&want| has(want, curve));
                    candidates.push((next.unwrap_or(behind.len()), curve));
                }
            }
            together += 1;
        }
        // The furthest come last, and of these the highest.
        candidates.sort();
        let mut drops = 0;
        let excess = u64::saturating_sub(together, self.capacity) as usize;
        for (_, curve) in candidates.iter().rev().take(excess) {
            drops |= 1 << curve;
        }
        Shown::Step { drops, loads }
    }

    pub fn commit(&mut self, position: usize) -> Answer<Shown> {
        let next = self.look();
        let is_next = position as u64 == self.committed;
        match next {
            Shown::Step { drops, loads } if is_next => self.held = self.held & !drops | loads,
            Shown::End { .. } if is_next => self.held = 0,
            _ => return Err(refusal(15, self.committed as usize)),
        }
        self.committed += 1;
        Ok(next)
    }
}
