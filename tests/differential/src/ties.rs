//! Where the tie rule of the plan matters: the plans of the two rules beside each other.

use crate::reference::{held_behind, plan_by, set_of, Curves, Plan, TieRule};

/// The first step in which the two tie rules drop different curves. Up to there they hold the same.
/// Both drop all candidates with a further next use than some distance, and of those at that distance
/// equally many: these are the tied ones.
#[derive(Clone, Debug, PartialEq, Eq)]
pub struct Parting {
    pub step: usize,
    /// The tied curves: held, not wanted by the step's test, and all next used in the same step.
    pub tied: Curves,
    /// That later step; `None`: never.
    pub next_use: Option<usize>,
    /// How many of them the step drops.
    pub tied_drops: usize,
    /// How many curves the step drops before them, whose next use is further.
    pub further_drops: usize,
}

/// Where the plans of the two rules part for one list, holding and order; `None`: nowhere, so they are
/// one plan.
pub fn parting(
    wants: &[u64],
    held: u64,
    order: &[u16],
    lowest: &Plan,
    highest: &Plan,
) -> Option<Parting> {
    let step = (0..order.len()).find(|&step| lowest.drops[step] != highest.drops[step])?;
    let wanted = |step: usize| set_of(wants[order[step] as usize]);
    let next_use =
        |curve: u8| (step + 1..order.len()).find(|&later| wanted(later).contains(&curve));
    let (drops, loads) = (&highest.drops[..step], &highest.loads[..step]);
    let held = set_of(held_behind(held, drops, loads));
    let drops = set_of(highest.drops[step]);
    let others = set_of(lowest.drops[step]);
    // A curve that only one of the two drops is one of the tied.
    let one = *drops.difference(&others).next().expect("as many each");
    let next_use_of_tied = next_use(one);
    let tied: Curves = held
        .difference(&wanted(step))
        .copied()
        .filter(|&curve| next_use(curve) == next_use_of_tied)
        .collect();
    let tied_drops = tied.intersection(&drops).count();
    Some(Parting {
        step,
        tied,
        next_use: next_use_of_tied,
        tied_drops,
        further_drops: drops.len() - tied_drops,
    })
}

/// The plans of both tie rules, lowest first; `None`: refused.
pub fn both_plans(
    places: usize,
    booked: usize,
    curves: usize,
    wants: &[u64],
    held: u64,
    order: &[u16],
) -> Option<(Plan, Plan)> {
    let n = wants.len();
    let made = |rule| plan_by(rule, places, booked, curves, wants, held, order, n, n).ok();
    Some((made(TieRule::Lowest)?, made(TieRule::Highest)?))
}

/// What is told of a list and order that are planned.
pub const KINDS: [&str; 11] = [
    "one-plan",
    "two-plans",
    "never",
    "never:one-drop",
    "never:several-drops",
    "never:more-go-than-stay",
    "later",
    "later:one-drop",
    "later:several-drops",
    "later:further-first",
    "later:more-go-than-stay",
];

impl Parting {
    /// Its kinds: what the tied curves are, how many curves the step drops, whether some of them are
    /// further than the tied ones, and whether more of the tied ones go than stay.
    pub fn kinds(&self) -> Vec<&'static str> {
        let stay = self.tied.len() - self.tied_drops;
        let several = self.tied_drops + self.further_drops > 1;
        let mut kinds = vec!["two-plans"];
        match self.next_use {
            None => {
                kinds.push("never");
                kinds.push(if several {
                    "never:several-drops"
                } else {
                    "never:one-drop"
                });
                if self.tied_drops > stay {
                    kinds.push("never:more-go-than-stay");
                }
            }
            Some(_) => {
                kinds.push("later");
                kinds.push(if several {
                    "later:several-drops"
                } else {
                    "later:one-drop"
                });
                if self.further_drops > 0 {
                    kinds.push("later:further-first");
                }
                if self.tied_drops > stay {
                    kinds.push("later:more-go-than-stay");
                }
            }
        }
        kinds
    }
}

/// The kinds of a list, holding and order with our plan, which has to have the load count of the other
/// rule's.
pub fn kinds(
    places: usize,
    booked: usize,
    curves: usize,
    wants: &[u64],
    held: u64,
    order: &[u16],
    ours: &Plan,
) -> Vec<&'static str> {
    let (rule, n) = (TieRule::Lowest, wants.len());
    let lowest = plan_by(rule, places, booked, curves, wants, held, order, n, n)
        .expect("refused under both rules or neither");
    assert_eq!(lowest.count, ours.count);
    match parting(wants, held, order, &lowest, ours) {
        None => vec!["one-plan"],
        Some(parting) => parting.kinds(),
    }
}
