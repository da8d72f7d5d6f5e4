//! The small public functions: sets as 64-bit numbers, and sets in bytes. From the sentences of
//! their rules, on ordered sets of numbers.

use std::collections::{BTreeMap, BTreeSet};

type Set = BTreeSet<u32>;

/// k is an element where bit k is set.
fn elements(bits: u64) -> Set {
    (0..64).filter(|&k| bits / 2u64.pow(k) % 2 == 1).collect()
}

fn number(set: &Set) -> u64 {
    set.iter().map(|&k| 2u64.pow(k)).sum()
}

// ---------------------------------------------------------------------------------------------
// Sets

pub fn size(s: u64) -> u64 {
    elements(s).len() as u64
}

/// 64 of the empty set.
pub fn lowest(s: u64) -> u64 {
    elements(s).first().map_or(64, |&k| k as u64)
}

pub fn union(a: u64, b: u64) -> u64 {
    number(&(&elements(a) | &elements(b)))
}

pub fn common(a: u64, b: u64) -> u64 {
    number(&(&elements(a) & &elements(b)))
}

pub fn without(a: u64, b: u64) -> u64 {
    number(&(&elements(a) - &elements(b)))
}

/// Empty where k is 64 or more.
pub fn single(k: usize) -> u64 {
    number(&(0..64).filter(|&e| e as usize == k).collect())
}

pub fn has(s: u64, k: usize) -> bool {
    elements(s).iter().any(|&e| e as usize == k)
}

pub fn without_lowest(s: u64) -> u64 {
    let mut set = elements(s);
    set.pop_first();
    number(&set)
}

pub fn inside(a: u64, b: u64) -> bool {
    elements(a).is_subset(&elements(b))
}

/// The numbers below n, and below 64.
pub fn below(n: usize) -> u64 {
    number(&(0..64).filter(|&e| (e as usize) < n).collect())
}

// ---------------------------------------------------------------------------------------------
// Sets in bytes

/// What stands where the byte of a group is due.
#[derive(Clone, Copy, Debug, PartialEq, Eq)]
pub enum GroupRead {
    Curves(u64),
    Owed,
    Empty,
    Unknown,
}

/// More than 64 curves count as 64.
pub fn read_group(rest: &[u8], at: usize, group: usize, curves: usize) -> GroupRead {
    let byte = match rest.get(at) {
        None => return GroupRead::Owed,
        Some(0) => return GroupRead::Empty,
        Some(&byte) => byte,
    };
    let mut set = Set::new();
    for bit in elements(byte as u64) {
        // Group and curves may be any numbers.
        let curve = 8 * group as u128 + bit as u128;
        if curve >= curves.min(64) as u128 {
            return GroupRead::Unknown;
        }
        set.insert(curve as u32);
    }
    GroupRead::Curves(number(&set))
}

/// The bytes of the groups that have an element.
fn group_bytes(s: u64) -> BTreeMap<u32, u8> {
    let mut bytes = BTreeMap::new();
    for curve in elements(s) {
        *bytes.entry(curve / 8).or_default() += 2u8.pow(curve % 8);
    }
    bytes
}

pub fn group_map(s: u64) -> u8 {
    group_bytes(s).keys().map(|&group| 2u8.pow(group)).sum()
}

/// The group map, then the bytes.
pub fn set_bytes(s: u64) -> Vec<u8> {
    let mut bytes = vec![group_map(s)];
    bytes.extend(group_bytes(s).values());
    bytes
}

/// The bytes that a buffer of this length is given: none if they do not fit.
pub fn put_set(s: u64, out_len: usize) -> Vec<u8> {
    let bytes = set_bytes(s);
    if out_len < bytes.len() {
        Vec::new()
    } else {
        bytes
    }
}
