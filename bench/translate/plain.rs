//! The order of an entry's loads in plain Rust, for figures to compare with.
//!
//! `plain TURNS FOLDER` reads `links` in FOLDER, a line for each instruction with the number of its module and of those that it
//! depends on, puts the instructions so many times in groups and each group in its two orders, and prints three numbers: the
//! nanoseconds of the best turn, and of each order what was seen of it. No two instructions are on one module.
//! Build it by `rustc -O --edition 2021 bench/translate/plain.rs`.

use std::collections::BTreeSet;
use std::env;
use std::fs;
use std::time::Instant;

/// For each place those that it is linked with, each once.
type Links = Vec<Vec<usize>>;

/// The first member of each place's group.
fn firsts(asks: &Links) -> Vec<usize> {
    fn root(parents: &mut [usize], mut at: usize) -> usize {
        while parents[at] != at {
            parents[at] = parents[parents[at]];
            at = parents[at];
        }
        at
    }
    let mut parents: Vec<usize> = (0..asks.len()).collect();
    for (place, others) in asks.iter().enumerate() {
        for &other in others {
            let (one, another) = (root(&mut parents, place), root(&mut parents, other));
            parents[one.max(another)] = one.min(another);
        }
    }
    (0..asks.len()).map(|place| root(&mut parents, place)).collect()
}

/// The places in order: each behind those that it waits for, or the first of those left where each waits.
fn order(waits: &Links, waiting: &Links) -> Vec<usize> {
    let mut counts: Vec<usize> = waits.iter().map(Vec::len).collect();
    let mut free: BTreeSet<usize> = (0..counts.len()).filter(|&p| counts[p] == 0).collect();
    let mut left = vec![true; counts.len()];
    let mut first = 0;
    let mut order = Vec::with_capacity(counts.len());
    while order.len() < counts.len() {
        while !left[first] {
            first += 1;
        }
        let place = free.pop_first().unwrap_or(first);
        left[place] = false;
        order.push(place);
        for &other in &waiting[place] {
            counts[other] -= 1;
            if counts[other] == 0 && left[other] {
                free.insert(other);
            }
        }
    }
    order
}

/// The places in the order, group by group.
fn grouped(firsts: &[usize], order: &[usize]) -> Vec<usize> {
    let mut groups = vec![Vec::new(); firsts.len()];
    for &place in order {
        groups[firsts[place]].push(place);
    }
    groups.concat()
}

/// Which places name each place.
fn turned(asks: &Links) -> Links {
    let mut askers = vec![Vec::new(); asks.len()];
    for (place, others) in asks.iter().enumerate() {
        for &other in others {
            askers[other].push(place);
        }
    }
    askers
}

/// Both orders: dependencies first, where a place that names itself waits, and dependants first, where it does not.
fn orders(asks: &Links) -> (Vec<usize>, Vec<usize>) {
    let firsts = firsts(asks);
    let others: Links = (0..).zip(asks).map(|(p, qs)| qs.iter().copied().filter(|&q| q != p).collect()).collect();
    let up = order(asks, &turned(asks));
    let down = order(&turned(&others), &others);
    (grouped(&firsts, &up), grouped(&firsts, &down))
}

fn seen(modules: &[u64], order: &[usize]) -> u64 {
    order.iter().fold(0, |sum, &p| sum.wrapping_mul(31).wrapping_add(modules[p]))
}

fn main() {
    let words: Vec<String> = env::args().collect();
    let turns: u32 = words[1].parse().expect("a number of turns");
    let text = fs::read_to_string(format!("{}/links", words[2])).expect("the links");
    let lines: Vec<Vec<u64>> =
        text.lines().map(|line| line.split(' ').map(|word| word.parse().expect("a number")).collect()).collect();
    let modules: Vec<u64> = lines.iter().map(|line| line[0]).collect();
    let mut places = vec![usize::MAX; modules.len()];
    for (place, &module) in modules.iter().enumerate() {
        places[module as usize] = place;
    }
    let asks: Links = lines.iter().map(|line| line[1..].iter().map(|&m| places[m as usize]).collect()).collect();
    let mut best = u128::MAX;
    let mut sums = (0, 0);
    for _ in 0..turns {
        let start = Instant::now();
        let (up, down) = orders(&asks);
        sums = (seen(&modules, &up), seen(&modules, &down));
        best = best.min(start.elapsed().as_nanos());
    }
    println!("{best} {} {}", sums.0, sums.1);
}
