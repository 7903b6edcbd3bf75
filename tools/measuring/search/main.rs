//! The search by cycles on one activities file: its answer, and seconds of a processor.
//!
//! usage: search PERIOD FILE [UNITS [steps]]

#![allow(dead_code, unused_labels)]

use library::{Global, seconds};
use pesp_base::{Period, Span, Weight};
use pesp_search_cycles::ByCycles;
use pesp_search_graph::Arc;
use pesp_search_least::{Budget, Candidate, First, Limits, Outcome};
use pesp_search_network::Network;

/// The numbers of a row of the file.
type Row = Vec<i64>;

fn rows_of(text: &str) -> Option<Vec<Row>> {
    let rows = text.lines().filter(|line| !line.trim().is_empty() && !line.starts_with('#'));
    rows.map(|row| row.split(';').map(|field| field.trim().parse().ok()).collect()).collect()
}

fn network_of(period: u16, rows: &[Row]) -> Option<Network> {
    let mut events: Vec<i64> = rows.iter().flat_map(|row| [row[1], row[2]]).collect();
    events.sort_unstable();
    events.dedup();
    let mut network = Network::new(Global, Period::new(period)?, events.len()).ok()?;
    for row in rows {
        let arc = Arc {
            from: events.binary_search(&row[1]).ok()?,
            to: events.binary_search(&row[2]).ok()?,
            span: Span::new(row[3] as i32, row[4] as i32).ok()?,
            weight: Weight::new(row[5] as u32)?,
        };
        network.add(arc).ok()?;
    }
    Some(network)
}

/// The first map that is found from a map of least cost, and whether it is found.
fn first_after(cycles: &mut ByCycles, network: &Network, candidate: Candidate, budget: &mut Budget) -> Option<(String, bool)> {
    let (cost, begun) = (candidate.cost, seconds());
    let (is_first, is_done) = match cycles.first(Global, network, candidate, budget).ok()? {
        First::Done(best) => (format!("the first ({})", sum_of(&best.map)), true),
        First::Spent { .. } => ("not the first".into(), false),
    };
    Some((format!("optimum {cost}; {is_first} after {:.3} s more", seconds() - begun), is_done))
}

/// A number that distinguishes maps.
fn sum_of(map: &[u16]) -> u64 {
    map.iter().fold(0, |sum: u64, residue| sum.wrapping_mul(31).wrapping_add(u64::from(*residue))) % 1_000_000
}

/// The result of the search, and whether that is its end.
fn searched(cycles: &mut ByCycles, network: &Network, budget: &mut Budget) -> Option<(String, bool)> {
    let limits = Limits { floor: 0, cap: u64::MAX };
    let begun = seconds();
    let outcome = network.least(Global, cycles, limits, budget).ok()?;
    let taken = seconds() - begun;
    let (told, is_done) = match outcome {
        Outcome::Found(candidate) => first_after(cycles, network, candidate, budget)?,
        Outcome::NoneBelow => ("infeasible".into(), true),
        Outcome::Spent { best, lower_bound } => {
            let best = best.map_or("none".into(), |best| best.cost.to_string());
            (format!("stopped: best {best}, lower bound {lower_bound}"), false)
        }
    };
    Some((format!("{taken:.3} s: {told}"), is_done))
}

/// Successive searches of this many units, each resuming the one before it, to the end.
fn in_steps(network: &Network, units: u64) -> Option<String> {
    let (mut cycles, begun) = (ByCycles::new(Global), seconds());
    for step in 1.. {
        let mut budget = Budget::of(units);
        let (told, is_done) = searched(&mut cycles, network, &mut budget)?;
        let line = format!("step {step}, {:.3} s in all: {told}", seconds() - begun);
        if is_done {
            return Some(line);
        }
        if step % 50 == 0 {
            eprintln!("{line}");
        }
    }
    None
}

/// The network that is searched: the reduced one, or with PRESOLVE=0 that of the file.
fn reduced(network: Network) -> Option<Network> {
    if std::env::var("PRESOLVE").is_ok_and(|word| word == "0") {
        return Some(network);
    }
    let begun = seconds();
    let reduction = network.presolve(Global).ok()??;
    let (events, arcs) = (reduction.network.events(), reduction.network.arc_count());
    eprintln!("reduced to {events} events and {arcs} arcs in {:.3} s", seconds() - begun);
    Some(reduction.network)
}

fn run(words: &[String]) -> Option<String> {
    let rows = rows_of(&std::fs::read_to_string(words.get(1)?).ok()?)?;
    let network = reduced(network_of(words.first()?.parse().ok()?, &rows)?)?;
    let units = words.get(2).map(|word| word.parse()).transpose().ok()?;
    if words.get(3).is_some_and(|word| word == "steps") {
        return in_steps(&network, units?);
    }
    let mut budget = units.map_or_else(Budget::unlimited, Budget::of);
    Some(searched(&mut ByCycles::new(Global), &network, &mut budget)?.0)
}

fn main() {
    let words: Vec<String> = std::env::args().skip(1).collect();
    match run(&words) {
        Some(told) => println!("{told}"),
        None => std::process::exit(2),
    }
}
