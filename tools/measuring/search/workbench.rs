//! The workbench without the program's reader and shell, for measures: activities, fixed times, and some commands.
//!
//! usage: workbench --period P ACTIVITIES [--fixed FILE]
//!
//! From standard input, a line each: `optimum` and `try N` as the program has them; `least`, the seconds of a processor until
//! the least cost is known; and `steps N`, after each N nodes of one search the seconds, the best cost and the bound.

#![allow(dead_code, unused_labels)]

use library::{Global, seconds};
use pesp_base::{Activity, ActivityId, EventId, Period, Span, Weight};
use pesp_bench::{Attempt, Bench};
use pesp_counts::CountKeeper;
use pesp_domains::Keeper;
use pesp_instance::{Edit, Instance};
use pesp_search::{Answer, Best};
use pesp_search_cycles::ByCycles;
use pesp_search_graph::Arc;
use pesp_search_least::{Budget, Limits, Outcome};
use pesp_search_network::Network;
use pesp_tension::Timetable;

type Workbench = Bench<CountKeeper>;

fn rows_of(file: &str) -> Option<std::vec::Vec<std::vec::Vec<i64>>> {
    let text = std::fs::read_to_string(file).ok()?;
    text.lines()
        .map(|row| {
            row.split(';')
                .map(|field| field.trim().parse().ok())
                .collect()
        })
        .collect()
}

fn activity_of(row: &[i64]) -> Option<Activity> {
    Some(Activity {
        id: ActivityId::new(row[0] as u32)?,
        from: EventId::new(row[1] as u32)?,
        to: EventId::new(row[2] as u32)?,
        span: Span::new(row[3] as i32, row[4] as i32).ok()?,
        weight: Weight::new(row[5] as u32)?,
    })
}

fn opened(period: &str, activities: &str, fixed: Option<&str>) -> Option<Workbench> {
    let mut instance = Instance::new(Global, Period::new(period.parse().ok()?)?);
    let mut given = library::Vec::new(Global);
    for row in rows_of(activities)? {
        let activity = activity_of(&row)?;
        for event in [activity.from, activity.to] {
            let _ = instance.apply(&Edit::AddEvent(event));
        }
        given.push(activity).ok()?;
    }
    let mut instance = instance.with_activities(given).ok()??;
    for row in fixed.map_or(Some(Default::default()), rows_of)? {
        instance
            .apply(&Edit::Fix(EventId::new(row[0] as u32)?, row[1] as u16))
            .ok()?;
    }
    let keeper = CountKeeper::from_instance(Global, instance).ok()?;
    Some(Bench::new(Global, keeper))
}

fn costed(word: &str, cost: u64, times: &Timetable) {
    println!("{word} {cost} {}", times.walk().count());
    for timed in times.walk() {
        println!("{} {}", timed.event.get(), timed.time);
    }
}

fn tell_optimum(answer: &Answer) {
    match answer {
        Answer::Optimal { cost, times } => costed("optimum", *cost, times),
        Answer::Infeasible => println!("infeasible"),
    }
}

fn tell_try(bench: &mut Workbench, nodes: u64) -> Option<()> {
    match bench.try_optimum(Global, nodes).ok()? {
        Attempt::Done => tell_optimum(bench.known()?),
        Attempt::Stopped(Some(best)) => costed("stopped", best.cost, &best.times),
        Attempt::Stopped(None) => println!("stopped none"),
    }
    Some(())
}

/// The network of the search.
fn network_of(bench: &Workbench) -> Option<Network> {
    let instance = bench.instance();
    let events: std::vec::Vec<EventId> = instance.events().map(|event| event.id).collect();
    let mut network = Network::new(Global, instance.period(), events.len()).ok()?;
    for (index, event) in events.iter().enumerate() {
        for residue in 0..instance.period().get() {
            if !bench.keeper().holds(*event, residue) {
                network.forbid(index, residue);
            }
        }
        if instance.window(*event).is_none() {
            network.imply(index);
        }
    }
    for activity in instance.activities() {
        let from = events.binary_search(&activity.from).ok()?;
        let to = events.binary_search(&activity.to).ok()?;
        network
            .add(Arc {
                from,
                to,
                span: activity.span,
                weight: activity.weight,
            })
            .ok()?;
    }
    Some(network)
}

fn tell_least(bench: &Workbench) -> Option<()> {
    let (begun, network, mut cycles) = (seconds(), network_of(bench)?, ByCycles::new(Global));
    let limits = Limits {
        floor: 0,
        cap: u64::MAX,
    };
    match network
        .least(Global, &mut cycles, limits, &mut Budget::unlimited())
        .ok()?
    {
        Outcome::Found(candidate) => println!("least {} {:.3}", candidate.cost, seconds() - begun),
        Outcome::NoneBelow => println!("least none {:.3}", seconds() - begun),
        Outcome::Spent { .. } => return None,
    }
    Some(())
}

fn tell_steps(bench: &mut Workbench, nodes: u64) -> Option<()> {
    let begun = seconds();
    loop {
        let sought = bench.seek_optimum(Global, nodes).ok()?;
        let best: Option<u64> = match (&sought.attempt, bench.known()) {
            (Attempt::Stopped(found), _) => found.as_ref().map(|best: &Best| best.cost),
            (Attempt::Done, Some(Answer::Optimal { cost, .. })) => Some(*cost),
            (Attempt::Done, _) => None,
        };
        let best = best.map_or("none".to_string(), |cost| cost.to_string());
        println!(
            "step {:.2} {best} {}",
            seconds() - begun,
            sought.lower_bound
        );
        if matches!(sought.attempt, Attempt::Done) {
            return Some(());
        }
    }
}

fn answer(bench: &mut Workbench, line: &str) -> Option<()> {
    match line.split_once(' ') {
        None if line == "optimum" => {
            bench.find_optimum(Global).ok()?;
            tell_optimum(bench.known()?);
            Some(())
        }
        None if line == "least" => tell_least(bench),
        Some(("try", nodes)) => tell_try(bench, nodes.parse().ok()?),
        Some(("steps", nodes)) => tell_steps(bench, nodes.parse().ok()?),
        _ => None,
    }
}

fn run(words: &[String]) -> Option<()> {
    let after = |name: &str| {
        words
            .iter()
            .position(|word| word == name)
            .and_then(|place| words.get(place + 1))
    };
    let (period, fixed) = (after("--period")?, after("--fixed"));
    let given = |word: &&String| !word.starts_with("--") && *word != period && Some(*word) != fixed;
    let activities = words.iter().find(given)?;
    let mut bench = opened(period, activities, fixed.map(String::as_str))?;
    std::io::stdin()
        .lines()
        .try_for_each(|line| answer(&mut bench, line.ok()?.trim()))
}

fn main() {
    let words: std::vec::Vec<String> = std::env::args().skip(1).collect();
    if run(&words).is_none() {
        std::process::exit(2);
    }
}
