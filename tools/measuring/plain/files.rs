//! The network of three files. A faulty row is reported without details; quotes, and weights with a point, are faults.

use crate::network::{Activity, Network, Window, find};

/// The least and the greatest number of a field or a word.
pub type Limits = (i64, i64);
pub const NUMBER: Limits = (0, 999_999_999);
pub const BOUND: Limits = (-1_000_000, 1_000_000);
pub const WEIGHT: Limits = (0, 1_000_000_000);
const TIME: Limits = (-1_000_000_000, 1_000_000_000);

/// A number as far from 0 as this is outside all limits.
const CAP: i64 = 10_000_000_000_000;

/// The number of a text, if it is within the limits.
pub fn number_between(text: &[u8], (low, high): Limits) -> Result<i64, &'static str> {
    let (sign, digits) = match text {
        [b'-', digits @ ..] => (-1, digits),
        [b'+', digits @ ..] => (1, digits),
        digits => (1, digits),
    };
    let mut number = 0;
    for digit in digits {
        if !digit.is_ascii_digit() {
            return Err("is not a number");
        }
        number = CAP.min(10 * number + i64::from(digit - b'0'));
    }
    match sign * number {
        _ if digits.is_empty() => Err("is not a number"),
        number if number < low || number > high => Err("is out of range"),
        number => Ok(number),
    }
}

/// Splits a record off a text: its trimmed fields, without an empty one at their end.
fn cut_record<'a>(text: &mut &'a [u8], separator: u8, fields: &mut Vec<&'a [u8]>) {
    fields.clear();
    let mut is_last = false;
    while !is_last {
        let is_end = |byte: &u8| *byte == separator || *byte == b'\n' || *byte == b'\r';
        let long = text.iter().position(is_end).unwrap_or(text.len());
        let mut field = &text[..long];
        while let [b' ' | b'\t', rest @ ..] | [rest @ .., b' ' | b'\t'] = field {
            field = rest;
        }
        fields.push(field);
        is_last = text.get(long) != Some(&separator);
        *text = text.get(long + 1..).unwrap_or_default();
    }
    fields.pop_if(|field| field.is_empty());
}

/// Handles each row of a file, up to the first faulty one.
fn take_rows(name: &str, bytes: &[u8], mut take: impl FnMut(&[&[u8]]) -> Option<()>) -> Result<(), String> {
    let separator = if bytes.contains(&b';') { b';' } else { b',' };
    let (mut rest, mut fields, mut is_begun) = (bytes, Vec::new(), false);
    while !rest.is_empty() {
        cut_record(&mut rest, separator, &mut fields);
        // A blank record is skipped like a comment.
        let first = fields.first().map_or(b'#', |field| field.first().copied().unwrap_or_default());
        if first != b'#' && (is_begun || !first.is_ascii_alphabetic()) {
            take(&fields).ok_or_else(|| format!("{name} file: a row is faulty"))?;
        }
        is_begun |= first != b'#';
    }
    Ok(())
}

fn number(text: &[u8], limits: Limits) -> Option<i64> {
    number_between(text, limits).ok()
}

/// The activity of a row, whose ends are still numbers of events.
fn activity(fields: &[&[u8]], period: u16) -> Option<Activity> {
    let [id, from, to, lower, upper, weight] = *fields else { return None };
    let id = number(id, NUMBER)? as u32;
    let events = [number(from, NUMBER)? as u32, number(to, NUMBER)? as u32];
    let bounds = [number(lower, BOUND)? as i32, number(upper, BOUND)? as i32];
    let weight = number(weight, WEIGHT)? as u32;
    (bounds[0] <= bounds[1]).then(|| Activity::new(id, events, period, bounds, weight))
}

/// The events of a file with their times.
fn times(name: &str, bytes: &[u8], period: u16) -> Result<Vec<(u32, u16)>, String> {
    let mut times: Vec<(u32, u16)> = Vec::new();
    take_rows(name, bytes, |fields| {
        let [event, time] = *fields else { return None };
        let event = number(event, NUMBER)? as u32;
        let time = number(time, TIME)?.rem_euclid(period.into()) as u16;
        times.insert(find(&times, event, |entry| entry.0).err()?, (event, time));
        Some(())
    })?;
    Ok(times)
}

/// The network of the files of activities, fixed times and times.
pub fn read(period: u16, files: &[Vec<u8>; 3]) -> Result<Network, String> {
    let mut activities = Vec::new();
    take_rows("activities", &files[0], |fields| activity(fields, period).map(|row| activities.push(row)))?;
    let mut network = Network::of(period, activities).ok_or("activities file: a number is repeated")?;
    for (event, first) in times("fixed", &files[1], period)? {
        let place = network.event(event).ok_or("fixed file: an event is not in the instance")?;
        network.events[place as usize].window = Some(Window { first, length: 1 });
    }
    for (event, time) in times("times", &files[2], period)? {
        network.event(event).into_iter().for_each(|place| network.events[place as usize].time = Some(time));
    }
    Ok(network)
}
