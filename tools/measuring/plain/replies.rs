//! Replies on the times of the network, and numbers in texts.

use crate::network::{Activity, Event, Network};

/// Writes a number at the end of a text and a word before it, and returns the free length of the text.
fn write_back<const N: usize>(text: &mut [u8], word: &[u8; N], number: u64) -> usize {
    let (mut at, mut rest) = (text.len(), number);
    while at == text.len() || rest > 0 {
        at -= 1;
        text[at] = b'0' + (rest % 10) as u8;
        rest /= 10;
    }
    text[at - N..at].copy_from_slice(word);
    at - N
}

pub fn put_number(text: &mut Vec<u8>, number: u64) {
    let mut digits = [0; 20];
    let at = write_back(&mut digits, b"", number);
    text.extend_from_slice(&digits[at..]);
}

/// Writes a word and a number, and ends the line.
pub fn put_line(text: &mut Vec<u8>, word: &[u8], number: u64) {
    text.extend_from_slice(word);
    put_number(text, number);
    text.push(b'\n');
}

/// The slack of an activity, whose events have times.
fn slack(network: &Network, activity: &Activity) -> u16 {
    let [from, to] = activity.events.map(|event| network.events[event as usize].time.unwrap_or(0));
    let (ahead, period) = (to + network.period - from, network.period);
    let beyond = (if ahead < period { ahead } else { ahead - period }) + period - activity.firsts[0];
    if beyond < period { beyond } else { beyond - period }
}

/// Writes the tensions of all activities, and returns the cost and the activities that are not met.
pub fn put_tensions(network: &Network, text: &mut Vec<u8>) -> Result<(u64, Vec<u32>), String> {
    if let Some(event) = network.events.iter().find(|event| event.time.is_none()) {
        return Err(format!("refused 11 event {} has no time", event.number));
    }
    let (mut cost, mut unmet) = (0, Vec::new());
    put_line(text, b"tensions ", network.slots.len() as u64);
    for (number, slot) in &network.slots {
        let activity = &network.activities[*slot as usize];
        let slack = slack(network, activity);
        let tension = activity.bounds[0] + i32::from(slack);
        let mut line = [b'\n'; 40];
        let at = write_back(&mut line[..39], b" ", slack.into());
        let (rest, size) = (&mut line[..at], tension.unsigned_abs().into());
        let at = if tension < 0 { write_back(rest, b" -", size) } else { write_back(rest, b" ", size) };
        let at = write_back(&mut line[..at], b"", (*number).into());
        text.extend_from_slice(&line[at..]);
        unmet.extend((tension > activity.bounds[1]).then_some(*number));
        cost += u64::from(activity.weight) * u64::from(slack);
    }
    Ok((cost, unmet))
}

/// The replies of a check.
pub fn put_check(network: &Network, text: &mut Vec<u8>) {
    match put_tensions(network, text) {
        Ok((cost, unmet)) => {
            let is_moved = |event: &&Event| event.window.is_some_and(|window| event.time != Some(window.first));
            let moved: Vec<&Event> = network.events.iter().filter(is_moved).collect();
            put_line(text, b"violations ", (unmet.len() + moved.len()) as u64);
            unmet.iter().for_each(|activity| put_line(text, b"activity ", (*activity).into()));
            moved.iter().for_each(|event| put_line(text, b"event ", event.number.into()));
            put_line(text, b"cost ", cost);
        }
        Err(refusal) => text.extend_from_slice(format!("{refusal}\n").repeat(3).as_bytes()),
    }
}
