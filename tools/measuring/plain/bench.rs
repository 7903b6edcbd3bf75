//! The network with its domains, and the commands.

use crate::counts::Domains;
use crate::files::{BOUND, Limits, NUMBER, WEIGHT, number_between};
use crate::network::{Activity, Network, Window};
use crate::replies::{put_line, put_number, put_tensions};

const TIME: Limits = (0, 65_535);
const MOST_ACTIVITIES: usize = 100_000;

pub struct Bench {
    network: Network,
    domains: Domains,
}

/// Nothing, or the reply that says why a command is refused.
type Done = Result<(), String>;

fn ensure(holds: bool, why: impl Fn() -> String) -> Done {
    if holds { Ok(()) } else { Err(why()) }
}

/// The numbers of all words after a command's own ones.
fn numbers<const N: usize>(words: &[&[u8]], own: usize, limits: [Limits; N]) -> Result<[i64; N], String> {
    ensure(words.len() == own + N, || "fault wrong number of words".to_string())?;
    let mut numbers = [0; N];
    for (at, limits) in limits.into_iter().enumerate() {
        numbers[at] = number_between(words[own + at], limits).map_err(|why| format!("fault word {} {why}", own + at + 1))?;
    }
    Ok(numbers)
}

fn bounds(lower: i64, upper: i64) -> Result<[i32; 2], String> {
    ensure(lower <= upper, || "fault lower bound above upper bound".to_string()).map(|()| [lower as i32, upper as i32])
}

fn is_blank(byte: &u8) -> bool {
    *byte <= b' ' && matches!(byte, b' ' | b'\t' | b'\r' | b'\n')
}

impl Bench {
    pub fn new(network: Network) -> Self {
        Bench { domains: Domains::of(&network), network }
    }

    fn event(&self, number: i64) -> Result<u32, String> {
        self.network.event(number as u32).ok_or_else(|| format!("refused 2 no event {number}"))
    }

    fn activity(&self, number: i64) -> Result<u32, String> {
        let slot = self.network.slots.get(&(number as u32));
        slot.copied().ok_or_else(|| format!("refused 6 no activity {number}"))
    }

    fn set_window(&mut self, [number, first, length]: [i64; 3]) -> Done {
        let (event, period) = (self.event(number)?, i64::from(self.network.period));
        ensure(first < period, || format!("refused 4 time {first} is out of range"))?;
        ensure((1..=period).contains(&length), || format!("refused 13 length {length} is out of range"))?;
        self.replace_window(event, Some(Window { first: first as u16, length: length as u16 }))
    }

    fn unfix(&mut self, [number]: [i64; 1]) -> Done {
        let event = self.event(number)?;
        ensure(self.network.events[event as usize].window.is_some(), || format!("refused 9 event {number} is not fixed"))?;
        self.replace_window(event, None)
    }

    fn replace_window(&mut self, event: u32, window: Option<Window>) -> Done {
        let old = self.network.admitted(event as usize);
        self.network.events[event as usize].window = window;
        let loosens = self.network.admitted(event as usize) & !old != 0;
        self.domains.follow(&self.network, &[event][..loosens.into()], Some(event), None);
        Ok(())
    }

    fn add_activity(&mut self, [number, from, to, lower, upper, weight]: [i64; 6]) -> Done {
        let bounds = bounds(lower, upper)?;
        ensure(!self.network.slots.contains_key(&(number as u32)), || format!("refused 5 activity {number} exists"))?;
        let events = [self.event(from)?, self.event(to)?];
        ensure(self.network.slots.len() < MOST_ACTIVITIES, || "refused 8 too many activities".to_string())?;
        let period = self.network.period;
        let slot = self.network.add_activity(Activity::new(number as u32, events, period, bounds, weight as u32));
        self.domains.follow(&self.network, &[], None, Some(slot));
        Ok(())
    }

    fn drop_activity(&mut self, [number]: [i64; 1]) -> Done {
        let slot = self.activity(number)?;
        self.network.drop_activity(slot);
        self.domains.follow(&self.network, &self.network.activities[slot as usize].events, None, None);
        Ok(())
    }

    fn set_span(&mut self, [number, lower, upper]: [i64; 3]) -> Done {
        let (bounds, slot, period) = (bounds(lower, upper)?, self.activity(number)?, self.network.period);
        let (old, window) = (self.network.activities[slot as usize], self.network.look(2 * slot).1);
        self.network.activities[slot as usize] = Activity::new(old.number, old.events, period, bounds, old.weight);
        let loosens = self.network.look(2 * slot).1.row(period) & !window.row(period) != 0;
        self.domains.follow(&self.network, &old.events[..2 * usize::from(loosens)], None, Some(slot));
        Ok(())
    }

    fn set_weight(&mut self, [number, weight]: [i64; 2]) -> Done {
        let slot = self.activity(number)?;
        self.network.activities[slot as usize].weight = weight as u32;
        Ok(())
    }

    fn set_ends(&mut self, [number, from, to]: [i64; 3]) -> Done {
        let slot = self.activity(number)?;
        let (events, old) = ([self.event(from)?, self.event(to)?], self.network.activities[slot as usize].events);
        self.network.unlink(slot);
        self.network.link(slot, events);
        self.domains.follow(&self.network, &old, None, Some(slot));
        Ok(())
    }

    fn put_domain(&self, text: &mut Vec<u8>, place: u32) {
        put_number(text, self.network.events[place as usize].number.into());
        text.push(b':');
        for residue in self.domains.row(place) {
            text.push(b' ');
            if residue >= 10 {
                text.push(b'0' + (residue / 10) as u8);
            }
            text.push(b'0' + (residue % 10) as u8);
        }
        text.push(b'\n');
    }

    fn put_domains(&self, text: &mut Vec<u8>) {
        put_line(text, b"domains ", self.network.events.len() as u64);
        (0..self.network.events.len()).for_each(|place| self.put_domain(text, place as u32));
    }

    /// Writes the answer to a query, or makes an edit.
    fn answer(&mut self, words: &[&[u8]], text: &mut Vec<u8>) -> Done {
        match *words {
            [b"add", b"activity", ..] => self.add_activity(numbers(words, 2, [NUMBER, NUMBER, NUMBER, BOUND, BOUND, WEIGHT])?)?,
            [b"drop", b"activity", ..] => self.drop_activity(numbers(words, 2, [NUMBER])?)?,
            [b"fix", ..] => self.set_window(numbers(words, 1, [NUMBER, TIME]).map(|[event, time]| [event, time, 1])?)?,
            [b"window", ..] => self.set_window(numbers(words, 1, [NUMBER, TIME, TIME])?)?,
            [b"unfix", ..] => self.unfix(numbers(words, 1, [NUMBER])?)?,
            [b"span", ..] => self.set_span(numbers(words, 1, [NUMBER, BOUND, BOUND])?)?,
            [b"weight", ..] => self.set_weight(numbers(words, 1, [NUMBER, WEIGHT])?)?,
            [b"ends", ..] => self.set_ends(numbers(words, 1, [NUMBER; 3])?)?,
            [b"domain", ..] => self.put_domain(text, numbers(words, 1, [NUMBER]).and_then(|[event]| self.event(event))?),
            [b"domains", ..] => numbers(words, 1, []).map(|[]| self.put_domains(text))?,
            [b"tensions", ..] => numbers(words, 1, []).and_then(|[]| put_tensions(&self.network, text).map(|_| ()))?,
            _ => return Err("fault unknown command".to_string()),
        }
        if text.is_empty() {
            text.extend_from_slice(b"ok\n");
        }
        Ok(())
    }

    /// Writes the reply to a line into an empty text.
    pub fn reply(&mut self, line: &[u8], text: &mut Vec<u8>) {
        let (mut words, mut count, mut rest) = ([&[][..]; 9], 0, line);
        while let Some(start) = rest.iter().position(|byte| !is_blank(byte)).filter(|_| count < words.len()) {
            rest = &rest[start..];
            (words[count], rest) = rest.split_at(rest.iter().position(is_blank).unwrap_or(rest.len()));
            count += 1;
        }
        if count > 0
            && words[0][0] != b'#'
            && let Err(why) = self.answer(&words[..count], text)
        {
            text.extend_from_slice(why.as_bytes());
            text.push(b'\n');
        }
    }
}
