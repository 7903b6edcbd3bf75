//! Events, by ascending numbers, and activities, by slot.

use std::collections::BTreeMap;
use std::ops::Range;

/// The residues from one on, around the period: those of an event's window, or the partners along an activity.
#[derive(Clone, Copy, Debug, PartialEq)]
pub struct Window {
    pub first: u16,
    pub length: u16,
}

impl Window {
    pub fn all(period: u16) -> Self {
        Window { first: 0, length: period }
    }

    /// The same as bits.
    pub fn row(self, period: u16) -> u64 {
        let ones = u64::MAX >> (64 - self.length);
        (ones << self.first | ones >> (period - self.first)) & (u64::MAX >> (64 - period))
    }

    /// As many residues, higher by this.
    pub fn above(self, period: u16, residue: u16) -> Self {
        let sum = self.first + residue;
        Window { first: if sum < period { sum } else { sum - period }, ..self }
    }

    /// Those to the end of the period, and those from 0 on.
    pub fn ranges(self, period: u16) -> [Range<usize>; 2] {
        let (first, end, period) = (self.first as usize, (self.first + self.length) as usize, period as usize);
        [first..end.min(period), 0..end.saturating_sub(period)]
    }
}

pub struct Event {
    pub number: u32,
    pub window: Option<Window>,
    pub time: Option<u16>,
    /// That of a present activity.
    pub ends: Vec<u32>,
}

/// An activity. At the slot q it has the ends 2q and 2q + 1.
#[derive(Clone, Copy)]
pub struct Activity {
    pub number: u32,
    /// The places of its events.
    pub events: [u32; 2],
    pub bounds: [i32; 2],
    pub weight: u32,
    /// The first partner of residue 0 at each end, and how many there are.
    pub firsts: [u16; 2],
    pub width: u16,
}

impl Activity {
    pub fn new(number: u32, events: [u32; 2], period: u16, bounds: [i32; 2], weight: u32) -> Self {
        let width = (bounds[1] - bounds[0]).min(i32::from(period) - 1) + 1;
        let firsts = [bounds[0], 1 - bounds[0] - width].map(|first| first.rem_euclid(period.into()) as u16);
        Activity { number, events, bounds, weight, firsts, width: width as u16 }
    }
}

/// The place of a number among ascending ones, or where it would be. They mostly have no gaps, and mostly arrive in order.
pub fn find<T>(items: &[T], number: u32, number_of: impl Fn(&T) -> u32) -> Result<usize, usize> {
    let (Some(first), Some(last)) = (items.first(), items.last()) else { return Err(0) };
    let guess = number.wrapping_sub(number_of(first)) as usize;
    match items.get(guess) {
        Some(item) if number_of(item) == number => Ok(guess),
        _ if number_of(last) < number => Err(items.len()),
        _ => items.binary_search_by_key(&number, number_of),
    }
}

pub struct Network {
    pub period: u16,
    /// By ascending numbers.
    pub events: Vec<Event>,
    /// Of the number of each activity.
    pub slots: BTreeMap<u32, u32>,
    pub activities: Vec<Activity>,
    // Slots of dropped activities.
    free: Vec<u32>,
}

impl Network {
    /// The network of activities whose ends are still numbers of events, unless a number is repeated.
    pub fn of(period: u16, mut activities: Vec<Activity>) -> Option<Self> {
        let mut numbers: Vec<u32> = activities.iter().flat_map(|activity| activity.events).collect();
        numbers.sort_unstable();
        numbers.dedup();
        activities.sort_unstable_by_key(|activity| activity.number);
        let slots: BTreeMap<u32, u32> = activities.iter().map(|activity| activity.number).zip(0..).collect();
        let events = numbers.into_iter().map(|number| Event { number, window: None, time: None, ends: Vec::with_capacity(16) });
        let mut network = Network { period, events: events.collect(), slots, activities, free: Vec::new() };
        for slot in 0..network.activities.len() {
            let [from, to] = network.activities[slot].events;
            network.link(slot as u32, [network.event(from)?, network.event(to)?]);
        }
        (network.slots.len() == network.activities.len()).then_some(network)
    }

    /// The place of an event.
    pub fn event(&self, number: u32) -> Option<u32> {
        find(&self.events, number, |event| event.number).ok().map(|place| place as u32)
    }

    /// Stores an activity of a new number.
    pub fn add_activity(&mut self, activity: Activity) -> u32 {
        let slot = self.free.pop().unwrap_or(self.activities.len() as u32);
        self.activities.resize(self.activities.len().max(slot as usize + 1), activity);
        self.activities[slot as usize] = activity;
        self.slots.insert(activity.number, slot);
        self.link(slot, activity.events);
        slot
    }

    pub fn drop_activity(&mut self, slot: u32) {
        self.unlink(slot);
        self.slots.remove(&self.activities[slot as usize].number);
        self.free.push(slot);
    }

    /// Connects an activity without ends to these events.
    pub fn link(&mut self, slot: u32, events: [u32; 2]) {
        self.activities[slot as usize].events = events;
        (0..).zip(events).for_each(|(side, event)| self.events[event as usize].ends.push(2 * slot + side));
    }

    pub fn unlink(&mut self, slot: u32) {
        for event in self.activities[slot as usize].events {
            self.events[event as usize].ends.retain(|end| end / 2 != slot);
        }
    }

    /// The event at the other side of an end, and the partners of residue 0 there.
    pub fn look(&self, end: u32) -> (usize, Window) {
        let (activity, side) = (&self.activities[end as usize / 2], end as usize % 2);
        (activity.events[1 - side] as usize, Window { first: activity.firsts[side], length: activity.width })
    }

    /// The residues that an event's window admits.
    pub fn admitted(&self, place: usize) -> u64 {
        self.events[place].window.unwrap_or(Window::all(self.period)).row(self.period)
    }
}
