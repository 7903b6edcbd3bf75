//! Domains by counts: for each residue at each end of an activity, how many residues of the other event are partners.

use crate::network::{Network, Window};

/// From this many residues on, those of one event that wait move together.
const BLOCK: u32 = 4;

/// Residues, as bits.
type Row = u64;

pub struct Domains {
    // Each end has this many counts, one for each residue.
    period: usize,
    // By end, then residue: of partners in `counted`.
    counts: Vec<u8>,
    // By the place of an event. Residues only in the rows wait to be counted, and those only in the counts wait to leave them.
    rows: Vec<Row>,
    counted: Vec<Row>,
    // Places and residues: those removed by an edit, and those restored, the oldest first.
    trail: Vec<(u32, u16)>,
    back: Vec<(u32, u16)>,
    // For residues that move together: how many are below each residue of three periods.
    sums: Vec<u16>,
}

/// The residues of a row, ascending.
fn residues(row: Row) -> impl Iterator<Item = u16> {
    let mut rest = row;
    std::iter::from_fn(move || {
        let least = (rest != 0).then_some(rest.trailing_zeros() as u16);
        rest &= rest.wrapping_sub(1);
        least
    })
}

/// The residues of a row for which something holds.
fn some_of(row: Row, holds: impl Fn(usize) -> bool) -> Row {
    residues(row).filter(|residue| holds(*residue as usize)).fold(0, |some, residue| some | 1 << residue)
}

/// Moves the counts that a window contains.
fn shift(counts: &mut [u8], window: Window, by: u8) {
    for range in window.ranges(counts.len() as u16) {
        counts[range].iter_mut().for_each(|count| *count = count.wrapping_add(by));
    }
}

impl Domains {
    pub fn of(network: &Network) -> Self {
        let (period, places) = (network.period as usize, network.events.len());
        let rows = vec![Window::all(network.period).row(network.period); places];
        let mut counts = vec![0; 2 * network.activities.len() * period];
        for (activity, counts) in network.activities.iter().zip(counts.chunks_mut(2 * period)) {
            counts.fill(activity.width as u8);
        }
        let (counted, trail, sums) = (rows.clone(), Vec::with_capacity(places * period), vec![0; 3 * period + 1]);
        let mut domains = Domains { period, counts, rows, counted, trail, back: Vec::new(), sums };
        (0..places).for_each(|place| domains.limit(network, place));
        domains.spread(network, false, None);
        domains
    }

    /// The residues that an event can still take.
    pub fn row(&self, place: u32) -> impl Iterator<Item = u16> {
        residues(self.rows[place as usize])
    }

    fn take_out(&mut self, place: usize, gone: Row) {
        self.rows[place] &= !gone;
        self.trail.extend(residues(gone).map(|residue| (place as u32, residue)));
    }

    fn bring(&mut self, place: usize, came: Row) {
        self.rows[place] |= came;
        self.back.extend(residues(came).map(|residue| (place as u32, residue)));
    }

    /// Removes the residues of an event that its window does not admit.
    fn limit(&mut self, network: &Network, place: usize) {
        self.take_out(place, self.rows[place] & !network.admitted(place));
    }

    /// Removes some residues of an event that have no partner at an end.
    fn sift(&mut self, place: usize, end: u32, some: Row) {
        let counts = &self.counts[end as usize * self.period..][..self.period];
        let lost = some_of(self.rows[place] & some, |residue| counts[residue] == 0);
        self.take_out(place, lost);
    }

    /// Follows an edit: restores what it reaches from some places, limits an event to its window, recounts an activity, and
    /// removes residues without a partner.
    pub fn follow(&mut self, network: &Network, starts: &[u32], limited: Option<u32>, recounted: Option<u32>) {
        self.trail.clear();
        self.back.clear();
        for place in starts.iter().map(|place| *place as usize) {
            self.bring(place, network.admitted(place) & !self.rows[place]);
        }
        self.spread(network, true, recounted);
        limited.into_iter().for_each(|place| self.limit(network, place as usize));
        recounted.into_iter().for_each(|slot| self.recount(network, slot));
        for at in 0..self.back.len() {
            let (place, residue) = self.back[at];
            for end in &network.events[place as usize].ends {
                self.sift(place as usize, *end, 1 << residue);
            }
        }
        self.spread(network, false, None);
    }

    fn recount(&mut self, network: &Network, slot: u32) {
        let ends = [2 * slot, 2 * slot + 1];
        self.counts.resize(self.counts.len().max((2 * slot as usize + 2) * self.period), 0);
        for end in ends {
            let counts = &mut self.counts[end as usize * self.period..][..self.period];
            counts.fill(0);
            for residue in residues(self.counted[network.look(end).0]) {
                shift(counts, network.look(end ^ 1).1.above(network.period, residue), 1);
            }
        }
        ends.into_iter().for_each(|end| self.sift(network.look(end ^ 1).0, end, Row::MAX));
    }

    /// Counts restored residues, or uncounts removed ones, alone or with others of their event, and everything that results.
    /// Nothing comes along a spared activity.
    fn spread(&mut self, network: &Network, comes: bool, spared: Option<u32>) {
        let mut at = 0;
        while let Some(&(place, residue)) = if comes { &self.back } else { &self.trail }.get(at) {
            let place = place as usize;
            let waits = if comes { self.rows[place] & !self.counted[place] } else { self.counted[place] & !self.rows[place] };
            if waits >> residue & 1 != 0 {
                let alone = self.moves_alone(waits).then_some(residue);
                self.counted[place] ^= alone.map_or(waits, |residue| 1 << residue);
                for end in network.events[place].ends.iter().filter(|end| spared != Some(*end / 2)) {
                    self.move_along(network, *end, alone, comes);
                }
            }
            at += 1;
        }
    }

    /// Whether each waiting residue at an event moves by itself; otherwise the sums are of all that wait there.
    fn moves_alone(&mut self, waits: Row) -> bool {
        if waits.count_ones() < BLOCK {
            return true;
        }
        let mut many = 0;
        for (residue, sum) in self.sums[..self.period].iter_mut().enumerate() {
            *sum = many;
            many += (waits >> residue) as u16 & 1;
        }
        for at in self.period..self.sums.len() {
            self.sums[at] = self.sums[at - self.period] + many;
        }
        false
    }

    /// Moves the counts along an activity for a residue at an end, or for all residues of the sums, and restores their
    /// partners, or removes those that have no partner then.
    fn move_along(&mut self, network: &Network, end: u32, alone: Option<u16>, comes: bool) {
        let ((far, window), back) = (network.look(end), network.look(end ^ 1).1);
        let counts = &mut self.counts[(end ^ 1) as usize * self.period..][..self.period];
        let (low, high) = (&self.sums[back.first as usize..], &self.sums[(back.first + back.length) as usize..]);
        let mut some = Row::MAX;
        if let Some(residue) = alone {
            let window = window.above(network.period, residue);
            shift(counts, window, if comes { 1 } else { u8::MAX });
            some = window.row(network.period);
        } else {
            let (less, more) = if comes { (low, high) } else { (high, low) };
            for (count, (less, more)) in counts.iter_mut().zip(less.iter().zip(more)) {
                *count = (u16::from(*count) + more - less) as u8;
            }
        }
        if comes {
            let lacks = network.admitted(far) & !self.rows[far] & some;
            let came = some_of(lacks, |residue| alone.is_some() || low[residue] < high[residue]);
            self.bring(far, came);
        } else {
            self.sift(far, end ^ 1, some);
        }
    }
}
