//! The workbench in process: a session of an instance and a working timetable, which answers line by line.
//!
//! The library is proved, this handle is not: it follows the rules of embedded/pespbench.h for callers.

mod raw;

use raw::{Found, Raw, Told};
use raw::{pesp_ask, pesp_close, pesp_cost, pesp_domain, pesp_events, pesp_open, pesp_search, pesp_times, pesp_try_move, pesp_version};
use std::fmt;
use std::ptr;

/// The version of the library: 1,000,000 for each major, 1,000 for each minor number, and the patch. It is that of
/// the last release, also with unreleased changes.
pub fn version() -> u32 {
    // It reads and writes nothing.
    unsafe { pesp_version() }
}

/// The greatest length of the reply to a change, so that no change is requested twice.
const LEAST_ROOM: usize = 128;

const DONE: u32 = 0;
// Of `pesp_search_state`; one more says that there is no timetable.
const NOTHING_YET: u32 = 0;
const BEST_SO_FAR: u32 = 1;
const OPTIMUM: u32 = 2;
/// Instead of the time of an event without one.
const NO_TIME: u16 = 65_535;

/// The bytes of the files of a session; one without bytes is missing.
#[derive(Clone, Copy, Debug, Default)]
pub struct Files<'a> {
    pub activities: &'a [u8],
    pub fixed: &'a [u8],
    pub times: &'a [u8],
}

/// The result of a search so far. Times are in the order of [`Session::events`].
#[derive(Clone, Debug, PartialEq, Eq)]
pub enum Search {
    /// It stopped: the best timetable so far, if there is one, a lower bound of all timetables that meet everything, and
    /// whether the next call resumes this one. Otherwise that restarts.
    Stopped { best: Option<Best>, lower_bound: u64, goes_on: bool },
    /// The optimum is known.
    Optimum(Best),
    /// No timetable meets everything.
    NoTimetable,
}

/// A timetable that meets everything, with its cost.
#[derive(Clone, Debug, PartialEq, Eq)]
pub struct Best {
    pub cost: u64,
    pub times: Vec<u16>,
}

/// Why a call did nothing, in the numbers of pespbench.h.
#[derive(Clone, Copy, Debug, PartialEq, Eq)]
pub struct Fault {
    /// A value of `pesp_status`.
    pub status: u32,
    /// A value of `pesp_reason` for a fault of a file, or the number of a refusal; otherwise 0.
    pub reason: u32,
    /// The record of a file or the event; otherwise 0.
    pub place: u64,
    /// The field of a record; otherwise 0.
    pub field: u32,
}

impl fmt::Display for Fault {
    fn fmt(&self, f: &mut fmt::Formatter<'_>) -> fmt::Result {
        write!(f, "pespbench: status {}, reason {}, place {}", self.status, self.reason, self.place)
    }
}

impl std::error::Error for Fault {}

impl Told {
    fn ended(&self) -> Result<(), Fault> {
        if self.status == DONE {
            return Ok(());
        }
        Err(Fault {
            status: self.status,
            reason: self.reason,
            place: self.place,
            field: self.field,
        })
    }
}

/// All results of a call that returns their number; the first call has no room.
fn all<T: Copy + Default>(mut call: impl FnMut(*mut T, usize, *mut Told)) -> Result<Vec<T>, Fault> {
    let (mut out, mut told) = (Vec::new(), Told::default());
    call(out.as_mut_ptr(), 0, &mut told);
    told.ended()?;
    out.resize(told.length as usize, T::default());
    call(out.as_mut_ptr(), out.len(), &mut told);
    told.ended()?;
    Ok(out)
}

/// An open session. It may move to another thread, and one thread uses it at a time.
pub struct Session {
    raw: Raw,
    // The buffer for replies: no call needs a longer one.
    room: Vec<u8>,
}

// A session is not bound to a thread, and none of its calls takes a shared reference.
unsafe impl Send for Session {}

impl Session {
    /// Opens a session from files, which it reads like pespbench.
    pub fn open(period: u16, files: Files<'_>) -> Result<Session, Fault> {
        let mut told = Told::default();
        let mut raw = Raw {
            at: ptr::null_mut(),
            is_open: false,
        };
        let Files { activities, fixed, times } = files;
        // The slices live during the call, and session and answer are this function's own.
        unsafe {
            pesp_open(
                period,
                activities.as_ptr(),
                activities.len(),
                fixed.as_ptr(),
                fixed.len(),
                times.as_ptr(),
                times.len(),
                &mut raw,
                &mut told,
            );
        }
        told.ended()?;
        Ok(Session {
            raw,
            room: vec![0; LEAST_ROOM],
        })
    }

    fn asked(&mut self, line: &[u8]) -> Result<usize, Fault> {
        let mut told = Told::default();
        // The line and the room live during the call, and do not overlap.
        unsafe { pesp_ask(&mut self.raw, line.as_ptr(), line.len(), self.room.as_mut_ptr(), self.room.len(), &mut told) };
        told.ended()?;
        Ok(told.length as usize)
    }

    /// The bytes of the program's reply to a line: the line without its line feed, the reply with them.
    pub fn ask(&mut self, line: &str) -> Result<&[u8], Fault> {
        let mut length = self.asked(line.as_bytes())?;
        // Only a query has a longer reply, and repeated it has the same.
        if self.room.len() < length {
            self.room.resize(length, 0);
            length = self.asked(line.as_bytes())?;
        }
        Ok(&self.room[..length.min(self.room.len())])
    }

    /// The cost of the working timetable.
    pub fn cost(&mut self) -> Result<u64, Fault> {
        let (mut cost, mut told) = (0, Told::default());
        unsafe { pesp_cost(&mut self.raw, &mut cost, &mut told) };
        told.ended()?;
        Ok(cost)
    }

    /// By how much the cost would change if the event had this time. Nothing is set.
    pub fn try_move(&mut self, event: u32, time: u16) -> Result<i64, Fault> {
        let (mut change, mut told) = (0, Told::default());
        unsafe { pesp_try_move(&mut self.raw, event, time, &mut change, &mut told) };
        told.ended()?;
        Ok(change)
    }

    /// The events, ascending.
    pub fn events(&mut self) -> Result<Vec<u32>, Fault> {
        let raw = &mut self.raw;
        all(|out, length, told| unsafe { pesp_events(raw, out, length, told) })
    }

    /// The working timetable: the time of each event that has one, in the order of [`Session::events`].
    pub fn times(&mut self) -> Result<Vec<Option<u16>>, Fault> {
        let raw = &mut self.raw;
        let times = all(|out, length, told| unsafe { pesp_times(raw, out, length, told) })?;
        Ok(times.into_iter().map(|time| (time != NO_TIME).then_some(time)).collect())
    }

    fn sought(&mut self, nodes: u64, times: &mut Vec<u16>) -> Result<(Found, usize), Fault> {
        let (mut found, mut told) = (Found::default(), Told::default());
        unsafe { pesp_search(&mut self.raw, nodes, times.as_mut_ptr(), times.len(), &mut found, &mut told) };
        told.ended()?;
        Ok((found, told.length as usize))
    }

    /// Searches for the optimum with the work of `nodes` nodes. The working timetable does not change.
    ///
    /// Successive calls are one search: each resumes the previous one, and returns no dearer timetable and no lesser bound. A line
    /// that changes the network restarts it; lines that change only times, and queries, do not. Double the nodes after a call that
    /// cannot be resumed: a network of too many cycles is searched from the start each time.
    pub fn search(&mut self, nodes: u64) -> Result<Search, Fault> {
        let mut times = vec![0; self.events()?.len()];
        let (Found { cost, lower_bound, state, goes_on }, length) = self.sought(nodes, &mut times)?;
        let goes_on = goes_on == 1;
        times.truncate(length);
        Ok(match state {
            NOTHING_YET => Search::Stopped { best: None, lower_bound, goes_on },
            BEST_SO_FAR => Search::Stopped { best: Some(Best { cost, times }), lower_bound, goes_on },
            OPTIMUM => Search::Optimum(Best { cost, times }),
            _ => Search::NoTimetable,
        })
    }

    /// The domain of an event: its residues, ascending.
    pub fn domain(&mut self, event: u32) -> Result<Vec<u16>, Fault> {
        let raw = &mut self.raw;
        let bits: Vec<u8> = all(|out, length, told| unsafe { pesp_domain(raw, event, out, length, told) })?;
        let residues = 0..8 * bits.len() as u16;
        Ok(residues.filter(|residue| bits[usize::from(residue / 8)] >> (residue % 8) & 1 == 1).collect())
    }
}

impl Drop for Session {
    fn drop(&mut self) {
        // Frees all memory of the session.
        unsafe { pesp_close(&mut self.raw) };
    }
}

#[cfg(test)]
mod tests {
    use super::*;

    const TWO: Files = Files {
        activities: b"1; 1; 2; 3; 5; 2\n2; 2; 1; 4; 6; 1\n",
        fixed: b"",
        times: b"1; 0\n",
    };

    #[test]
    fn the_library_is_of_the_version_of_this_crate() {
        let numbers = env!("CARGO_PKG_VERSION").split(['.', '+']).take(3).map(|number| number.parse::<u32>().expect("a number"));
        assert_eq!(version(), numbers.fold(0, |all, number| 1_000 * all + number));
    }

    #[test]
    fn a_session_answers_line_by_line() -> Result<(), Fault> {
        let mut session = Session::open(10, TWO)?;
        assert_eq!(session.cost().map_err(|fault| (fault.status, fault.reason, fault.place)), Err((13, 11, 2)));
        assert_eq!(session.ask("time 2 4")?, b"ok\n");
        assert_eq!(session.cost()?, 4);
        assert_eq!(session.ask("cost")?, b"cost 4\n");
        assert_eq!(session.ask("")?, b"");
        Ok(())
    }

    #[test]
    fn a_session_answers_in_numbers() -> Result<(), Fault> {
        let mut session = Session::open(10, TWO)?;
        assert_eq!(session.events()?, [1, 2]);
        assert_eq!(session.times()?, [Some(0), None]);
        let refused = |fault: Fault| (fault.status, fault.reason, fault.place);
        assert_eq!(session.try_move(3, 10).map_err(refused), Err((13, 2, 3)));
        assert_eq!(session.try_move(2, 10).map_err(refused), Err((13, 4, 0)));
        assert_eq!(session.try_move(2, 4).map_err(refused), Err((13, 11, 2)));
        session.ask("time 2 4")?;
        assert_eq!(session.try_move(2, 3)?, -1);
        assert_eq!(session.times()?, [Some(0), Some(4)]);
        session.ask("fix 1 0")?;
        assert_eq!(session.domain(2)?, [4, 5]);
        assert_eq!(session.domain(3).map_err(refused), Err((13, 2, 3)));
        Ok(())
    }

    #[test]
    fn a_search_tells_how_good_its_timetable_is() -> Result<(), Fault> {
        let mut session = Session::open(10, TWO)?;
        assert!(matches!(session.search(0)?, Search::Stopped { best: None, lower_bound: 0, .. }));
        let best = |cost| Best { cost, times: vec![0, 4] };
        assert_eq!(session.search(1_000)?, Search::Optimum(best(4)));
        assert_eq!(session.times()?, [Some(0), None]);
        session.ask("weight 1 3")?;
        assert!(matches!(session.search(0)?, Search::Stopped { best: Some(kept), lower_bound: 0, .. } if kept == best(5)));
        assert_eq!(session.search(u64::MAX)?, Search::Optimum(best(5)));
        session.ask("span 1 3 3")?;
        assert_eq!(session.search(1_000)?, Search::NoTimetable);
        Ok(())
    }

    #[test]
    fn calls_one_after_the_other_are_one_search() -> Result<(), Fault> {
        let mut session = Session::open(10, TWO)?;
        let mut bound = 0;
        for _ in 0..1_000 {
            match session.search(1)? {
                Search::Stopped { lower_bound, .. } => {
                    assert!(lower_bound >= bound);
                    bound = lower_bound;
                }
                ended => {
                    assert_eq!(ended, Search::Optimum(Best { cost: 4, times: vec![0, 4] }));
                    return Ok(());
                }
            }
            // A time does not restart it.
            session.ask("time 2 5")?;
        }
        panic!("a thousand nodes do not settle two trains");
    }

    /// Activities between each two of eight events, and a number more beside the first.
    fn each_with_each(more: usize) -> Vec<u8> {
        let pairs = (1..=8).flat_map(|to| (1..to).map(move |from| (from, to))).chain(std::iter::repeat_n((1, 2), more));
        let row = |((from, to), number): ((i32, i32), i32)| {
            let lower = from * to % 10;
            format!("{number}; {from}; {to}; {lower}; {}; {}\n", lower + 8, 1 + number % 3)
        };
        pairs.zip(1..).map(row).collect::<String>().into_bytes()
    }

    #[test]
    fn a_stop_tells_whether_the_search_goes_on() -> Result<(), Fault> {
        // With more than a thousand cycles each call restarts.
        for (more, wanted) in [(0, true), (1_001, false)] {
            let activities = each_with_each(more);
            let mut session = Session::open(10, Files { activities: &activities, ..Files::default() })?;
            let found = session.search(1)?;
            assert!(matches!(found, Search::Stopped { goes_on, .. } if goes_on == wanted), "{more} more: {found:?}");
        }
        Ok(())
    }

    #[test]
    fn a_long_reply_comes_whole() -> Result<(), Fault> {
        let mut session = Session::open(1_440, TWO)?;
        assert_eq!(session.ask("domains")?.len(), 2 * 6_093 + 10);
        Ok(())
    }

    #[test]
    fn faults_are_told() -> Result<(), Fault> {
        assert_eq!(Session::open(1, TWO).err().map(|fault| fault.status), Some(9));
        let crossed = Files { activities: b"1; 1; 2; 5; 3; 2\n", ..TWO };
        let fault = Fault { status: 1, reason: 5, place: 1, field: 0 };
        assert_eq!(Session::open(10, crossed).err(), Some(fault));
        assert_eq!(Session::open(10, TWO)?.ask("cost\ncost").err().map(|fault| fault.status), Some(12));
        Ok(())
    }

    #[test]
    fn sessions_go_to_other_threads() {
        let threads: Vec<_> = (0..2)
            .map(|_| {
                std::thread::spawn(|| {
                    let mut session = Session::open(10, TWO)?;
                    session.ask("time 2 4")?;
                    session.cost()
                })
            })
            .collect();
        for thread in threads {
            assert_eq!(thread.join().expect("no panic"), Ok(4));
        }
    }
}
