//! Answers commands over files, like pespbench: the same replies, the same line for a fault, the same exit status.
//!
//! usage: answer PERIOD ACTIVITIES FIXED TIMES <COMMANDS, with `-` for a missing file

#[allow(dead_code)]
#[path = "rust/src/raw.rs"]
mod raw;

use raw::Told;
use std::io::{Read, Write};
use std::process::ExitCode;
use std::{env, fs, io};

const LONGEST_FILE: u64 = 67_108_864;

extern "C" {
    fn pesp_answer(
        period: u16,
        activities: *const u8,
        activities_length: usize,
        fixed: *const u8,
        fixed_length: usize,
        times: *const u8,
        times_length: usize,
        commands: *const u8,
        commands_length: usize,
        out: *mut u8,
        out_length: usize,
        told: *mut Told,
    );
}

/// The bytes of files, and commands. A missing one has no bytes.
struct Asked {
    period: u16,
    activities: Vec<u8>,
    fixed: Vec<u8>,
    times: Vec<u8>,
    commands: Vec<u8>,
}

/// One call; the report has the length of the replies.
fn call(asked: &Asked, out: &mut [u8]) -> Told {
    let Asked {
        period,
        activities,
        fixed,
        times,
        commands,
    } = asked;
    let mut told = Told::default();
    // Pointers of vectors and slices are never null, and none of these overlap.
    unsafe {
        pesp_answer(
            *period,
            activities.as_ptr(),
            activities.len(),
            fixed.as_ptr(),
            fixed.len(),
            times.as_ptr(),
            times.len(),
            commands.as_ptr(),
            commands.len(),
            out.as_mut_ptr(),
            out.len(),
            &mut told,
        );
    }
    told
}

/// The replies, and how the run ended.
fn answer(asked: &Asked) -> (Vec<u8>, Told) {
    let mut out = vec![0; 1 << 16];
    loop {
        let told = call(asked, &mut out);
        let length = told.length as usize;
        if length <= out.len() {
            out.truncate(length);
            return (out, told);
        }
        out = vec![0; length];
    }
}

/// The text of a fault, if there is one.
fn fault_of(told: &Told) -> Option<String> {
    let Told { place, field, .. } = told;
    let reason = match told.reason {
        1 => "wrong number of fields".into(),
        2 => format!("field {field} is not a number"),
        3 => format!("field {field} is out of range"),
        4 => "weight has a fraction".into(),
        5 => "lower bound above upper bound".into(),
        6 => "activity number is repeated".into(),
        7 => "event is repeated".into(),
        8 => "event is not in the instance".into(),
        9 => "too many events".into(),
        10 => "too many activities".into(),
        _ => String::from("out of memory"),
    };
    Some(match told.status {
        0 => return None,
        1 => format!("activities file, record {place}: {reason}"),
        2 => format!("fixed file, record {place}: {reason}"),
        3 => format!("times file, record {place}: {reason}"),
        4 => "commands cannot be read".into(),
        5 => "out of memory for the replies".into(),
        6 => format!("out of memory at line {place}"),
        7 => format!("line {place} is longer than 4096 bytes"),
        8 => "more than 1000000 lines".into(),
        _ => "the period is not 2 to 1440".into(),
    })
}

/// Why the program would end, and its exit status.
struct Refused(u8, String);

fn failed(why: &str) -> Refused {
    Refused(1, format!("pespbench: {why}"))
}

fn file_at(path: &str, name: &str) -> Result<Vec<u8>, Refused> {
    let mut bytes = Vec::new();
    if path == "-" {
        return Ok(bytes);
    }
    fs::File::open(path)
        .and_then(|file| file.take(LONGEST_FILE + 1).read_to_end(&mut bytes))
        .map_err(|_| failed(&format!("{name} file cannot be read")))?;
    if bytes.len() as u64 > LONGEST_FILE {
        return Err(failed(&format!("{name} file is too long")));
    }
    Ok(bytes)
}

/// The commands, and whether they reached their end; if not, the complete lines before that.
fn commands_of(mut input: impl Read) -> (Vec<u8>, bool) {
    let mut commands = Vec::new();
    if input.read_to_end(&mut commands).is_ok() {
        return (commands, true);
    }
    let whole = commands.iter().rposition(|byte| *byte == b'\n');
    commands.truncate(whole.map_or(0, |place| place + 1));
    (commands, false)
}

fn period_of(word: &str) -> Result<u16, Refused> {
    let period = word
        .parse()
        .ok()
        .filter(|period| (2..=1440).contains(period));
    let why = "answer: PERIOD is a whole number from 2 to 1440";
    period.ok_or_else(|| Refused(2, why.into()))
}

fn run(words: &[String]) -> Result<(), Refused> {
    let [period, activities, fixed, times] = words else {
        return Err(Refused(
            2,
            "usage: answer PERIOD ACTIVITIES FIXED TIMES <COMMANDS".into(),
        ));
    };
    let period = period_of(period)?;
    let activities = file_at(activities, "activities")?;
    let fixed = file_at(fixed, "fixed")?;
    let times = file_at(times, "times")?;
    let (commands, is_whole) = commands_of(io::stdin());
    let (replies, told) = answer(&Asked {
        period,
        activities,
        fixed,
        times,
        commands,
    });
    let mut output = io::stdout();
    let written = output.write_all(&replies).and_then(|()| output.flush());
    written.map_err(|_| failed("replies cannot be written"))?;
    match fault_of(&told) {
        Some(fault) => Err(failed(&fault)),
        None if !is_whole => Err(failed("commands cannot be read")),
        None => Ok(()),
    }
}

fn main() -> ExitCode {
    let words: Option<Vec<String>> = env::args_os()
        .skip(1)
        .map(|word| word.into_string().ok())
        .collect();
    match run(&words.unwrap_or_default()) {
        Ok(()) => ExitCode::SUCCESS,
        Err(Refused(status, why)) => {
            eprintln!("{why}");
            ExitCode::from(status)
        }
    }
}
