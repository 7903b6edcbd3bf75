//! A plain program for comparison with the proved one, for tools/measure: the same files, options, algorithms and replies,
//! and no proof. It has the measured commands, keeps no cost, and supports periods below 64.

mod bench;
mod counts;
mod files;
mod network;
mod replies;

use std::fs::{self, File};
use std::io::{self, BufRead, Write};
use std::os::fd::AsFd;

/// Answers each line of standard input before it reads the next.
fn serve(mut bench: bench::Bench, output: &mut File) -> io::Result<()> {
    let (mut input, mut line, mut text) = (io::stdin().lock(), Vec::new(), Vec::new());
    while let held @ [_, ..] = input.fill_buf()? {
        if let Some(long) = held.iter().position(|byte| *byte == b'\n') {
            bench.reply(&held[..long], &mut text);
            input.consume(long + 1);
        } else {
            input.read_until(b'\n', &mut line)?;
            bench.reply(&line, &mut text);
        }
        output.write_all(&text)?;
        line.clear();
        text.clear();
    }
    Ok(())
}

fn main() -> Result<(), String> {
    let (mut period, mut is_check, mut files) = (60, false, [Vec::new(), Vec::new(), Vec::new()]);
    let mut words = std::env::args().skip(1);
    while let Some(word) = words.next() {
        let contents = |path: Option<String>| fs::read(path.unwrap_or_default()).map_err(|why| why.to_string());
        match word.as_str() {
            "--check" => is_check = true,
            "--period" => period = words.next().and_then(|word| word.parse().ok()).unwrap_or_default(),
            "--fixed" => files[1] = contents(words.next())?,
            "--times" => files[2] = contents(words.next())?,
            _ => files[0] = contents(Some(word))?,
        }
    }
    let network = (2..64).contains(&period).then(|| files::read(period, &files)).ok_or("no period")??;
    drop(files);
    let mut output = io::stdout().as_fd().try_clone_to_owned().map(File::from).map_err(|why| why.to_string())?;
    let done = if is_check {
        let mut text = Vec::new();
        replies::put_check(&network, &mut text);
        output.write_all(&text)
    } else {
        serve(bench::Bench::new(network), &mut output)
    };
    done.map_err(|why| why.to_string())
}
