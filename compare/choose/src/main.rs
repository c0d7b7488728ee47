//! `choose [--nand] CASES TRACES TEXT ANSWERS COUNT`: chooses COUNT short cases that show much between them, and writes
//! their texts to TEXT and their traces to ANSWERS, each ended by a line `%`.
//!
//! First come cases until each call has ended with each number it can, shown each kind of action and got a bus error at each
//! of its commands, each verdict of a load was there and each bound of a geometry was taken; then those in which a call
//! ends in a known way after another number of actions.

mod shows;

use std::collections::HashSet;
use std::fs;
use std::io;
use std::path::PathBuf;
use std::process::ExitCode;

use case_text::{Dialect, NAND, NOR, frame};

use shows::{Shown, finer, shown};

/// A case and its trace that have more bytes are left out, unless no shorter one shows a number: the list is stored.
const LONGEST: usize = 6_000;
/// The port's difference that is wanted: the Rust's answers are not the port's.
const LEFT_OUT: &[u8] = b"# large page\n";

struct Case<'a> {
    text: &'a [u8],
    trace: &'a [u8],
    shows: HashSet<Shown>,
    finer: HashSet<Shown>,
}

impl Case<'_> {
    fn length(&self) -> usize {
        self.text.len() + self.trace.len()
    }
}

fn main() -> ExitCode {
    let words: Vec<String> = std::env::args().skip(1).collect();
    let (dialect, words) = match &words[..] {
        [driver, words @ ..] if driver == "--nand" => (NAND, words),
        words => (NOR, words),
    };
    let (paths, count) = match words {
        [cases, traces, text, answers, count] => (
            [cases, traces, text, answers].map(PathBuf::from),
            count.parse().ok(),
        ),
        _ => (Default::default(), None),
    };
    let Some(count) = count else {
        eprintln!("usage: choose [--nand] CASES TRACES TEXT ANSWERS COUNT");
        return ExitCode::from(2);
    };
    match choose(&dialect, paths, count) {
        Ok(()) => ExitCode::SUCCESS,
        Err(error) => {
            eprintln!("choose: {error}");
            ExitCode::FAILURE
        }
    }
}

fn choose(
    dialect: &Dialect,
    [cases, traces, text, answers]: [PathBuf; 4],
    count: usize,
) -> io::Result<()> {
    let (cases, traces) = (fs::read(cases)?, fs::read(traces)?);
    let all: Vec<Case> = frame::cases(&cases)
        .zip(frame::cases(&traces).map(without_head))
        .filter(|(text, _)| !without_head(text).starts_with(LEFT_OUT))
        .map(|(text, trace)| Case {
            text,
            trace,
            shows: shown(dialect, text, trace),
            finer: finer(trace),
        })
        .collect();
    let mut chosen = numbers_of_long_cases(&all);
    cover(&all, &mut chosen, usize::MAX, |case| &case.shows);
    cover(&all, &mut chosen, count, |case| &case.finer);
    chosen.sort_unstable();
    let (mut texts, mut expected) = (Vec::new(), Vec::new());
    for &index in &chosen {
        ended(&mut texts, all[index].text);
        ended(&mut expected, all[index].trace);
    }
    fs::write(text, texts)?;
    fs::write(answers, expected)?;
    let answers: usize = chosen
        .iter()
        .map(|&index| shows::ends(all[index].trace).len())
        .sum();
    println!("{} cases, {answers} answers", chosen.len());
    Ok(())
}

/// For each number that no short case shows, the shortest case that does.
fn numbers_of_long_cases(all: &[Case]) -> Vec<usize> {
    let numbers = |case: &Case| -> HashSet<Shown> {
        let shows = case.shows.iter().cloned();
        shows
            .filter(|shown| matches!(shown, Shown::Number(_)))
            .collect()
    };
    let short = all.iter().filter(|case| case.length() <= LONGEST);
    let mut seen: HashSet<Shown> = short.flat_map(numbers).collect();
    let mut by_length: Vec<usize> = (0..all.len()).collect();
    by_length.sort_by_key(|&index| all[index].length());
    by_length.retain(|&index| {
        let new = numbers(&all[index]).difference(&seen).count() > 0;
        seen.extend(numbers(&all[index]));
        new
    });
    by_length
}

/// Adds short cases, up to so many in all, each time the one that shows most for its length, until nothing new is left.
fn cover<'a>(
    all: &'a [Case<'a>],
    chosen: &mut Vec<usize>,
    count: usize,
    shows: impl Fn(&'a Case<'a>) -> &'a HashSet<Shown>,
) {
    let mut seen: HashSet<&Shown> = chosen
        .iter()
        .flat_map(|&index| shows(&all[index]))
        .collect();
    while chosen.len() < count {
        let gain = |case: &'a Case<'a>| {
            let new = shows(case)
                .iter()
                .filter(|shown| !seen.contains(shown))
                .count();
            (new * 1_000_000).checked_div(case.length()).unwrap_or(0)
        };
        let short = all
            .iter()
            .enumerate()
            .filter(|(_, case)| case.length() <= LONGEST);
        let best = short
            .map(|(index, case)| (gain(case), index))
            .max_by_key(|&(gain, index)| (gain, usize::MAX - index));
        let Some((1.., index)) = best else {
            return;
        };
        seen.extend(shows(&all[index]));
        chosen.push(index);
    }
}

fn without_head(trace: &[u8]) -> &[u8] {
    &trace[(frame::head(trace).len() + 1).min(trace.len())..]
}

fn ended(list: &mut Vec<u8>, text: &[u8]) {
    list.extend_from_slice(text);
    list.extend_from_slice(b"%\n");
}
