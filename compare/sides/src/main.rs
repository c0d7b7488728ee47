//! `sides [--nand] CASES TRACES OUT [PROGRAM]`: runs the port on each case of CASES, writes what it prints to OUT,
//! and compares that with the case's trace in TRACES. The port is PROGRAM, with the text on standard input, or
//! else a function of the library that was linked: the NOR's, or with `--nand` the NAND's.
//!
//! The first differences are shown, then the number of cases and of differences. Both sides must be the
//! same to the last byte, but for the one difference that is wanted ([`large_page`]).

mod large_page;
mod linked;
mod program;

use std::fs::{self, File};
use std::io::{self, BufWriter, Write};
use std::path::{Path, PathBuf};
use std::process::ExitCode;

use case_text::frame;

use linked::Linked;
use program::Program;

/// Further differences are counted but not shown.
const SHOWN: usize = 10;

enum Port {
    Linked(Linked),
    Program(Program),
}

fn main() -> ExitCode {
    let words: Vec<PathBuf> = std::env::args_os().skip(1).map(PathBuf::from).collect();
    let (nand, paths) = match &words[..] {
        [driver, paths @ ..] if driver.as_os_str() == "--nand" => (true, paths),
        paths => (false, paths),
    };
    let [cases, traces, out, program @ ..] = paths else {
        eprintln!("usage: sides [--nand] CASES TRACES OUT [PROGRAM]");
        return ExitCode::from(2);
    };
    let port = match program {
        [program] => Some(Port::Program(Program::new(program, out))),
        _ => Linked::new(nand).map(Port::Linked),
    };
    let Some(port) = port else {
        eprintln!("sides: no PROGRAM, and no library was linked");
        return ExitCode::from(2);
    };
    match compare(cases, traces, port, out) {
        Ok(0) => ExitCode::SUCCESS,
        Ok(_) => ExitCode::FAILURE,
        Err(error) => {
            eprintln!("sides: {error}");
            ExitCode::from(2)
        }
    }
}

/// Gives the number of differences.
fn compare(cases: &Path, traces: &Path, mut port: Port, out: &Path) -> io::Result<usize> {
    let (cases, traces) = (fs::read(cases)?, fs::read(traces)?);
    let mut written = BufWriter::new(File::create(out)?);
    let (mut count, mut differences, mut wanted) = (0, 0, 0);
    let mut expected = frame::cases(&traces);
    for case in frame::cases(&cases) {
        let expected = expected.next().unwrap_or_default();
        let trace = match &mut port {
            Port::Linked(linked) => linked.trace(case, expected.len()),
            Port::Program(program) => program.trace(case)?,
        };
        let trace = framed(frame::head(case), &trace);
        written.write_all(&trace)?;
        count += 1;
        if trace == expected {
            continue;
        }
        if large_page::is_wanted(case, expected, &trace) {
            wanted += 1;
        } else {
            differences += 1;
            if differences <= SHOWN {
                show(frame::head(case), expected, &trace);
            }
        }
    }
    if let Port::Program(program) = port {
        program.clear()?;
    }
    written.flush()?;
    if wanted > 0 {
        println!(
            "{wanted} cases differ as wanted: a large page is refused once the part is identified"
        );
    }
    println!("{count} cases, {differences} differences");
    Ok(differences)
}

fn framed(head: &[u8], trace: &[u8]) -> Vec<u8> {
    [head, b"\n", trace].concat()
}

/// Shows the first line in which the two traces differ.
fn show(head: &[u8], rust: &[u8], other: &[u8]) {
    let mut rust = rust.split(|&byte| byte == b'\n');
    let mut other = other.split(|&byte| byte == b'\n');
    let mut number = 0;
    loop {
        number += 1;
        let (left, right) = (rust.next(), other.next());
        if left != right {
            println!("{}, line {number} of its trace", text(Some(head)));
            println!("  Rust:  {}", text(left));
            println!("  other: {}", text(right));
            return;
        }
        if left.is_none() {
            return;
        }
    }
}

/// A line, cut where it is too long to be read.
fn text(line: Option<&[u8]>) -> String {
    const LONGEST: usize = 100;
    match line {
        None => "(no line)".into(),
        Some(line) if line.len() > LONGEST => {
            format!("{}...", String::from_utf8_lossy(&line[..LONGEST]))
        }
        Some(line) => String::from_utf8_lossy(line).into(),
    }
}
