//! `rust_trace`: a NOR case on standard input, its trace on standard output; with `--nand` a NAND case.
//! `--many` behind that: many cases, each after a line `# case K`; that line stands before its trace too.

use std::io::{self, BufWriter, Read, Write};
use std::process::ExitCode;

use case_text::frame;
use rust_trace::{nand_trace, nor_trace};

/// Gives a case's trace.
type Trace = fn(&[u8]) -> String;

fn main() -> ExitCode {
    let arguments: Vec<String> = std::env::args().skip(1).collect();
    let done = match arguments.iter().map(String::as_str).collect::<Vec<_>>()[..] {
        [] => one(nor_trace),
        ["--many"] => many(nor_trace),
        ["--nand"] => one(nand_trace),
        ["--nand", "--many"] => many(nand_trace),
        _ => {
            eprintln!("usage: rust_trace [--nand] [--many] <CASES");
            return ExitCode::from(2);
        }
    };
    match done {
        Ok(()) => ExitCode::SUCCESS,
        Err(error) => {
            eprintln!("rust_trace: {error}");
            ExitCode::FAILURE
        }
    }
}

fn one(trace: Trace) -> io::Result<()> {
    let text = standard_input()?;
    io::stdout().write_all(trace(&text).as_bytes())
}

fn many(trace: Trace) -> io::Result<()> {
    let text = standard_input()?;
    let mut out = BufWriter::new(io::stdout().lock());
    for case in frame::cases(&text) {
        out.write_all(frame::head(case))?;
        out.write_all(b"\n")?;
        out.write_all(trace(case).as_bytes())?;
    }
    out.flush()
}

fn standard_input() -> io::Result<Vec<u8>> {
    let mut text = Vec::new();
    io::stdin().lock().read_to_end(&mut text)?;
    Ok(text)
}
