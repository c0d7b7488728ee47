//! `generate SEED COUNT`: COUNT cases for the NOR on standard output, each after a line `# case K`; with
//! `--nand` before the numbers, cases for the NAND.

use std::io::{self, BufWriter, Write};
use std::process::ExitCode;

use generate::{Flash, Generator, Nand, Nor};

/// Prints so many cases of a seed.
type Print = fn(u64, usize) -> io::Result<()>;

fn main() -> ExitCode {
    let words: Vec<String> = std::env::args().skip(1).collect();
    let (print, numbers): (Print, _) = match &words[..] {
        [driver, numbers @ ..] if driver == "--nand" => (print_cases::<Nand>, numbers),
        numbers => (print_cases::<Nor>, numbers),
    };
    let numbers: Vec<Option<u64>> = numbers.iter().map(|word| word.parse().ok()).collect();
    let [Some(seed), Some(count)] = numbers[..] else {
        eprintln!("usage: generate [--nand] SEED COUNT");
        return ExitCode::from(2);
    };
    match print(seed, count as usize) {
        Ok(()) => ExitCode::SUCCESS,
        Err(error) => {
            eprintln!("generate: {error}");
            ExitCode::FAILURE
        }
    }
}

fn print_cases<F: Flash>(seed: u64, count: usize) -> io::Result<()> {
    let mut out = BufWriter::new(io::stdout().lock());
    for case in Generator::<F>::new(seed).take(count) {
        out.write_all(case.as_bytes())?;
    }
    out.flush()
}
