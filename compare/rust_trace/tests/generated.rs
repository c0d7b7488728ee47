//! The generator knows each driver's course: its replies fit, and where it spoils one, that one is asked for.

mod common;

use std::collections::BTreeSet;

use case_text::{Item, NAND};
use common::{asked, lines_with};
use generate::{Flash, Generator, Nand, Nor, unspoilt_ways, whole_sweep};
use rust_trace::bench::Driver;
use rust_trace::{nand_trace, nor_trace};

const SEED: u64 = 1;

/// A driver that both the generator and the harness know.
trait Side: Flash {
    /// The specification's numbers that its calls and the harness can give.
    const NUMBERS: &'static [&'static str];
    /// So many cases hold a whole sweep, and every wait up to its limit.
    const WHOLE: usize;
    /// The specification's delay bounds, of calls that always have the same.
    const BILLS: &'static [(&'static str, u64)];

    fn trace(case: &str) -> String;
}

impl Side for Nor {
    const NUMBERS: &'static [&'static str] = &[
        "0", "1", "2", "3", "5", "6", "7", "11", "12", "13", "14", "16",
    ];

    const WHOLE: usize = 4_000;
    const BILLS: &'static [(&'static str, u64)] = &[
        ("new", 200_000),
        ("enable_quad", 200_000),
        ("unprotect", 200_000),
        ("disable_quad", 100_000),
        ("erase_sector", 1_000_000),
        ("erase_block", 5_000_000),
    ];

    fn trace(case: &str) -> String {
        nor_trace(case.as_bytes())
    }
}

impl Side for Nand {
    const NUMBERS: &'static [&'static str] = &[
        "0", "1", "2", "4", "5", "6", "7", "8", "9", "10", "11", "12", "13", "14", "16",
    ];

    const WHOLE: usize = 8_000;
    const BILLS: &'static [(&'static str, u64)] = &[
        ("new", 520_000),
        ("reset", 500_000),
        ("reset_and_identify", 500_000),
        ("write_register", 10_000),
        ("ensure_configuration", 10_000),
        ("unprotect", 10_000),
        ("disable_quad", 10_000),
        ("page_read", 400_000),
        ("program_execute", 400_005),
        ("read_page", 400_000),
        ("write_page", 800_005),
        ("erase_block", 400_000),
        ("is_bad_block", 400_000),
        ("mark_bad_block", 1_600_005),
    ];

    fn trace(case: &str) -> String {
        nand_trace(case.as_bytes())
    }
}

fn traces<S: Side>(cases: &[String]) -> Vec<String> {
    cases.iter().map(|case| S::trace(case)).collect()
}

/// How many calls of these cases end with one of these numbers.
fn ends(traces: &[String], numbers: &[&str]) -> usize {
    traces
        .iter()
        .flat_map(|trace| lines_with(trace, "E "))
        .filter(|end| numbers.contains(end))
        .count()
}

fn unspoilt_replies_fit<S: Side>() {
    let ways = traces::<S>(&unspoilt_ways::<S>(SEED));
    assert_eq!(ends(&ways, &["1", "14", "16"]), 0);
}

fn each_spoilt_reply_is_asked_for<S: Side>() {
    let ways = unspoilt_ways::<S>(SEED).len();
    let sweep = traces::<S>(&whole_sweep::<S>(SEED));
    let bus_errors = ends(&sweep, &["1"]);
    let unfinished = ends(&sweep, &["14", "16"]);
    println!("{ways} ways, {} cases", sweep.len());
    assert_eq!(bus_errors, unfinished);
    assert_eq!(ways + bus_errors + unfinished, sweep.len());
}

fn cases_follow_the_rules_and_hold_all_there_is<S: Side>() {
    let cases: Vec<String> = Generator::<S>::new(SEED).take(2_000).collect();
    let traces = traces::<S>(&cases);
    for (case, trace) in cases.iter().zip(&traces) {
        let rules = !trace.contains("bad case") && !trace.contains("panic");
        assert!(rules, "{case}");
    }
    let seen = |head| -> BTreeSet<&str> {
        let words = traces.iter().flat_map(|trace| lines_with(trace, head));
        words.collect()
    };
    assert_eq!(seen("E "), S::NUMBERS.iter().copied().collect());
    let calls = S::DIALECT.calls.iter().map(|shape| shape.name);
    assert_eq!(seen("call "), calls.collect());
}

fn a_whole_run_holds_a_sweep_and_asks_every_bill<S: Side>() {
    let mut generator = Generator::<S>::new(SEED);
    let cases = generator.by_ref().take(S::WHOLE);
    let traces: Vec<String> = cases.map(|case| S::trace(&case)).collect();
    assert!(generator.is_swept());
    for (name, bill) in S::BILLS {
        let head = format!("{name}\n");
        let calls = traces.iter().flat_map(|trace| trace.split("call "));
        let longest = calls
            .filter(|call| call.starts_with(&head))
            .map(asked)
            .max();
        assert_eq!(longest, Some(*bill), "{name}");
    }
}

fn a_seed_gives_the_same_cases<S: Side>() {
    let cases = |seed| Generator::<S>::new(seed).take(100).collect::<Vec<_>>();
    assert_eq!(cases(7), cases(7));
    assert_ne!(cases(7), cases(8));
}

/// The same checks for every driver.
macro_rules! checks {
    ($module:ident, $side:ident) => {
        mod $module {
            use super::$side;

            #[test]
            fn unspoilt_replies_fit() {
                super::unspoilt_replies_fit::<$side>();
            }

            #[test]
            fn each_spoilt_reply_is_asked_for() {
                super::each_spoilt_reply_is_asked_for::<$side>();
            }

            #[test]
            fn cases_follow_the_rules_and_hold_all_there_is() {
                super::cases_follow_the_rules_and_hold_all_there_is::<$side>();
            }

            #[test]
            fn a_whole_run_holds_a_sweep_and_asks_every_bill() {
                super::a_whole_run_holds_a_sweep_and_asks_every_bill::<$side>();
            }

            #[test]
            fn a_seed_gives_the_same_cases() {
                super::a_seed_gives_the_same_cases::<$side>();
            }
        }
    };
}

checks!(nor, Nor);
checks!(nand, Nand);

/// A page that the Rust refuses last of all, the port earlier.
fn is_large(own: [u64; 4]) -> bool {
    own[0] > 4_096 && rust_trace::nand::Nand::inside_bounds(own)
}

fn constructs_a_large_page(case: &str) -> bool {
    let mut own = None;
    for item in case_text::read(case.as_bytes(), &NAND) {
        match item {
            Item::Own(numbers) => own = numbers,
            Item::Call(call) if call.name == "new" && own.is_some_and(is_large) => return true,
            _ => {}
        }
    }
    false
}

#[test]
fn large_pages_are_noted() {
    for case in Generator::<Nand>::new(SEED).take(4_000) {
        let noted = case.lines().nth(1) == Some("# large page");
        assert_eq!(constructs_a_large_page(&case), noted, "{case}");
    }
}
