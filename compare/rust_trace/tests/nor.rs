//! Readings of the NOR that can be told by hand, and the refusals that the harness adds.

mod common;

use common::{asked, lines_with};
use rust_trace::nor_trace;

/// A construction with the id of a W25Q128JV.
const NEW: &str = "call new\n.\n=EF4018\n";
const NEW_TRACE: &str = "call new\nH\nL\nW 9F\nR 3\nH\nE 0\n";

fn trace(text: &str) -> String {
    nor_trace(text.as_bytes())
}

/// The trace of `text` behind a construction, without the construction's lines.
fn trace_after_new(text: &str) -> String {
    let trace = trace(&format!("{NEW}{text}"));
    trace.strip_prefix(NEW_TRACE).expect("built").to_string()
}

/// Replies to a write enable, a command, and a wait of `busy` busy looks; the look behind them is free.
fn erase_replies(busy: usize) -> String {
    format!(".\n.\n=02\n.\n{}.\n=00\n", ".\n=01\n".repeat(busy))
}

#[test]
fn construction_and_a_status() {
    let text = "call new\n.\n=EF4017\ncall read_status1\n.\n=02\n";
    let expected = format!("{NEW_TRACE}call read_status1\nL\nW 05\nR 1\nH\nE 0\nV 2\n");
    assert_eq!(trace(text), expected);
}

#[test]
fn read_sends_three_address_bytes() {
    let expected = "call read\nL\nW 03 12 34 56\nR 2\nH\nE 0\nG 2\nB AB01\n";
    assert_eq!(
        trace_after_new("call read 0x123456 2\n.\n=AB01\n"),
        expected
    );
}

#[test]
fn erase_takes_blocks_where_it_can() {
    let text = format!("call erase 0xF000 0x21000\n{}", erase_replies(0).repeat(3));
    let trace = trace_after_new(&text);
    let commands: Vec<&str> = lines_with(&trace, "W ").filter(|w| w.len() > 2).collect();
    assert_eq!(commands, ["20 00 F0 00", "D8 01 00 00", "20 02 00 00"]);
    assert!(trace.ends_with("H\nE 0\n"));
}

#[test]
fn busiest_erase_asks_its_whole_bill() {
    let (sector, block) = (erase_replies(10_000), erase_replies(50_000));
    let text = format!("call erase 0xF000 0x21000\n{sector}{block}{sector}");
    let trace = trace_after_new(&text);
    assert_eq!(asked(&trace), 7_000_000);
    assert!(trace.ends_with("H\nE 0\n"));
}

#[test]
fn one_look_more_is_a_timeout() {
    let trace = trace_after_new(&format!("call erase_sector 0\n{}", erase_replies(10_001)));
    assert!(trace.ends_with("D 100\nL\nW 05\nR 1\nH\nE 2\n"));
    assert_eq!(asked(&trace), 1_000_000);
}

#[test]
fn unknown_capacity_codes() {
    for (id, capacity) in [
        ("010010", 65_536),
        ("010018", 16_777_216),
        ("010019", 16_777_216),
    ] {
        let trace = trace(&format!("call new\n.\n={id}\ncall device\n"));
        let expected = format!("{NEW_TRACE}call device\nE 0\nV {capacity} 4096 65536 256\n");
        assert_eq!(trace, expected);
    }
}

#[test]
fn quad_transfers() {
    let text = "quad 8 0x6B 0x32 3\ndevice 512 16 32 2\ncall new\n.\n=000000\n.\n=02\n\
        call read 7 1\n=5A\ncall write 256 @A1B2\n.\n.\n=02\n.\n.\n=00\n=A1B2\ncall config\n";
    let expected = "call new\nH\nL\nW 9F\nR 3\nH\nL\nW 35\nR 1\nH\nE 0\n\
        call read\nL\nQ 6B 00 00 07 : 8 3 1\nH\nE 0\nG 1\nB 5A\n\
        call write\nL\nW 06\nH\nL\nW 05\nR 1\nH\nL\nP 32 00 01 00 : A1 B2\nH\n\
        L\nW 05\nR 1\nH\nL\nQ 6B 00 01 00 : 8 3 2\nH\nE 0\n\
        call config\nE 0\nV 1 8 107 50 3 1 512 16 32 2\n";
    assert_eq!(trace(text), expected);
}

#[test]
fn read_goes_in_pieces() {
    let text = format!("call read 1 65538\n.\n={}\n.\n!3\n", "11".repeat(65_536));
    let expected = format!(
        "call read\nL\nW 03 00 00 01\nR 65536\nH\nL\nW 03 01 00 01\nR 2\nH\nE 1\nV 3\nG 65536\nB {}CCCC\n",
        "11".repeat(65_536)
    );
    assert_eq!(trace_after_new(&text), expected);
}

#[test]
fn a_read_back_is_not_delivered() {
    let text = "device 16 1 1 1\ncall new\n.\n=000000\ncall write 3 @7E\n.\n.\n=02\n.\n.\n.\n=00\n.\n=7F\n";
    assert!(trace(text).ends_with("W 03 00 00 03\nR 1\nH\nE 6\n"));
}

#[test]
fn refused_geometry_leaves_the_driver_before() {
    let text = "device 16777217 4096 65536 256\ncall new\ncall new_single\n.\n=EF4017\n";
    let text = format!("{text}call id\ndevice none\ncall new\n!0\ncall id\n");
    let expected = "call new\nE 12\ncall new_single\nH\nL\nW 9F\nR 3\nH\nE 0\n\
        call id\nE 0\nV 239 64 23\ncall new\nH\nL\nW 9F\nH\nE 1\nV 0\ncall id\nE 13\n";
    assert_eq!(trace(&text), expected);
    let kept = trace_after_new("device 1 1 1 0\ncall new\ncall id\n");
    assert_eq!(kept, "call new\nE 12\ncall id\nE 0\nV 239 64 24\n");
}

#[test]
fn geometry_bounds() {
    for (own, number) in [
        ("16777216 16777216 16777216 512", 0),
        ("0 1 1 1", 0),
        ("0 1 1 513", 11),
        ("0 1 1 65536", 11),
        ("0 1 1 65537", 12),
        ("0 1 1 0", 12),
        ("0 0 1 1", 12),
        ("0 1 0 1", 12),
        ("0 2 3 1", 12),
        ("0 1 16777217 1", 12),
        ("16777217 1 1 1", 12),
        ("18446744073709551615 1 1 1", 12),
    ] {
        let trace = trace(&format!("device {own}\ncall new\n.\n=000000\n"));
        assert!(
            trace.ends_with(&format!("\nE {number}\n")),
            "{own}: {trace}"
        );
    }
}

#[test]
fn calls_out_of_turn() {
    let text = "call read 0 2\ncall free\ncall new\n.\n=000000\ncall free\ncall device\n";
    let expected = format!(
        "call read\nE 13\nG 0\nB CCCC\ncall free\nE 13\n{NEW_TRACE}call free\nE 0\ncall device\nE 13\n"
    );
    assert_eq!(trace(text), expected);
}

#[test]
fn a_script_that_runs_out_leaves_the_call_unfinished() {
    let expected = "call read_status1\nL\nW 05\nR 1\nE 16\ncall new\nE 13\ncall free\nE 13\n";
    assert_eq!(
        trace_after_new("call read_status1\n.\ndevice 0 0 0 0\ncall new\n.\n=000000\ncall free\n"),
        expected
    );
}

#[test]
fn replies_that_do_not_fit() {
    for (reply, awaited) in [
        ("=", "W 05"),
        ("=00", "W 05"),
        (".\n.", "W 05\nR 1"),
        (".\n=", "W 05\nR 1"),
        (".\n=0000", "W 05\nR 1"),
    ] {
        let expected = format!("call is_busy\nL\n{awaited}\nE 14\ncall id\nE 13\n");
        let text = format!("call is_busy\n{reply}\ncall id\n");
        assert_eq!(trace_after_new(&text), expected, "{reply}");
    }
}

#[test]
fn bad_lines_end_the_output() {
    assert_eq!(trace_after_new("call fly\ncall id\n"), "bad case 4\n");
    let expected = "call is_busy\nL\nW 05\nR 1\nbad case 6\n";
    assert_eq!(trace_after_new("call is_busy\n.\n=0\ncall id\n"), expected);
}
