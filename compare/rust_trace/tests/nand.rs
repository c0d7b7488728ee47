//! Readings of the NAND that can be told by hand, and the refusals that the harness adds.

mod common;

use common::{asked, lines_with};
use rust_trace::nand_trace;

/// A W25N01GV that is configured and unlocked already.
const NEW: &str = "call new\n.\n.\n=00\n.\n=EFAA21\n.\n=18\n.\n=00\n.\n=18\n";
const NEW_TRACE: &str = "call new\nH\nL\nW FF\nH\nD 10\nL\nW 0F C0\nR 1\nH\nL\nW 9F 00\nR 3\nH\n\
    L\nW 0F B0\nR 1\nH\nL\nW 0F A0\nR 1\nH\nL\nW 0F B0\nR 1\nH\nE 0\n";
/// The same with the quad bit found set.
const NEW_QUAD: &str =
    "quad 8 0x6B 0x32 3\ncall new\n.\n.\n=00\n.\n=EFAA21\n.\n=19\n.\n=00\n.\n=19\n";

const WRITE_ENABLE_TRACE: &str = "L\nW 06\nH\nL\nW 0F C0\nR 1\nH\n";
const STATUS_TRACE: &str = "L\nW 0F C0\nR 1\nH\n";

fn trace(text: &str) -> String {
    nand_trace(text.as_bytes())
}

/// The trace of `text` behind the settings and a construction, without the construction's lines.
fn trace_after(settings: &str, text: &str) -> String {
    let trace = trace(&format!("{settings}{text}"));
    trace.strip_prefix(NEW_TRACE).expect("built").to_string()
}

fn trace_after_new(text: &str) -> String {
    trace_after(NEW, text)
}

fn trace_with_geometry(own: &str, text: &str) -> String {
    trace_after(&format!("geometry {own}\n{NEW}"), text)
}

/// Replies to so many busy looks and to a free one behind them.
fn looks(busy: usize) -> String {
    format!("{}.\n=00\n", ".\n=01\n".repeat(busy))
}

/// The number at the end of the last call.
fn end(trace: &str) -> &str {
    lines_with(trace, "E ").last().expect("a call")
}

#[test]
fn construction_configures_and_unlocks() {
    let text = "call new\n.\n.\n=01\n.\n=00\n.\n=EFAB21\n.\n=00\n.\n.\n=02\n.\n.\n=00\n.\n=18\n\
        .\n=7C\n.\n.\n=02\n.\n.\n=00\n.\n=58\ncall info\ncall geometry\ncall config\n";
    let expected = format!(
        "call new\nH\nL\nW FF\nH\nD 10\n{STATUS_TRACE}D 10\n{STATUS_TRACE}L\nW 9F 00\nR 3\nH\n\
        L\nW 0F B0\nR 1\nH\n{WRITE_ENABLE_TRACE}L\nW 1F B0 18\nH\nD 10\n{STATUS_TRACE}L\nW 0F B0\nR 1\nH\n\
        L\nW 0F A0\nR 1\nH\n{WRITE_ENABLE_TRACE}L\nW 1F A0 00\nH\nD 10\n{STATUS_TRACE}L\nW 0F B0\nR 1\nH\nE 0\n\
        call info\nE 0\nV 239 43809 0 88 124\ncall geometry\nE 0\nV 2048 128 64 2048\ncall config\nE 0\nV 0 0\n"
    );
    assert_eq!(trace(text), expected);
}

#[test]
fn configuration_bits() {
    for (quad, before, written) in [
        ("none", "00", Some("18")),
        ("none", "18", None),
        ("none", "19", None),
        ("none", "08", Some("18")),
        ("none", "F7", Some("FF")),
        ("8 0x6B 0x32 0", "00", Some("19")),
        ("8 0x6B 0x32 0", "18", Some("19")),
        ("8 0x6B 0x32 0", "59", None),
        ("8 0x6B 0x32 0", "51", Some("59")),
    ] {
        let fixed = written.map_or(String::new(), |byte| {
            format!(".\n.\n=02\n.\n.\n=00\n.\n={byte}\n")
        });
        let text = format!(
            "quad {quad}\ncall new\n.\n.\n=00\n.\n=000000\n.\n={before}\n{fixed}.\n=04\n.\n=18\n"
        );
        let trace = trace(&text);
        let sent = lines_with(&trace, "W 1F B0 ").next();
        assert_eq!((sent, end(&trace)), (written, "0"), "{quad}: {before}");
    }
}

#[test]
fn a_configuration_that_does_not_stay_is_not_supported() {
    let replies = |after: &str| {
        format!("call ensure_configuration\n.\n=20\n.\n.\n=02\n.\n.\n=00\n.\n={after}\n")
    };
    assert!(trace_after_new(&replies("38")).ends_with("E 0\nV 32\n"));
    // Each bit counts.
    for after in ["18", "30", "39", "B8"] {
        assert_eq!(end(&trace_after_new(&replies(after))), "11", "{after}");
    }
}

#[test]
fn known_ids_choose_and_others_are_a_w25n01gv() {
    for (id, geometry) in [
        ("EFAA21", "2048 64 64 1024"),
        ("EFAB21", "2048 128 64 2048"),
        ("C8D148", "2048 64 64 1024"),
        ("EFAA22", "2048 64 64 1024"),
        ("EFAB20", "2048 64 64 1024"),
        ("C8AB21", "2048 64 64 1024"),
        ("000000", "2048 64 64 1024"),
    ] {
        let text = format!("{}call geometry\n", NEW.replace("EFAA21", id));
        let expected = format!("{NEW_TRACE}call geometry\nE 0\nV {geometry}\n");
        assert_eq!(trace(&text), expected, "{id}");
    }
}

#[test]
fn registers_and_ids() {
    for (call, command, reply, value) in [
        ("read_status", "0F C0", "A5", "165"),
        ("read_configuration", "0F B0", "18", "24"),
        ("read_protection", "0F A0", "7C", "124"),
        ("jedec_id", "9F 00", "EFAA21", "239 43553"),
    ] {
        let length = reply.len() / 2;
        let expected = format!("call {call}\nL\nW {command}\nR {length}\nH\nE 0\nV {value}\n");
        let text = format!("call {call}\n.\n={reply}\n");
        assert_eq!(trace_after_new(&text), expected);
    }
    let text = format!("call reset_and_identify\n.\n{}.\n=C8D148\n", looks(0));
    let expected = format!(
        "call reset_and_identify\nL\nW FF\nH\nD 10\n{STATUS_TRACE}L\nW 9F 00\nR 3\nH\nE 0\nV 200 53576\n"
    );
    assert_eq!(trace_after_new(&text), expected);
}

#[test]
fn protection_and_quad_bit() {
    let unlock = ".\n.\n=02\n.\n.\n=00\n";
    let locked = trace_after_new(&format!("call unprotect\n.\n=7C\n{unlock}"));
    assert!(locked.contains("W 1F A0 00\n") && locked.ends_with("E 0\nV 124\n"));
    let unlocked = trace_after_new("call unprotect\n.\n=04\n");
    assert_eq!(unlocked, "call unprotect\nL\nW 0F A0\nR 1\nH\nE 0\nV 4\n");
    for (after, number) in [("18", "0"), ("19", "11")] {
        let trace = trace_after_new(&format!("call disable_quad\n.\n=79\n{unlock}.\n={after}\n"));
        assert!(trace.contains("W 1F B0 78\n") && end(&trace) == number);
    }
    assert_eq!(end(&trace_after_new("call disable_quad\n.\n=FE\n")), "0");
}

#[test]
fn write_enable_looks_at_its_latch_alone() {
    for (status, number) in [("02", "0"), ("FD", "7"), ("00", "7"), ("03", "0")] {
        let trace = trace_after_new(&format!("call write_enable\n.\n.\n={status}\n"));
        let expected = format!("call write_enable\n{WRITE_ENABLE_TRACE}E {number}\n");
        assert_eq!(trace, expected);
    }
    let expected = format!(
        "call write_register\n{WRITE_ENABLE_TRACE}L\nW 1F C0 FF\nH\nD 10\n{STATUS_TRACE}E 0\n"
    );
    let text = format!("call write_register 0xC0 255\n.\n.\n=02\n.\n{}", looks(0));
    assert_eq!(trace_after_new(&text), expected);
}

#[test]
fn a_page_has_three_address_bytes_and_a_verdict() {
    for (status, number) in [("00", 0), ("10", 0), ("20", 8), ("30", 0), ("EF", 8)] {
        let expected = format!(
            "call page_read\nL\nW 13 00 FF FF\nH\nD 10\n{STATUS_TRACE}{STATUS_TRACE}E {number}\n"
        );
        // A verdict inside the wait does not count.
        let text = format!("call page_read 65535\n.\n.\n=20\n.\n={status}\n");
        assert_eq!(trace_after_new(&text), expected, "{status}");
    }
    assert_eq!(
        trace_after_new("call page_read 65536\n"),
        "call page_read\nE 5\n"
    );
}

#[test]
fn read_goes_on_to_the_next_page() {
    let page = |data: &str| format!(".\n{}.\n=00\n.\n={data}\n", looks(0));
    let text = format!("call read 2047 2\n{}{}", page("A1"), page("B2"));
    let load = |page: &str, column: &str| {
        format!(
            "L\nW 13 {page}\nH\nD 10\n{STATUS_TRACE}{STATUS_TRACE}L\nW 03 {column} 00\nR 1\nH\n"
        )
    };
    let (first, second) = (load("00 00 00", "07 FF"), load("00 00 01", "00 00"));
    let expected = format!("call read\n{first}{second}E 0\nG 2\nB A1B2\n");
    assert_eq!(trace_after_new(&text), expected);
}

#[test]
fn a_read_that_fails_keeps_what_was_delivered() {
    let load = format!(".\n{}", looks(0));
    let text = format!("call read 2047 2\n{load}.\n=10\n.\n=A1\n{load}.\n=20\n");
    assert!(trace_after_new(&text).ends_with("E 8\nG 1\nB A1CC\n"));
}

#[test]
fn a_read_at_the_capacity() {
    let refused = "E 5\nG 0\nB CC\n";
    let text = "call read 134217728 0\ncall read 134217728 1\n\
        call read 18446744073709551615 1\ncall read 134217729 0\n";
    let expected = format!(
        "call read\nE 0\nG 0\nB\ncall read\n{refused}call read\n{refused}call read\nE 5\nG 0\nB\n"
    );
    assert_eq!(trace_after_new(text), expected);
}

#[test]
fn cache_transfers_on_one_line() {
    let text = "call read_cache 2110 2\n.\n=A1B2\ncall load_program_data 1 @13FF\n.\n.\n";
    let expected = "call read_cache\nL\nW 03 08 3E 00\nR 2\nH\nE 0\nG 2\nB A1B2\n\
        call load_program_data\nL\nW 02 00 01\nW 13 FF\nH\nE 0\n";
    assert_eq!(trace_after_new(text), expected);
}

#[test]
fn cache_transfers_on_four_lines() {
    let text = "call read_cache 2110 2\n=A1B2\ncall load_program_data 1 @13FF\n.\ncall read_cache 0 0\n=\n";
    let expected = "call read_cache\nL\nQ 6B 08 3E : 8 3 2\nH\nE 0\nG 2\nB A1B2\n\
        call load_program_data\nL\nP 32 00 01 : 13 FF\nH\nE 0\n\
        call read_cache\nL\nQ 6B 00 00 : 8 3 0\nH\nE 0\nG 0\nB\n";
    assert_eq!(trace_after(NEW_QUAD, text), expected);
}

#[test]
fn cache_ranges_to_the_end_and_past_it() {
    for (column, length, number) in [
        ("2112", 0, "0"),
        ("2111", 1, "0"),
        ("2112", 1, "5"),
        ("2113", 0, "5"),
        ("18446744073709551615", 1, "5"),
        ("65536", 1, "5"),
    ] {
        let data = "5A".repeat(length);
        let read = trace_after_new(&format!("call read_cache {column} {length}\n.\n={data}\n"));
        let load = trace_after_new(&format!("call load_program_data {column} @{data}\n.\n.\n"));
        assert_eq!(
            (end(&read), end(&load)),
            (number, number),
            "{column} {length}"
        );
    }
    let trace = trace_with_geometry("4096 61439 1 1", "call read_cache 65535 0\n.\n=\n");
    assert_eq!(
        trace,
        "call read_cache\nL\nW 03 FF FF 00\nR 0\nH\nE 0\nG 0\nB\n"
    );
}

#[test]
fn write_page_reads_back() {
    let written = format!(
        "call write_page 5 @13A2\n.\n.\n=02\n.\n.\n.\n{}.\n=00\n.\n{}",
        looks(0),
        looks(0)
    );
    let trace = |replies: &str| trace_with_geometry("2 1 3 2", &format!("{written}{replies}"));
    let expected = format!(
        "call write_page\n{WRITE_ENABLE_TRACE}L\nW 02 00 00\nW 13 A2\nH\nL\nW 10 00 00 05\nH\n\
        D 75\n{STATUS_TRACE}{STATUS_TRACE}L\nW 13 00 00 05\nH\nD 10\n{STATUS_TRACE}{STATUS_TRACE}\
        L\nW 03 00 00 00\nR 2\nH\nE 0\n"
    );
    assert_eq!(trace(".\n=30\n.\n=13A2\n"), expected);
    assert_eq!(end(&trace(".\n=30\n.\n=13A3\n")), "6");
    // The verdict comes before the bytes.
    assert_eq!(end(&trace(".\n=20\n.\n=13A3\n")), "8");
}

#[test]
fn fail_bits_behind_the_wait() {
    let written = format!("call program_execute 1\n.\n{}", looks(0));
    let erased = format!("call erase_block 1\n.\n.\n=02\n.\n{}", looks(0));
    for (status, program, erase) in [
        ("00", "0", "0"),
        ("08", "10", "0"),
        ("04", "0", "9"),
        ("FF", "10", "9"),
    ] {
        let ends =
            [&written, &erased].map(|text| trace_after_new(&format!("{text}.\n={status}\n")));
        assert_eq!((end(&ends[0]), end(&ends[1])), (program, erase), "{status}");
    }
    assert!(trace_after_new(&erased).contains("W D8 00 00 40\nH\nD 250\n"));
}

#[test]
fn length_is_tested_before_the_page() {
    for (text, number) in [
        ("call read_page 65536 2047\n", "4"),
        ("call read_page 65536 2048\n", "5"),
        ("call write_page 65536 @00\n", "4"),
        ("call write_page 65535 @\n", "4"),
        ("call program_execute 65536\n", "5"),
    ] {
        assert_eq!(end(&trace_after_new(text)), number, "{text}");
    }
}

#[test]
fn blocks_out_of_range_come_before_any_product() {
    // 2 to the power 58 times 64 wraps to 0.
    for block in ["1024", "288230376151711744", "18446744073709551615"] {
        for name in ["erase_block", "is_bad_block", "mark_bad_block"] {
            let trace = trace_after_new(&format!("call {name} {block}\n"));
            assert_eq!(trace, format!("call {name}\nE 5\n"));
        }
    }
}

/// Replies to a look at a block's marker.
fn marker(byte: &str) -> String {
    format!(".\n{}.\n={byte}\n", looks(0))
}

#[test]
fn a_marker_is_read_without_a_verdict() {
    let expected = format!(
        "call is_bad_block\nL\nW 13 00 00 80\nH\nD 10\n{STATUS_TRACE}L\nW 03 08 00 00\nR 1\nH\nE 0\n"
    );
    for (byte, bad) in [("FF", 0), ("00", 1), ("FE", 1)] {
        let trace = trace_after_new(&format!("call is_bad_block 2\n{}", marker(byte)));
        assert_eq!(trace, format!("{expected}V {bad}\n"));
    }
}

/// A mark of a block with two chunks; its last look finds this marker.
fn mark(found: &str) -> String {
    let erase = format!(".\n.\n=02\n.\n{}.\n=00\n", looks(0));
    let loads = ".\n.\n".repeat(3);
    let program = format!(".\n.\n=02\n{loads}.\n{}.\n=00\n", looks(0));
    let (before, after) = (marker("FF"), marker(found));
    let text = format!("call mark_bad_block 1\n{before}{erase}{program}{after}");
    trace_with_geometry("257 1 3 2", &text)
}

#[test]
fn a_mark_fills_the_page_in_chunks() {
    let trace = mark("00");
    let filler = " FF".repeat(256);
    let loads =
        format!("L\nW 02 00 00\nW{filler}\nH\nL\nW 02 01 00\nW FF\nH\nL\nW 02 01 01\nW 00\nH\n");
    let programmed = format!("{WRITE_ENABLE_TRACE}{loads}L\nW 10 00 00 03\nH\nD 75\n");
    assert!(trace.contains(&programmed) && trace.ends_with("H\nE 0\n"));
    assert_eq!(end(&mark("FF")), "6");
}

#[test]
fn a_block_already_marked_is_left() {
    let marked = trace_after_new(&format!("call mark_bad_block 1\n{}", marker("FE")));
    let commands: Vec<&str> = lines_with(&marked, "W ").collect();
    assert_eq!(commands, ["13 00 00 40", "0F C0", "03 08 00 00"]);
    assert_eq!(end(&marked), "0");
}

#[test]
fn without_a_spare_a_marker_is_refused_after_the_load() {
    for name in ["is_bad_block", "mark_bad_block"] {
        let trace = trace_with_geometry("2 0 3 2", &format!("call {name} 1\n.\n{}", looks(0)));
        let expected = format!("call {name}\nL\nW 13 00 00 03\nH\nD 10\n{STATUS_TRACE}E 5\n");
        assert_eq!(trace, expected);
    }
}

#[test]
fn waits_look_once_more_at_their_limit() {
    let enabled = ".\n.\n=02\n.\n";
    for (call, before, busy, bill) in [
        ("reset", ".\n", 49_999, 500_000),
        ("page_read 0", ".\n", 39_999, 400_000),
        ("program_execute 0", ".\n", 26_662, 400_005),
        ("erase_block 0", enabled, 7_995, 400_000),
        ("write_register 0 0", enabled, 999, 10_000),
    ] {
        let trace =
            |busy| trace_after_new(&format!("call {call}\n{before}{}.\n=00\n", looks(busy)));
        let (free, late) = (trace(busy), trace(busy + 1));
        assert_eq!((end(&free), asked(&free)), ("0", bill), "{call}");
        assert_eq!((end(&late), asked(&late)), ("2", bill), "{call}");
        assert!(late.ends_with("R 1\nH\nE 2\n"));
    }
}

#[test]
fn geometry_bounds() {
    for (own, number) in [
        ("1 0 1 1", "0"),
        ("1 65534 1 1", "0"),
        ("4096 61439 1 16777216", "0"),
        ("4096 0 16777216 1", "0"),
        ("4097 0 1 1", "11"),
        ("65535 0 1 1", "11"),
        ("65535 1 1 1", "12"),
        ("1 65535 1 1", "12"),
        ("0 1 1 1", "12"),
        ("1 0 0 1", "12"),
        ("1 0 1 0", "12"),
        ("1 0 1 16777217", "12"),
        ("1 0 4097 4096", "12"),
        ("1 18446744073709551615 1 1", "12"),
        ("1 0 4294967296 4294967296", "12"),
        ("1 0 18446744073709551615 18446744073709551615", "12"),
    ] {
        assert_eq!(
            end(&trace(&format!("geometry {own}\n{NEW}"))),
            number,
            "{own}"
        );
    }
}

/// The Rust refuses it last of all, when the part has been configured and unlocked.
#[test]
fn a_large_page_is_refused_last() {
    let text = "geometry 4097 0 1 1\ncall new\n.\n.\n=00\n.\n=EFAA21\n.\n=00\n.\n.\n=02\n.\n.\n=00\n.\n=18\n\
        .\n=7C\n.\n.\n=02\n.\n.\n=00\n.\n=18\ncall info\n";
    let trace = trace(text);
    let written: Vec<&str> = lines_with(&trace, "W 1F ").collect();
    assert_eq!(written, ["B0 18", "A0 00"]);
    assert!(trace.ends_with("L\nW 0F B0\nR 1\nH\nE 11\ncall info\nE 13\n"));
    let unwritable = text.replacen("=02", "=00", 1);
    assert_eq!(
        lines_with(&nand_trace(unwritable.as_bytes()), "E ").next(),
        Some("7")
    );
}

#[test]
fn refused_geometry_leaves_the_driver_before() {
    let text =
        "geometry 0 1 1 1\ncall new\ncall geometry\ngeometry 1 0 1 1\ncall new\n!9\ncall config\n";
    let expected = "call new\nE 12\ncall geometry\nE 0\nV 2048 64 64 1024\n\
        call new\nH\nL\nW FF\nH\nE 1\nV 9\ncall config\nE 13\n";
    assert_eq!(trace_after_new(text), expected);
}

#[test]
fn config_tells_the_settings() {
    let text = format!(
        "geometry 300 4 2 3\n{NEW_QUAD}call config\ngeometry none\nquad none\ncall config\n"
    );
    let values = "1 8 107 50 3 1 300 4 2 3";
    let expected =
        format!("{NEW_TRACE}call config\nE 0\nV {values}\ncall config\nE 0\nV {values}\n");
    assert_eq!(trace(&text), expected);
    let single = NEW_QUAD.replace("call new", "call new_single") + "call config\n";
    assert!(trace(&single).ends_with("call config\nE 0\nV 0 0\n"));
}

#[test]
fn calls_out_of_turn() {
    let text = "call read_page 0 2\ncall free\ncall new_single\n";
    let text = format!("{text}{}call free\ncall info\n", &NEW["call new\n".len()..]);
    let built = NEW_TRACE.replace("call new", "call new_single");
    let expected = format!(
        "call read_page\nE 13\nG 0\nB CCCC\ncall free\nE 13\n{built}call free\nE 0\ncall info\nE 13\n"
    );
    assert_eq!(trace(&text), expected);
}

#[test]
fn misfitting_and_spent_replies_leave_the_call_unfinished() {
    for (replies, number) in [
        ("", 16),
        ("=", 14),
        (".\n", 16),
        (".\n.\n", 14),
        (".\n=0000\n", 14),
    ] {
        let trace = trace_after_new(&format!("call jedec_id\n{replies}\ncall info\ncall new\n"));
        let expected = format!("E {number}\ncall info\nE 13\ncall new\nE 13\n");
        assert!(trace.ends_with(&expected), "{replies}: {trace}");
    }
}

#[test]
fn words_of_the_nor_are_bad() {
    assert_eq!(trace_after_new("device none\n"), "bad case 13\n");
    assert_eq!(trace_after_new("call id\n"), "bad case 13\n");
}
