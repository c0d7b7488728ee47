use super::*;

fn items(text: &str) -> Vec<Item> {
    read(text.as_bytes(), &NOR)
}

fn nand_items(text: &str) -> Vec<Item> {
    read(text.as_bytes(), &NAND)
}

fn call(name: &'static str, numbers: &[u64], lent: Lent) -> Item {
    Item::Call(Call {
        name,
        numbers: numbers.into(),
        lent,
    })
}

fn plain(name: &'static str) -> Item {
    call(name, &[], Lent::Nothing)
}

#[test]
fn settings_calls_and_replies() {
    let text = "quad 8 0x6B 0x32 0\ndevice 8388608 4096 65536 256\ncall new\n.\n=eF40\n!7\n";
    let quad = Quad {
        tclqv_ns: 8,
        read_opcode: 0x6B,
        program_opcode: 0x32,
        margin: 0,
    };
    let expected = [
        Item::Quad(Some(quad)),
        Item::Own(Some([8_388_608, 4_096, 65_536, 256])),
        plain("new"),
        Item::Reply(Reply::Done),
        Item::Reply(Reply::Data(vec![0xEF, 0x40])),
        Item::Reply(Reply::Error(7)),
    ];
    assert_eq!(items(text), expected);
}

#[test]
fn what_calls_lend() {
    let text = "call read 0x1000 16\ncall write 256 @00fF";
    let expected = [
        call("read", &[4_096], Lent::Buffer(16)),
        call("write", &[256], Lent::Data(vec![0x00, 0xFF])),
    ];
    assert_eq!(items(text), expected);
}

#[test]
fn words_of_the_nand() {
    let text = "quad none\ngeometry 2048 64 64 1024\ngeometry none\ncall write_register 0xB0 255\n\
        call read_page 18446744073709551615 2048\ncall load_program_data 0 @\ncall info\n";
    let expected = [
        Item::Quad(None),
        Item::Own(Some([2_048, 64, 64, 1_024])),
        Item::Own(None),
        call("write_register", &[0xB0, 255], Lent::Nothing),
        call("read_page", &[u64::MAX], Lent::Buffer(2_048)),
        call("load_program_data", &[0], Lent::Data(vec![])),
        plain("info"),
    ];
    assert_eq!(nand_items(text), expected);
}

#[test]
fn bad_lines_of_the_nand() {
    for line in [
        "device none",
        "device 2048 64 64 1024",
        "geometry",
        "geometry 2048 64 64",
        "geometry 2048 64 64 1024 0",
        "geometry 18446744073709551616 0 1 1",
        "call id",
        "call write 0 @",
        "call erase_sector 0",
        "call write_register 0xB0",
        "call write_register 256 0",
        "call write_register 0 256",
        "call write_register 0 0 0",
        "call read_page 0",
        "call write_page 0 2048",
        "call read_cache 0 @00",
        "call read_cache 0 16777217",
        "call page_read 18446744073709551616",
        "call page_read",
        "call reset 0",
    ] {
        assert_eq!(nand_items(line), [Item::Bad(1)], "{line:?}");
    }
}

#[test]
fn comments_and_empty_lines_are_passed_over_but_counted() {
    let text = "# a note\n\ncall id\n\n# more\n.\nnonsense\ncall id\n";
    let expected = [plain("id"), Item::Reply(Reply::Done), Item::Bad(7)];
    assert_eq!(items(text), expected);
}

#[test]
fn bad_lines() {
    for line in [
        "call",
        "call fly",
        "call  id",
        "call id ",
        " call id",
        "call id 1",
        "call read 0",
        "call read 0 1 2",
        "call read 4294967296 1",
        "call read +1 1",
        "call read -1 1",
        "call read 0x 1",
        "call read 1x 1",
        "call write 0 00",
        "call write 0 @0",
        "call write 0 @0g",
        "call page_read 1",
        "quad",
        "quad 1 2 3",
        "quad 8 256 0 0",
        "quad none none",
        "device 1 2 3",
        "geometry none",
        "call id\r",
        ".",
    ] {
        assert_eq!(items(line), [Item::Bad(1)], "{line:?}");
    }
    for line in [". ", "..", "=0", "=0x", "= 00", "!", "!256", "!-1"] {
        let text = format!("call id\n{line}\n");
        assert_eq!(items(&text), [plain("id"), Item::Bad(2)], "{line:?}");
    }
}

#[test]
fn a_reply_behind_a_setting_is_bad() {
    let expected = [plain("id"), Item::Quad(None), Item::Bad(3)];
    assert_eq!(items("call id\nquad none\n.\n"), expected);
}

#[test]
fn longest_text() {
    let mut text = vec![b'\n'; MAX_TEXT];
    assert_eq!(read(&text, &NOR), []);
    text.push(b'\n');
    assert_eq!(read(&text, &NOR), [Item::Bad(MAX_TEXT + 1)]);
}
