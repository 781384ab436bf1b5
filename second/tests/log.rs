//! The gate log program: document 01's example, every way to end, and the limit of records.

mod common;

use second::log::{run_log, run_log_to};

fn printed(octets: &[u8]) -> String {
    let mut input = octets;
    let mut output = Vec::new();
    run_log(&mut input, &mut output, None).expect("it runs");
    output.into_iter().map(char::from).collect()
}

#[test]
fn example_of_document_01() {
    let log = common::octets("4D 41 00 00 01 20 4D 41 00 00 05 10 01 07 00 00");
    assert_eq!(printed(&log), "1 10FF040110\n2 10FF0C00\nrecords 2\n");
}

#[test]
fn endings() {
    assert_eq!(printed(&[]), "records 0\n");
    assert_eq!(
        printed(&common::octets("4D 41 01 00 00")),
        "1 10FF1000\nrecords 1\n"
    );
    let bad = [
        "4C 41 00 00 01 20",
        "4D 42 00 00 01 20",
        "00",
        "4D 41 02 00 01 20",
        "4D 41 FF 00 01 20",
        "4D 41 00 08 01 20",
        "4D 41 00 FF FF",
        "4D",
        "4D 41",
        "4D 41 00",
        "4D 41 00 00",
        "4D 41 00 00 01",
        "4D 41 00 00 02 20",
    ];
    for text in bad {
        assert_eq!(
            printed(&common::octets(text)),
            "bad record 1\nrecords 0\n",
            "{text}"
        );
        let later = common::with("4D 41 00 00 01 20", &common::octets(text));
        assert_eq!(
            printed(&later),
            "1 10FF040110\nbad record 2\nrecords 1\n",
            "{text}"
        );
    }
}

/// A length of 2,049 is bad also when all its octets are there, and what follows is not answered.
#[test]
fn longest_requests() {
    let mut log = common::with("4D 41 00 08 00", &[0x20; 2048]);
    assert_eq!(printed(&log), "1 10FF040110\nrecords 1\n");
    log.extend(common::with("4D 41 00 08 01", &[0x20; 2049]));
    log.extend(common::octets("4D 41 00 00 01 20"));
    assert_eq!(printed(&log), "1 10FF040110\nbad record 2\nrecords 1\n");
}

/// The record after the last allowed one is bad, whole or cut; an end there is an end.
#[test]
fn limit_of_records() {
    let two = common::octets("4D 41 00 00 01 20 4D 41 00 00 01 20");
    let lines = "1 10FF040110\n2 10FF040110\n";
    for (more, ending) in [
        ("", "records 2\n"),
        ("4D 41 00 00 01 20", "bad record 3\nrecords 2\n"),
        ("4D", "bad record 3\nrecords 2\n"),
    ] {
        let mut log = two.clone();
        log.extend(common::octets(more));
        let mut output = Vec::new();
        run_log_to(&mut &log[..], &mut output, None, 2).expect("it runs");
        assert_eq!(output, format!("{lines}{ending}").into_bytes());
    }
}
