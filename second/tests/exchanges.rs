//! The known exchanges of document 01, starred and not, on both sides of each boundary, and the runs of the layouts.
//! Version 1, both options, the normal port unless said.

mod common;

use common::*;
use second::message::{read_answer, Reply};
use second::unit::{Port, Unit};

const ALLOCATE_K: &str = "10 01 01 00 0E K 00 00 00 00 01 00";
const ALLOCATE_K_WITH_P: &str = "10 01 41 00 16 K 00 00 00 00 01 P 00";

fn unit_with(allocation: &str) -> Unit {
    let mut unit = unit();
    let answer = unit.respond(Port::Normal, &octets(allocation), 2048);
    assert_eq!(answer.expect("an answer")[1], 1);
    unit
}

#[test]
fn starred_without_tags() {
    for (request, answer) in [
        ("", "10 FF 10 00"),
        ("20", "10 FF 04 01 10"),
        ("11 01 03", "10 FF 10 00"),
        ("10 01 07", "10 FF 0C 00"),
        ("10 01 03 01", "10 FF 10 00"),
        ("10 01 03 00 08 K", "10 FF 06 00"),
        ("10 01 03 00 80 08 K", "10 FF 10 00"),
    ] {
        expect(&mut unit(), request, answer);
        expect_secure(&mut unit(), request, answer);
    }
}

#[test]
fn starred_with_k() {
    let mut unit = unit_with(ALLOCATE_K_WITH_P);
    expect(&mut unit, "10 01 03 00 08 K", "10 FF 0A 00");
    expect(
        &mut unit,
        "10 01 03 00 08 3F 11 22 33 44 55 66 77",
        "10 FF 0A 00",
    );
    expect(
        &mut unit,
        "10 01 03 00 08 80 11 22 33 44 55 66 77",
        "10 FF 06 00",
    );
    expect(
        &mut unit,
        "10 01 46 00 13 01 K P 01 AA",
        "10 01 C6 00 09 01 K",
    );
    assert_eq!(unit.tags()[0].held(), [0xAA]);
    expect(&mut unit, "10 01 43 00 10 K P", "10 01 C3 00 0A K 01 AA");
    let mut unit = unit_with(ALLOCATE_K);
    expect(
        &mut unit,
        "10 01 46 00 13 01 K P 01 AA",
        "10 01 C6 00 01 00",
    );
    assert_eq!(unit.tags()[0].held(), []);
}

#[test]
fn area_sizes() {
    for (size, number) in [
        (0, 9),
        (1, 0),
        (1024, 0),
        (1025, 9),
        (65_537, 9),
        (u32::MAX, 9),
    ] {
        let request = allocation(&K, 0, size);
        assert_eq!(
            outcome(&mut unit(), Port::Normal, &request),
            number,
            "{size}"
        );
    }
}

/// A unit with 7 areas of 1,024 and one of 1,014 octets, so that 10 are over.
fn nearly_full() -> Unit {
    let mut unit = unit();
    for number in 0..7 {
        assert_eq!(
            outcome(
                &mut unit,
                Port::Normal,
                &allocation(&numbered(number), 0, 1024)
            ),
            0
        );
    }
    assert_eq!(
        outcome(&mut unit, Port::Normal, &allocation(&numbered(7), 0, 1014)),
        0
    );
    unit
}

#[test]
fn memory_with_ten_octets_over() {
    let mut unit = nearly_full();
    assert_eq!(outcome(&mut unit, Port::Normal, &allocation(&K, 0, 11)), 5);
    assert_eq!(outcome(&mut unit, Port::Normal, &allocation(&K, 0, 10)), 0);
    assert_eq!(outcome(&mut unit, Port::Normal, &allocation(&V, 0, 1)), 5);
    assert_eq!(
        outcome(
            &mut unit,
            Port::Normal,
            &with("10 01 02 00 08", &numbered(3))
        ),
        0
    );
    assert_eq!(
        outcome(&mut unit, Port::Normal, &allocation(&V, 0, 1024)),
        0
    );
    assert_eq!(
        outcome(&mut unit, Port::Normal, &allocation(&numbered(9), 0, 1)),
        5
    );
}

#[test]
fn thirty_two_tags() {
    let mut unit = unit();
    for number in 0..32 {
        assert_eq!(
            outcome(
                &mut unit,
                Port::Normal,
                &allocation(&numbered(number), 0, 1)
            ),
            0
        );
    }
    assert_eq!(outcome(&mut unit, Port::Normal, &allocation(&K, 0, 1)), 5);
    assert_eq!(
        outcome(&mut unit, Port::Normal, &allocation(&K, 0, 1025)),
        9
    );
    assert_eq!(
        outcome(&mut unit, Port::Normal, &allocation(&numbered(1), 0, 1025)),
        6
    );
    assert_eq!(
        outcome(
            &mut unit,
            Port::Normal,
            &with("10 01 02 00 08", &numbered(31))
        ),
        0
    );
    assert_eq!(outcome(&mut unit, Port::Normal, &allocation(&K, 0, 1)), 0);
}

#[test]
fn lists_of_16_and_17() {
    for operation_type in [0, 5] {
        assert_eq!(
            outcome(&mut unit(), Port::Normal, &list(operation_type, &[K; 16])),
            0
        );
        assert_eq!(
            outcome(&mut unit(), Port::Normal, &list(operation_type, &[K; 17])),
            7
        );
        assert_eq!(
            outcome(&mut unit(), Port::Normal, &list(operation_type, &[K; 255])),
            7
        );
    }
    for (operation_type, entry) in [
        (6, with("K 00", &[])),
        (69, with("K P", &[])),
        (70, with("K P 00", &[])),
    ] {
        for (count, number) in [(16, 0), (17, 7), (100, 7)] {
            let body = [vec![count as u8], entry.repeat(count)].concat();
            let request = enveloped(operation_type, &body);
            assert_eq!(outcome(&mut unit(), Port::Normal, &request), number);
        }
    }
}

/// Tags holding these lengths, then a bulk read of all of them; gives the answer's octets.
fn bulk_read_of(lengths: &[usize]) -> Vec<u8> {
    let mut unit = unit();
    let mut tags = Vec::new();
    for (number, length) in lengths.iter().enumerate() {
        let tag = numbered(number as u8);
        assert_eq!(
            outcome(&mut unit, Port::Normal, &allocation(&tag, 0, 1024)),
            0
        );
        assert_eq!(
            outcome(
                &mut unit,
                Port::Normal,
                &write(&tag, &vec![number as u8; *length])
            ),
            0
        );
        tags.push(tag);
    }
    unit.respond(Port::Normal, &list(5, &tags), 2048)
        .expect("an answer")
}

fn lengths_given(answer: &[u8]) -> Vec<usize> {
    match read_answer(answer).expect("it is an answer").reply {
        Reply::BulkRead(_, entries) => entries.iter().map(|memory| memory.data.len()).collect(),
        other => panic!("{other:?}"),
    }
}

#[test]
fn bulk_read_at_its_limit() {
    let answer = bulk_read_of(&[1024, 1024, 997]);
    assert_eq!(answer.len(), 2048);
    assert_eq!(answer[4..6], [0x87, 0xFA]);
    assert_eq!(lengths_given(&answer), [1024, 997]);
    let answer = bulk_read_of(&[1024, 1024, 998]);
    assert_eq!(lengths_given(&answer), [1024]);
    let answer = bulk_read_of(&[1024, 998, 5, 1]);
    assert_eq!(lengths_given(&answer), [1024, 5, 1]);
}

#[test]
fn run_a() {
    let mut unit = unit();
    for (request, answer) in [
        (ALLOCATE_K, "10 01 81 00 08 K"),
        (ALLOCATE_K, "10 FF 06 00"),
        ("10 01 03 00 08 K", "10 01 83 00 09 K 00"),
        ("10 01 04 00 0A K 01 AA", "10 01 84 00 08 K"),
        ("10 01 04 00 0B K 02 AA BB", "10 FF 09 00"),
        ("10 01 03 00 08 K", "10 01 83 00 0A K 01 AA"),
        (
            "10 01 00 00 09 01 3F 11 22 33 44 55 66 77",
            "10 01 80 00 24 00 00 08 00 00 1F 00 00 1F FF 00 1F 00 00 1F FF 00 10 01 K 00 00 00 00 01 00 00 00 01",
        ),
        ("10 01 43 00 10 K P", "10 FF 0A 00"),
        ("10 01 04 00 09 K 00", "10 01 84 00 08 K"),
        ("10 01 03 00 08 K", "10 01 83 00 09 K 00"),
        ("10 01 02 00 08 K", "10 01 82 00 08 K"),
        ("10 01 02 00 08 K", "10 FF 06 00"),
    ] {
        expect(&mut unit, request, answer);
    }
}

#[test]
fn run_b_initial_value_is_dropped() {
    let mut unit = unit();
    expect(
        &mut unit,
        "10 01 01 00 10 K 00 00 00 00 01 02 AA BB",
        "10 01 81 00 08 K",
    );
    expect(&mut unit, "10 01 03 00 08 K", "10 01 83 00 09 K 00");
}

#[test]
fn run_c_with_password() {
    let mut unit = unit();
    for (request, answer) in [
        (ALLOCATE_K_WITH_P, "10 01 C1 00 08 K"),
        ("10 01 03 00 08 K", "10 FF 0A 00"),
        ("10 01 43 00 10 K 00 00 00 00 00 00 00 00", "10 FF 0A 00"),
        ("10 01 43 00 10 K P", "10 01 C3 00 09 K 00"),
        ("10 01 44 00 12 K P 01 AA", "10 01 C4 00 08 K"),
        ("10 01 46 00 13 01 K P 01 BB", "10 01 C6 00 09 01 K"),
        ("10 01 45 00 11 01 K P", "10 01 C5 00 0B 01 K 01 BB"),
        ("10 01 05 00 09 01 K", "10 01 85 00 01 00"),
        ("10 01 42 00 10 K P", "10 01 C2 00 08 K"),
    ] {
        expect(&mut unit, request, answer);
    }
}

#[test]
fn run_d_spf_and_modes() {
    let mut unit = unit();
    expect(
        &mut unit,
        "10 01 01 00 0E K 04 00 00 00 01 00",
        "10 01 81 00 08 K",
    );
    expect(&mut unit, "10 01 03 00 08 K", "10 FF 0B 00");
    expect_secure(&mut unit, "10 01 03 00 08 K", "10 01 83 00 09 K 00");
    expect(&mut unit, "10 01 02 00 08 K", "10 FF 0B 00");
    let told = "10 01 80 00 24 00 00 08 00 00 1F 00 00 1F FF 00 1F 00 00 1F FF 00 10 01 K 04 00 00 00 00 00 00 00 01";
    expect(&mut unit, "10 01 00 00 09 01 K", told);
    expect_secure(&mut unit, "10 01 02 00 08 K", "10 01 82 00 08 K");
    let mut unit = unit_with("10 01 01 00 0E K 01 00 00 00 04 00");
    expect(&mut unit, "10 01 04 00 0A K 01 AA", "10 01 84 00 08 K");
    expect(&mut unit, "10 01 03 00 08 K", "10 FF 08 00");
    let told = "10 01 80 00 24 00 00 08 00 00 1F 00 00 1F FC 00 1F 00 00 1F FC 00 10 01 K 01 00 00 00 00 00 00 00 04";
    expect(&mut unit, "10 01 00 00 09 01 K", told);
    let mut unit = unit_with("10 01 01 00 0E K 02 00 00 00 01 00");
    expect(&mut unit, "10 01 04 00 0A K 01 AA", "10 FF 08 00");
    expect(&mut unit, "10 01 04 00 0B K 02 AA BB", "10 FF 08 00");
}

#[test]
fn first_lines() {
    for request in [
        "",
        "10",
        "10 01",
        "10 01 03",
        "10 01 03 01",
        "11 01 03",
        "10 00 00 00",
        "10 FF 00 00",
    ] {
        expect(&mut unit(), request, "10 FF 10 00");
    }
    for request in ["20", "21 01", "2F", "00 01 07"] {
        expect(&mut unit(), request, "10 FF 04 01 10");
    }
    for request in [
        "10 01 07",
        "10 01 47",
        "10 01 FF",
        "10 01 80",
        "10 01 40 01",
        "10 01 C6 FF",
    ] {
        expect(&mut unit(), request, "10 FF 0C 00");
    }
    for request in [
        "10 01 03 00",
        "10 01 03 00 80",
        "10 01 03 00 BF",
        "10 01 03 00 80 7F",
        "10 01 03 00 C0",
        "10 01 03 00 FF K",
        "10 01 03 00 07 00 11 22 33 44 55 66",
        "10 01 03 00 08 00 11 22 33 44 55 66",
        "10 01 03 00 09 K 00",
        "10 01 00 00 00",
        "10 01 00 00 01 80",
        "10 01 00 00 02 80 01",
        "10 01 00 00 01 C5",
        "10 01 00 00 01 01",
        "10 01 04 00 08 K",
        "10 01 04 00 09 K 80",
        "10 01 04 00 0B K 80 01 AA",
        "10 01 04 00 09 K 02",
        "10 01 01 00 0D K 03 00 00 00 01",
        "10 01 01 00 0D K 00 00 00 00 01",
        "10 01 06 00 09 01 K",
        "10 01 06 00 0A 02 K 00",
        "10 01 01 00 0E K 03 00 00 00 01 00",
        "10 01 01 00 0E K 07 00 00 00 01 00",
        "10 01 01 00 0E K 08 00 00 00 01 00",
        "10 01 41 00 16 K 03 00 00 00 01 P 00",
    ] {
        expect(&mut unit(), request, "10 FF 10 00");
    }
}
