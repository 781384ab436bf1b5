//! The order of denials, the options, lists, the start of a unit and the vehicle's call.
//! Rules: document 01, "Denials and their order" and "Lists".

mod common;

use common::*;
use second::unit::{Fitting, Mode, Port, Unit};

const WRONG: &str = "09 09 09 09 09 09 09 09";

#[test]
fn short_area_comes_first() {
    let mut unit = unit();
    let request = allocation(&K, 0, 1);
    assert_eq!(unit.respond(Port::Normal, &request, 2047), Err(300));
    assert_eq!(unit.respond(Port::Normal, &[], 0), Err(300));
    assert!(unit.tags().is_empty());
    assert!(unit.respond(Port::Normal, &request, 2048).is_ok());
    assert_eq!(unit.tags().len(), 1);
}

#[test]
fn first_lines_in_order() {
    let mut unit = unit();
    let long = vec![0x20; 2049];
    assert_eq!(outcome(&mut unit, Port::Normal, &long), 16);
    assert_eq!(outcome(&mut unit, Port::Normal, &long[..2048]), 4);
    expect(&mut unit, "2F 02 07 01", "10 FF 04 01 10");
    expect(&mut unit, "1F 01 07", "10 FF 10 00");
    expect(&mut unit, "10 02 07", "10 FF 10 00");
    expect(&mut unit, "10 01 07 01 C0", "10 FF 0C 00");
    let stray = enveloped(5, &[&[17][..], &[K; 17].concat(), &[0]].concat());
    assert_eq!(outcome(&mut unit, Port::Normal, &stray), 16);
    let cut = enveloped(5, &[&[17][..], &[K; 16].concat(), &K[..7]].concat());
    assert_eq!(outcome(&mut unit, Port::Normal, &cut), 16);
    expect(&mut unit, "10 01 05 00 05 BF FF 01 02 03", "10 FF 10 00");
}

#[test]
fn mode_code_before_the_tag_and_the_size() {
    let mut unit = unit();
    assert_eq!(outcome(&mut unit, Port::Normal, &allocation(&K, 0, 1)), 0);
    assert_eq!(outcome(&mut unit, Port::Normal, &allocation(&K, 3, 0)), 16);
    assert_eq!(outcome(&mut unit, Port::Normal, &allocation(&K, 0, 0)), 6);
    let managed = [0x40, 1, 1, 1, 1, 1, 1, 1];
    assert_eq!(
        outcome(&mut unit, Port::Normal, &allocation(&managed, 0, 1)),
        6
    );
    assert_eq!(
        outcome(&mut unit, Port::Normal, &allocation(&managed, 0, 0)),
        6
    );
}

/// A read-only tag with SPF and a password: each line hides the next.
#[test]
fn lines_of_a_write_in_order() {
    let mut unit = unit();
    expect(
        &mut unit,
        "10 01 41 00 16 K 06 00 00 00 01 P 00",
        "10 01 C1 00 08 K",
    );
    let wrong = format!("10 01 44 00 13 K {WRONG} 02 AA BB");
    let right = "10 01 44 00 13 K P 02 AA BB";
    expect(&mut unit, "10 01 44 00 13 V P 02 AA BB", "10 FF 06 00");
    expect(&mut unit, &wrong, "10 FF 0B 00");
    expect(&mut unit, right, "10 FF 0B 00");
    expect_secure(&mut unit, &wrong, "10 FF 0A 00");
    expect_secure(&mut unit, "10 01 04 00 0B K 02 AA BB", "10 FF 0A 00");
    expect_secure(&mut unit, right, "10 FF 08 00");
    expect_secure(&mut unit, "10 01 43 00 10 K P", "10 01 C3 00 09 K 00");
}

/// A write-only tag with SPF and a password.
#[test]
fn lines_of_a_read_and_a_free_in_order() {
    let mut unit = unit();
    expect(
        &mut unit,
        "10 01 41 00 16 K 05 00 00 00 01 P 00",
        "10 01 C1 00 08 K",
    );
    expect(&mut unit, "10 01 03 00 08 K", "10 FF 0B 00");
    expect_secure(&mut unit, "10 01 03 00 08 K", "10 FF 0A 00");
    expect_secure(&mut unit, "10 01 43 00 10 K P", "10 FF 08 00");
    expect_secure(&mut unit, "10 01 44 00 13 K P 02 AA BB", "10 FF 09 00");
    expect(&mut unit, "10 01 42 00 10 K P", "10 FF 0B 00");
    expect_secure(&mut unit, "10 01 02 00 08 K", "10 FF 0A 00");
    expect_secure(
        &mut unit,
        &format!("10 01 42 00 10 K {WRONG}"),
        "10 FF 0A 00",
    );
    expect_secure(&mut unit, "10 01 42 00 10 K P", "10 01 C2 00 08 K");
    expect_secure(&mut unit, "10 01 42 00 10 K P", "10 FF 06 00");
}

/// All zeros is a password, and no password is not all zeros.
#[test]
fn zero_password() {
    let zeros = "00 00 00 00 00 00 00 00";
    let mut protected = unit();
    expect(
        &mut protected,
        &format!("10 01 41 00 16 K 00 00 00 00 01 {zeros} 00"),
        "10 01 C1 00 08 K",
    );
    expect(&mut protected, "10 01 03 00 08 K", "10 FF 0A 00");
    expect(
        &mut protected,
        &format!("10 01 43 00 10 K {zeros}"),
        "10 01 C3 00 09 K 00",
    );
    let mut open = unit();
    expect(
        &mut open,
        "10 01 01 00 0E K 00 00 00 00 01 00",
        "10 01 81 00 08 K",
    );
    expect(
        &mut open,
        &format!("10 01 43 00 10 K {zeros}"),
        "10 FF 0A 00",
    );
}

/// Entries in the order given, repeats included, bad ones passed over, ignored bits zero in the answer.
#[test]
fn bulk_entries() {
    let mut unit = unit();
    expect(
        &mut unit,
        "10 01 01 00 0E K 00 00 00 00 02 00",
        "10 01 81 00 08 K",
    );
    expect(
        &mut unit,
        "10 01 06 00 35 05 K 01 AA V 00 3F 11 22 33 44 55 66 77 02 BB CC K 03 01 02 03 01 11 22 33 44 55 66 77 01 DD",
        "10 01 86 00 19 03 K K K",
    );
    expect(
        &mut unit,
        "10 01 05 00 19 03 K V 20 11 22 33 44 55 66 77",
        "10 01 85 00 15 02 K 01 DD K 01 DD",
    );
    expect(
        &mut unit,
        "10 01 00 00 19 03 K V K",
        "10 01 80 00 35 00 00 08 00 00 1F 00 00 1F FE 00 1F 00 00 1F FE 00 10
         02 K 00 00 00 00 01 00 00 00 02 K 00 00 00 00 01 00 00 00 02",
    );
}

/// After a free every other tag keeps its data, and the freed octets come back as zeros.
#[test]
fn free_keeps_the_others() {
    let mut unit = unit();
    for number in 0..4 {
        let tag = numbered(number);
        assert_eq!(
            outcome(&mut unit, Port::Normal, &allocation(&tag, 0, 10)),
            0
        );
        assert_eq!(
            outcome(&mut unit, Port::Normal, &write(&tag, &[number + 1; 10])),
            0
        );
    }
    let free = with("10 01 02 00 08", &numbered(1));
    assert_eq!(outcome(&mut unit, Port::Normal, &free), 0);
    assert_eq!(unit.octets_in_use(), 30);
    for number in [0, 2, 3] {
        let known = unit
            .tags()
            .iter()
            .find(|known| known.tag == numbered(number))
            .expect("kept");
        assert_eq!(known.held(), [number + 1; 10]);
    }
    assert_eq!(
        outcome(&mut unit, Port::Normal, &allocation(&numbered(1), 0, 10)),
        0
    );
    assert_eq!(unit.tags()[3].area, [0; 10]);
    assert_eq!(unit.tags()[3].held_length, 0);
}

#[test]
fn shorter_write_leaves_zeros() {
    let mut unit = unit();
    assert_eq!(outcome(&mut unit, Port::Normal, &allocation(&K, 0, 4)), 0);
    assert_eq!(
        outcome(&mut unit, Port::Normal, &write(&K, &[1, 2, 3, 4])),
        0
    );
    assert_eq!(outcome(&mut unit, Port::Normal, &write(&K, &[9])), 0);
    assert_eq!(unit.tags()[0].area, [9, 0, 0, 0]);
    assert_eq!(unit.tags()[0].held(), [9]);
}

#[test]
fn options() {
    let mut without_allocation = Unit::start(1, false, true).expect("it starts");
    for request in ["10 01 01", "10 01 02", "10 01 41", "10 01 42"] {
        expect(&mut without_allocation, request, "10 FF 0C 00");
    }
    expect(&mut without_allocation, "10 01 43 00 10 K P", "10 FF 06 00");
    expect(
        &mut without_allocation,
        "10 01 00 00 01 00",
        "10 01 80 00 13 00 00 08 00 00 00 00 00 00 00 00 00 00 00 00 00 00 10 00",
    );
    let mut without_passwords = Unit::start(1, true, false).expect("it starts");
    for request in [
        "10 01 41", "10 01 42", "10 01 43", "10 01 44", "10 01 45", "10 01 46",
    ] {
        expect(&mut without_passwords, request, "10 FF 0C 00");
    }
    expect(
        &mut without_passwords,
        "10 01 01 00 0E K 00 00 00 00 01 00",
        "10 01 81 00 08 K",
    );
}

#[test]
fn start() {
    for version in 0..16 {
        let mut unit = Unit::start(version, true, true).expect("it starts");
        let own = (version as u8) << 4;
        let other = own ^ 0x80;
        let answer = unit
            .respond(Port::Normal, &[other], 2048)
            .expect("an answer");
        assert_eq!(answer, [own, 0xFF, 4, 1, own]);
    }
    for version in [16, 255] {
        assert_eq!(Unit::start(version, true, true).err(), Some(301));
    }
}

fn fitting(tag: [u8; 8], size: u64, first_data: &[u8]) -> Fitting {
    Fitting {
        tag,
        size,
        mode: Mode::Both,
        spf_required: false,
        password: None,
        first_data: first_data.to_vec(),
    }
}

#[test]
fn fit_in_order() {
    let managed = [0x40, 1, 2, 3, 4, 5, 6, 7];
    let mut unit = Unit::start(1, false, false).expect("it starts");
    let with_password = Fitting {
        password: Some(P),
        ..fitting(managed, 0, &[1])
    };
    let gate_allocated = Fitting {
        tag: K,
        ..with_password.clone()
    };
    assert_eq!(unit.fit(&gate_allocated), Err(6));
    assert_eq!(unit.fit(&with_password), Err(12));
    for (size, data) in [(0, vec![]), (1025, vec![]), (1, vec![1, 2])] {
        assert_eq!(unit.fit(&fitting(managed, size, &data)), Err(9));
    }
    assert!(unit.tags().is_empty());
    assert_eq!(
        unit.fit(&fitting([0x7F, 1, 2, 3, 4, 5, 6, 7], 4, &[1, 2])),
        Ok(())
    );
    assert_eq!(unit.tags()[0].tag, managed);
    assert_eq!(unit.tags()[0].area, [1, 2, 0, 0]);
    assert_eq!(unit.tags()[0].held(), [1, 2]);
    assert_eq!(unit.fit(&fitting(managed, 0, &[])), Err(6));
    expect(
        &mut unit,
        "10 01 03 00 08 40 01 02 03 04 05 06 07",
        "10 01 83 00 0B 40 01 02 03 04 05 06 07 02 01 02",
    );
}

#[test]
fn fit_without_room() {
    let mut unit = unit();
    for number in 0..8 {
        let tag = [0xC0, 0, 0, 0, 0, 0, 0, number];
        assert_eq!(unit.fit(&fitting(tag, 1024, &[])), Ok(()));
    }
    assert_eq!(unit.fit(&fitting([0x40; 8], 1, &[])), Err(5));
    assert_eq!(unit.fit(&fitting([0x40; 8], 1025, &[])), Err(9));
    expect(
        &mut unit,
        "10 01 02 00 08 C0 00 00 00 00 00 00 01",
        "10 FF 06 00",
    );
    assert_eq!(unit.tags().len(), 8);
}
