//! The gate's library against the worked octets of the layouts, written and read back, and its refusals.
//! Rules: document 01, "Messages", and the two rules for 16 with 300 after them.

mod common;

use common::{octets, with, K, P, V};
use second::message::*;

fn memory(tag: Tag, data: &[u8]) -> MemoryData {
    MemoryData {
        tag,
        data: data.to_vec(),
    }
}

fn allocation(tag: Tag, mode: u8, size: u64, initial_value: &[u8]) -> Allocation {
    Allocation {
        tag,
        mode,
        size,
        initial_value: initial_value.to_vec(),
    }
}

fn request(operation: Operation) -> Request {
    Request {
        version: 1,
        operation,
    }
}

fn answer(reply: Reply) -> Answer {
    Answer { version: 1, reply }
}

fn check_request(operation: Operation, expected: &[u8]) {
    let request = request(operation);
    let mut area = [0x5A; 2048];
    assert_eq!(write_request(&request, &mut area), Ok(expected.len()));
    assert_eq!(&area[..expected.len()], expected);
    assert!(area[expected.len()..].iter().all(|octet| *octet == 0x5A));
    assert_eq!(read_request(expected), Ok(request.clone()));
    let mut short = vec![0x5A; expected.len() - 1];
    assert_eq!(write_request(&request, &mut short), Err(300));
    assert!(short.iter().all(|octet| *octet == 0x5A));
    let mut exact = vec![0x5A; expected.len()];
    assert_eq!(write_request(&request, &mut exact), Ok(expected.len()));
}

fn check_answer(reply: Reply, expected: &[u8]) {
    let answer = answer(reply);
    let mut area = [0x5A; 2048];
    assert_eq!(write_answer(&answer, &mut area), Ok(expected.len()));
    assert_eq!(&area[..expected.len()], expected);
    assert!(area[expected.len()..].iter().all(|octet| *octet == 0x5A));
    assert_eq!(read_answer(expected), Ok(answer.clone()));
    let mut short = vec![0x5A; expected.len() - 1];
    assert_eq!(write_answer(&answer, &mut short), Err(300));
    assert!(short.iter().all(|octet| *octet == 0x5A));
}

#[test]
fn single_requests() {
    use Operation::*;
    let cases = [
        (
            Allocate(allocation(K, 0, 1, &[]), None),
            "10 01 01 00 0E K 00 00 00 00 01 00",
        ),
        (
            Allocate(allocation(V, 5, 1024, &[0xAA, 0xBB]), None),
            "10 01 01 00 10 80 AA BB CC DD EE FF 00 05 00 00 04 00 02 AA BB",
        ),
        (Free(K, None), "10 01 02 00 08 K"),
        (Read(K, None), "10 01 03 00 08 K"),
        (Write(memory(K, &[0xAA]), None), "10 01 04 00 0A K 01 AA"),
        (Write(memory(K, &[]), None), "10 01 04 00 09 K 00"),
        (
            Allocate(allocation(K, 0, 1, &[]), Some(P)),
            "10 01 41 00 16 K 00 00 00 00 01 P 00",
        ),
        (
            Allocate(allocation(K, 2, 256, &[0x7E]), Some(P)),
            "10 01 41 00 17 K 02 00 00 01 00 P 01 7E",
        ),
        (Free(K, Some(P)), "10 01 42 00 10 K P"),
        (Read(K, Some(P)), "10 01 43 00 10 K P"),
        (
            Write(memory(K, &[0xAA]), Some(P)),
            "10 01 44 00 12 K P 01 AA",
        ),
    ];
    for (operation, text) in cases {
        check_request(operation, &octets(text));
    }
}

#[test]
fn long_writes() {
    let cases = [
        (118, "10 01 04 00 7F K 76", 132),
        (119, "10 01 04 00 80 80 K 77", 134),
        (200, "10 01 04 00 80 D2 K 80 C8", 216),
        (2032, "10 01 04 00 87 FA K 87 F0", 2048),
    ];
    for (length, text, total) in cases {
        let data = vec![0xA5; length];
        let expected = with(text, &data);
        assert_eq!(expected.len(), total);
        check_request(Operation::Write(memory(K, &data), None), &expected);
    }
}

#[test]
fn list_requests() {
    use Operation::*;
    let cases = [
        (ResourceInformation(vec![]), "10 01 00 00 01 00"),
        (ResourceInformation(vec![K]), "10 01 00 00 09 01 K"),
        (BulkRead(List::Plain(vec![K, V])), "10 01 05 00 11 02 K V"),
        (BulkRead(List::Plain(vec![])), "10 01 05 00 01 00"),
        (
            BulkWrite(List::Plain(vec![memory(K, &[0xAA]), memory(V, &[])])),
            "10 01 06 00 14 02 K 01 AA V 00",
        ),
        (
            BulkRead(List::WithPassword(vec![(K, P)])),
            "10 01 45 00 11 01 K P",
        ),
        (
            BulkWrite(List::WithPassword(vec![(memory(K, &[0xAA]), P)])),
            "10 01 46 00 13 01 K P 01 AA",
        ),
        (BulkRead(List::WithPassword(vec![])), "10 01 45 00 01 00"),
    ];
    for (operation, text) in cases {
        check_request(operation, &octets(text));
    }
    for (count, text) in [
        (16, "10 01 05 00 80 81 10"),
        (17, "10 01 05 00 80 89 11"),
        (255, "10 01 05 00 87 FA 80 FF"),
    ] {
        let tags = vec![K; count];
        check_request(
            BulkRead(List::Plain(tags.clone())),
            &with(text, &tags.concat()),
        );
    }
}

fn tag_answers(form: Form) -> [Reply; 3] {
    [
        Reply::Allocate(form, K),
        Reply::Free(form, K),
        Reply::Write(form, K),
    ]
}

#[test]
fn tag_answers_and_reads() {
    let plain = ["10 01 81 00 08 K", "10 01 82 00 08 K", "10 01 84 00 08 K"];
    let protected = ["10 01 C1 00 08 K", "10 01 C2 00 08 K", "10 01 C4 00 08 K"];
    for (reply, text) in tag_answers(Form::Plain).into_iter().zip(plain) {
        check_answer(reply, &octets(text));
    }
    for (reply, text) in tag_answers(Form::WithPassword).into_iter().zip(protected) {
        check_answer(reply, &octets(text));
    }
    let held = memory(K, &[0xAA]);
    check_answer(
        Reply::Read(Form::Plain, held.clone()),
        &octets("10 01 83 00 0A K 01 AA"),
    );
    check_answer(
        Reply::Read(Form::WithPassword, held),
        &octets("10 01 C3 00 0A K 01 AA"),
    );
    check_answer(
        Reply::Read(Form::Plain, memory(K, &[])),
        &octets("10 01 83 00 09 K 00"),
    );
    let data = [0x3C; 1024];
    let expected = with("10 01 83 00 84 0A K 84 00", &data);
    assert_eq!(expected.len(), 1040);
    check_answer(Reply::Read(Form::Plain, memory(K, &data)), &expected);
}

#[test]
fn list_answers() {
    use Form::{Plain, WithPassword};
    let held = vec![memory(K, &[0xAA])];
    let cases = [
        (
            Reply::BulkRead(Plain, held.clone()),
            "10 01 85 00 0B 01 K 01 AA",
        ),
        (
            Reply::BulkRead(WithPassword, held),
            "10 01 C5 00 0B 01 K 01 AA",
        ),
        (Reply::BulkRead(Plain, vec![]), "10 01 85 00 01 00"),
        (Reply::BulkWrite(Plain, vec![K, K]), "10 01 86 00 11 02 K K"),
        (
            Reply::BulkWrite(WithPassword, vec![K]),
            "10 01 C6 00 09 01 K",
        ),
        (Reply::BulkWrite(WithPassword, vec![]), "10 01 C6 00 01 00"),
    ];
    for (reply, text) in cases {
        check_answer(reply, &octets(text));
    }
    let sixteen = vec![K; 16];
    let expected = with("10 01 86 00 80 81 10", &sixteen.concat());
    check_answer(Reply::BulkWrite(Plain, sixteen), &expected);
    let mut expected = with("10 01 85 00 87 FA 02 K 84 00", &[1; 1024]);
    expected.extend(with("V 83 E5", &[2; 997]));
    assert_eq!(expected.len(), 2048);
    let long = vec![memory(K, &[1; 1024]), memory(V, &[2; 997])];
    check_answer(Reply::BulkRead(Plain, long), &expected);
}

fn resource(tags: u64, octets: u64, entries: Vec<TagResource>) -> ResourceInformation {
    ResourceInformation {
        receivable_size: 2048,
        remaining_tags: tags,
        remaining_octets: octets,
        remaining_volatile_tags: tags,
        remaining_volatile_octets: octets,
        bulk_limit: 16,
        tags: entries,
    }
}

fn entry(mode: u8, data_size: u64, area_size: u64) -> TagResource {
    TagResource {
        tag: K,
        mode,
        data_size,
        area_size,
    }
}

#[test]
fn resource_answers() {
    let cases = [
        (
            resource(32, 8192, vec![]),
            "10 01 80 00 13 00 00 08 00 00 20 00 00 20 00 00 20 00 00 20 00 00 10 00",
        ),
        (
            resource(0, 0, vec![]),
            "10 01 80 00 13 00 00 08 00 00 00 00 00 00 00 00 00 00 00 00 00 00 10 00",
        ),
        (
            resource(31, 8191, vec![entry(0, 1, 1)]),
            "10 01 80 00 24 00 00 08 00 00 1F 00 00 1F FF 00 1F 00 00 1F FF 00 10
             01 K 00 00 00 00 01 00 00 00 01",
        ),
        (
            resource(31, 8128, vec![entry(5, 0, 64)]),
            "10 01 80 00 24 00 00 08 00 00 1F 00 00 1F C0 00 1F 00 00 1F C0 00 10
             01 K 05 00 00 00 00 00 00 00 40",
        ),
    ];
    for (information, text) in cases {
        check_answer(Reply::ResourceInformation(information), &octets(text));
    }
}

#[test]
fn denials() {
    let cases = [
        (4, vec![0x10], "10 FF 04 01 10"),
        (10, vec![], "10 FF 0A 00"),
        (16, vec![], "10 FF 10 00"),
        (16, vec![2], "10 FF 10 01 02"),
        (0, vec![], "10 FF 00 00"),
        (255, vec![1, 2], "10 FF FF 02 01 02"),
    ];
    for (status, supplement, text) in cases {
        check_answer(Reply::Denial { status, supplement }, &octets(text));
    }
    let supplement = vec![7; 127];
    let expected = with("10 FF 05 7F", &supplement);
    check_answer(
        Reply::Denial {
            status: 5,
            supplement,
        },
        &expected,
    );
    assert_eq!(read_answer(&with("10 FF 05 80", &[7; 128])), Err(16));
    for text in [
        "10 FF 05",
        "10 FF 05 01",
        "10 FF 05 00 00",
        "11 FF 05 00",
        "10 FE 05 00",
        "",
    ] {
        assert_eq!(read_answer(&octets(text)), Err(16), "{text}");
    }
}

/// The total lengths on both sides of 2,048; a list over 16 is written.
#[test]
fn greatest_messages() {
    use Operation::*;
    let cases: Vec<(Operation, Operation, usize)> = vec![
        (
            ResourceInformation(vec![K; 255]),
            ResourceInformation(vec![K; 256]),
            2048,
        ),
        (
            Allocate(allocation(K, 0, 1, &[9; 2027]), None),
            Allocate(allocation(K, 0, 1, &[9; 2028]), None),
            2048,
        ),
        (
            Allocate(allocation(K, 0, 1, &[9; 2019]), Some(P)),
            Allocate(allocation(K, 0, 1, &[9; 2020]), Some(P)),
            2048,
        ),
        (
            Write(memory(K, &[9; 2032]), None),
            Write(memory(K, &[9; 2033]), None),
            2048,
        ),
        (
            Write(memory(K, &[9; 2024]), Some(P)),
            Write(memory(K, &[9; 2025]), Some(P)),
            2048,
        ),
        (
            BulkRead(List::Plain(vec![K; 255])),
            BulkRead(List::Plain(vec![K; 256])),
            2048,
        ),
        (
            BulkWrite(List::Plain(vec![memory(K, &[]); 226])),
            BulkWrite(List::Plain(vec![memory(K, &[]); 227])),
            2042,
        ),
        (
            BulkRead(List::WithPassword(vec![(K, P); 127])),
            BulkRead(List::WithPassword(vec![(K, P); 128])),
            2039,
        ),
        (
            BulkWrite(List::WithPassword(vec![(memory(K, &[]), P); 120])),
            BulkWrite(List::WithPassword(vec![(memory(K, &[]), P); 121])),
            2047,
        ),
    ];
    for (fits, exceeds, total) in cases {
        let octets = request_octets(&request(fits.clone())).expect("it fits");
        assert_eq!(octets.len(), total);
        assert_eq!(read_request(&octets), Ok(request(fits)));
        let mut none = [0; 0];
        assert_eq!(write_request(&request(exceeds), &mut none), Err(16));
    }
    let answers = [(119, Ok(2048)), (120, Err(16))];
    for (count, total) in answers {
        let information = resource(1, 1, vec![entry(0, 1, 1); count]);
        let reply = Reply::ResourceInformation(information);
        assert_eq!(
            answer_octets(&answer(reply)).map(|octets| octets.len()),
            total
        );
    }
}

/// 16 for writing comes before 300, and nothing is written.
#[test]
fn writing_refusals() {
    let mut area = [0x5A; 4];
    let late = Request {
        version: 16,
        operation: Operation::Read(K, None),
    };
    assert_eq!(write_request(&late, &mut area), Err(16));
    for mode in [3, 7, 8, 0x80, 0xFF] {
        let operation = Operation::Allocate(allocation(K, mode, 1, &[]), None);
        assert_eq!(write_request(&request(operation), &mut area), Err(16));
        let reply = Reply::ResourceInformation(resource(1, 1, vec![entry(mode, 1, 1)]));
        assert_eq!(write_answer(&answer(reply), &mut area), Err(16));
    }
    let operation = Operation::Allocate(allocation(K, 0, 1 << 32, &[]), Some(P));
    assert_eq!(write_request(&request(operation), &mut area), Err(16));
    for information in [
        resource(65_536, 1, vec![]),
        resource(1, 1 << 32, vec![]),
        resource(1, 1, vec![entry(0, 1 << 32, 1)]),
        resource(1, 1, vec![entry(0, 1, 1 << 32)]),
    ] {
        let reply = Reply::ResourceInformation(information);
        assert_eq!(write_answer(&answer(reply), &mut area), Err(16));
    }
    for (status, length) in [(256, 0), (4, 128)] {
        let supplement = vec![0; length];
        let reply = Reply::Denial { status, supplement };
        assert_eq!(write_answer(&answer(reply), &mut area), Err(16));
    }
    assert_eq!(area, [0x5A; 4]);
}

/// Every version is read and written; the message layer keeps the tag's own six bits.
#[test]
fn versions_and_tag_bits() {
    let mut tag = K;
    tag[0] = 0xBF;
    for version in 0..16 {
        let request = Request {
            version,
            operation: Operation::Free(tag, Some(P)),
        };
        let octets = request_octets(&request).expect("it is written");
        assert_eq!(octets[0], (version as u8) << 4);
        assert_eq!(octets[5], 0xBF);
        assert_eq!(read_request(&octets), Ok(request));
    }
}

/// What is read is what would be written: no prefix, no stray octet, no changed length octet is read.
#[test]
fn reading_is_exact() {
    let operations = [
        Operation::ResourceInformation(vec![K, V]),
        Operation::Allocate(allocation(K, 4, 77, &[1, 2]), Some(P)),
        Operation::Write(memory(K, &[3; 130]), None),
        Operation::BulkRead(List::WithPassword(vec![(K, P), (V, P)])),
        Operation::BulkWrite(List::Plain(vec![memory(K, &[3; 130]), memory(V, &[])])),
    ];
    for operation in operations {
        let octets = request_octets(&request(operation)).expect("it is written");
        for length in 0..octets.len() {
            assert_eq!(read_request(&octets[..length]), Err(16));
        }
        assert_eq!(read_request(&[&octets[..], &[0]].concat()), Err(16));
        for place in 0..octets.len() {
            for bit in 0..8 {
                let mut flipped = octets.clone();
                flipped[place] ^= 1 << bit;
                if let Ok(read) = read_request(&flipped) {
                    assert_eq!(request_octets(&read), Ok(flipped));
                }
            }
        }
    }
}

#[test]
fn reading_of_answers_is_exact() {
    let replies = [
        Reply::ResourceInformation(resource(31, 8191, vec![entry(6, 0, 64)])),
        Reply::Free(Form::WithPassword, K),
        Reply::Read(Form::Plain, memory(V, &[3; 130])),
        Reply::BulkRead(Form::Plain, vec![memory(K, &[3; 130]), memory(V, &[])]),
        Reply::BulkWrite(Form::WithPassword, vec![K, V, K]),
        Reply::Denial {
            status: 4,
            supplement: vec![0x10],
        },
    ];
    for reply in replies {
        let octets = answer_octets(&answer(reply)).expect("it is written");
        for length in 0..octets.len() {
            assert_eq!(read_answer(&octets[..length]), Err(16));
        }
        assert_eq!(read_answer(&[&octets[..], &[0]].concat()), Err(16));
        for place in 0..octets.len() {
            for bit in 0..8 {
                let mut flipped = octets.clone();
                flipped[place] ^= 1 << bit;
                if let Ok(read) = read_answer(&flipped) {
                    assert_eq!(answer_octets(&read), Ok(flipped));
                }
            }
        }
    }
}

/// A message over 2,048 octets is not read, though its layout is right.
#[test]
fn too_long_is_not_read() {
    let request = with("10 01 04 00 87 FB K 87 F1", &[0; 2033]);
    assert_eq!(request.len(), 2049);
    assert_eq!(read_request(&request), Err(16));
    let answer = with("10 01 83 00 87 FB K 87 F1", &[0; 2033]);
    assert_eq!(read_answer(&answer), Err(16));
}
