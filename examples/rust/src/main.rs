//! A unit and a gate in one process, as examples/c/gate_and_unit.c: the same requests, the same answers and the same
//! lines, by the safe functions of taxeedhuul.rs.
mod taxeedhuul;

use taxeedhuul::{read_answer, Gate, Mode, Number, Part, Port, Said, Unit, MESSAGE};

const VERSION: u8 = 1;
const OTHER: u8 = 2;
const SHIPMENT: u64 = 0x0011_2233_4455_6677;
const VEHICLE: u64 = 0x4000_0000_0000_0001;
const PASSWORDS: [u64; 2] = [0x0102_0304_0506_0708, 0x1112_1314_1516_1718];

fn print_octets(what: &str, octets: &[u8]) {
    let text: String = octets.iter().map(|octet| format!("{octet:02X}")).collect();
    println!("  {what} {text}");
}

fn exchange(unit: &mut Unit, what: &str, request: &[u8]) -> Result<(), Number> {
    exchange_by(Port::Normal, unit, what, request)
}

/// Sends a request by a port, and tells what the answer says.
fn exchange_by(port: Port, unit: &mut Unit, what: &str, request: &[u8]) -> Result<(), Number> {
    let mut area = [0; MESSAGE];
    println!("{what}");
    print_octets("request", request);
    let octets = unit.respond(port, request, &mut area)?;
    print_octets("answer ", octets);
    let answer = read_answer(octets)?;
    match answer.said {
        Said::Denied { status, .. } => print!("  denied: {status}"),
        _ => print!("  accepted: {}", answer.kind),
    }
    println!(", by version {}", answer.version);
    match answer.said {
        Said::Read(tag, data) => println!("  {tag:016X} holds {}", String::from_utf8_lossy(data)),
        Said::BulkRead(list) => {
            for (tag, data) in list {
                println!("  {tag:016X} holds {}", String::from_utf8_lossy(data));
            }
        }
        Said::BulkWritten(list) => {
            for tag in list {
                println!("  {tag:016X} is written");
            }
        }
        Said::Resources { room, tags } => {
            println!("  requests of {} octets, lists of {}", room.largest, room.entries);
            println!(
                "  {} tags and {} octets are left, {} and {} of volatile memory",
                room.tags, room.octets, room.volatile_tags, room.volatile_octets
            );
            for one in tags {
                println!(
                    "  {:016X} mode {}, {} of {} octets",
                    one.tag, one.mode, one.held, one.size
                );
            }
        }
        _ => {}
    }
    Ok(())
}

fn main() -> Result<(), Number> {
    let mut unit = Unit::start(VERSION, true, true)?;
    let mut gate = Gate::new(VERSION);
    let tags = [SHIPMENT, VEHICLE];
    let parts = [Part { start: 0, length: 9 }, Part { start: 9, length: 7 }];

    println!("a unit of {} octets is started", std::mem::size_of::<Unit>());
    unit.fit(VEHICLE, 8, Mode::ReadOnly, false, Some(PASSWORDS[1]), b"truck 7")?;
    println!("the vehicle fits {VEHICLE:016X}");
    exchange(
        &mut unit,
        "allocate 16 octets with a password",
        gate.allocate(SHIPMENT, 0, 16, Some(PASSWORDS[0]), b"")?,
    )?;
    exchange(
        &mut unit,
        "write it",
        gate.write(SHIPMENT, Some(PASSWORDS[0]), b"40 crates")?,
    )?;
    exchange(
        &mut unit,
        "write both at once",
        gate.bulk_write(&tags, Some(&PASSWORDS), &parts, b"39 cratestruck 8")?,
    )?;
    exchange(&mut unit, "read both at once", gate.bulk_read(&tags, Some(&PASSWORDS))?)?;
    exchange(
        &mut unit,
        "ask for resource information",
        gate.resource_information(&tags)?,
    )?;
    exchange(
        &mut unit,
        "read it with the password",
        gate.read(SHIPMENT, Some(PASSWORDS[0]))?,
    )?;
    exchange(&mut unit, "read it without the password", gate.read(SHIPMENT, None)?)?;
    let mut short = [0; MESSAGE - 1];
    if let Err(number) = unit.respond(Port::Normal, gate.read(SHIPMENT, None)?, &mut short) {
        println!("a short answer area: -{number}");
    }
    another_unit()
}

/// Of version 2 and without passwords, with a tag that is reached by the secure port only.
fn another_unit() -> Result<(), Number> {
    let mut unit = Unit::start(OTHER, true, false)?;
    let mut gate = Gate::new(OTHER);
    unit.fit(VEHICLE, 8, Mode::WriteOnly, true, None, b"")?;
    println!("another unit is started, and the vehicle fits {VEHICLE:016X} for the secure port");
    exchange(
        &mut unit,
        "allocate with a password",
        gate.allocate(SHIPMENT, 0, 16, Some(PASSWORDS[0]), b"")?,
    )?;
    exchange(
        &mut unit,
        "allocate without",
        gate.allocate(SHIPMENT, 0, 16, None, b"")?,
    )?;
    exchange(&mut unit, "free it", gate.free(SHIPMENT, None)?)?;
    exchange(
        &mut unit,
        "write by the normal port",
        gate.write(VEHICLE, None, b"truck 9")?,
    )?;
    exchange_by(
        Port::Secure,
        &mut unit,
        "write by the secure port",
        gate.write(VEHICLE, None, b"truck 9")?,
    )?;
    exchange_by(
        Port::Secure,
        &mut unit,
        "read what is write only",
        gate.read(VEHICLE, None)?,
    )
}
