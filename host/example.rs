//! A small host in Rust: powers on, drives the journey of document 01's trials, and prints each answer and each packet
//! as it is read.

mod hollwern;

use hollwern::*;

/// Segment 17/500, 100,000 long; stop 7001 at 40,000 with R 150; 7002 at 90,000, End of Journey.
const JOURNEY: [u8; 28] = [
    0x1A, 0, 0, 0, 0, 0, 0, 0, 1, 0, 17, 0, 0, 0x01, 0xF4, 2, 0x13, 0, 0, 0x1B, 0x59, 0, 0x43, 0, 0, 0x1B, 0x5A, 0,
];
const BOOK: [u8; 32] = [
    0x0F, 0, 17, 0, 0, 0x01, 0xF4, 0, 0x01, 0x86, 0xA0, 2, 0, 0, 0x1B, 0x59, 0, 0, 0x9C, 0x40, 0, 150, 0, 0, 0x1B, 0x5A,
    0, 0x01, 0x5F, 0x90, 0, 0,
];

/// Two rows of slippery rail on that segment: from 30,000 to 45,000, and from 60,000 to 61,000.
const SLIPPERY: [u8; 34] = [
    KIND_ADHESION, 2,
    0, 17, 0, 0, 0x01, 0xF4, 1, 2, 0, 0, 0x75, 0x30, 0, 0, 0xAF, 0xC8,
    0, 17, 0, 0, 0x01, 0xF4, 3, 0, 0, 0, 0xEA, 0x60, 0, 0, 0xEE, 0x48,
];

fn show_row(c: Constraint) {
    println!("  {}/{} category {} range {} from {} to {}", c.nidc, c.nidsp, c.category, c.range, c.start, c.end);
}

fn show_packet(bytes: &[u8]) {
    let p = read(bytes);
    if !p.accepted {
        println!("R {}", p.number);
        return;
    }
    let h = p.header;
    print!("{} at {}/{} {} speed {} operational {:08X}:", p.kind, h.nidc, h.nidsp, h.offset, h.speed, h.operational);
    match p.kind {
        PACKET_TIMING_POINT => {
            print!(" point {}/{} qeoj {} alignment {}", p.nidc, p.nidtp, p.q_eoj_reached, p.alignment);
            println!(" status {} stopping {}", p.status, p.stopping)
        }
        PACKET_JP_RECEIVED => {
            print!(" nidc {} atots {} date {} seconds {}", p.nidc, p.atots, p.date, p.seconds);
            println!(" counter {} status {}", p.counter, p.status)
        }
        PACKET_TRACTION_BRAKE => {
            print!(" trabrrq {} locobrrq {} suptb {}", p.m_ato_trabrrq, p.m_ato_locobrrq, p.q_ato_suptb);
            println!(" rtbrq {}", p.m_ato_rtbrq as i16)
        }
        PACKET_ADHESION_SYSTEM => {
            println!(" rows {}", p.constraint_count);
            (0..p.constraint_count.into()).for_each(|k| show_row(read_constraint(bytes, k)))
        }
        _ => println!(" state {} conditions {:03X}", p.state, p.conditions),
    }
}

/// What was written is for the recorder, accepted or refused.
fn call_lending(e: &mut Engine, event: &[u8], journey: &[u8]) {
    let mut out = [0; BYTES_MOST];
    let a = e.step(event, journey, &BOOK, &mut out);
    if a.accepted {
        println!("A {} {} {}", a.state, a.request as u8, a.bytes);
    } else {
        println!("R {} {}", a.number, a.bytes);
    }
    for packet in packets(&out[..a.bytes]) {
        println!("{}", packet.iter().map(|byte| format!("{byte:02X}")).collect::<String>());
        show_packet(packet);
    }
}

fn call(e: &mut Engine, event: &[u8]) {
    call_lending(e, event, &JOURNEY);
}

fn position(e: &mut Engine, offset: u32, speed: u16) {
    let event = [KIND_POSITION_REPORT, 0, 17, 0, 0, 0x01, 0xF4];
    call(e, &[&event[..], &offset.to_be_bytes(), &speed.to_be_bytes()].concat());
}

/// A request from -100 to 100, in two's complement; with it M_ATO_TraBrRq 20, M_ATO_LocoBrRq 0, Q_ATO_SupTB 1 and
/// M_ATO_RTBRq -2.
fn traction(e: &mut Engine, request: i8) {
    call(e, &[KIND_TRACTION, request as u8, 20, 0, 1, 0xFF, 0xFE]);
}

fn show(e: &Engine) {
    let s = e.show();
    print!("state {} request {} conditions {:03X} points", s.state, s.request as u8, s.conditions);
    s.standings[..s.point_count.into()].iter().for_each(|standing| print!(" {standing}"));
    println!();
    (0..s.constraint_count.into()).for_each(|k| show_row(e.show_constraint(k)));
}

/// A packet 68 whose other bytes are 0, then what the reader refuses, and how each is cut.
fn damaged_packets() {
    let mut packet = [0; 20];
    packet[0] = PACKET_ATO_STATUS;
    show_packet(&packet[..19]);
    show_packet(&packet[..18]); // a byte short: 17
    let [whole, exact, short, empty] = [20, 19, 18, 0].map(|n| front_size(&packet[..n]));
    println!("front {whole} {exact} {short} {empty}");
    packet[18] = 8;
    show_packet(&packet[..19]); // state 8: 19
    packet[0] = 63;
    show_packet(&packet[..19]); // another number: 18
    println!("front {}", front_size(&packet));
}

fn main() {
    if version() != VERSION {
        eprintln!("example: hollwern.rs and libhollwern.a are of different versions");
        std::process::exit(1);
    }
    let mut e = Engine::fresh();
    call(&mut e, &[KIND_POWER_ON]);
    call(&mut e, &[KIND_POWER_ON]); // once more: refused
    call(&mut e, &[KIND_LOAD]);
    position(&mut e, 20_000, 0);
    call(&mut e, &[KIND_REPORTS, 31]);
    call(&mut e, &[KIND_CONFIGURED]); // P8
    call(&mut e, &SLIPPERY); // two rows: packet 64
    let mut reversed = SLIPPERY;
    reversed[32] = 0; // in the second one's end, so that its start exceeds it
    call(&mut e, &reversed); // refused by 21
    show(&e);
    call(&mut e, &[KIND_PRESS]);
    call(&mut e, &[KIND_MODE, MODE_AD]); // engaged
    traction(&mut e, 20); // the first request: packet 61, range 1
    traction(&mut e, -27); // still range 1: no packet
    traction(&mut e, -28); // range 2: packet 61
    call(&mut e, &[KIND_MODE, MODE_OTHER]);
    position(&mut e, 39_900, 0); // P7: the stop is reached
    show(&e);
    call_lending(&mut e, &[KIND_LOAD], &JOURNEY[..27]); // a byte short: turned down by 9, and recorded
    let mut held = JOURNEY;
    held[16] |= POINT_HELD; // the map of 7001
    call_lending(&mut e, &[KIND_LOAD], &held); // the train is to be held: 7001 is targeted again
    position(&mut e, 39_900, 0); // reached again, and held: packets 62 with status 1 and 3
    call(&mut e, &[KIND_PRESS]); // refused by 20
    let mut skipping = JOURNEY;
    skipping[22] |= POINT_STOP | POINT_SKIPPED; // the map of 7002
    call_lending(&mut e, &[KIND_LOAD], &skipping); // held no longer, 7002 skipped: status 4 and 7 behind 65
    position(&mut e, 39_900, 0);
    call(&mut e, &[KIND_PRESS]); // taken
    position(&mut e, 40_150, 50); // a creep within R 150: still reached
    position(&mut e, 40_151, 50); // beyond R: departed
    position(&mut e, 90_001, 50); // P6: 7002 is passed
    call(&mut e, &[KIND_ADHESION, 0]); // no row: packet 64 too
    show(&e);
    call(&mut e, &[KIND_LOAD]); // 7002 is skipped no longer: a packet 62 with status 8, though it is put behind
    damaged_packets();
}
