// Frames between centres as one writes them in plain Rust: fields at their places, big-endian. It shares no code with the proved codec.
use crate::rate;
use std::hint::black_box;
use std::time::Instant;

struct Frame {
    number: u32,
    stamp: u32,
    body: Body,
}

struct Run {
    first: u16,
    count: u8,
}

enum Body {
    AskRight { engine: u32 },
    GiveRight { engine: u32 },
    RefuseRight { engine: u32 },
    ReturnRight { engine: u32 },
    RouteAsk { engine: u32, first: u16, most: u8 },
    RouteInfo { engine: u32, run: Run },
    RouteWithdraw { engine: u32, section: u16 },
    RouteReturn { engine: u32, run: Run },
    Announce { handover: u32, engine: u32, track: u8 },
    Cancel { handover: u32, engine: u32 },
    TakingOver { handover: u32, engine: u32 },
    Yield { handover: u32, engine: u32, heard: u32, has_data: bool, is_ended: bool, track: u8, group: u32, front: i32, rear: Option<i32>, hand: Run },
}

#[derive(Clone, Copy, Debug, PartialEq)]
enum Fault {
    Short,
    Length,
    Kind,
    Value,
}

fn number(bytes: &[u8], at: usize) -> u32 {
    u32::from_be_bytes([bytes[at], bytes[at + 1], bytes[at + 2], bytes[at + 3]])
}

fn engine_at(bytes: &[u8], at: usize) -> Option<u32> {
    Some(number(bytes, at)).filter(|engine| *engine <= 16_777_215)
}

fn section_at(bytes: &[u8], at: usize) -> Option<u16> {
    Some(u16::from_be_bytes([bytes[at], bytes[at + 1]])).filter(|section| *section <= 511)
}

fn run_at(bytes: &[u8], at: usize, least: u8, most: u8) -> Option<Run> {
    let (first, count) = (section_at(bytes, at)?, bytes[at + 2]);
    ((least..=most).contains(&count) && first + u16::from(count) <= 512).then_some(Run { first, count })
}

fn handover_at(bytes: &[u8], at: usize) -> Option<u32> {
    Some(number(bytes, at)).filter(|handover| *handover > 0)
}

fn yield_in(bytes: &[u8; 38]) -> Option<Body> {
    let (track, flags) = (bytes[21], bytes[22]);
    let (heard, group, rear) = (number(bytes, 17), number(bytes, 23), number(bytes, 31) as i32);
    if heard == u32::MAX || track > 3 || flags > 7 || group > 16_777_214 || (flags < 4 && rear != 0) {
        return None;
    }
    Some(Body::Yield {
        handover: handover_at(bytes, 9)?,
        engine: engine_at(bytes, 13)?,
        heard,
        has_data: flags & 1 == 1,
        is_ended: flags & 2 == 2,
        track,
        group,
        front: number(bytes, 27) as i32,
        rear: (flags >= 4).then_some(rear),
        hand: run_at(bytes, 35, 1, 32)?,
    })
}

// The body of a kind, whose bytes are as many as its frames have.
fn body_in(bytes: &[u8]) -> Option<Body> {
    Some(match (bytes[8], bytes.len()) {
        (1, 13) => Body::AskRight { engine: engine_at(bytes, 9)? },
        (2, 13) => Body::GiveRight { engine: engine_at(bytes, 9)? },
        (3, 13) => Body::RefuseRight { engine: engine_at(bytes, 9)? },
        (4, 13) => Body::ReturnRight { engine: engine_at(bytes, 9)? },
        (5, 16) => {
            let Run { first, count } = run_at(bytes, 13, 1, 31)?;
            Body::RouteAsk { engine: engine_at(bytes, 9)?, first, most: count }
        }
        (6, 16) => Body::RouteInfo { engine: engine_at(bytes, 9)?, run: run_at(bytes, 13, 0, 31)? },
        (7, 15) => Body::RouteWithdraw { engine: engine_at(bytes, 9)?, section: section_at(bytes, 13)? },
        (8, 16) => Body::RouteReturn { engine: engine_at(bytes, 9)?, run: run_at(bytes, 13, 1, 63)? },
        (9, 18) => {
            let track = Some(bytes[17]).filter(|track| *track <= 3)?;
            Body::Announce { handover: handover_at(bytes, 9)?, engine: engine_at(bytes, 13)?, track }
        }
        (10, 17) => Body::Cancel { handover: handover_at(bytes, 9)?, engine: engine_at(bytes, 13)? },
        (11, 17) => Body::TakingOver { handover: handover_at(bytes, 9)?, engine: engine_at(bytes, 13)? },
        (12, _) => yield_in(bytes.try_into().ok()?)?,
        _ => return None,
    })
}

// Why bytes have no body.
fn fault_of(bytes: &[u8]) -> Fault {
    let wanted = match bytes[8] {
        1..=4 => 13,
        5 | 6 | 8 => 16,
        7 => 15,
        9 => 18,
        10 | 11 => 17,
        12 => 38,
        _ => return Fault::Kind,
    };
    match bytes.len().cmp(&wanted) {
        std::cmp::Ordering::Less => Fault::Short,
        std::cmp::Ordering::Greater => Fault::Length,
        std::cmp::Ordering::Equal => Fault::Value,
    }
}

#[inline(never)]
fn decode_frame(bytes: &[u8]) -> Result<Frame, Fault> {
    if bytes.len() < 9 {
        return Err(Fault::Short);
    }
    frame_in(bytes).ok_or_else(|| fault_of(bytes))
}

fn frame_in(bytes: &[u8]) -> Option<Frame> {
    let (count, stamp) = (number(bytes, 0), number(bytes, 4));
    if !(1..=65_536).contains(&count) || !(1..=1_073_741_823).contains(&stamp) {
        return None;
    }
    Some(Frame { number: count, stamp, body: body_in(bytes)? })
}

// The kind and the fields after it, from place 8 on.
fn put(bytes: &mut Vec<u8>, kind: u8, fields: &[u32]) {
    bytes.push(kind);
    for field in fields {
        bytes.extend_from_slice(&field.to_be_bytes());
    }
}

fn put_run(bytes: &mut Vec<u8>, first: u16, count: u8) {
    bytes.extend_from_slice(&first.to_be_bytes());
    bytes.push(count);
}

fn encode_frame(frame: &Frame) -> Vec<u8> {
    let mut bytes = Vec::with_capacity(38);
    bytes.extend_from_slice(&frame.number.to_be_bytes());
    bytes.extend_from_slice(&frame.stamp.to_be_bytes());
    match &frame.body {
        Body::AskRight { engine } => put(&mut bytes, 1, &[*engine]),
        Body::GiveRight { engine } => put(&mut bytes, 2, &[*engine]),
        Body::RefuseRight { engine } => put(&mut bytes, 3, &[*engine]),
        Body::ReturnRight { engine } => put(&mut bytes, 4, &[*engine]),
        Body::RouteAsk { engine, first, most } => {
            put(&mut bytes, 5, &[*engine]);
            put_run(&mut bytes, *first, *most);
        }
        Body::RouteInfo { engine, run } => {
            put(&mut bytes, 6, &[*engine]);
            put_run(&mut bytes, run.first, run.count);
        }
        Body::RouteWithdraw { engine, section } => {
            put(&mut bytes, 7, &[*engine]);
            bytes.extend_from_slice(&section.to_be_bytes());
        }
        Body::RouteReturn { engine, run } => {
            put(&mut bytes, 8, &[*engine]);
            put_run(&mut bytes, run.first, run.count);
        }
        Body::Announce { handover, engine, track } => {
            put(&mut bytes, 9, &[*handover, *engine]);
            bytes.push(*track);
        }
        Body::Cancel { handover, engine } => put(&mut bytes, 10, &[*handover, *engine]),
        Body::TakingOver { handover, engine } => put(&mut bytes, 11, &[*handover, *engine]),
        Body::Yield { handover, engine, heard, has_data, is_ended, track, group, front, rear, hand } => {
            put(&mut bytes, 12, &[*handover, *engine, *heard]);
            bytes.push(*track);
            bytes.push(u8::from(*has_data) | u8::from(*is_ended) << 1 | u8::from(rear.is_some()) << 2);
            bytes.extend_from_slice(&group.to_be_bytes());
            bytes.extend_from_slice(&front.to_be_bytes());
            bytes.extend_from_slice(&rear.unwrap_or(0).to_be_bytes());
            put_run(&mut bytes, hand.first, hand.count);
        }
    }
    bytes
}

pub fn measure_frames(turns: u32) {
    let frames = [
        ("AskRight", "00000001000000040100000002"),
        ("RouteReturn", "00000004000000090800000001000103"),
        ("Yield", "00000004000000110C00000001000000010000000600050001406500003F480000364C000106"),
    ];
    for (name, text) in frames {
        let mut bytes: Vec<u8> =
            (0..text.len() / 2).map(|i| u8::from_str_radix(&text[2 * i..2 * i + 2], 16).unwrap()).collect();
        let start = Instant::now();
        for turn in 0..turns {
            bytes[4] = (turn % 64) as u8;
            let _ = black_box(decode_frame(black_box(&bytes)));
        }
        println!("decode {name} {}", rate(turns, start));
        let frame = decode_frame(&bytes).expect("it is a frame");
        assert_eq!(encode_frame(&frame), bytes);
        let start = Instant::now();
        for _ in 0..turns {
            black_box(encode_frame(black_box(&frame)));
        }
        println!("encode {name} {}", rate(turns, start));
    }
}
