// The messages of trains as they are read, and those of a centre as they are written (SUBSET-026 chapters 7 and 8).

use super::bits::{Reader, Writer};

/// Why bytes are no message, by the number that is printed.
#[derive(Clone, Copy, Debug, PartialEq, Eq)]
pub enum Fault {
    Short = 1,
    Length = 2,
    Padding = 3,
    UnknownNumber = 4,
    Packet = 5,
    Missing = 6,
    Value = 7,
}

/// What is read of a position report. Distances are in units of `scale` decimetres, the train's length in metres.
#[derive(Clone, Copy, Debug)]
pub struct Position {
    pub scale: u32,
    pub group: u32,
    pub distance: u32,
    pub is_nominal: bool,
    pub doubt_over: u32,
    pub doubt_under: u32,
    pub length: Option<u32>,
    /// V_TRAIN is 0.
    pub is_still: bool,
    pub is_level_2: bool,
}

#[derive(Clone, Copy, Debug)]
pub enum Body {
    TrainData,
    Request(Position),
    Report(Position),
    Granted(u32, Position),
    Rejected(u32),
    EndOfMission(Position),
    Initiation,
    Termination,
    Start { is_valid: bool, position: Position },
    Established,
}

#[derive(Clone, Copy, Debug)]
pub struct Message {
    pub time: u32,
    pub engine: u32,
    pub body: Body,
}

const TIME_UNKNOWN: u32 = u32::MAX;

pub fn decode(bytes: &[u8]) -> Result<Message, Fault> {
    let mut r = Reader::new(bytes);
    if bytes.len() < 3 {
        return Err(Fault::Short);
    }
    let number = r.take(8).ok_or(Fault::Short)?;
    let least = match number {
        129 | 132 | 136 | 150 | 155 | 156 | 157 | 159 => 10,
        137 | 138 => 14,
        _ => return Err(Fault::UnknownNumber),
    };
    let length = r.take(10).ok_or(Fault::Short)? as usize;
    if length < least {
        return Err(Fault::Length);
    }
    if bytes.len() != length {
        return Err(if bytes.len() < length { Fault::Short } else { Fault::Length });
    }
    let time = r.take(32).ok_or(Fault::Short)?;
    if time == TIME_UNKNOWN {
        return Err(Fault::Value);
    }
    let engine = r.take(24).ok_or(Fault::Short)?;
    let body = body(number, &mut r)?;
    further(&mut r)?;
    let left = r.left();
    if left > 0 && r.take(left) != Some(0) {
        return Err(Fault::Padding);
    }
    Ok(Message { time, engine, body })
}

fn body(number: u32, r: &mut Reader) -> Result<Body, Fault> {
    Ok(match number {
        129 => {
            position(r)?;
            required(r, 11)?;
            packet(r)?;
            Body::TrainData
        }
        132 => {
            r.take(5).ok_or(Fault::Short)?;
            Body::Request(position(r)?)
        }
        136 => Body::Report(position(r)?),
        137 => Body::Granted(r.take(32).ok_or(Fault::Short)?, position(r)?),
        138 => {
            let stamp = r.take(32).ok_or(Fault::Short)?;
            position(r)?;
            Body::Rejected(stamp)
        }
        150 => Body::EndOfMission(position(r)?),
        155 => Body::Initiation,
        156 => Body::Termination,
        157 => {
            let status = r.take(2).ok_or(Fault::Short)?;
            if status == 3 {
                return Err(Fault::Value);
            }
            Body::Start { is_valid: status == 1, position: position(r)? }
        }
        _ => Body::Established,
    })
}

fn required(r: &mut Reader, number: u32) -> Result<(), Fault> {
    if r.take(8) == Some(number) { Ok(()) } else { Err(Fault::Missing) }
}

/// The bits of a packet after its number.
fn packet<'a>(r: &mut Reader<'a>) -> Result<Reader<'a>, Fault> {
    let length = r.take(13).ok_or(Fault::Packet)? as usize;
    if length < 21 {
        return Err(Fault::Packet);
    }
    r.part(length - 21).ok_or(Fault::Packet)
}

/// Packets that are passed over: any but a second position report.
fn further(r: &mut Reader) -> Result<(), Fault> {
    while r.left() >= 8 {
        if r.take(8) == Some(0) {
            return Err(Fault::Value);
        }
        packet(r)?;
    }
    Ok(())
}

fn position(r: &mut Reader) -> Result<Position, Fault> {
    required(r, 0)?;
    let p = packet(r)?;
    match p.word() {
        Some(word) => position_in(word, p.left()),
        None => position_far(p),
    }
}

/// The bits of a packet stand at the front of the word.
#[inline(always)]
fn position_in(word: u128, n: usize) -> Result<Position, Fault> {
    let at = |first: u32, n: u32| (word << first >> (128 - n)) as u32;
    if n < 2 {
        return Err(Fault::Packet);
    }
    let scale = match at(0, 2) {
        0 => 1,
        1 => 10,
        2 => 100,
        _ => return Err(Fault::Value),
    };
    if n < 93 {
        return Err(Fault::Packet);
    }
    let (length, after) = match at(75, 2) {
        1 | 2 => (Some(at(77, 15)), 92),
        _ => (None, 77),
    };
    let level = at(after + 13, 3);
    let end = after + 16 + if level == 1 { 8 } else { 0 };
    if n != end as usize {
        return Err(Fault::Packet);
    }
    Ok(Position {
        scale,
        group: at(2, 24),
        distance: at(26, 15),
        is_nominal: at(41, 4) == 5,
        doubt_over: at(45, 15),
        doubt_under: at(60, 15),
        length,
        is_still: at(after, 7) == 0,
        is_level_2: level == 3,
    })
}

#[inline(never)]
fn position_far(mut p: Reader) -> Result<Position, Fault> {
    let mut take = |n| p.take(n).ok_or(Fault::Packet);
    let scale = match take(2)? {
        0 => 1,
        1 => 10,
        2 => 100,
        _ => return Err(Fault::Value),
    };
    let (group, distance) = (take(24)?, take(15)?);
    let (direction, side) = (take(2)?, take(2)?);
    let (doubt_over, doubt_under) = (take(15)?, take(15)?);
    let length = match take(2)? {
        1 | 2 => Some(take(15)?),
        _ => None,
    };
    let is_still = take(7)? == 0;
    take(2 + 4)?;
    let level = take(3)?;
    if level == 1 {
        take(8)?;
    }
    if p.left() > 0 {
        return Err(Fault::Packet);
    }
    let is_nominal = direction == 1 && side == 1;
    let is_level_2 = level == 3;
    Ok(Position { scale, group, distance, is_nominal, doubt_over, doubt_under, length, is_still, is_level_2 })
}

/// What a centre says to a train.
#[derive(Clone, Copy, Debug, PartialEq, Eq)]
pub enum Reply {
    Authority(u32),
    DataAcknowledged(u32),
    ShorteningRequest(u32),
    SystemVersion,
    TerminationAcknowledged,
    Rejected,
    Accepted,
    #[allow(dead_code)] // where there is one centre
    Transition { distance: u32, nid_c: u32, nid_rbc: u32 },
    #[allow(dead_code)] // where there is one centre
    EndSession { nid_c: u32, nid_rbc: u32 },
}

pub const NO_GROUP: u32 = 0xFF_FFFF;

/// The reply with the count of messages said to the train, and the balise group that it names.
pub fn encode(reply: Reply, count: u32, group: u32) -> Vec<u8> {
    let number = match reply {
        Reply::Authority(_) => 3,
        Reply::DataAcknowledged(_) => 8,
        Reply::ShorteningRequest(_) => 9,
        Reply::SystemVersion => 32,
        Reply::TerminationAcknowledged => 39,
        Reply::Rejected => 40,
        Reply::Accepted => 41,
        Reply::Transition { .. } | Reply::EndSession { .. } => 24,
    };
    let mut w = Writer::new();
    w.put_all(&[(number, 8), (0, 10), (count, 32), (0, 1), (group, 24)]);
    match reply {
        Reply::Authority(end) | Reply::ShorteningRequest(end) => {
            w.put_all(&[(15, 8), (1, 2), (66, 13), (1, 2), (0, 7), (1023, 10), (0, 5), (end, 15), (0, 4)]);
        }
        Reply::DataAcknowledged(time) => w.put(time, 32),
        Reply::SystemVersion => w.put(32, 7),
        Reply::Transition { distance, nid_c, nid_rbc } => {
            w.put_all(&[(131, 8), (1, 2), (129, 13), (1, 2), (distance, 15)]);
            put_centre(&mut w, nid_c, nid_rbc);
        }
        Reply::EndSession { nid_c, nid_rbc } => {
            w.put_all(&[(42, 8), (1, 2), (113, 13), (0, 1)]);
            put_centre(&mut w, nid_c, nid_rbc);
        }
        Reply::TerminationAcknowledged | Reply::Rejected | Reply::Accepted => {}
    }
    w.message()
}

/// A centre, with no telephone number, for a train that does not sleep.
fn put_centre(w: &mut Writer, nid_c: u32, nid_rbc: u32) {
    w.put_all(&[(nid_c, 10), (nid_rbc, 14), (u32::MAX, 32), (u32::MAX, 32), (0, 1)]);
}
