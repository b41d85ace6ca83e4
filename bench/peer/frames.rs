// What centres say to each other, and the bytes of it.

use super::line::{Place, Run};

/// A mission as it goes to the next centre.
#[derive(Clone, Copy)]
pub struct Yielded {
    pub heard: u32,
    pub has_data: bool,
    pub is_ended: bool,
    pub place: Place,
    pub hand: Run,
}

#[derive(Clone, Copy)]
pub enum Body {
    AskRight,
    GiveRight,
    RefuseRight,
    ReturnRight,
    RouteAsk(Run),
    RouteInfo(Run),
    RouteWithdraw(u16),
    RouteReturn(Run),
    Announce { number: u32, track: u8 },
    Cancel(u32),
    TakingOver(u32),
    Yield(u32, Yielded),
}

/// A frame about the train of this place in the line file. Its number is its place on the link.
#[derive(Clone, Copy)]
pub struct Frame {
    pub stamp: u32,
    pub train: u8,
    pub body: Body,
}

/// The frame's bytes, for comparison with those of the proved centres.
pub fn encode(number: u32, frame: &Frame, engine: u32) -> Vec<u8> {
    let mut bytes = Vec::new();
    let mut put = |value: u32, n: usize| bytes.extend_from_slice(&value.to_be_bytes()[4 - n..]);
    put(number, 4);
    put(frame.stamp, 4);
    put(kind(&frame.body), 1);
    match frame.body {
        Body::Announce { number, .. } | Body::Cancel(number) | Body::TakingOver(number) | Body::Yield(number, _) => put(number, 4),
        _ => {}
    }
    put(engine, 4);
    match frame.body {
        Body::RouteAsk(run) | Body::RouteInfo(run) | Body::RouteReturn(run) => {
            put(run.first.into(), 2);
            put(run.count.into(), 1);
        }
        Body::RouteWithdraw(s) => put(s.into(), 2),
        Body::Announce { track, .. } => put(track.into(), 1),
        Body::Yield(_, y) => {
            put(y.heard, 4);
            put(y.place.track.into(), 1);
            put(u32::from(y.has_data) | 2 * u32::from(y.is_ended) | 4 * u32::from(y.place.rear.is_some()), 1);
            put(y.place.group, 4);
            put(y.place.front, 4);
            put(y.place.rear.unwrap_or(0) as u32, 4);
            put(y.hand.first.into(), 2);
            put(y.hand.count.into(), 1);
        }
        _ => {}
    }
    bytes
}

fn kind(body: &Body) -> u32 {
    match body {
        Body::AskRight => 1,
        Body::GiveRight => 2,
        Body::RefuseRight => 3,
        Body::ReturnRight => 4,
        Body::RouteAsk(_) => 5,
        Body::RouteInfo(_) => 6,
        Body::RouteWithdraw(_) => 7,
        Body::RouteReturn(_) => 8,
        Body::Announce { .. } => 9,
        Body::Cancel(_) => 10,
        Body::TakingOver(_) => 11,
        Body::Yield(..) => 12,
    }
}
