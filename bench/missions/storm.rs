// Events in any order on a small line: much of what trains may say at a wrong time, with wrong stamps, places and bytes. They are
// not timed; they are there to be answered alike.

use crate::peer::draw::Draw;
use crate::peer::line::{Line, Section, Train};
use crate::peer::state::Phase;
use crate::peer::train::{Report, Said, encode};
use crate::peer::world::{Event, World};

const FOREIGN: u32 = 999_999;

/// Three tracks of twelve short sections and four trains, all of the first of two centres, so that each mission is at that centre alone.
pub fn line_of(draw: &mut Draw) -> Line {
    let mut list: Vec<Section> = Vec::new();
    for s in 0..36 {
        let track = (s / 12) as u8;
        let start = list.last().filter(|before| before.track == track).map_or(0, |before| before.end);
        list.push(Section { track, home: 0, balise: 7 * s, start, end: start + draw.between(100, 400) });
    }
    let trains = (0..4).map(|i| Train { engine: 10 + i, registrar: 0 }).collect();
    Line::new(1023, 2, list, trains)
}

/// So many events. What the trains say goes by what they were told, often enough that missions get under way.
pub fn events(line: &Line, count: usize, draw: &mut Draw) -> Vec<Event> {
    let mut world = World::new(line);
    let mut time = 0;
    let mut events = Vec::new();
    while events.len() < count {
        let event = event(line, &world, &mut time, draw);
        world.step(&event).expect("the clock goes on");
        events.push(event);
    }
    events
}

fn event(line: &Line, world: &World, time: &mut u32, draw: &mut Draw) -> Event {
    let centre = u8::from(draw.one_in(8));
    let section = section(line, world, draw);
    match draw.below(20) {
        0..=3 => Event::Set { centre, section },
        4..=5 => Event::Unset { centre, section },
        6 if draw.one_in(10) => Event::Deliver { from: centre, to: 1 - centre, number: draw.below(3) },
        _ => Event::Train { centre, bytes: bytes(line, world, centre, time, draw) },
    }
}

/// Any section, and one past the last at times; as often as not one in advance of the first of some hand.
fn section(line: &Line, world: &World, draw: &mut Draw) -> u16 {
    let i = draw.below(line.trains.len() as u32) as usize;
    let any = draw.below(line.sections.len() as u32 + 1) as u16;
    match world.centres.iter().find_map(|centre| centre.trains[i].mission) {
        Some(mission) if draw.one_in(2) => mission.hand.first + draw.below(4) as u16,
        _ => any,
    }
}

fn bytes(line: &Line, world: &World, centre: u8, time: &mut u32, draw: &mut Draw) -> Vec<u8> {
    let i = draw.below(line.trains.len() as u32) as usize;
    let engine = if draw.one_in(60) { FOREIGN } else { line.trains[i].engine };
    *time += 1;
    let stamp = if draw.one_in(30) { time.saturating_sub(draw.below(9)) } else { *time };
    let stamp = if draw.one_in(500) { u32::MAX } else { stamp };
    let mut bytes = encode(stamp, engine, said(line, world, centre, i, draw));
    if draw.one_in(40) {
        spoil(&mut bytes, draw);
    }
    bytes
}

fn said(line: &Line, world: &World, centre: u8, i: usize, draw: &mut Draw) -> Said {
    let train = &world.centres[centre as usize].trains[i];
    let report = report(line, draw, train.mission.map(|mission| mission.hand.first));
    let asked = train.mission.and_then(|mission| mission.proposal).map_or(train.said, |proposal| proposal.stamp);
    let asked = asked + u32::from(draw.one_in(8));
    match train.phase {
        Phase::Silent if draw.one_in(2) => return Said::Initiation,
        Phase::Opened if draw.one_in(2) => return Said::Established,
        Phase::Up if train.mission.is_none() && draw.one_in(2) => return Said::Start(1, report),
        _ => {}
    }
    match draw.below(40) {
        0 => Said::Initiation,
        1 => Said::Termination,
        2..=5 => Said::Established,
        6..=11 => Said::Start(if draw.one_in(10) { draw.below(4) } else { 1 }, report),
        12..=15 => Said::TrainData(report),
        16..=23 => Said::Request(report),
        24..=32 => Said::Report(report),
        33..=36 => Said::Granted(asked, report),
        37..=38 => Said::Rejected(asked, report),
        _ => Said::EndOfMission(report),
    }
}

/// Mostly within a few sections after the first of the hand.
fn report(line: &Line, draw: &mut Draw, first: Option<u16>) -> Report {
    let count = line.sections.len() as u32;
    let s = match first {
        Some(first) if !draw.one_in(10) => (u32::from(first) + draw.below(3)) % count,
        _ => draw.below(count),
    };
    let section = line.sections[s as usize];
    let most = section.end - section.start + if draw.one_in(4) { 300 } else { 0 };
    let is_far = draw.one_in(60);
    Report {
        group: if draw.one_in(80) { 4711 } else { line.group_of(s as u16) },
        metres: if is_far { 32_760 + draw.below(8) } else { draw.below(most) },
        length: if draw.one_in(15) { None } else { Some(draw.between(0, 250)) },
        direction: if draw.one_in(60) { draw.below(4) } else { 1 },
        level: if draw.one_in(60) { draw.below(8) } else { 3 },
    }
}

/// Bytes that are cut off, go on, or have another bit.
fn spoil(bytes: &mut Vec<u8>, draw: &mut Draw) {
    match draw.below(4) {
        0 => bytes.truncate(1 + draw.below(bytes.len() as u32 - 1) as usize),
        1 => bytes.push(0),
        _ => {
            let at = draw.below(bytes.len() as u32) as usize;
            // T_TRAIN stays, or each later message would be stale.
            if !(2..6).contains(&at) {
                bytes[at] ^= 1 << draw.below(8);
            }
        }
    }
}
