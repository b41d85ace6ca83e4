// Events in any order on a small line of three centres: what trains may say at a wrong time, with wrong stamps and places, and frames that
// come late, again and out of turn. They are not timed; they are there to be answered alike.

use crate::peer::draw::Draw;
use crate::peer::line::{Line, Section, Train};
use crate::peer::state::{Mission, Phase};
use crate::peer::train::{Report, Said, encode};
use crate::peer::world::{Event, World};
use crate::traffic::supervisor;

const CENTRES: u8 = 3;

/// Two tracks of twelve short sections, at three centres each, and four trains.
pub fn line_of(draw: &mut Draw) -> Line {
    let mut list: Vec<Section> = Vec::new();
    for s in 0..24u32 {
        let (track, k) = ((s / 12) as u8, s % 12);
        let start = list.last().filter(|before| before.track == track).map_or(0, |before| before.end);
        let bounds = if track == 0 { [4, 8] } else { [5, 7] };
        let home = bounds.iter().filter(|bound| k >= **bound).count() as u8;
        // On the second track the centres stand in another order.
        let home = if track == 0 { home } else { (home + 1) % CENTRES };
        list.push(Section { track, home, balise: 7 * s, start, end: start + draw.between(100, 400) });
    }
    let trains = (0..4).map(|i| Train { engine: 10 + u32::from(i), registrar: i % CENTRES }).collect();
    Line::new(1023, CENTRES, list, trains)
}

/// So many events. What the trains say goes by what they were told, often enough that missions get under way and over borders.
pub fn events(line: &Line, count: usize, draw: &mut Draw) -> Vec<Event> {
    let mut world = World::new(line);
    let mut time = 0;
    let mut events = Vec::new();
    while events.len() < count {
        let event = event(line, &world, &mut time, draw);
        world.step(&event).expect("a step is taken");
        events.push(event);
    }
    events
}

fn event(line: &Line, world: &World, time: &mut u32, draw: &mut Draw) -> Event {
    match draw.below(20) {
        0..=3 => {
            let (centre, section) = at_home(line, world, draw);
            Event::Set { centre, section }
        }
        4 if draw.one_in(3) => {
            let (centre, section) = at_home(line, world, draw);
            Event::Unset { centre, section }
        }
        5..=11 => delivery(world, draw),
        _ => train(line, world, time, draw),
    }
}

/// Any section, as often as not one about the end of some hand, mostly at its home.
fn at_home(line: &Line, world: &World, draw: &mut Draw) -> (u8, u16) {
    let i = draw.below(line.trains.len() as u32) as usize;
    let any = draw.below(line.sections.len() as u32) as u16;
    let section = match mission_of(world, i) {
        Some(mission) if draw.one_in(2) => (mission.hand.next_after() + draw.below(4) as u16).saturating_sub(2),
        _ => any,
    };
    let home = line.sections.get(section as usize).map_or(0, |it| it.home);
    (if draw.one_in(30) { draw.below(CENTRES.into()) as u8 } else { home }, section)
}

fn mission_of(world: &World, i: usize) -> Option<Mission> {
    world.centres.iter().find_map(|centre| centre.trains[i].mission)
}

/// Mostly the next frame of a link; at times an older or a later one, or one that was never sent.
fn delivery(world: &World, draw: &mut Draw) -> Event {
    let from = draw.below(CENTRES.into()) as u8;
    let to = draw.below(CENTRES.into()) as u8;
    let next = world.centres[to as usize].taken[from as usize] + 1;
    let number = match draw.below(10) {
        0 => draw.below(next + 3),
        1 => next + 1,
        _ => next,
    };
    Event::Deliver { from, to, number }
}

fn train(line: &Line, world: &World, time: &mut u32, draw: &mut Draw) -> Event {
    let i = draw.below(line.trains.len() as u32) as usize;
    *time += 1;
    let stamp = if draw.one_in(30) { time.saturating_sub(draw.below(9)) } else { *time };
    let centre = match supervisor(world, i) {
        Some(centre) if !draw.one_in(3) => centre as u8,
        _ => draw.below(CENTRES.into()) as u8,
    };
    Event::Train { centre, bytes: encode(stamp, line.trains[i].engine, said(line, world, centre, i, draw)) }
}

fn said(line: &Line, world: &World, centre: u8, i: usize, draw: &mut Draw) -> Said {
    let train = &world.centres[centre as usize].trains[i];
    let mission = mission_of(world, i);
    let report = report(line, draw, mission, centre);
    let asked = train.mission.and_then(|mission| mission.proposal).map_or(train.said, |proposal| proposal.stamp);
    let asked = asked + u32::from(draw.one_in(8));
    match train.phase {
        Phase::Silent if draw.one_in(2) => return Said::Initiation,
        Phase::Opened if !draw.one_in(3) => return Said::Established,
        Phase::Up if mission.is_none() && draw.one_in(2) => return Said::Start(1, report),
        Phase::Up if train.mission.is_some_and(|it| !it.has_data && !it.is_ended) && draw.one_in(2) => return Said::TrainData(report),
        _ => {}
    }
    match draw.below(60) {
        0 => Said::Initiation,
        1 => Said::Termination,
        2..=5 => Said::Established,
        6..=9 => Said::Start(if draw.one_in(10) { draw.below(3) } else { 1 }, report),
        10..=12 => Said::TrainData(report),
        13..=29 => Said::Request(report),
        30..=50 => Said::Report(report),
        51..=56 => Said::Granted(asked, report),
        57 => Said::Rejected(asked, report),
        58 => Said::EndOfMission(report),
        _ => Said::Report(report),
    }
}

/// Mostly within a few sections after the first of the hand, or in the area of the centre that it is said to.
fn report(line: &Line, draw: &mut Draw, mission: Option<Mission>, centre: u8) -> Report {
    let count = line.sections.len() as u32;
    let s = match mission {
        Some(mission) if !draw.one_in(8) => {
            // The train moves on in its hand, or is about to stand in the area of the centre that it speaks to.
            let own = mission.hand.numbers().find(|s| line.is_home(centre, *s)).filter(|_| draw.one_in(2));
            u32::from(own.unwrap_or(mission.hand.first + draw.below(2) as u16)) % count
        }
        _ => draw.below(count),
    };
    let section = line.sections[s as usize];
    let most = section.end - section.start + if draw.one_in(4) { 200 } else { 0 };
    Report {
        group: if draw.one_in(80) { 4711 } else { line.group_of(s as u16) },
        metres: draw.below(most),
        length: if draw.one_in(12) { None } else { Some(draw.between(0, 150)) },
        direction: if draw.one_in(60) { draw.below(4) } else { 1 },
        level: if draw.one_in(60) { draw.below(8) } else { 3 },
    }
}
