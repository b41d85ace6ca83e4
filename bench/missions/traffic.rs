// A line, and whole missions on it: each run of eight sections has its trains, one under way at a time.

use crate::peer::draw::Draw;
use crate::peer::line::{Line, Section, Train};
use crate::peer::train::{DOUBT, Report, Said, encode};
use crate::peer::world::Event;

pub const SECTIONS_EACH: u16 = 8;
const TRACKS: u16 = 4;
const HOME: u8 = 0;

/// Sections on four tracks, all of the home of the first of two centres, which is every train's registrar.
pub fn line_of(sections: u16, trains: u8, draw: &mut Draw) -> Line {
    let mut list: Vec<Section> = Vec::new();
    for s in 0..sections {
        let track = (s / (sections / TRACKS)) as u8;
        let start = list.last().filter(|before| before.track == track).map_or(0, |before| before.end);
        let least = if s % SECTIONS_EACH == 0 { 400 } else { 100 };
        list.push(Section { track, home: HOME, balise: 100 + u32::from(s), start, end: start + draw.between(least, 2000) });
    }
    let trains = (0..trains).map(|i| Train { engine: 1000 + 37 * u32::from(i), registrar: HOME }).collect();
    Line::new(5, 2, list, trains)
}

/// One event of a mission; the numbers are of the eight sections. `Start` follows its section's release at once.
#[derive(Clone, Copy)]
enum Deed {
    Initiation,
    Established,
    Start,
    TrainData,
    Request(u16),
    Pass(u16),
    Granted(u16),
    Rejected(u16),
    Late,
    EndOfMission,
    Leave,
    Termination,
    Set(u16),
    Unset(u16),
}

/// What the answer is meant to be: a message of this number, none, or silence for this reason.
#[derive(Clone, Copy, Debug, PartialEq, Eq)]
pub enum Meant {
    Says(u8),
    Nothing,
    Silent(u8),
}

use Deed::*;

const MISSION: [(Deed, Meant); 34] = [
    (Initiation, Meant::Says(32)),
    (Established, Meant::Nothing),
    (Set(0), Meant::Nothing),
    (Start, Meant::Says(41)),
    (TrainData, Meant::Says(8)),
    (Set(1), Meant::Nothing),
    (Set(2), Meant::Nothing),
    (Set(3), Meant::Nothing),
    (Request(0), Meant::Says(3)),
    (Unset(0), Meant::Nothing),
    (Pass(1), Meant::Nothing),
    (Set(4), Meant::Nothing),
    (Set(5), Meant::Nothing),
    (Set(6), Meant::Nothing),
    (Set(7), Meant::Nothing),
    (Request(1), Meant::Says(3)),
    (Pass(2), Meant::Nothing),
    (Unset(6), Meant::Says(9)),
    (Granted(2), Meant::Nothing),
    (Pass(3), Meant::Nothing),
    (Set(6), Meant::Nothing),
    (Set(7), Meant::Nothing),
    (Request(3), Meant::Says(3)),
    (Unset(7), Meant::Says(9)),
    (Rejected(3), Meant::Nothing),
    (Pass(4), Meant::Nothing),
    (Pass(5), Meant::Nothing),
    (Late, Meant::Silent(1)),
    (Pass(6), Meant::Nothing),
    (Request(6), Meant::Says(3)),
    (Pass(7), Meant::Nothing),
    (EndOfMission, Meant::Nothing),
    (Leave, Meant::Nothing),
    (Termination, Meant::Says(39)),
];

#[derive(Clone, Copy)]
struct Driver {
    engine: u32,
    metres: u32,
    time: u32,
    /// The messages that were meant to be said to the train.
    said: u32,
}

/// Eight sections, the trains that take turns on them, and how far the mission has come.
struct Stretch {
    first: u16,
    drivers: Vec<Driver>,
    turn: usize,
    next: usize,
    last: Vec<u8>,
}

/// At least so many events of missions, whose stretches go on in any order, up to the end of each mission that was begun.
pub fn missions(line: &Line, count: usize, draw: &mut Draw) -> Vec<(Event, Meant)> {
    let mut stretches = stretches_of(line, draw);
    let mut events = Vec::new();
    while events.len() < count {
        let stretch = draw.below(stretches.len() as u32) as usize;
        stretches[stretch].go_on(line, draw, &mut events);
    }
    for stretch in &mut stretches {
        while stretch.next > 0 {
            stretch.go_on(line, draw, &mut events);
        }
    }
    events
}

/// Each second section in advance of those that trains run over is opened: no other line has so many runs of sections
/// that are used alike.
pub fn each_second(line: &Line) -> Vec<(Event, Meant)> {
    let first = SECTIONS_EACH * line.trains.len() as u16 + 1;
    let sections = (first..line.sections.len() as u16).step_by(2);
    sections.map(|section| (Event::Set { centre: HOME, section }, Meant::Nothing)).collect()
}

fn stretches_of(line: &Line, draw: &mut Draw) -> Vec<Stretch> {
    let count = (line.sections.len() / SECTIONS_EACH as usize).min(line.trains.len());
    let mut stretches: Vec<Stretch> = (0..count)
        .map(|j| Stretch { first: SECTIONS_EACH * j as u16, drivers: Vec::new(), turn: 0, next: 0, last: Vec::new() })
        .collect();
    for (i, train) in line.trains.iter().enumerate() {
        let driver = Driver { engine: train.engine, metres: draw.between(50, 300), time: draw.below(1000), said: 0 };
        stretches[i % count].drivers.push(driver);
    }
    stretches
}

impl Stretch {
    fn go_on(&mut self, line: &Line, draw: &mut Draw, events: &mut Vec<(Event, Meant)>) {
        let (deed, meant) = MISSION[self.next];
        let event = self.event(line, draw, deed);
        if let Meant::Says(_) = meant {
            self.drivers[self.turn].said += 1;
        }
        events.push((event, meant));
        self.next += 1;
        if self.next == MISSION.len() {
            self.next = 0;
            self.turn = (self.turn + 1) % self.drivers.len();
        }
        if let Set(0) = deed {
            self.go_on(line, draw, events);
        }
    }

    fn event(&mut self, line: &Line, draw: &mut Draw, deed: Deed) -> Event {
        let said = match deed {
            Set(k) => return Event::Set { centre: HOME, section: self.first + k },
            Unset(k) => return Event::Unset { centre: HOME, section: self.first + k },
            Late => return Event::Train { centre: HOME, bytes: self.last.clone() },
            Initiation => Said::Initiation,
            Established => Said::Established,
            Termination => Said::Termination,
            Start => Said::Start(1, self.report(line, draw, 0)),
            TrainData => Said::TrainData(self.report(line, draw, 0)),
            Request(k) => Said::Request(self.report(line, draw, k)),
            Pass(k) => Said::Report(self.report(line, draw, k)),
            Granted(k) => Said::Granted(self.drivers[self.turn].said, self.report(line, draw, k)),
            Rejected(k) => Said::Rejected(self.drivers[self.turn].said, self.report(line, draw, k)),
            EndOfMission => Said::EndOfMission(self.report(line, draw, 7)),
            Leave => Said::Report(self.leaving(line)),
        };
        let driver = &mut self.drivers[self.turn];
        driver.time += draw.between(1, 50);
        self.last = encode(driver.time, driver.engine, said);
        Event::Train { centre: HOME, bytes: self.last.clone() }
    }

    /// The front is in this section, as far as there is room with the whole train.
    fn report(&self, line: &Line, draw: &mut Draw, k: u16) -> Report {
        let section = line.sections[(self.first + k) as usize];
        let length = self.drivers[self.turn].metres;
        let most = section.end - section.start - DOUBT;
        let metres = if length + DOUBT < most { draw.between(length + DOUBT, most) } else { most };
        Report { group: line.group_of(self.first + k), metres, length: Some(length), direction: 1, level: 3 }
    }

    /// The whole train is past the last section, on a siding.
    fn leaving(&self, line: &Line) -> Report {
        let section = line.sections[(self.first + 7) as usize];
        let length = self.drivers[self.turn].metres;
        let metres = section.end - section.start + length + DOUBT;
        Report { group: line.group_of(self.first + 7), metres, length: Some(length), direction: 1, level: 3 }
    }
}
