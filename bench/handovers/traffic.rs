// A line of eight centres, and trains that run over all of them: on each track one is under way at a time, and each frame is delivered
// soon, some of them twice.

use crate::peer::draw::Draw;
use crate::peer::line::{Line, Section, Train};
use crate::peer::train::{DOUBT, Report, Said, encode};
use crate::peer::world::{Event, World};

const CENTRES: u8 = 8;
const TRACKS: u8 = 4;
const SECTIONS_EACH: u16 = 5;
const TRAINS: u8 = 16;

/// Four tracks, on which each centre has five sections, and trains whose registrars are all over the line.
pub fn line_of(draw: &mut Draw) -> Line {
    let mut list: Vec<Section> = Vec::new();
    for track in 0..TRACKS {
        let mut start = 0;
        for k in 0..SECTIONS_EACH * u16::from(CENTRES) {
            let end = start + draw.between(300, 2000);
            let balise = 100 + list.len() as u32;
            list.push(Section { track, home: (k / SECTIONS_EACH) as u8, balise, start, end });
            start = end;
        }
    }
    let trains = (0..TRAINS).map(|i| Train { engine: 1000 + 37 * u32::from(i), registrar: i % CENTRES }).collect();
    Line::new(5, CENTRES, list, trains)
}

/// What a train does next on its run; the numbers are of the track's sections.
#[derive(Clone, Copy)]
enum Deed {
    Initiation(u16),
    Established(u16),
    Set(u16),
    Start,
    TrainData,
    Request(u16),
    Pass(u16),
    Unset(u16),
    Granted(u16),
    Rejected(u16),
    Leave,
    Termination(u16),
}

use Deed::*;

/// One run from the track's first section to its last. At some borders a section ahead is wished back: the train grants that, or not.
fn run_of(count: u16, draw: &mut Draw) -> Vec<Deed> {
    let mut deeds = vec![Initiation(0), Established(0), Set(0), Start, TrainData, Set(1), Set(2), Request(0), Request(0)];
    for k in 1..count {
        let is_border = k % SECTIONS_EACH == 0;
        if is_border {
            deeds.extend([Initiation(k), Established(k), Pass(k)]);
        }
        deeds.push(Pass(k));
        if is_border {
            deeds.push(Termination(k - 1));
        }
        deeds.extend([k + 1, k + 2].iter().filter(|s| **s < count).map(|s| Set(*s)));
        deeds.extend([Request(k), Request(k)]);
        if k + 2 < count && draw.one_in(6) {
            let answer = if draw.one_in(3) { Rejected(k) } else { Granted(k) };
            deeds.extend([Unset(k + 2), answer, Set(k + 2), Request(k), Request(k)]);
        }
    }
    deeds.extend([Leave, Termination(count - 1)]);
    deeds
}

/// A track, the trains that take turns on it, and what is left of the run of the one that is under way.
struct Track {
    first: u16,
    count: u16,
    trains: Vec<usize>,
    turn: usize,
    left: std::vec::IntoIter<Deed>,
}

pub struct Traffic<'a> {
    world: World<'a>,
    draw: &'a mut Draw,
    time: u32,
    events: Vec<Event>,
}

/// At least so many events, up to the end of each run that was begun.
pub fn runs(line: &Line, count: usize, draw: &mut Draw) -> Vec<Event> {
    let mut tracks = tracks_of(line, draw);
    let mut traffic = Traffic { world: World::new(line), draw, time: 0, events: Vec::new() };
    while traffic.events.len() < count {
        let at = traffic.draw.below(tracks.len() as u32) as usize;
        traffic.go_on(&mut tracks[at], true);
    }
    for track in &mut tracks {
        while traffic.go_on(track, false) {}
    }
    traffic.events
}

fn tracks_of(line: &Line, draw: &mut Draw) -> Vec<Track> {
    let trains = |t: u8| (0..line.trains.len()).filter(|i| i % TRACKS as usize == t as usize).collect();
    let count = SECTIONS_EACH * u16::from(CENTRES);
    let track = |t: u8| Track {
        first: u16::from(t) * count,
        count,
        trains: trains(t),
        turn: 0,
        left: run_of(count, draw).into_iter(),
    };
    (0..TRACKS).map(track).collect()
}

impl Traffic<'_> {
    /// The next deed on the track; where the run is at its end, the next train's, if runs begin anew. Says whether there was one.
    fn go_on(&mut self, track: &mut Track, begins: bool) -> bool {
        let deed = match track.left.next() {
            Some(deed) => deed,
            None if begins => {
                track.turn = (track.turn + 1) % track.trains.len();
                track.left = run_of(track.count, self.draw).into_iter();
                return self.go_on(track, begins);
            }
            None => return false,
        };
        let i = track.trains[track.turn];
        if let Some(event) = self.event(track, i, deed) {
            self.step(event);
            self.deliver_all();
        }
        if let Start | Pass(_) = deed {
            self.check(track, i, deed);
        }
        true
    }

    fn event(&mut self, track: &Track, i: usize, deed: Deed) -> Option<Event> {
        let home = |k: u16| self.world.line.sections[(track.first + k) as usize].home;
        Some(match deed {
            Set(k) => Event::Set { centre: home(k), section: track.first + k },
            Unset(k) => Event::Unset { centre: home(k), section: track.first + k },
            Initiation(k) => self.train(home(k), i, Said::Initiation),
            Established(k) => self.train(home(k), i, Said::Established),
            Termination(k) => self.train(home(k), i, Said::Termination),
            Start => self.report(track, i, 0, |report| Said::Start(1, report)),
            TrainData => self.report(track, i, 0, Said::TrainData),
            Request(k) => self.report(track, i, k, Said::Request),
            Pass(k) => self.report(track, i, k, Said::Report),
            // There is nothing to answer where no request to shorten came.
            Granted(k) => {
                let stamp = self.proposed(i)?;
                self.report(track, i, k, |report| Said::Granted(stamp, report))
            }
            Rejected(k) => {
                let stamp = self.proposed(i)?;
                self.report(track, i, k, |report| Said::Rejected(stamp, report))
            }
            Leave => self.leaving(track, i),
        })
    }

    fn proposed(&self, i: usize) -> Option<u32> {
        self.world.centres.iter().find_map(|k| k.trains[i].mission?.proposal).map(|it| it.stamp)
    }

    fn train(&mut self, centre: u8, i: usize, said: Said) -> Event {
        self.time += self.draw.between(1, 5);
        Event::Train { centre, bytes: encode(self.time, self.world.line.trains[i].engine, said) }
    }

    /// Said with the whole train in this section, to the section's centre.
    fn report(&mut self, track: &Track, i: usize, k: u16, said: impl Fn(Report) -> Said) -> Event {
        let line = self.world.line;
        let section = line.sections[(track.first + k) as usize];
        let length = 60 + 10 * i as u32;
        let metres = self.draw.between(length + DOUBT, section.end - section.start - DOUBT);
        let group = line.group_of(track.first + k);
        self.train(section.home, i, said(Report { group, metres, length: Some(length), direction: 1, level: 3 }))
    }

    /// The whole train is past the last section, on a siding.
    fn leaving(&mut self, track: &Track, i: usize) -> Event {
        let line = self.world.line;
        let last = track.first + track.count - 1;
        let section = line.sections[last as usize];
        let length = 60 + 10 * i as u32;
        let metres = section.end - section.start + length + DOUBT;
        let report = Report { group: line.group_of(last), metres, length: Some(length), direction: 1, level: 3 };
        self.train(section.home, i, Said::Report(report))
    }

    fn step(&mut self, event: Event) {
        self.world.step(&event).expect("a step is taken");
        self.events.push(event);
    }

    /// Each frame that is on the way is delivered, in order on each link; one in ten comes again.
    fn deliver_all(&mut self) {
        while let Some((from, to, number)) = self.on_the_way() {
            self.step(Event::Deliver { from, to, number });
            if self.draw.one_in(10) {
                self.step(Event::Deliver { from, to, number });
            }
        }
    }

    fn on_the_way(&self) -> Option<(u8, u8, u32)> {
        let links = (0..CENTRES).flat_map(|from| (0..CENTRES).map(move |to| (from, to)));
        links.map(|(from, to)| (from, to, self.world.centres[to as usize].taken[from as usize] + 1)).find(|(from, to, number)| {
            *number as usize <= self.world.centres[*from as usize].sent[*to as usize].len()
        })
    }

    /// The train is supervised where it is.
    fn check(&self, track: &Track, i: usize, deed: Deed) {
        let k = if let Pass(k) = deed { k } else { 0 };
        let home = self.world.line.sections[(track.first + k) as usize].home;
        assert_eq!(supervisor(&self.world, i), Some(home as usize), "train {i} at section {k}");
    }
}

/// The supervisor of a train, if one has its mission.
pub fn supervisor(world: &World, i: usize) -> Option<usize> {
    world.centres.iter().position(|k| k.trains[i].mission.is_some())
}
