// The line as a centre looks it up: sections by number and by balise group, trains by engine, and what a place tells of them.

use super::message::Position;
use std::collections::HashMap;
use std::hash::{BuildHasherDefault, Hasher};

#[derive(Clone, Copy)]
pub struct Section {
    pub track: u8,
    pub home: u8,
    pub balise: u32,
    /// Where it starts and ends, in metres from the start of its track.
    pub start: u32,
    pub end: u32,
}

#[derive(Clone, Copy)]
pub struct Train {
    pub engine: u32,
    pub registrar: u8,
}

/// Consecutive sections.
#[derive(Clone, Copy, Debug, PartialEq, Eq)]
pub struct Run {
    pub first: u16,
    pub count: u16,
}

impl Run {
    pub fn next_after(self) -> u16 {
        self.first + self.count
    }

    pub fn has(self, s: u16) -> bool {
        self.first <= s && s < self.next_after()
    }

    pub fn numbers(self) -> std::ops::Range<u16> {
        self.first..self.next_after()
    }
}

/// Where a train is, in decimetres from the start of its track.
#[derive(Clone, Copy)]
pub struct Place {
    pub track: u8,
    pub group: u32,
    pub group_start: u32,
    pub front: u32,
    pub rear: Option<i32>,
}

/// One multiplication for a key that is one number.
#[derive(Default)]
pub struct Multiply(u64);

impl Hasher for Multiply {
    fn write(&mut self, bytes: &[u8]) {
        for byte in bytes {
            self.write_u32(u32::from(*byte));
        }
    }

    fn write_u32(&mut self, value: u32) {
        self.0 = (self.0 ^ u64::from(value)).wrapping_mul(0x9E37_79B9_7F4A_7C15).rotate_left(32);
    }

    fn finish(&self) -> u64 {
        self.0
    }
}

pub struct Line {
    pub nid_c: u32,
    pub centres: u8,
    pub sections: Vec<Section>,
    pub trains: Vec<Train>,
    /// The sections of each track.
    tracks: Vec<Run>,
    /// The section of each balise, by its number in the country.
    balises: Vec<u16>,
    engines: HashMap<u32, u8, BuildHasherDefault<Multiply>>,
    /// By track and centre: the home of the first section in advance of those of the centre.
    next: Vec<[Option<u8>; 8]>,
}

const NO_SECTION: u16 = u16::MAX;
const DISTANCE_UNKNOWN: u32 = 32_767;

impl Line {
    /// The sections stand track by track.
    pub fn new(nid_c: u32, centres: u8, sections: Vec<Section>, trains: Vec<Train>) -> Line {
        let mut tracks: Vec<Run> = Vec::new();
        let mut balises = vec![NO_SECTION; 1 << 14];
        for (s, section) in sections.iter().enumerate() {
            if section.track as usize == tracks.len() {
                tracks.push(Run { first: s as u16, count: 0 });
            }
            tracks[section.track as usize].count += 1;
            balises[section.balise as usize] = s as u16;
        }
        let engines = trains.iter().enumerate().map(|(i, train)| (train.engine, i as u8)).collect();
        let mut next = vec![[None; 8]; tracks.len()];
        for pair in sections.windows(2).filter(|pair| pair[0].track == pair[1].track && pair[0].home != pair[1].home) {
            next[pair[0].track as usize][pair[0].home as usize] = Some(pair[1].home);
        }
        Line { nid_c, centres, sections, trains, tracks, balises, engines, next }
    }

    /// The centre beyond this one on the track.
    #[allow(dead_code)] // where there is one centre
    pub fn next_centre(&self, centre: u8, track: u8) -> Option<u8> {
        self.next[track as usize][centre as usize]
    }

    /// The section that has the front in it, or at its end.
    #[allow(dead_code)] // where there is one centre
    pub fn front_section(&self, place: &Place) -> Option<u16> {
        let on_track = self.tracks[place.track as usize];
        let sections = &self.sections[on_track.first as usize..on_track.next_after() as usize];
        let passed = sections.partition_point(|section| 10 * section.end < place.front);
        (place.front > 0 && passed < sections.len()).then_some(on_track.first + passed as u16)
    }

    pub fn train_number(&self, engine: u32) -> Option<usize> {
        self.engines.get(&engine).map(|i| *i as usize)
    }

    pub fn is_home(&self, centre: u8, s: u16) -> bool {
        self.sections.get(s as usize).is_some_and(|section| section.home == centre)
    }

    pub fn is_on(&self, track: u8, s: u16) -> bool {
        self.sections.get(s as usize).is_some_and(|section| section.track == track)
    }

    pub fn group_of(&self, s: u16) -> u32 {
        self.nid_c << 14 | self.sections[s as usize].balise
    }

    fn section_of_group(&self, group: u32) -> Option<&Section> {
        if group >> 14 != self.nid_c {
            return None;
        }
        let s = self.balises[(group & 0x3FFF) as usize];
        self.sections.get(s as usize)
    }

    /// Where a report puts its train.
    pub fn place(&self, p: &Position) -> Option<Place> {
        let is_known = |distance| distance < DISTANCE_UNKNOWN;
        if !(p.is_nominal && p.is_level_2 && is_known(p.distance) && is_known(p.doubt_over) && is_known(p.doubt_under)) {
            return None;
        }
        let section = self.section_of_group(p.group)?;
        let estimated = 10 * section.start + p.scale * p.distance;
        Some(Place {
            track: section.track,
            group: p.group,
            group_start: section.start,
            front: estimated + p.scale * p.doubt_under,
            rear: p.length.map(|metres| estimated as i32 - (p.scale * p.doubt_over + 10 * metres) as i32),
        })
    }

    pub fn place_on(&self, track: u8, p: &Position) -> Option<Place> {
        self.place(p).filter(|place| place.track == track)
    }

    /// The sections that a train may stand in which is between these ends.
    fn covered(&self, track: u8, rear: i32, front: u32) -> Run {
        let on_track = self.tracks[track as usize];
        let sections = &self.sections[on_track.first as usize..on_track.next_after() as usize];
        let passed = sections.partition_point(|section| 10 * section.end as i32 <= rear);
        let reached = sections.partition_point(|section| 10 * section.start < front);
        Run { first: on_track.first + passed as u16, count: reached.saturating_sub(passed) as u16 }
    }

    /// The sections under a train that starts a mission at the place, where that may be.
    pub fn start_at(&self, place: &Place) -> Option<Run> {
        let rear = place.rear?;
        let track_end = self.sections[self.tracks[place.track as usize].next_after() as usize - 1].end;
        if rear < 0 || rear >= place.front as i32 || place.front > 10 * track_end {
            return None;
        }
        Some(self.covered(place.track, rear, place.front)).filter(|run| run.count <= 32)
    }

    /// How many of the first sections of the hand end at or before the rear end.
    pub fn cleared(&self, hand: Run, place: &Place) -> u16 {
        let Some(rear) = place.rear else { return 0 };
        hand.numbers().take_while(|s| 10 * self.sections[*s as usize].end as i32 <= rear).count() as u16
    }
}
