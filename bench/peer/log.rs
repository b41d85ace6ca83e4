// The logs of centres in plain Rust, with each event and its outcome, and the receipts of a share that commits to one.

use super::centre::Centre;
use super::frames::Frame;
use super::line::Line;
use super::message::{Message, decode};
use super::state::{Outcome, Refused};
use super::world::Event;
use std::hint::black_box;
use std::time::{Duration, Instant};

pub enum Happened {
    Message(Message),
    Set(u16),
    Unset(u16),
    Frame { from: u8, number: u32, frame: Frame },
}

#[allow(dead_code, reason = "a log is kept, and is not read here")]
pub struct Entry {
    pub happened: Happened,
    pub outcome: Outcome,
}

/// A centre's log.
pub struct Log<'a> {
    line: &'a Line,
    core: Centre,
    entries: Vec<Entry>,
}

/// The stamps of the events that one thread committed at a centre.
#[derive(Default)]
pub struct Share {
    receipts: Vec<u32>,
}

impl<'a> Log<'a> {
    pub fn new(line: &'a Line, centre: u8) -> Log<'a> {
        Log { line, core: Centre::new(line, centre), entries: Vec::new() }
    }

    pub fn commit(&mut self, share: &mut Share, happened: Happened) -> Result<Outcome, Refused> {
        let outcome = match happened {
            Happened::Message(ref message) => self.core.hear(self.line, message)?,
            Happened::Set(section) => self.core.set(self.line, section)?,
            Happened::Unset(section) => self.core.unset(self.line, section)?,
            Happened::Frame { from, number, ref frame } => self.core.deliver(self.line, from, number, frame)?,
        };
        share.receipts.push(outcome.stamp);
        self.entries.push(Entry { happened, outcome: outcome.clone() });
        Ok(outcome)
    }

    pub fn frame(&self, to: u8, number: u32) -> Option<Frame> {
        self.core.sent.get(to as usize)?.get((number as usize).wrapping_sub(1)).copied()
    }
}

/// Each turn commits the events to new logs, and the fastest counts. It prints how many commits a second that took, and the bytes of the
/// messages to trains.
pub fn time(line: &Line, events: &[Event], turns: usize) {
    let mut least = Duration::MAX;
    let mut bytes = 0;
    for _ in 0..turns {
        let mut places: Vec<_> = (0..line.centres).map(|c| (Log::new(line, c), Share::default())).collect();
        let start = Instant::now();
        bytes = play(&mut places, events);
        least = least.min(start.elapsed());
    }
    let rate = events.len() as u128 * 1_000_000_000 / least.as_nanos().max(1);
    println!("{rate} {bytes}");
}

fn play(places: &mut [(Log, Share)], events: &[Event]) -> usize {
    let mut bytes = 0;
    for event in events {
        let Some((centre, happened)) = happened(places, black_box(event)) else {
            continue;
        };
        let (log, share) = &mut places[centre as usize];
        let outcome = black_box(log.commit(share, happened)).expect("a commit is taken");
        bytes += outcome.sayings.iter().flatten().map(|(_, message)| message.len()).sum::<usize>();
    }
    bytes
}

/// The centre at which an event happens, and the event there.
fn happened(places: &[(Log, Share)], event: &Event) -> Option<(u8, Happened)> {
    match *event {
        Event::Train { centre, ref bytes } => Some((centre, Happened::Message(decode(bytes).ok()?))),
        Event::Set { centre, section } => Some((centre, Happened::Set(section))),
        Event::Unset { centre, section } => Some((centre, Happened::Unset(section))),
        Event::Deliver { from, to, number } => {
            let frame = places[from as usize].0.frame(to, number)?;
            Some((to, Happened::Frame { from, number, frame }))
        }
    }
}
