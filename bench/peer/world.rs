// The centres of a line with the frames between them: an event goes in, and what is answered comes out, also as lines of text.

use super::centre::Centre;
use super::frames;
use super::line::Line;
use super::message::{Fault, decode};
use super::state::{Outcome, Refused, Taken, Word};
use std::fmt::Write;

pub enum Event {
    Train { centre: u8, bytes: Vec<u8> },
    Set { centre: u8, section: u16 },
    Unset { centre: u8, section: u16 },
    Deliver { from: u8, to: u8, number: u32 },
}

pub enum Answer {
    Outcome(u8, Outcome),
    NoCentre,
    NotSent,
    Fault(Fault),
}

pub struct World<'a> {
    pub line: &'a Line,
    pub centres: Vec<Centre>,
    /// The trains that messages have named, in the order of first mention.
    named: Vec<usize>,
    is_named: Vec<bool>,
}

impl<'a> World<'a> {
    pub fn new(line: &'a Line) -> World<'a> {
        World {
            line,
            centres: (0..line.centres).map(|c| Centre::new(line, c)).collect(),
            named: Vec::with_capacity(line.trains.len()),
            is_named: vec![false; line.trains.len()],
        }
    }

    pub fn step(&mut self, event: &Event) -> Result<Answer, Refused> {
        match *event {
            Event::Train { centre, ref bytes } => self.receive(centre, bytes),
            Event::Set { centre, section } => match self.centres.get_mut(centre as usize) {
                Some(k) => Ok(Answer::Outcome(centre, k.set(self.line, section)?)),
                None => Ok(Answer::NoCentre),
            },
            Event::Unset { centre, section } => match self.centres.get_mut(centre as usize) {
                Some(k) => Ok(Answer::Outcome(centre, k.unset(self.line, section)?)),
                None => Ok(Answer::NoCentre),
            },
            Event::Deliver { from, to, number } => self.deliver(from, to, number),
        }
    }

    fn receive(&mut self, centre: u8, bytes: &[u8]) -> Result<Answer, Refused> {
        let Some(k) = self.centres.get_mut(centre as usize) else {
            return Ok(Answer::NoCentre);
        };
        let message = match decode(bytes) {
            Ok(message) => message,
            Err(fault) => return Ok(Answer::Fault(fault)),
        };
        let outcome = k.hear(self.line, &message)?;
        if let Some(i) = self.line.train_number(message.engine) {
            if !self.is_named[i] {
                self.is_named[i] = true;
                self.named.push(i);
            }
        }
        Ok(Answer::Outcome(centre, outcome))
    }

    fn deliver(&mut self, from: u8, to: u8, number: u32) -> Result<Answer, Refused> {
        let sent = self.centres.get(from as usize).and_then(|k| k.sent.get(to as usize));
        let Some(frame) = sent.and_then(|frames| frames.get((number as usize).wrapping_sub(1))) else {
            return Ok(Answer::NotSent);
        };
        let frame = *frame;
        Ok(Answer::Outcome(to, self.centres[to as usize].deliver(self.line, from, number, &frame)?))
    }

    /// What is answered, as lines of text after the stamp of the step.
    pub fn print_answer(&self, answer: &Answer, text: &mut String) {
        match answer {
            Answer::Outcome(centre, outcome) => self.print_outcome(*centre, outcome, text).unwrap(),
            Answer::NoCentre => text.push_str("no centre\n"),
            Answer::NotSent => text.push_str("not sent\n"),
            Answer::Fault(fault) => writeln!(text, "fault {}", *fault as u8).unwrap(),
        }
    }

    fn print_outcome(&self, centre: u8, outcome: &Outcome, text: &mut String) -> std::fmt::Result {
        writeln!(text, "step {}", outcome.stamp)?;
        for (engine, bytes) in outcome.sayings.iter().flatten() {
            writeln!(text, "-> {engine} {}", hex(bytes))?;
        }
        for (k, to) in outcome.sent.iter().enumerate() {
            let frames = &self.centres[centre as usize].sent[*to as usize];
            // This frame is not the last to its receiver, if more follow in the same step.
            let after = outcome.sent[k + 1..].iter().filter(|it| *it == to).count();
            let number = frames.len() - after;
            let frame = &frames[number - 1];
            let engine = self.line.trains[frame.train as usize].engine;
            writeln!(text, "=> {to} {}", hex(&frames::encode(number as u32, frame, engine)))?;
        }
        match outcome.word {
            Some(Word::Done(s)) => writeln!(text, "{s} Done")?,
            Some(Word::Asked(s)) => writeln!(text, "{s} Asked")?,
            Some(Word::NotHome(s)) => writeln!(text, "{s} NotHome")?,
            None => {}
        }
        for s in &outcome.told {
            writeln!(text, "{s} Told")?;
        }
        match outcome.taken {
            Some(Taken::Old) => writeln!(text, "old")?,
            Some(Taken::Early) => writeln!(text, "early")?,
            Some(Taken::Next) | None => {}
        }
        match outcome.silence {
            Some(why) => writeln!(text, "silent {}", why as u8),
            None => Ok(()),
        }
    }
}

/// The name of a centre: A, B, ..
pub fn name(centre: u8) -> char {
    (b'A' + centre) as char
}

fn hex(bytes: &[u8]) -> String {
    let digit = |value: u8| char::from(b"0123456789ABCDEF"[usize::from(value)]);
    let mut text = String::with_capacity(2 * bytes.len());
    for byte in bytes {
        text.push(digit(byte >> 4));
        text.push(digit(byte & 15));
    }
    text
}

/// The event as a line of a script.
pub fn event_line(event: &Event) -> String {
    match event {
        Event::Train { centre, bytes } => format!("train {} {}\n", name(*centre), hex(bytes)),
        Event::Set { centre, section } => format!("set {} {section}\n", name(*centre)),
        Event::Unset { centre, section } => format!("unset {} {section}\n", name(*centre)),
        Event::Deliver { from, to, number } => format!("deliver {} {} {number}\n", name(*from), name(*to)),
    }
}
