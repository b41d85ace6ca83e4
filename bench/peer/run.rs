// A script played as `rbcline run` plays one: it is read from its text, each event is stepped, and events and answers are printed. Only the
// state of the line at the end is left out.

use super::frames::Body;
use super::line::Line;
use super::state::{Outcome, Taken, Word};
use super::world::{Answer, Event, World, name};
use std::io::{BufWriter, Result, StdoutLock, Write, stdout};

type Out<'a> = BufWriter<StdoutLock<'a>>;

/// Plays the script of this file.
pub fn run(line: &Line, path: &str) {
    let text = std::fs::read_to_string(path).expect("the script is read");
    play(line, &text).expect("the print is written");
}

fn play(line: &Line, text: &str) -> Result<()> {
    let mut out = BufWriter::new(stdout().lock());
    let mut world = World::new(line);
    for row in text.lines() {
        out.write_all(b"> ")?;
        out.write_all(row.as_bytes())?;
        out.write_all(b"\n")?;
        let event = event_of(row).expect("a line of a script");
        let answer = world.step(&event).expect("a step is taken");
        print_answer(&world, &event, &answer, &mut out)?;
    }
    out.flush()
}

fn event_of(row: &str) -> Option<Event> {
    let mut words = row.split(' ');
    let kind = words.next()?;
    let centre = words.next()?.bytes().next()? - b'A';
    let last = words.next()?;
    Some(match kind {
        "train" => Event::Train { centre, bytes: bytes_of(last.as_bytes())? },
        "set" => Event::Set { centre, section: last.parse().ok()? },
        "unset" => Event::Unset { centre, section: last.parse().ok()? },
        "deliver" => {
            let to = last.bytes().next()? - b'A';
            Event::Deliver { from: centre, to, number: words.next()?.parse().ok()? }
        }
        _ => return None,
    })
}

fn bytes_of(digits: &[u8]) -> Option<Vec<u8>> {
    digits.chunks_exact(2).map(|pair| Some(digit_of(pair[0])? << 4 | digit_of(pair[1])?)).collect()
}

fn digit_of(letter: u8) -> Option<u8> {
    match letter {
        b'0'..=b'9' => Some(letter - b'0'),
        b'A'..=b'F' => Some(letter - b'A' + 10),
        _ => None,
    }
}

fn print_answer(world: &World, event: &Event, answer: &Answer, out: &mut Out) -> Result<()> {
    match answer {
        Answer::Outcome(centre, outcome) => print_outcome(world, *centre, outcome, out),
        Answer::NoCentre => writeln!(out, "no centre"),
        Answer::NotSent => writeln!(out, "not sent"),
        Answer::Fault(fault) => match event {
            Event::Train { centre, .. } => writeln!(out, "{} fault {}", name(*centre), *fault as u8),
            _ => unreachable!("only bytes have a fault"),
        },
    }
}

fn print_outcome(world: &World, centre: u8, outcome: &Outcome, out: &mut Out) -> Result<()> {
    let own = name(centre);
    for (engine, bytes) in outcome.sayings.iter().flatten() {
        write!(out, "{own} -> {engine} ")?;
        write_hex(bytes, out)?;
    }
    print_frames(world, centre, outcome, out)?;
    match outcome.word {
        Some(Word::Done(s)) => writeln!(out, "{own} {s} Done")?,
        Some(Word::Asked(s)) => writeln!(out, "{own} {s} Asked")?,
        Some(Word::NotHome(s)) => writeln!(out, "{own} {s} NotHome")?,
        None => {}
    }
    for s in &outcome.told {
        writeln!(out, "{own} {s} Told")?;
    }
    match (outcome.silence, outcome.taken) {
        (Some(why), _) => writeln!(out, "{own} silent {}", why as u8),
        (None, Some(Taken::Old)) => writeln!(out, "{own} old"),
        (None, Some(Taken::Early)) => writeln!(out, "{own} early"),
        (None, Some(Taken::Next) | None) if is_nothing(outcome) => writeln!(out, "{own} ok"),
        (None, Some(Taken::Next) | None) => Ok(()),
    }
}

fn is_nothing(outcome: &Outcome) -> bool {
    outcome.sayings.iter().all(Option::is_none)
        && outcome.sent.is_empty()
        && outcome.word.is_none()
        && outcome.told.is_empty()
}

// The frames by their receivers.
fn print_frames(world: &World, centre: u8, outcome: &Outcome, out: &mut Out) -> Result<()> {
    if outcome.sent.is_empty() {
        return Ok(());
    }
    for to in 0..world.line.centres {
        let count = outcome.sent.iter().filter(|it| **it == to).count();
        let frames = &world.centres[centre as usize].sent[to as usize];
        for number in frames.len() - count..frames.len() {
            writeln!(out, "{} => {} {} {}", name(centre), name(to), number + 1, body_name(&frames[number].body))?;
        }
    }
    Ok(())
}

fn body_name(body: &Body) -> &'static str {
    match body {
        Body::AskRight => "AskRight",
        Body::GiveRight => "GiveRight",
        Body::RefuseRight => "RefuseRight",
        Body::ReturnRight => "ReturnRight",
        Body::RouteAsk(_) => "RouteAsk",
        Body::RouteInfo(_) => "RouteInfo",
        Body::RouteWithdraw(_) => "RouteWithdraw",
        Body::RouteReturn(_) => "RouteReturn",
        Body::Announce { .. } => "Announce",
        Body::Cancel(_) => "Cancel",
        Body::TakingOver(_) => "TakingOver",
        Body::Yield(..) => "Yield",
    }
}

// The bytes as digits, and the end of the line.
fn write_hex(bytes: &[u8], out: &mut Out) -> Result<()> {
    const DIGITS: &[u8; 16] = b"0123456789ABCDEF";
    let mut room = [0; 128];
    for part in bytes.chunks(room.len() / 2) {
        for (k, byte) in part.iter().enumerate() {
            room[2 * k] = DIGITS[(byte >> 4) as usize];
            room[2 * k + 1] = DIGITS[(byte & 15) as usize];
        }
        out.write_all(&room[..2 * part.len()])?;
    }
    out.write_all(b"\n")
}
