// A list of events as files, and how fast it is played.

use super::frames::Body;
use super::line::Line;
use super::world::{Answer, Event, World, event_line, name};
use std::fmt::Write;
use std::hint::black_box;
use std::time::{Duration, Instant};

/// Writes line.toml, script and plain.txt (the answers), and gives how many missions were yielded to a next centre.
pub fn write(folder: &str, line: &Line, events: &[Event]) -> usize {
    let script: String = events.iter().map(event_line).collect();
    let mut world = World::new(line);
    let mut answers = String::new();
    for event in events {
        let answer = world.step(event).expect("a step is taken");
        world.print_answer(&answer, &mut answers);
    }
    for (file, text) in [("line.toml", toml_of(line)), ("script", script), ("plain.txt", answers)] {
        std::fs::write(format!("{folder}/{file}"), text).expect("the file is written");
    }
    let frames = world.centres.iter().flat_map(|k| k.sent.iter().flatten());
    frames.filter(|frame| matches!(frame.body, Body::Yield(..))).count()
}

fn toml_of(line: &Line) -> String {
    let mut text = format!("nid_c = {}\n", line.nid_c);
    for c in 0..line.centres {
        writeln!(text, "[[centre]]\nname = \"{}\"\nnid_rbc = {}", name(c), c + 1).unwrap();
    }
    for (s, section) in line.sections.iter().enumerate() {
        if s == 0 || line.sections[s - 1].track != section.track {
            let end = if s == 0 { "" } else { "]\n" };
            writeln!(text, "{end}[[track]]\nname = \"t{}\"\nsection = [", section.track).unwrap();
        }
        let (length, home, balise) = (section.end - section.start, name(section.home), section.balise);
        writeln!(text, "  {{ length = {length}, home = \"{home}\", balise = {balise} }},").unwrap();
    }
    text.push_str("]\n");
    for train in &line.trains {
        writeln!(text, "[[train]]\nengine = {}\nregistrar = \"{}\"", train.engine, name(train.registrar)).unwrap();
    }
    text
}

/// Each turn plays the events in a new world, and the fastest counts. Only the steps are timed. It prints how many events a second that took,
/// and the bytes of its messages to trains.
pub fn time(line: &Line, events: &[Event], turns: usize) {
    let mut least = Duration::MAX;
    let mut bytes = 0;
    for _ in 0..turns {
        let mut world = World::new(line);
        let start = Instant::now();
        bytes = play(&mut world, events);
        least = least.min(start.elapsed());
    }
    let rate = events.len() as u128 * 1_000_000_000 / least.as_nanos().max(1);
    println!("{rate} {bytes}");
}

fn play(world: &mut World, events: &[Event]) -> usize {
    let mut bytes = 0;
    for event in events {
        if let Answer::Outcome(_, outcome) = black_box(world.step(black_box(event))).expect("a step is taken") {
            bytes += outcome.sayings.iter().flatten().map(|(_, message)| message.len()).sum::<usize>();
        }
    }
    bytes
}
