// The lines of journals in plain Rust: the first four bytes of the SHA-256 of the rest, the stamp, the time and the event.

use super::line::Line;
use super::sha256::sha256;
use super::world::{Answer, Event, World, event_line};
use std::fmt::Write;
use std::hint::black_box;
use std::time::{Duration, Instant};

/// The time of each line. It has as many digits as a time of today.
const TIME_MS: u64 = 1_796_000_000_000;

/// Plays the events, and makes the lines of those that a centre took in each turn, and the fastest counts. It prints how many lines a second
/// that took, and the bytes of the lines of one turn.
pub fn time(line: &Line, events: &[Event], turns: usize) {
    let mut world = World::new(line);
    let taken: Vec<(u32, &Event)> = events.iter().filter_map(|event| Some((stamp_of(&mut world, event)?, event))).collect();
    let mut least = Duration::MAX;
    let mut bytes = 0;
    for _ in 0..turns {
        let start = Instant::now();
        bytes = lines_of(&taken);
        least = least.min(start.elapsed());
    }
    let rate = taken.len() as u128 * 1_000_000_000 / least.as_nanos().max(1);
    println!("{rate} {bytes}");
}

fn stamp_of(world: &mut World, event: &Event) -> Option<u32> {
    match world.step(event).expect("a step is taken") {
        Answer::Outcome(_, outcome) => Some(outcome.stamp),
        _ => None,
    }
}

/// Makes each line over the one before. The result is the count of bytes.
fn lines_of(taken: &[(u32, &Event)]) -> usize {
    let mut told = String::new();
    let mut text = String::new();
    let mut bytes = 0;
    for (stamp, event) in taken {
        line_of(*stamp, black_box(event), &mut told, &mut text);
        bytes += black_box(&text).len();
    }
    bytes
}

fn line_of(stamp: u32, event: &Event, told: &mut String, text: &mut String) {
    told.clear();
    write!(told, "{stamp} {TIME_MS} > ").unwrap();
    told.push_str(&event_line(event));
    let [a, b, c, d, ..] = sha256(told.as_bytes());
    text.clear();
    write!(text, "{:08x} ", u32::from_be_bytes([a, b, c, d])).unwrap();
    text.push_str(told);
}
