// Whole missions over a line whose centres have them to themselves, answered by plain Rust radio block centres (`../peer`).
//
// `missions write FOLDER TRAINS SECTIONS EVENTS` writes line.toml, script and plain.txt (the answers); `missions storm FOLDER EVENTS
// SEED` the same of events in any order on a small line; `missions run TRAINS SECTIONS SCRIPT` prints a run of such a script, as `rbcline
// run` does; `missions time TRAINS SECTIONS EVENTS TURNS` plays the script so often, and prints how many events a second the fastest turn
// took and the bytes of its messages to trains; `commits` does the same with commits to the logs of the centres; `lines` makes the lines of
// their journals. `alternating` in place of the number of sections is 512 sections, of which each second one that no train runs over is open.

#[path = "../peer/mod.rs"]
mod peer;
mod storm;
mod traffic;

use peer::draw::Draw;
use peer::journal;
use peer::line::Line;
use peer::log;
use peer::run::run;
use peer::script;
use peer::world::{Answer, Event, World, event_line};
use traffic::Meant;

fn main() {
    let words: Vec<String> = std::env::args().skip(1).collect();
    let words: Vec<&str> = words.iter().map(String::as_str).collect();
    match words[..] {
        ["write", folder, trains, sections, events] => {
            let (line, events) = traffic_of(number(trains), sections, number(events));
            check(&line, &events);
            script::write(folder, &line, &only_events(events));
        }
        ["storm", folder, events, seed] => {
            let mut draw = Draw::new(number(seed).into());
            let line = storm::line_of(&mut draw);
            script::write(folder, &line, &storm::events(&line, number(events) as usize, &mut draw));
        }
        ["time", trains, sections, events, turns] => {
            let (line, events) = traffic_of(number(trains), sections, number(events));
            script::time(&line, &only_events(events), number(turns) as usize);
        }
        ["commits", trains, sections, events, turns] => {
            let (line, events) = traffic_of(number(trains), sections, number(events));
            log::time(&line, &only_events(events), number(turns) as usize);
        }
        ["lines", trains, sections, events, turns] => {
            let (line, events) = traffic_of(number(trains), sections, number(events));
            journal::time(&line, &only_events(events), number(turns) as usize);
        }
        ["run", trains, sections, path] => run(&traffic_of(number(trains), sections, 1).0, path),
        _ => panic!(
            "write FOLDER TRAINS SECTIONS EVENTS, storm FOLDER EVENTS SEED, time TRAINS SECTIONS EVENTS TURNS, \
             commits TRAINS SECTIONS EVENTS TURNS, lines TRAINS SECTIONS EVENTS TURNS, run TRAINS SECTIONS SCRIPT"
        ),
    }
}

fn number(word: &str) -> u32 {
    word.parse().expect("a number")
}

fn traffic_of(trains: u32, sections: &str, events: u32) -> (Line, Vec<(Event, Meant)>) {
    let mut draw = Draw::new(1);
    let is_alternating = sections == "alternating";
    let sections = if is_alternating { 512 } else { number(sections) };
    let line = traffic::line_of(sections as u16, trains as u8, &mut draw);
    let mut all = if is_alternating { traffic::each_second(&line) } else { Vec::new() };
    all.extend(traffic::missions(&line, events as usize, &mut draw));
    (line, all)
}

fn only_events(events: Vec<(Event, Meant)>) -> Vec<Event> {
    events.into_iter().map(|(event, _)| event).collect()
}

/// Each event has the answer that it is there for: so the missions are whole.
fn check(line: &Line, events: &[(Event, Meant)]) {
    let mut world = World::new(line);
    for (k, (event, meant)) in events.iter().enumerate() {
        let given = match world.step(event).expect("a step is taken") {
            Answer::Outcome(_, outcome) => match (&outcome.sayings, outcome.silence) {
                ([Some((_, bytes)), None], _) => Meant::Says(bytes[0]),
                ([None, None], Some(why)) => Meant::Silent(why as u8),
                ([None, None], None) => Meant::Nothing,
                _ => panic!("event {k} is answered twice"),
            },
            _ => panic!("event {k} is no step"),
        };
        assert_eq!(given, *meant, "event {k}: {}", event_line(event));
    }
}
